//! An observer's book against the page: what each certificate writes, the settled height, and the zeros.

use super::bench::{changed, shifted, Bench, HEIGHTS, N};
use exchange::equal_weights;
use std::ops::Range;
use types::{Calls, Delivered, Move};

/// Where the rows and where the pages of an observer's book begin.
const ROWS: usize = 64;
const PAGES: usize = 64 + 8 * HEIGHTS;

impl<C: Calls + Copy> Bench<'_, C> {
    /// A new observer's book, opened over old bytes that are not zero.
    fn observer(&self) -> Vec<u8> {
        let mut book = vec![0xa5; 64 + 184 * HEIGHTS];
        self.calls.observer_open(&mut book, N, HEIGHTS as u64, &equal_weights(N)).unwrap();
        book
    }

    /// A field of an observer's head.
    fn observer_head(&self, field: &str) -> Range<usize> {
        self.formats.place("Head of an observer's book", field)
    }

    /// A field of a height's row, as the page places rows.
    fn observer_row(&self, height: usize, field: &str) -> Range<usize> {
        let place = self.formats.place("Row of a height in an observer's book", field);
        shifted(place, ROWS + 8 * (height - 1))
    }
}

/// The page of a height, as the page of formats places it.
fn page_of(height: usize) -> Range<usize> {
    let start = PAGES + 176 * (height - 1);
    start..start + 176
}

/// All that the page says of an observer's book.
pub fn holds<C: Calls + Copy>(bench: &Bench<C>) {
    opening(bench);
    certificates(bench);
    settling(bench);
    zeros(bench);
}

/// Opening writes n, H, the edition and a weight of 1 for each station; all else is zero.
fn opening<C: Calls + Copy>(bench: &Bench<C>) {
    let mut expected = vec![0; PAGES + 176 * HEIGHTS];
    for (field, value) in [("n", N as u8), ("H", HEIGHTS as u8), ("edition", 3)] {
        expected[bench.observer_head(field).start] = value;
    }
    let weights = bench.observer_head("weights").start;
    expected[weights..weights + 8].copy_from_slice(&[1, 0, 1, 0, 1, 0, 1, 0]);
    assert_eq!(bench.observer(), expected);
}

/// A certificate of each kind writes just what the page says that it concerns, of the last height too.
fn certificates<C: Calls + Copy>(bench: &Bench<C>) {
    let mask: [u8; 2] = [0b1101, 0];
    for height in [1, HEIGHTS] {
        let page = bench.page(height as u16, None, &[[3; 16]; 8]);
        let kinds: [(u8, &[_], &[_]); 3] = [
            (5, &[("mask", &mask[..]), ("page", &page)], &["state", "page certificate"]),
            (6, &[("mask", &mask[..])], &["blank"]),
            (7, &[("mask", &mask[..])], &["finalise"]),
        ];
        for (kind, fields, concerned) in kinds {
            let before = bench.observer();
            let mut book = before.clone();
            let frame = bench.frame(kind, height as u16, fields);
            assert_eq!(bench.calls.observer_deliver(&mut book, &frame), Ok(Delivered::Fresh));
            let rows = concerned.iter().map(|field| bench.observer_row(height, field));
            let places: Vec<_> = rows.chain((kind == 5).then(|| page_of(height))).collect();
            changed(&before, &book, &places);
            assert_eq!(book[places[usize::from(kind == 5)].clone()], mask, "kind {kind}");
            if kind == 5 {
                assert_eq!(book[bench.observer_row(height, "state").start], 2);
                assert_eq!(book[page_of(height)], page);
            }
        }
    }
}

/// Settling writes the settled height alone.
fn settling<C: Calls + Copy>(bench: &Bench<C>) {
    let page = bench.page(1, None, &[[1; 16]]);
    let mut book = bench.observer();
    for frame in [
        bench.frame(5, 1, &[("mask", &[0b0111, 0]), ("page", &page)]),
        bench.frame(7, 1, &[("mask", &[0b0111, 0])]),
    ] {
        assert_eq!(bench.calls.observer_deliver(&mut book, &frame), Ok(Delivered::Fresh));
    }
    let before = book.clone();
    assert_eq!(bench.calls.observer_move(&mut book), Ok(Move::Final { height: 1 }));
    changed(&before, &book, &[bench.observer_head("settled height")]);
    assert_eq!(book[bench.observer_head("settled height").start], 1);
}

/// A byte that is not zero where the page says zero makes an observer's book unsound.
fn zeros<C: Calls + Copy>(bench: &Bench<C>) {
    let rows = (0..HEIGHTS).flat_map(|before| {
        let zeros = bench.formats.zeros("Row of a height in an observer's book").into_iter();
        zeros.map(move |at| ROWS + 8 * before + at)
    });
    let zeros = bench.formats.zeros("Head of an observer's book");
    assert_eq!(zeros.len(), 26);
    for at in zeros.into_iter().chain(rows) {
        let mut book = bench.observer();
        assert_eq!(bench.calls.observer_size(&book), Ok(0));
        book[at] = 1;
        assert_eq!(bench.calls.observer_size(&book), Err(1), "byte {at}");
    }
}
