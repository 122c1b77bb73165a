//! docs/FORMATS.md against the replicas: what a call writes is found at the places of the page, and no byte elsewhere
//! changes.

mod formats {
    pub mod bench;
    pub mod editions;
    pub mod heights;
    pub mod observer;
    pub mod page;
    pub mod weights;
}

use formats::bench::{changed, shifted, Bench, HEIGHTS, N, OWN, ROLL};
use formats::page::Formats;
use formats::{editions, heights, observer, weights};
use reference::{sha256, Rules};
use types::{Calls, Move};

fn holds<C: Calls + Copy>(calls: C) {
    let formats = Formats::read();
    formats.sizes();
    let bench = Bench { calls, formats: &formats };
    opening(&bench);
    signal_and_submit(&bench);
    each_kind(&bench);
    second_page(&bench);
    votes(&bench);
    settling(&bench);
    zeros_of_pages_and_frames(&bench);
    unused_fields(&bench);
    zeros_of_books(&bench);
    observer::holds(&bench);
    weights::hold(&bench);
    editions::hold(&bench);
    heights::hold(&bench);
    formats.all_asked();
}

#[test]
fn the_reference_has_the_formats_of_the_page() {
    holds(Rules::SHA256);
}

#[cfg(feature = "proved")]
#[test]
fn the_proved_replica_has_the_formats_of_the_page() {
    holds(mavunilai::Proved);
}

/// Opening writes each number to its place in the head, a weight of 1 for each station, and each leader to its row; all
/// else is zero.
fn opening<C: Calls + Copy>(bench: &Bench<C>) {
    let mut expected = vec![0; 576 + 880 * HEIGHTS];
    let head = [("n", N as u8), ("own number", OWN as u8), ("H", HEIGHTS as u8)];
    for (field, value) in head.into_iter().chain([("current height", 1), ("edition", 3)]) {
        expected[bench.head(field).start] = value;
    }
    let weights = bench.head("weights").start;
    expected[weights..weights + 8].copy_from_slice(&[1, 0, 1, 0, 1, 0, 1, 0]);
    for (height, leader) in (1..).zip(ROLL) {
        expected[bench.row(height, "leader").start] = leader;
    }
    assert_eq!(bench.new_book(), expected);
}

/// A signal and its blank vote write the flags; a submission the count and the first free place.
fn signal_and_submit<C: Calls + Copy>(bench: &Bench<C>) {
    let mut book = bench.new_book();
    let before = book.clone();
    bench.calls.signal(&mut book, 1).unwrap();
    changed(&before, &book, &[bench.head("flags")]);
    assert_eq!(book[bench.head("flags").start], 1);
    let mut reply = [0; 448];
    bench.calls.make_move(&mut book, &mut reply).unwrap();
    assert_eq!(book[bench.head("flags").start], 1 + 2);
    assert_eq!(reply[..224], bench.frame(3, 1, &[("signer", &[OWN as u8])]));
    for place in 0..32 {
        let before = book.clone();
        let mut entry = [place as u8 + 1; 16];
        entry[0] %= 4;
        bench.calls.submit(&mut book, &entry).unwrap();
        let entry_place = 64 + 16 * place..80 + 16 * place;
        changed(&before, &book, &[bench.head("pending count"), entry_place.clone()]);
        assert_eq!(book[entry_place], entry);
    }
}

/// A frame of each kind writes just what the page says that it concerns.
fn each_kind<C: Calls + Copy>(bench: &Bench<C>) {
    let concerned: [&[_]; 7] = [
        &[bench.row(1, "state"), bench.body(1, "held proposal")],
        &[bench.row(1, "page voters"), shifted(0..32, bench.body(1, "vote digests").start + 32)],
        &[bench.row(1, "blank")],
        &[bench.row(1, "finalise")],
        &[bench.row(1, "state"), bench.row(1, "page certificate"), bench.body(1, "notarised page")],
        &[bench.row(1, "blank")],
        &[bench.row(1, "finalise")],
    ];
    for (frame, places) in bench.one_of_each_kind().iter().zip(concerned) {
        let before = bench.new_book();
        let mut book = before.clone();
        bench.fresh(&mut book, frame);
        changed(&before, &book, places);
    }
}

/// A second page of the current height's leader writes flag 1, as a signal does, and nothing else.
fn second_page<C: Calls + Copy>(bench: &Bench<C>) {
    let mut book = bench.new_book();
    let pages = [1, 2].map(|byte| bench.page(1, None, &[[byte; 16]]));
    let [first, second] =
        pages.map(|page| bench.frame(1, 1, &[("signer", &[ROLL[0]]), ("page", &page)]));
    bench.fresh(&mut book, &first);
    let before = book.clone();
    bench.fresh(&mut book, &second);
    changed(&before, &book, &[bench.head("flags")]);
    assert_eq!(book[bench.head("flags").start], 1);
}

/// Votes of a quorum notarise the held page, of the last height too; masks and digests stand where the page says.
fn votes<C: Calls + Copy>(bench: &Bench<C>) {
    let page = bench.page(3, None, &[[1; 16]]);
    let digest = sha256::digest(&page);
    let mut book = bench.new_book();
    bench.fresh(&mut book, &bench.frame(1, 3, &[("signer", &[ROLL[2]]), ("page", &page)]));
    for signer in [0, 1, 3] {
        bench.fresh(&mut book, &bench.frame(2, 3, &[("signer", &[signer]), ("digest", &digest)]));
        let place = bench.body(3, "vote digests").start + 32 * usize::from(signer);
        assert_eq!(book[place..place + 32], digest);
    }
    assert_eq!(book[bench.row(3, "state").start], 3);
    assert_eq!(book[bench.row(3, "page voters")], [0b1011, 0]);
    assert_eq!(book[bench.row(3, "page certificate")], [0b1011, 0]);
    assert_eq!(book[bench.body(3, "held proposal")], page);
    assert_eq!(book[bench.body(3, "notarised page")], page);
}

/// A page on a page settles: the settled and the current height stand where the page says, the register is the pages'
/// entries, each once.
fn settling<C: Calls + Copy>(bench: &Bench<C>) {
    let first = bench.page(1, None, &[[1; 16], [2; 16]]);
    let more = [3, 4, 5, 6, 2, 7, 3, 8].map(|byte| [byte; 16]);
    let second = bench.page(2, Some(&first), &more);
    let mut book = bench.new_book();
    for (height, page) in [(1, &first), (2, &second)] {
        bench.fresh(&mut book, &bench.frame(5, height, &[("mask", &[0b0111, 0]), ("page", page)]));
    }
    bench.fresh(&mut book, &bench.frame(7, 2, &[("mask", &[0b0111, 0])]));
    let mut reply = [0; 448];
    let before = book.clone();
    let settles = bench.calls.make_move(&mut book, &mut reply);
    assert_eq!(settles, Ok(Move::Final { height: 2 }));
    changed(&before, &book, &[bench.head("settled height")]);
    assert_eq!(book[bench.head("settled height").start], 2);
    bench.calls.make_move(&mut book, &mut reply).unwrap();
    assert_eq!(book[bench.head("current height").start], 2);
    let mut register = [0; 16 * 8];
    assert_eq!(bench.calls.read(&book, &mut register), 16 * 8);
    assert_eq!(register[..], [1, 2, 3, 4, 5, 6, 7, 8].map(|byte| [byte; 16]).concat());
}

/// A byte that is not zero where the page says zero makes a frame refused with 4, in its own fields and in its page's.
fn zeros_of_pages_and_frames<C: Calls + Copy>(bench: &Bench<C>) {
    let in_pages = bench.formats.zeros("Page").into_iter().map(|at| at + 48);
    for (kind, frame) in (1..).zip(bench.one_of_each_kind()) {
        let of_pages = in_pages.clone().filter(|_| kind == 1 || kind == 5);
        for at in bench.formats.zeros("Frame").into_iter().chain(of_pages) {
            let mut damaged = frame.clone();
            damaged[at] = 1;
            assert_eq!(
                bench.calls.deliver(&mut bench.new_book(), &damaged),
                Err(4),
                "kind {kind}, byte {at}"
            );
        }
    }
}

/// A field that a kind does not use must be zero; one that it uses need not be.
fn unused_fields<C: Calls + Copy>(bench: &Bench<C>) {
    for (frame, used) in bench.one_of_each_kind().iter().zip(&bench.formats.kinds) {
        for field in ["signer", "mask", "digest", "page"] {
            let mut damaged = frame.clone();
            damaged[bench.formats.place("Frame", field).end - 1] ^= 1;
            let refused = bench.calls.deliver(&mut bench.new_book(), &damaged) == Err(4);
            assert_eq!(
                refused,
                !used.iter().any(|name| name == field),
                "{field} of kind {}",
                frame[0]
            );
        }
    }
}

/// A byte that is not zero where the page says zero makes a book unsound.
fn zeros_of_books<C: Calls + Copy>(bench: &Bench<C>) {
    let rows = (1..=HEIGHTS).flat_map(|height| {
        bench
            .formats
            .zeros("Row of a height")
            .into_iter()
            .map(move |at| 576 + 16 * (height - 1) + at)
    });
    for at in bench.formats.zeros("Head").into_iter().chain(rows) {
        let mut book = bench.new_book();
        assert_eq!(bench.calls.size(&book), Ok(0));
        book[at] = 1;
        assert_eq!(bench.calls.size(&book), Err(1), "byte {at}");
    }
}
