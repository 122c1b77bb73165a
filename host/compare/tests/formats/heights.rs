//! Heights of two bytes against the page: in frames, in pages and in the heads of new books, of both kinds.

use super::bench::{Bench, N, OWN};
use exchange::equal_weights;
use types::{Calls, Counts, Move};

/// The heights of a long book, and one of them whose two bytes differ.
const LONG: u16 = 600;
const HIGH: u16 = 513;

/// The headings of the two heads.
const STATION: &str = "Head";
const OBSERVER: &str = "Head of an observer's book";

/// All that the page says of heights above 255.
pub fn hold<C: Calls + Copy>(bench: &Bench<C>) {
    station(bench);
    observer(bench);
}

/// Blank certificates of the heights up to one of two bytes, and a page of that height with its finalises.
fn frames<C: Calls + Copy>(bench: &Bench<C>) -> Vec<u8> {
    let mask: (&str, &[u8]) = ("mask", &[0b0111, 0]);
    let page = bench.page(HIGH, None, &[[1; 16]]);
    let blank = (1..HIGH).flat_map(|height| bench.frame(6, height, &[mask]));
    let last = [bench.frame(5, HIGH, &[mask, ("page", &page)]), bench.frame(7, HIGH, &[mask])];
    blank.chain(last.concat()).collect()
}

/// A station settles that height and passes all up to it.
fn station<C: Calls + Copy>(bench: &Bench<C>) {
    let mut book = bench.opened(N, OWN, &[0; LONG as usize]);
    assert_eq!(bench.number(&book, STATION, "H"), LONG);
    let fresh = Counts { fresh: u64::from(HIGH) + 1, ..Counts::default() };
    assert_eq!(bench.calls.packet(&mut book, &frames(bench)), Ok(fresh));
    let mut reply = [0; 448];
    assert_eq!(bench.calls.make_move(&mut book, &mut reply), Ok(Move::Final { height: HIGH }));
    assert_eq!(bench.number(&book, STATION, "settled height"), HIGH);
    for height in 1..=HIGH {
        let made = bench.calls.make_move(&mut book, &mut reply).unwrap();
        assert_eq!(made.height(), height);
        assert_eq!(bench.number(&book, STATION, "current height"), height + 1);
        assert_eq!(reply[bench.formats.place("Frame", "height")], height.to_le_bytes());
    }
    let page = &reply[bench.formats.place("Frame", "page")];
    assert_eq!(page[bench.formats.place("Page", "height")], HIGH.to_le_bytes());
}

/// So does an observer.
fn observer<C: Calls + Copy>(bench: &Bench<C>) {
    let mut book = vec![0xa5; 64 + 184 * usize::from(LONG)];
    bench.calls.observer_open(&mut book, N, LONG.into(), &equal_weights(N)).unwrap();
    assert_eq!(bench.number(&book, OBSERVER, "H"), LONG);
    for frame in frames(bench).chunks(224) {
        bench.calls.observer_deliver(&mut book, frame).unwrap();
    }
    assert_eq!(bench.calls.observer_move(&mut book), Ok(Move::Final { height: HIGH }));
    assert_eq!(bench.number(&book, OBSERVER, "settled height"), HIGH);
}
