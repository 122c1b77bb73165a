//! The editions of books against the page: each head of an older one, made out of a new one by the places of both tables.

use super::bench::{changed, Bench, HEIGHTS};
use types::{Calls, Move};

/// The headings of a station's heads and of an observer's, those of editions 1, 2 and 3.
const STATIONS: [&str; 3] = ["Head of edition 1", "Head of edition 2", "Head"];
const OBSERVERS: [&str; 3] = [
    "Head of an observer's book of edition 1",
    "Head of an observer's book of edition 2",
    "Head of an observer's book",
];

/// The fields of a station's head, and those of an observer's; weights are in all editions but the first.
const OF_STATIONS: [&str; 7] =
    ["n", "own number", "H", "flags", "current height", "settled height", "pending count"];
const OF_OBSERVERS: [&str; 3] = ["n", "H", "settled height"];

/// All that the page says of editions.
pub fn hold<C: Calls + Copy>(bench: &Bench<C>) {
    for edition in 1..=3 {
        for observers in [false, true] {
            let book = older(bench, edition, observers);
            assert!(bench.is_sound(observers, &book), "edition {edition}");
            zeros(bench, edition, observers, &book);
            others(bench, edition, observers, &book);
        }
        station_works(bench, STATIONS[edition - 1], older(bench, edition, false));
        observer_works(bench, OBSERVERS[edition - 1], older(bench, edition, true));
    }
}

/// A new book, as one of this edition: its fields are moved from the places of the new head to those of the edition's.
fn older<C: Calls + Copy>(bench: &Bench<C>, edition: usize, observers: bool) -> Vec<u8> {
    let new = bench.weighed(observers, &[1; 4]).unwrap();
    let (headings, fields) = match observers {
        true => (OBSERVERS, &OF_OBSERVERS[..]),
        false => (STATIONS, &OF_STATIONS[..]),
    };
    let (from, to) = (headings[2], headings[edition - 1]);
    let mut book = new.clone();
    book[..64].fill(0);
    let weights = ["weights"].into_iter().filter(|_| edition > 1);
    for field in fields.iter().copied().chain(weights) {
        let [from, to] = [from, to].map(|heading| bench.formats.place(heading, field));
        for (from, to) in from.zip(to) {
            book[to] = new[from];
        }
    }
    book[bench.formats.place(to, "edition").start] = edition as u8;
    book
}

/// A byte that the edition calls zero is zero.
fn zeros<C: Calls + Copy>(bench: &Bench<C>, edition: usize, observers: bool, sound: &[u8]) {
    let headings = if observers { OBSERVERS } else { STATIONS };
    for at in bench.formats.zeros(headings[edition - 1]) {
        let mut book = sound.to_vec();
        book[at] = 1;
        assert!(!bench.is_sound(observers, &book), "edition {edition}, byte {at}");
    }
}

/// The same bytes are of no other edition.
fn others<C: Calls + Copy>(bench: &Bench<C>, edition: usize, observers: bool, sound: &[u8]) {
    let at = bench.formats.place("Head", "edition").start;
    for other in (0..=255).filter(|other| usize::from(*other) != edition) {
        let mut book = sound.to_vec();
        book[at] = other;
        assert!(!bench.is_sound(observers, &book), "edition {edition} as {other}");
    }
}

/// Each number of a station's head is where the table of its edition has it, and no call changes the edition.
fn station_works<C: Calls + Copy>(bench: &Bench<C>, heading: &str, mut book: Vec<u8>) {
    let place = |field: &str| bench.formats.place(heading, field);
    let mut reply = [0; 448];
    let mut step = |call: &mut dyn FnMut(&mut [u8], &mut [u8]), fields: &[&str]| {
        let before = book.clone();
        call(&mut book, &mut reply);
        let places: Vec<_> = fields.iter().map(|field| place(field)).collect();
        changed(&before[..64], &book[..64], &places);
    };
    let page = bench.page(1, None, &[[1; 16]]);
    let frames = [
        bench.frame(5, 1, &[("mask", &[0b0111, 0]), ("page", &page)]),
        bench.frame(7, 1, &[("mask", &[0b0111, 0])]),
    ];
    for frame in &frames {
        step(&mut |book, _| bench.fresh(book, frame), &[]);
    }
    step(&mut |book, _| bench.calls.submit(book, &[3; 16]).unwrap(), &["pending count"]);
    step(&mut |book, _| bench.calls.signal(book, 1).unwrap(), &["flags"]);
    let mut moved = |expected: &str, fields: &[&str]| {
        step(
            &mut |book, reply| {
                let made = bench.calls.make_move(book, reply).unwrap();
                assert_eq!(made.to_string(), expected);
            },
            fields,
        );
    };
    moved("dummy 1", &["flags"]);
    moved("final 1", &["settled height"]);
    moved("pass 1 5 0", &["flags", "current height"]);
    assert_eq!([book[place("current height").start], book[place("settled height").start]], [2, 1]);
    assert_eq!(book[place("H").start], HEIGHTS as u8);
}

/// The settled height of an observer's head is where the table of its edition has it.
fn observer_works<C: Calls + Copy>(bench: &Bench<C>, heading: &str, mut book: Vec<u8>) {
    let page = bench.page(1, None, &[[1; 16]]);
    for frame in [
        bench.frame(5, 1, &[("mask", &[0b0111, 0]), ("page", &page)]),
        bench.frame(7, 1, &[("mask", &[0b0111, 0])]),
    ] {
        bench.calls.observer_deliver(&mut book, &frame).unwrap();
    }
    let before = book.clone();
    assert_eq!(bench.calls.observer_move(&mut book), Ok(Move::Final { height: 1 }));
    changed(&before, &book, &[bench.formats.place(heading, "settled height")]);
    assert_eq!(book[bench.formats.place(heading, "settled height").start], 1);
    assert_eq!(book[bench.formats.place(heading, "H").start], HEIGHTS as u8);
}
