//! The three editions of a head: where each has its heights, what each calls zero, and how many heights it may have.

use crate::common::observer::*;
use crate::common::*;
use reference::{book_length, observer_book_length};

/// A kind of book: how it is opened for so many heights, whether it is sound, its length, and which bytes of its head
/// are zero in every edition.
struct Kind {
    open: fn(Height) -> Vec<u8>,
    sound: fn(&[u8]) -> bool,
    length: fn(Height) -> usize,
    zeros: &'static [usize],
}

const KINDS: [Kind; 2] = [
    Kind {
        open: |heights| new_book(4, 2, &vec![0; heights.into()]),
        sound: is_sound,
        length: book_length,
        zeros: &[],
    },
    Kind {
        open: |heights| new_observer(4, heights),
        sound: is_sound_observer,
        length: observer_book_length,
        zeros: &[1, 3, 6],
    },
];

/// The book with one byte replaced.
fn with(book: &[u8], at: usize, byte: u8) -> Vec<u8> {
    let mut book = book.to_vec();
    book[at] = byte;
    book
}

/// The book with two bytes for a height at this place.
fn with_height(book: &[u8], at: usize, height: Height) -> Vec<u8> {
    let [low, high] = height.to_le_bytes();
    with(&with(book, at, low), at + 1, high)
}

/// A book of so many heights that are all zero but for its head, which is this one.
fn stretched(head: &[u8], length: usize) -> Vec<u8> {
    let mut book = head[..64].to_vec();
    book.resize(length, 0);
    book
}

#[test]
fn open_makes_edition_3_for_every_number_of_heights() {
    for Kind { open, sound, length, .. } in KINDS {
        for heights in (1..=64).chain([255, 256, 257, 999, 1000]) {
            let book = open(heights);
            assert_eq!((book[EDITION], book.len()), (3, length(heights)));
            assert_eq!((book[2], book[4], book[5]), (0, 0, 0));
            assert_eq!(height_in(&book[HEIGHTS..]), heights);
            assert_eq!(book[44..64], [0; 20]);
            assert!(sound(&book), "{heights}");
        }
    }
    assert_eq!([22, 63, 1000].map(book_length), [19_936, 56_016, 880_576]);
}

#[test]
fn open_refuses_other_numbers_of_heights() {
    for heights in [0, 1001, 1024, 65_536, 65_537, 1 << 32 | 1, u64::MAX] {
        let leaders = vec![0; heights.min(70_000) as usize];
        let opened = |length: usize| {
            let mut book = vec![0x5a; length];
            let station = RULES.open(&mut book, 4, 2, heights, &ones(4), &leaders);
            let observer = RULES.observer_open(&mut book, 4, heights, &ones(4));
            (station, observer, book.iter().all(|byte| *byte == 0x5a))
        };
        for length in [0, book_length(1), book_length(1000), book_length(1001)] {
            assert_eq!(opened(length), (Err(2), Err(2), true), "{heights} {length}");
        }
    }
}

/// Bytes 2, 4, 5 of a short head, and 46 to 63; where they agree with the long ones too.
#[test]
fn what_edition_3_calls_zero() {
    for Kind { open, sound, zeros, .. } in KINDS {
        let book = open(3);
        for at in SHORT.into_iter().chain(46..64).chain(zeros.iter().copied()) {
            (1..=255).for_each(|byte| assert!(!sound(&with(&book, at, byte)), "{at} {byte}"));
        }
    }
}

/// Bytes 40 to 63, also where they say what the short head says.
#[test]
fn what_editions_1_and_2_call_zero() {
    for Kind { open, sound, zeros, .. } in KINDS {
        for book in [first_edition(&open(3)), second_edition(&open(3))] {
            assert!(sound(&book));
            for at in (40..64).chain(zeros.iter().copied()) {
                (1..=255).for_each(|byte| assert!(!sound(&with(&book, at, byte)), "{at} {byte}"));
            }
        }
    }
}

#[test]
fn other_editions_are_not_sound() {
    for Kind { open, sound, .. } in KINDS {
        let third = open(3);
        let books = [first_edition(&third), second_edition(&third), third];
        for (own, book) in (1..).zip(&books) {
            for edition in 0..=255 {
                assert_eq!(sound(&with(book, EDITION, edition)), edition == own, "{edition}");
            }
        }
    }
}

/// Editions 1 and 2 have at most 63 heights, edition 3 has at most 1,000, in books of the fitting length.
#[test]
fn heights_by_edition() {
    for Kind { open, sound, length, .. } in KINDS {
        let third = open(1);
        for short in [first_edition(&third), second_edition(&third)] {
            for heights in [0, 1, 62, 63, 64, 255] {
                let book = stretched(&with(&short, SHORT[0], heights), length(heights.into()));
                assert_eq!(sound(&book), (1..=63).contains(&heights), "{heights}");
            }
            for heights in [64, 256, 1000] {
                let book = stretched(&with_height(&short, HEIGHTS, heights), length(heights));
                assert!(!sound(&book));
                assert!(!sound(&with(&book, SHORT[0], 0)));
            }
        }
        for heights in [0, 1, 63, 64, 255, 256, 257, 512, 999, 1000, 1001, 1024, 1256] {
            let book = stretched(&with_height(&third, HEIGHTS, heights), length(heights));
            assert_eq!(sound(&book), (1..=1000).contains(&heights), "{heights}");
        }
    }
}

/// The length goes by both bytes of H.
#[test]
fn the_length_is_that_of_both_bytes() {
    for Kind { open, sound, length, .. } in KINDS {
        let book = open(3);
        assert!(!sound(&with(&book, HEIGHTS + 1, 1)));
        let long = stretched(&with(&book, HEIGHTS + 1, 1), length(259));
        assert!(sound(&long));
        assert!(!sound(&with(&long, HEIGHTS + 1, 0)));
    }
}

/// The current height goes from 1 to H + 1, by both of its bytes.
#[test]
fn the_current_height_by_both_bytes() {
    for (heights, current, sound) in [
        (3, 4, true),
        (3, 5, false),
        (3, 0x0101, false),
        (3, 0x0104, false),
        (255, 256, true),
        (255, 257, false),
        (256, 257, true),
        (300, 0x0100, true),
        (300, 301, true),
        (300, 302, false),
        (300, 0, false),
        (1000, 1001, true),
        (1000, 1002, false),
        (1000, 0x0500, false),
    ] {
        let book = new_book(4, 2, &vec![0; heights]);
        assert_eq!(is_sound(&with_height(&book, CURRENT, current)), sound, "{heights} {current}");
    }
}

/// The settled height by both of its bytes: 1 is settled here, and 257 is in one of two books.
#[test]
fn the_settled_height_by_both_bytes() {
    let first = block(1, 0, ZERO, &[]);
    let frames = [block_certificate(7, &first), finalize_certificate(7, 1)];
    let mut book = new_book(4, 2, &[0; 300]);
    let mut observer = new_observer(4, 300);
    deliver_all(&mut book, &frames);
    observe_all(&mut observer, &frames);
    let settled = |book: &[u8], height| {
        let book = with_height(book, FINALIZED, height);
        if book.len() == book_length(300) {
            is_sound(&book)
        } else {
            is_sound_observer(&book)
        }
    };
    for book in [&book, &observer] {
        for (height, sound) in [(0, true), (1, true), (2, false), (256, false), (257, false)] {
            assert_eq!(settled(book, height), sound, "{height}");
        }
    }
    let dummies = (2..257).map(|height| dummy_certificate(7, height));
    let page = block_certificate(7, &block_on(257, &first, &[entry(1)]));
    let more: Vec<_> = dummies.chain([page, finalize_certificate(14, 257)]).collect();
    assert_eq!(RULES.packet(&mut book, &more.concat()).unwrap().fresh, more.len() as u64);
    observe_all(&mut observer, &more);
    for book in [&book, &observer] {
        for (height, sound) in [(0, true), (1, true), (256, false), (257, true), (513, false)] {
            assert_eq!(settled(book, height), sound, "{height}");
        }
    }
}

/// A current height in an observer's head is no observer's, at either byte of either place.
#[test]
fn an_observer_has_no_current_height() {
    let third = new_observer(4, 300);
    [42, 43].into_iter().for_each(|at| assert!(!is_sound_observer(&with(&third, at, 1))));
    let short = second_edition(&new_observer(4, 3));
    assert!(!is_sound_observer(&with(&short, 4, 1)));
}

/// 22 heights of a replica and 108 of an observer have one length: each is sound for its own calls alone.
#[test]
fn books_of_one_length() {
    let (mut station, mut observer) = (new_book(4, 2, &[0; 22]), new_observer(4, 108));
    assert_eq!((station.len(), observer.len()), (19_936, 19_936));
    assert!(is_sound(&station) && is_sound_observer(&observer));
    assert!(!is_sound_observer(&station) && !is_sound(&observer));
    assert_eq!(RULES.deliver(&mut observer, &dummy_certificate(7, 1)), Err(1));
    assert_eq!(RULES.observer_deliver(&mut station, &dummy_certificate(7, 1)), Err(1));
}
