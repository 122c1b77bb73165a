//! The lists of the folder on heights of two bytes: each byte that belongs to them decides somewhere by itself.

use crate::played::{list, played, Played};
use exchange::{Answer, Call, ObserverCall};
use std::collections::BTreeSet;
use std::sync::OnceLock;
use types::Delivered::Fresh;
use types::{field, head_height, height_at, is_observers, BLOCK_PARENT, FRAME_HEIGHT};

/// The calls of both lists, played once.
fn all() -> &'static [Played] {
    static ALL: OnceLock<Vec<Played>> = OnceLock::new();
    let lists = || ["heights", "long"].into_iter().flat_map(|name| played(&list(name)));
    ALL.get_or_init(|| lists().collect())
}

/// Where a frame has the height and the back height of its page.
const PAGE_HEIGHT: usize = 48;
const PAGE_PARENT: usize = PAGE_HEIGHT + BLOCK_PARENT;

/// The frame of a delivery, and whether it is a station's.
fn delivered(made: &Played) -> Option<(bool, &[u8])> {
    match &made.call {
        Call::Deliver { frame } => Some((true, frame)),
        Call::Observer(ObserverCall::Deliver { frame }) => Some((false, frame)),
        _ => None,
    }
}

/// The books that size was asked of, by whose they are and the answer.
fn sizes(calls: &[Played], observers: bool, answer: Answer) -> Vec<&[u8]> {
    let size = if observers { Call::Observer(ObserverCall::Size) } else { Call::Size };
    let is = |made: &&Played| made.call == size && made.answer == answer;
    calls.iter().filter(is).map(|made| made.book.as_slice()).collect()
}

#[test]
fn each_byte_of_edition_3_is_broken_alone() {
    let calls = all();
    for observers in [false, true] {
        let sound = sizes(calls, observers, Answer::Size(0));
        let damaged = sizes(calls, observers, Answer::Deny(1));
        let broken = |at: usize| {
            damaged.iter().filter(|book| book[field::EDITION] == 3).any(|book| {
                let mut mended = book.to_vec();
                mended[at] = 0;
                mended != *book && sound.contains(&&mended[..])
            })
        };
        let zeros: &[usize] = if observers { &[1, 3, 6, 42, 43] } else { &[] };
        let high = [field::HEIGHTS, field::CURRENT, field::FINALIZED].map(|of| of.long + 1);
        let wanted = [2, 4, 5].into_iter().chain(46..64).chain(high).chain(zeros.iter().copied());
        let missing: Vec<usize> = wanted.filter(|at| !broken(*at)).collect();
        assert_eq!(missing, [0_usize; 0], "observers {observers}");
    }
}

#[test]
fn numbers_of_heights_occur_in_each_edition() {
    let calls = all();
    for observers in [false, true] {
        let of = |answer| -> BTreeSet<(u8, u16)> {
            let read = |book: &&[u8]| (book[field::EDITION], head_height(book, field::HEIGHTS));
            sizes(calls, observers, answer).iter().map(read).collect()
        };
        let (sound, not) = (of(Answer::Size(0)), of(Answer::Deny(1)));
        for edition in [1, 2] {
            assert!([1, 63].iter().all(|heights| sound.contains(&(edition, *heights))));
            assert!([0, 64, 255].iter().all(|heights| not.contains(&(edition, *heights))));
        }
        let third = [1, 63, 64, 255, 256, 257, 1000];
        assert!(third.iter().all(|heights| sound.contains(&(3, *heights))), "{sound:?}");
        assert!([0, 1001, 1024].iter().all(|heights| not.contains(&(3, *heights))), "{not:?}");
        let opened = |made: &Played| match made.call {
            Call::Open { heights, .. } if !observers => Some((heights, made.answer)),
            Call::Observer(ObserverCall::Open { heights, .. }) if observers => {
                Some((heights, made.answer))
            }
            _ => None,
        };
        let opened: Vec<_> = calls.iter().filter_map(opened).collect();
        let done = [64, 255, 256, 257, 1000];
        assert!(done.iter().all(|heights| opened.contains(&(*heights, Answer::Done))));
        let refused = [0, 1001, 65_537, 1 << 32 | 1];
        assert!(refused.iter().all(|heights| opened.contains(&(*heights, Answer::Deny(2)))));
    }
}

#[test]
fn frames_of_every_kind_occur_at_each_edge() {
    let seen: BTreeSet<(u8, u16, String)> = all()
        .iter()
        .filter_map(|made| {
            let (_, frame) = delivered(made).filter(|(station, _)| *station)?;
            Some((frame[0], height_at(frame, FRAME_HEIGHT), made.answer.to_string()))
        })
        .collect();
    for kind in 1..=7 {
        for height in [64, 255, 256, 1000] {
            assert!(seen.contains(&(kind, height, "fresh".to_string())), "{kind} {height}");
        }
        for height in [257, 1001] {
            assert!(seen.contains(&(kind, height, "deny 6".to_string())), "{kind} {height}");
        }
    }
}

/// A height above 255 over a short book of each edition is 6, of stations and of observers.
#[test]
fn high_bytes_over_short_books_occur_in_each_edition() {
    let seen: BTreeSet<(u8, bool, String)> = all()
        .iter()
        .filter_map(|made| {
            let (_, frame) = delivered(made)?;
            let short = head_height(&made.book, field::HEIGHTS) == 63;
            let wanted = short && height_at(frame, FRAME_HEIGHT) == 257;
            let observers = is_observers(&made.book);
            wanted.then(|| (made.book[field::EDITION], observers, made.answer.to_string()))
        })
        .collect();
    let every = [1, 2, 3].into_iter().flat_map(|edition| [(edition, false), (edition, true)]);
    let expected = every.map(|(edition, observers)| (edition, observers, "deny 6".to_string()));
    assert_eq!(seen, expected.collect());
}

/// Frame and page differ in one byte of their height alone: 4; back heights by both of their bytes.
#[test]
fn pages_are_told_by_both_bytes_of_their_heights() {
    let calls = all();
    let seen = |kind: u8, answer: Answer, wanted: &dyn Fn(u16, u16, u16) -> bool| {
        let is = |made: &Played| match delivered(made) {
            Some((_, frame)) if frame[0] == kind && made.answer == answer => {
                let places = [FRAME_HEIGHT, PAGE_HEIGHT, PAGE_PARENT];
                let [height, page, parent] = places.map(|at| height_at(frame, at));
                wanted(height, page, parent)
            }
            _ => false,
        };
        assert!(calls.iter().any(is), "kind {kind}, {answer}");
    };
    let fresh = Answer::Delivered(Fresh);
    for kind in [1, 5] {
        let low = |height: u16, page: u16, _: u16| height != page && height & 255 == page & 255;
        seen(kind, Answer::Deny(4), &|h, p, j| low(h, p, j) && h < p);
        seen(kind, Answer::Deny(4), &|h, p, j| low(h, p, j) && h > p);
        seen(kind, Answer::Deny(4), &|h, p, _| h != p && h >> 8 == p >> 8);
        seen(kind, fresh, &|h, p, _| h == p && h > 255);
    }
    seen(5, Answer::Deny(4), &|h, p, j| h == p && h < 256 && j == 256);
    seen(5, Answer::Deny(4), &|h, p, j| h == p && h == j && j > 255);
    seen(5, fresh, &|h, p, j| h == p && j == 256);
    seen(5, fresh, &|h, p, j| h == p && h & 255 < j & 255);
}

/// Numbers of which the low byte, or the low two, are a height of the book.
#[test]
fn arguments_that_a_cut_would_take_occur() {
    let calls = all();
    for heights in [1, 300] {
        for number in [257, 65_537, 65_793, 1 << 32 | 1, 1 << 48 | 257] {
            let above = number > u64::from(heights);
            let asked = |call: &Call| match call {
                Call::Signal { height } => *height == number,
                Call::Fetch { kind: 6, height } => *height == number,
                _ => false,
            };
            let of: BTreeSet<String> = calls
                .iter()
                .filter(|made| head_height(&made.book, field::HEIGHTS) == heights)
                .filter(|made| asked(&made.call))
                .map(|made| made.answer.to_string())
                .collect();
            let expected = if above { ["deny 6"].as_slice() } else { &["deny 11", "deny 14"] };
            assert!(expected.iter().all(|answer| of.contains(*answer)), "{number}: {of:?}");
            assert_eq!(of.contains("deny 6"), above, "{heights} {number}");
        }
    }
}

#[test]
fn moves_of_every_kind_occur_above_255() {
    let seen: BTreeSet<(u8, u16)> = all()
        .iter()
        .filter_map(|made| match made.answer {
            Answer::Moved(made) => Some((made.number(), made.height())),
            _ => None,
        })
        .collect();
    for number in 1..=5 {
        assert!(seen.iter().any(|(of, height)| *of == number && *height > 255), "move {number}");
    }
    assert!(seen.contains(&(2, 256)) && seen.contains(&(2, 1000)) && seen.contains(&(3, 1000)));
}
