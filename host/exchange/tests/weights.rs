//! The lists of the folder on weights and editions: each edge of each rule occurs, for stations and for observers.

use crate::played::{list, played, Played};
use exchange::{scenarios, Answer, Call, ObserverCall};
use reference::is_quorum;
use std::collections::BTreeSet;
use types::Delivered::Fresh;
use types::{field, is_observers, mask_at, Frame, Weights, FRAME_HEIGHT};

/// The calls of all lists.
fn all() -> Vec<Played> {
    scenarios::NAMES.into_iter().flat_map(|name| played(&list(name))).collect()
}

/// Whether a call is an opening, and whose.
fn opening(call: &Call) -> Option<(bool, u64, &[u8])> {
    match call {
        Call::Open { n, weights, .. } => Some((true, *n, weights)),
        Call::Observer(ObserverCall::Open { n, weights, .. }) => Some((false, *n, weights)),
        _ => None,
    }
}

/// The frame of a delivery to a station or to an observer.
fn delivered(call: &Call) -> Option<(bool, &[u8])> {
    match call {
        Call::Deliver { frame } => Some((true, frame)),
        Call::Observer(ObserverCall::Deliver { frame }) => Some((false, frame)),
        _ => None,
    }
}

#[test]
fn no_call_but_open_changes_edition_or_weights() {
    let mut editions = [1, 2].map(|edition| (edition, BTreeSet::new()));
    for made in all() {
        let kept = (field::EDITION..field::CURRENT.long).chain(field::UNUSED..64);
        let head = |book: &[u8]| kept.clone().map(|at| book.get(at).copied()).collect::<Vec<_>>();
        if opening(&made.call).is_none() || made.answer != Answer::Done {
            assert_eq!(head(&made.book), head(&made.left), "{:?}", made.call);
        } else {
            assert_eq!(made.left[field::EDITION], 3);
        }
        let name = made.call.words("", "").split(' ').next().unwrap().to_string();
        let refused = matches!(made.answer, Answer::Deny(_) | Answer::Part(0));
        for (edition, seen) in &mut editions {
            if !refused && made.book.get(field::EDITION) == Some(edition) {
                seen.insert(name.clone());
            }
        }
    }
    for (edition, seen) in editions {
        assert_eq!(seen.len(), 14, "every call, taken on a book of edition {edition}: {seen:?}");
    }
}

#[test]
fn each_byte_of_the_head_is_broken_alone_in_editions_1_and_2() {
    let calls = played(&list("editions"));
    for (observers, edition) in [(false, 1), (false, 2), (true, 1), (true, 2)] {
        let of = |made: &&Played| {
            is_observers(&made.book) == observers && made.book[field::EDITION] == edition
        };
        let sizes = |answer: Answer| {
            let size = [Call::Size, Call::Observer(ObserverCall::Size)];
            let is = move |made: &&Played| size.contains(&made.call) && made.answer == answer;
            calls.iter().filter(of).filter(is).map(|made| made.book.clone()).collect::<Vec<_>>()
        };
        let (sound, damaged) = (sizes(Answer::Size(0)), sizes(Answer::Deny(1)));
        let broken = |at: usize| {
            damaged.iter().any(|book| {
                let mut mended = book.clone();
                let kept = [0, 1].map(|byte| {
                    mended[at] = byte;
                    sound.contains(&mended)
                });
                kept.contains(&true)
            })
        };
        let first = if edition == 1 { 8 } else { 16 };
        let missing: Vec<usize> = (first..64).filter(|at| !broken(*at)).collect();
        assert_eq!(missing, [0_usize; 0], "observers {observers}, edition {edition}");
        let weights = |book: &Vec<u8>| Weights::of(book).each().to_vec();
        if edition == 2 {
            for (at, weight) in (0..4).flat_map(|at| [(at, 0), (at, 1001)]) {
                assert!(damaged.iter().any(|book| weights(book).get(at) == Some(&weight)));
            }
            assert!((0..4).all(|at| sound.iter().any(|book| weights(book)[at] == 1000)));
        }
    }
}

/// Which openings are wanted, by n, weights and the book before.
type Wanted<'a> = dyn Fn(u64, &[u8], &[u8]) -> bool + 'a;

#[test]
fn openings_are_refused_for_each_edge_of_the_weights() {
    let calls = played(&list("weights"));
    for station in [true, false] {
        let of = |wanted: &Wanted, answer: Answer| {
            let is = |made: &&Played| match opening(&made.call) {
                Some((whose, n, weights)) => {
                    whose == station && made.answer == answer && wanted(n, weights, &made.book)
                }
                None => false,
            };
            assert!(calls.iter().any(|made| is(&made)), "station {station}");
        };
        let weight = |weights: &[u8], at: usize| mask_at(weights, 2 * at);
        for at in [0, 3] {
            for wrong in [0, 1001] {
                of(&|n, w, _| n == 4 && w.len() == 8 && weight(w, at) == wrong, Answer::Deny(2));
            }
            for right in [1, 1000] {
                of(&|n, w, _| n == 4 && w.len() == 8 && weight(w, at) == right, Answer::Done);
            }
        }
        for length in [0, 6, 7, 9, 10, 32] {
            of(&|n, w, _| n == 4 && w.len() == length, Answer::Deny(2));
        }
        of(&|n, w, _| n == 17 && w.len() == 34, Answer::Deny(2));
        of(&|n, w, _| n == 16 && w.len() == 32, Answer::Done);
        let odd = |book: &[u8]| book.len() % 2 == 1;
        of(&|n, w, book| n == 4 && w.len() == 6 && odd(book), Answer::Deny(2));
        of(&|n, w, book| n == 4 && w.len() == 8 && odd(book), Answer::Deny(1));
    }
}

/// The weight of a mask over a book, beside its total: below two thirds, exactly two thirds or above.
fn weighed(book: &[u8], mask: u16) -> std::cmp::Ordering {
    let weights = Weights::of(book);
    (3 * weights.weight_of(mask)).cmp(&(2 * weights.total()))
}

#[test]
fn certificates_of_each_kind_meet_the_edge() {
    use std::cmp::Ordering::{Equal, Less};
    let calls = all();
    for (station, kind) in [true, false].into_iter().flat_map(|who| [5, 6, 7].map(|k| (who, k))) {
        let seen = |wanted: &dyn Fn(&[u8], u16) -> bool, answer: Answer| {
            let is = |made: &Played| match delivered(&made.call) {
                Some((whose, frame)) if whose == station && frame.first() == Some(&kind) => {
                    made.answer == answer && wanted(&made.book, mask_at(frame, 4))
                }
                _ => false,
            };
            assert!(calls.iter().any(is), "station {station}, kind {kind}");
        };
        let fresh = Answer::Delivered(Fresh);
        seen(&|book, mask| weighed(book, mask) == Equal, fresh);
        let just = |book: &[u8], mask| {
            let weights = Weights::of(book);
            weighed(book, mask) == Less && weights.weight_of(mask) + 1 == weights.needed()
        };
        seen(&just, Answer::Deny(9));
        let by_number = |book: &[u8], mask| is_quorum(mask, Weights::equal(book[field::N]).each());
        seen(&|book, mask| by_number(book, mask), Answer::Deny(9));
        seen(&|book, mask| !by_number(book, mask), fresh);
        seen(&|_, mask: u16| mask.count_ones() == 1, fresh);
        seen(&|book, _| book[field::EDITION] == 1, fresh);
        seen(&|book, _| book[field::EDITION] == 1, Answer::Deny(9));
    }
}

/// A page is notarised by votes of exactly two thirds, and is not by votes that are a quorum in number alone; a height
/// passes on blank votes, and settles by finalises, of exactly two thirds.
#[test]
fn votes_blanks_and_finalises_meet_the_edge() {
    use std::cmp::Ordering::{Equal, Less};
    let row = |book: &[u8], at: usize| mask_at(book, 576 + at);
    let calls = played(&list("weights"));
    let voted = |wanted: &dyn Fn(&Played) -> bool| calls.iter().any(wanted);
    let is_vote = |made: &Played| delivered(&made.call).is_some_and(|(_, frame)| frame[0] == 2);
    assert!(voted(&|made| {
        is_vote(made) && made.left[577] == 3 && weighed(&made.left, row(&made.left, 2)) == Equal
    }));
    assert!(voted(&|made| {
        let (left, mask) = (&made.left, row(&made.left, 8));
        let equal = Weights::equal(left[field::N]);
        is_vote(made)
            && left[577] == 1
            && is_quorum(mask, equal.each())
            && weighed(left, mask) == Less
    }));
    let moved = |number: u8, at: usize| {
        voted(&|made| {
            let is = matches!(made.answer, Answer::Moved(made) if made.number() == number);
            is && weighed(&made.book, row(&made.book, at)) == Equal
        })
    };
    assert!(moved(3, 4) && moved(2, 6));
    let idle = voted(&|made| {
        let equal = Weights::equal(made.book[field::N]);
        made.answer == Answer::Moved(types::Move::Idle)
            && is_quorum(row(&made.book, 4), equal.each())
            && weighed(&made.book, row(&made.book, 4)) == Less
    });
    assert!(idle);
}

#[test]
fn the_unequal_season_goes_as_told() {
    let calls = played(&list("unequal"));
    let moves = |book: &str| {
        let words =
            calls.iter().filter(|made| made.name == book).filter_map(|made| match made.answer {
                Answer::Moved(types::Move::Idle) => None,
                Answer::Moved(made) => Some(made.to_string()),
                _ => None,
            });
        words.collect::<Vec<String>>().join(",")
    };
    assert_eq!(
        moves("large"),
        "offer 1,vote 1,pass 1 5 4,final 1,vote 2,pass 2 5 4,vote 3,pass 3 5 4,offer 4,final 3,vote 4,\
         pass 4 5 4,final 4"
    );
    assert_eq!(
        moves("middle"),
        "vote 1,pass 1 5 4,offer 2,final 1,vote 2,dummy 2,pass 2 5 0,vote 3,pass 3 5 4,final 3,vote 4,\
         pass 4 5 4,final 4"
    );
    assert_eq!(
        moves("small"),
        "vote 1,pass 1 5 4,vote 2,dummy 2,pass 2 5 0,vote 3,pass 3 5 4,final 3,final 4,pass 4 5 4"
    );
    assert_eq!(moves("watch"), "final 4");
    let reads: Vec<&Played> =
        calls.iter().filter(|made| matches!(made.answer, Answer::Part(_))).collect();
    assert_eq!(reads.len(), 4);
    assert!(reads
        .iter()
        .all(|read| read.answer == Answer::Part(64) && read.after == reads[0].after));
    let forged = |made: &&Played| made.answer == Answer::Deny(9);
    assert!(calls.iter().filter(forged).all(|made| {
        let (_, frame) = delivered(&made.call).unwrap();
        mask_at(frame, 4) == 0b11110 && frame[FRAME_HEIGHT] == 4
    }));
    assert_eq!(calls.iter().filter(forged).count(), 9);
}

/// The counterexample of one certificate over books of other weights.
#[test]
fn one_certificate_is_read_over_equal_weights_alone() {
    let frame = Frame::DummyCertificate { mask: 14, height: 1 }.bytes();
    let found: BTreeSet<(bool, Vec<u16>, String)> = played(&list("weights"))
        .into_iter()
        .filter_map(|made| {
            let (station, of) = delivered(&made.call)?;
            let weights = Weights::of(&made.book).each().to_vec();
            (of == frame).then(|| (station, weights, made.answer.to_string()))
        })
        .collect();
    for station in [true, false] {
        assert!(found.contains(&(station, vec![1; 4], "fresh".to_string())));
        assert!(found.contains(&(station, vec![9, 1, 1, 1], "deny 9".to_string())));
    }
}
