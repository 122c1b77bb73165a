//! Quorums by weight: 3 times the weight of a mask is at least 2 times the total weight, wherever a quorum is asked.

use crate::common::observer::*;
use crate::common::random::Random;
use crate::common::random_book::random_weights;
use crate::common::*;
use reference::Delivered::Fresh;
use reference::{is_quorum, Certificate, Move};

/// Weights with a mask that is just a quorum and one that is just none.
const EDGES: [(&[u16], u16, u16); 8] = [
    // 3 x 2 = 2 x 3, exactly; one of three is too few
    (&[1, 1, 1], 0b011, 0b001),
    // 3 x 8 = 2 x 12, exactly: the large one and one other; the three others weigh 6
    (&[6, 2, 2, 2], 0b0011, 0b1110),
    // the large one alone: 3 x 8 = 2 x 12; without it 3 x 4
    (&[8, 1, 1, 2], 0b0001, 0b1110),
    // 3 x 7 = 21 < 2 x 11 = 22; with one more 24
    (&[7, 1, 1, 1, 1], 0b00011, 0b00001),
    // ten times the plots: 21 of 32 is none, 22 is
    (&[10, 10, 10, 1, 1], 0b11011, 0b01011),
    (&[1000; 16], 0x07ff, 0x03ff),
    // 3 x 1000 >= 2 x 1500; 3 x 999 is not
    (&[1000, 499, 1], 0b001, 0b110),
    (&[999, 500, 1], 0b101, 0b001),
];

#[test]
fn edges() {
    for (weights, enough, few) in EDGES {
        assert!(is_quorum(enough, weights), "{weights:?} {enough}");
        assert!(!is_quorum(few, weights), "{weights:?} {few}");
    }
}

/// By the sentence of the document, on random weights and all masks.
#[test]
fn as_the_document_has_it() {
    let mut random = Random::new(60);
    for _ in 0..40 {
        let n = 1 + random.below(10) as u8;
        let weights = random_weights(&mut random, n);
        let total: u32 = weights.iter().map(|&weight| u32::from(weight)).sum();
        for mask in 0..1u16 << n {
            let members = (0..n.into()).filter(|&replica| mask >> replica & 1 == 1);
            let weight: u32 = members.map(|replica| u32::from(weights[replica])).sum();
            assert_eq!(is_quorum(mask, &weights), 3 * weight >= 2 * total);
        }
    }
}

/// Equal weights are document 01's counts, whatever the weight is.
#[test]
fn equal_weights_count() {
    for n in 1..=16 {
        for weight in [1, 2, 500, 1000] {
            for members in 0..=n {
                let mask = ((1u32 << members) - 1) as u16;
                let weights = vec![weight; n as usize];
                assert_eq!(is_quorum(mask, &weights), 3 * members >= 2 * n);
            }
        }
    }
}

/// Certificates of each kind, at a station and at an observer: 9 below the edge, fresh on it.
#[test]
fn certificates_at_the_edge() {
    for (weights, enough, few) in EDGES {
        let block = block(1, 0, ZERO, &[]);
        let kinds: [&dyn Fn(u16) -> FrameBytes; 3] = [
            &|mask| block_certificate(mask, &block),
            &|mask| dummy_certificate(mask, 1),
            &|mask| finalize_certificate(mask, 1),
        ];
        for kind in kinds {
            let mut book = weighed_book(weights, 0, &[0]);
            let mut observer = weighed_observer(weights, 1);
            assert_eq!(RULES.deliver(&mut book, &kind(few)), Err(9), "{weights:?}");
            assert_eq!(RULES.observer_deliver(&mut observer, &kind(few)), Err(9));
            assert_eq!(RULES.deliver(&mut book, &kind(enough)), Ok(Fresh), "{weights:?}");
            assert_eq!(RULES.observer_deliver(&mut observer, &kind(enough)), Ok(Fresh));
        }
    }
}

/// The members of a mask.
fn members(mask: u16) -> impl Iterator<Item = u8> {
    (0..16).filter(move |signer| mask >> signer & 1 == 1)
}

/// Votes for a page, before the proposal and after it: the page is notarised with the vote that makes a quorum, and the
/// certificate has those voters.
#[test]
fn kept_votes_at_the_edge() {
    for (weights, enough, few) in EDGES {
        let block = block(1, 0, ZERO, &[entry(1)]);
        for held_first in [true, false] {
            for (mask, notarised) in [(few, false), (enough, true)] {
                let mut book = weighed_book(weights, 0, &[0]);
                let votes: Vec<FrameBytes> =
                    members(mask).map(|signer| vote_for(signer, &block)).collect();
                if held_first {
                    deliver_all(&mut book, &[proposal(0, &block)]);
                }
                deliver_all(&mut book, &votes);
                if !held_first {
                    assert_eq!(book[row(1) + 1], 0);
                    deliver_all(&mut book, &[proposal(0, &block)]);
                }
                assert_eq!(book[row(1) + 1], if notarised { 3 } else { 1 }, "{weights:?}");
                let kept = u16::from_le_bytes([book[row(1) + 2], book[row(1) + 3]]);
                assert_eq!(is_quorum(kept, weights), notarised);
                assert_eq!(kept & !mask, 0);
            }
        }
    }
}

/// Blank votes and finalises one by one: pass, settled height and fetch follow the weight.
#[test]
fn blank_settled_and_fetched_at_the_edge() {
    for (weights, enough, few) in EDGES {
        let own = (weights.len() - 1) as u64;
        for (mask, is) in [(few, false), (enough, true)] {
            let mut book = weighed_book(weights, own, &[0]);
            let votes: Vec<_> = members(mask).map(|signer| dummy_vote(signer, 1)).collect();
            deliver_all(&mut book, &votes);
            let fetched = RULES.fetch(&book, 6, 1, &mut [0; 224]);
            assert_eq!(fetched, if is { Ok(()) } else { Err(11) }, "{weights:?}");
            let certificate = Certificate::Dummy;
            let pass = Move::Pass { height: 1, certificate, finalized: true };
            let (made, reply) = one_move(&mut book);
            if is {
                assert_eq!((made, &reply[..224]), (pass, &dummy_certificate(mask, 1)[..]));
            } else if own == 0 {
                assert_eq!(made, Move::Offer { height: 1 });
            } else {
                assert_eq!(made, Move::Idle);
            }
            let (mut book, full) = (weighed_book(weights, own, &[0]), block(1, 0, ZERO, &[]));
            deliver_all(&mut book, &[block_certificate(enough, &full)]);
            let finalizes: Vec<_> = members(mask).map(|signer| finalize(signer, 1)).collect();
            deliver_all(&mut book, &finalizes);
            let fetched = RULES.fetch(&book, 7, 1, &mut [0; 224]);
            assert_eq!(fetched, if is { Ok(()) } else { Err(11) });
            moves(&mut book);
            assert_eq!(book[FINALIZED], u8::from(is), "{weights:?}");
        }
    }
}

/// A certificate mask or a settled height that is no quorum by weight makes a book unsound, though it were one by
/// number; and the other way round.
#[test]
fn soundness_at_the_edge() {
    for (weights, enough, few) in EDGES {
        let (mut book, block) = (weighed_book(weights, 0, &[0]), block(1, 0, ZERO, &[]));
        deliver_all(&mut book, &[block_certificate(enough, &block)]);
        deliver_all(&mut book, &[finalize_certificate(enough, 1)]);
        moves(&mut book);
        let mut observer = weighed_observer(weights, 1);
        observe_all(&mut observer, &[block_certificate(enough, &block)]);
        observe_all(&mut observer, &[finalize_certificate(enough, 1)]);
        observer_moves(&mut observer);
        assert!(is_sound(&book) && is_sound_observer(&observer));
        for at in [2, 6] {
            let with = |book: &[u8], row: usize| {
                let mut book = book.to_vec();
                book[row + at..row + at + 2].copy_from_slice(&few.to_le_bytes());
                book
            };
            assert!(!is_sound(&with(&book, row(1))), "{weights:?} {at}");
            assert!(!is_sound_observer(&with(&observer, observer_row(1))), "{weights:?} {at}");
        }
    }
}

/// Readings, F1: a certificate of stations 1, 2 and 3 is read over equal weights and gets 9 where 0 weighs nine.
#[test]
fn frames_are_read_over_books_of_the_same_weights() {
    let frame = dummy_certificate(14, 1);
    for (weights, answer) in [([1, 1, 1, 1], Ok(Fresh)), ([9, 1, 1, 1], Err(9))] {
        assert_eq!(RULES.deliver(&mut weighed_book(&weights, 0, &[0]), &frame), answer);
        assert_eq!(RULES.observer_deliver(&mut weighed_observer(&weights, 1), &frame), answer);
    }
    let mut first = first_edition(&new_book(4, 0, &[0]));
    assert_eq!(RULES.deliver(&mut first, &frame), Ok(Fresh));
}

/// A station that is a quorum alone goes through its height by its own frames.
#[test]
fn one_station_is_a_quorum_alone() {
    let mut book = weighed_book(&[9, 1, 1, 1], 0, &[0]);
    RULES.submit(&mut book, &entry(7)).unwrap();
    let mut numbers = Vec::new();
    loop {
        let (made, reply) = one_move(&mut book);
        numbers.push(made.number());
        if made == Move::Idle {
            break;
        }
        for frame in reply.chunks(224).take(made.frames()) {
            RULES.deliver(&mut book, frame).unwrap();
        }
    }
    assert_eq!(numbers, [4, 5, 3, 2, 0]);
    assert_eq!(log_of(&book), entry(7));
    assert_eq!(book[row(1) + 2..row(1) + 8], [1, 0, 0, 0, 1, 0]);
}

/// A bit from n up is refused with 5 before anything is weighed, also where the mask would be a quorum without it.
#[test]
fn absent_stations_are_5_before_9() {
    for mask in [0b10000, 0b10001, 0x8000, 0xfff0] {
        let mut book = weighed_book(&[9, 1, 1, 1], 0, &[0]);
        let mut observer = weighed_observer(&[9, 1, 1, 1], 1);
        assert_eq!(RULES.deliver(&mut book, &dummy_certificate(mask, 1)), Err(5));
        assert_eq!(RULES.observer_deliver(&mut observer, &dummy_certificate(mask, 1)), Err(5));
    }
}

/// Any two quorums share a third of the weight at least; over some weights no more than a third.
#[test]
fn two_quorums_share_a_third() {
    let mut random = Random::new(61);
    let mut tight = 0;
    for _ in 0..60 {
        let n = 1 + random.below(7) as u8;
        let weights = random_weights(&mut random, n);
        let weight = |mask: u16| {
            let all = (0..n).filter(|replica| mask >> replica & 1 == 1);
            all.map(|replica| u32::from(weights[usize::from(replica)])).sum::<u32>()
        };
        let all = ((1u32 << n) - 1) as u16;
        let quorums: Vec<u16> = (0..=all).filter(|&mask| is_quorum(mask, &weights)).collect();
        for (one, two) in quorums.iter().flat_map(|one| quorums.iter().map(move |two| (one, two))) {
            assert!(3 * weight(one & two) >= weight(all));
            tight += usize::from(3 * weight(one & two) == weight(all));
        }
    }
    assert!(tight > 0);
}
