//! The five calls of an observer: their answers, their refusals in order, and what they change.

use crate::common::observer::*;
use crate::common::*;
use reference::Delivered::{Fresh, Known};
use reference::{observer_book_length, Move};

/// Four replicas, three heights: a block at 1 and a dummy at 2 are certified.
fn followed() -> (Vec<u8>, Block, Block) {
    let mut book = new_observer(4, 3);
    let first = block(1, 0, ZERO, &[entry(1), entry(2)]);
    let third = block_on(3, &first, &[entry(3)]);
    observe_all(&mut book, &[block_certificate(7, &first), dummy_certificate(11, 2)]);
    (book, first, third)
}

#[test]
fn lengths() {
    assert_eq!([1, 2, 63, 1000].map(observer_book_length), [248, 432, 11_656, 184_064]);
}

#[test]
fn a_new_book_has_n_heights_edition_and_weights_alone() {
    for (n, heights) in [(1, 1), (4, 3), (16, 63), (4, 64), (16, 1000)] {
        let book = new_observer(n.into(), heights);
        assert_eq!(book[..8], [n, 0, 0, 0, 0, 0, 0, 3]);
        assert_eq!(book[8..8 + 2 * usize::from(n)], ones(n.into()));
        assert_eq!(height_in(&book[HEIGHTS..]), heights);
        let said = (8..8 + 2 * usize::from(n)).chain(40..42);
        let rest = (8..book.len()).filter(|at| !said.clone().any(|other| other == *at));
        assert!(rest.map(|at| book[at]).all(|byte| byte == 0));
        assert_eq!(RULES.observer_size(&book), Ok(0));
    }
}

#[test]
fn open_2_then_1() {
    let mut book = [0x5a; 248];
    for (n, heights) in
        [(0, 1), (17, 1), (4, 0), (4, 1001), (260, 1), (4, 65_537), (u64::MAX, 1), (4, u64::MAX)]
    {
        assert_eq!(RULES.observer_open(&mut book, n, heights, &ones(n)), Err(2), "{n} {heights}");
        assert_eq!(RULES.observer_open(&mut [], n, heights, &ones(n)), Err(2), "{n} {heights}");
    }
    for length in [0, 64, 247, 249, 432, 1456] {
        assert_eq!(RULES.observer_open(&mut vec![0; length], 4, 1, &ones(4)), Err(1), "{length}");
    }
    assert_eq!(book, [0x5a; 248]);
    assert_eq!(RULES.observer_open(&mut book, 4, 1, &ones(4)), Ok(()));
}

#[test]
fn certificates_are_kept_by_the_replicas_rules() {
    let (mut book, first, third) = followed();
    let before = book.clone();
    for (frame, answer) in [
        (block_certificate(7, &first), Known),
        (block_certificate(14, &first), Known),
        (dummy_certificate(11, 2), Known),
    ] {
        assert_eq!(RULES.observer_deliver(&mut book, &frame), Ok(answer));
        assert_eq!(book, before);
    }
    for (frame, answer, at, mask) in [
        (dummy_certificate(7, 2), Fresh, observer_row(2) + 4, 15),
        (dummy_certificate(13, 2), Known, observer_row(2) + 4, 15),
        (dummy_certificate(7, 1), Fresh, observer_row(1) + 4, 7),
        (finalize_certificate(14, 1), Fresh, observer_row(1) + 6, 14),
        (finalize_certificate(7, 1), Fresh, observer_row(1) + 6, 15),
        (finalize_certificate(11, 1), Known, observer_row(1) + 6, 15),
        (block_certificate(13, &third), Fresh, observer_row(3) + 2, 13),
    ] {
        assert_eq!(RULES.observer_deliver(&mut book, &frame), Ok(answer));
        assert_eq!(book[at], mask);
    }
    assert_eq!(book[observer_row(3)..observer_row(3) + 2], [2, 0]);
    let at = observer_page(&book, 3);
    assert_eq!(book[at..at + 176], third);
}

#[test]
fn a_block_certificate_overwrites_free_bytes() {
    let mut book = new_observer(4, 1);
    book[observer_row(1) + 2] = 9;
    let page = observer_page(&book, 1);
    book[page..].fill(0xcc);
    assert!(is_sound_observer(&book));
    let first = block(1, 0, ZERO, &[entry(1)]);
    observe_all(&mut book, &[block_certificate(7, &first)]);
    assert_eq!(book[observer_row(1)..observer_row(1) + 4], [2, 0, 7, 0]);
    assert_eq!(book[page..], first);
}

/// A frame with a byte that no kind uses.
fn spoilt(mut frame: FrameBytes) -> FrameBytes {
    frame[UNUSED] = 1;
    frame
}

/// Delivers frames that must be refused with these numbers, and change nothing.
#[track_caller]
fn assert_refused(cases: &[(FrameBytes, u8)]) {
    let (mut book, ..) = followed();
    let before = book.clone();
    for (at, (frame, number)) in cases.iter().enumerate() {
        assert_eq!(RULES.observer_deliver(&mut book, frame), Err(*number), "case {at}");
        assert_eq!(book, before, "case {at}");
    }
}

#[test]
fn deliver_4_then_16() {
    let (_, first, _) = followed();
    let (nowhere, high) = (block(0, 0, ZERO, &[]), block(4, 0, ZERO, &[]));
    let mut odd = first;
    odd[4] = 9;
    assert_refused(&[
        (spoilt(dummy_vote(0, 1)), 4),
        (frame(0, 0, 1, 0), 4),
        (frame(8, 0, 1, 7), 4),
        (proposal(0, &odd), 4),
        (proposal(0, &nowhere), 4),
        (block_certificate(7, &odd), 4),
        (block_certificate(3, &nowhere), 4),
        (spoilt(dummy_certificate(7, 0)), 4),
        (proposal(0, &first), 16),
        (proposal(99, &high), 16),
        (block_vote(0, 1, digest(&first)), 16),
        (dummy_vote(0, 0), 16),
        (dummy_vote(0, 99), 16),
        (dummy_vote(99, 1), 16),
        (finalize(0, 1), 16),
        (finalize(99, 99), 16),
    ]);
}

#[test]
fn deliver_6_5_9_10() {
    let other = block(1, 0, ZERO, &[entry(9)]);
    let high = block(4, 0, ZERO, &[]);
    assert_refused(&[
        (dummy_certificate(7, 0), 6),
        (dummy_certificate(16, 4), 6),
        (finalize_certificate(0, 4), 6),
        (block_certificate(3, &high), 6),
        (dummy_certificate(16, 1), 5),
        (dummy_certificate(31, 1), 5),
        (block_certificate(0x8007, &other), 5),
        (dummy_certificate(3, 1), 9),
        (finalize_certificate(0, 1), 9),
        (block_certificate(3, &other), 9),
        (block_certificate(7, &other), 10),
    ]);
}

#[test]
fn other_lengths_are_4_and_1_comes_before_all() {
    let (mut book, ..) = followed();
    for length in [0, 223, 225, 448] {
        let frame = [&dummy_certificate(7, 1)[..], &[0; 224]].concat();
        assert_eq!(RULES.observer_deliver(&mut book, &frame[..length]), Err(4), "{length}");
    }
    book[4] = 1;
    for frame in [&[][..], &dummy_vote(0, 1), &dummy_certificate(7, 9)] {
        assert_eq!(RULES.observer_deliver(&mut book, frame), Err(1));
    }
}

#[test]
fn it_settles_what_is_linked_and_jumps_over_the_rest() {
    let (mut book, _, third) = followed();
    assert_eq!(observer_moves(&mut book), []);
    observe_all(&mut book, &[finalize_certificate(7, 3)]);
    assert_eq!(observer_moves(&mut book), []);
    observe_all(&mut book, &[finalize_certificate(7, 1)]);
    assert_eq!(observer_moves(&mut book), [Move::Final { height: 1 }]);
    assert_eq!(RULES.observer_size(&book), Ok(32));
    observe_all(&mut book, &[block_certificate(13, &third)]);
    assert_eq!(RULES.observer_size(&book), Ok(32));
    assert_eq!(observer_moves(&mut book), [Move::Final { height: 3 }]);
    assert_eq!(book[FINALIZED], 3);
    assert_eq!(observed_log(&book), [entry(1), entry(2), entry(3)].concat());
}

#[test]
fn only_byte_5_changes_in_a_move() {
    let (mut book, _, third) = followed();
    observe_all(&mut book, &[block_certificate(13, &third), finalize_certificate(11, 3)]);
    let mut expected = book.clone();
    assert_eq!(observer_moves(&mut book), [Move::Final { height: 3 }]);
    expected[FINALIZED] = 3;
    assert_eq!(book, expected);
    book[UNUSED] = 1;
    assert_eq!(RULES.observer_move(&mut book), Err(1));
}

#[test]
fn an_unlinked_height_does_not_settle() {
    let (_, first, third) = followed();
    let strange = block(3, 1, [9; 32], &[entry(4)]);
    for frames in [
        vec![block_certificate(7, &third), dummy_certificate(7, 2)],
        vec![block_certificate(7, &third), block_certificate(7, &first)],
        vec![block_certificate(7, &strange), block_certificate(7, &first), dummy_certificate(7, 2)],
        vec![dummy_certificate(7, 3)],
    ] {
        let mut book = new_observer(4, 3);
        observe_all(&mut book, &frames);
        observe_all(&mut book, &[finalize_certificate(15, 3)]);
        assert_eq!(observer_moves(&mut book), []);
        assert_eq!(observed_log(&book), []);
        book[FINALIZED] = 3;
        assert!(!is_sound_observer(&book));
    }
}

#[test]
fn read_fills_the_front_and_nothing_else() {
    let (mut book, ..) = followed();
    observe_all(&mut book, &[finalize_certificate(7, 1)]);
    observer_moves(&mut book);
    for (length, part) in [(0, 0), (31, 0), (32, 32), (33, 32), (80, 32)] {
        let mut buffer = vec![0xbb; length];
        assert_eq!(RULES.observer_read(&book, &mut buffer).len(), part);
        let log = [entry(1), entry(2)].concat();
        assert_eq!(buffer[..part], log[..part]);
        assert!(buffer[part..].iter().all(|&byte| byte == 0xbb));
    }
    book[1] = 1;
    let mut buffer = [0xbb; 80];
    assert!(RULES.observer_read(&book, &mut buffer).is_empty());
    assert_eq!(buffer, [0xbb; 80]);
}

#[test]
fn calls_of_the_other_kind_are_refused_with_1() {
    let (observer, station) = (new_observer(4, 2), new_book(4, 2, &[0, 1]));
    let (mut book, mut reply) = (observer.clone(), [0xaa; 448]);
    let vote = dummy_vote(0, 1);
    assert_eq!(RULES.deliver(&mut book, &vote), Err(1));
    assert_eq!(RULES.packet(&mut book, &vote), Err(1));
    assert_eq!(RULES.make_move(&mut book, &mut reply), Err(1));
    assert_eq!(RULES.signal(&mut book, 1), Err(1));
    assert_eq!(RULES.submit(&mut book, &entry(1)), Err(1));
    assert_eq!(RULES.size(&book), Err(1));
    assert_eq!(RULES.fetch(&book, 5, 1, &mut reply), Err(1));
    assert!(RULES.read(&book, &mut reply).is_empty());
    assert_eq!(RULES.open(&mut book, 4, 2, 2, &ones(4), &[0, 1]), Err(1));
    assert_eq!((&book, reply), (&observer, [0xaa; 448]));
    let mut book = station.clone();
    assert_eq!(RULES.observer_deliver(&mut book, &dummy_certificate(7, 1)), Err(1));
    assert_eq!(RULES.observer_move(&mut book), Err(1));
    assert_eq!(RULES.observer_size(&book), Err(1));
    assert_eq!(RULES.observer_open(&mut book, 4, 2, &ones(4)), Err(1));
    assert!(RULES.observer_read(&book, &mut reply).is_empty());
    assert_eq!(book, station);
}

#[test]
fn quorums_of_every_n() {
    for n in 1..=16_u16 {
        let least = (1..=n).find(|signers| 3 * signers >= 2 * n).unwrap();
        let mask = |signers: u16| ((1_u32 << signers) - 1) as u16;
        let mut book = new_observer(n.into(), 1);
        let (few, enough) = (mask(least - 1), mask(least));
        assert_eq!(RULES.observer_deliver(&mut book, &finalize_certificate(few, 1)), Err(9));
        assert_eq!(RULES.observer_deliver(&mut book, &dummy_certificate(enough, 1)), Ok(Fresh));
        if n < 16 {
            let frame = dummy_certificate(1 << n | enough, 1);
            assert_eq!(RULES.observer_deliver(&mut book, &frame), Err(5));
        }
    }
}
