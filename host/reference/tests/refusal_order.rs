//! The order of refusals: where two apply, the earlier one is answered.

use crate::common::*;

/// A book in which every later refusal of deliver can be met: a proposal and a block at height 2, above the current
/// one.
fn busy_book() -> Vec<u8> {
    let mut book = new_book(4, 2, &[1, 0]);
    let second = block(2, 0, ZERO, &[entry(1)]);
    deliver_all(&mut book, &[proposal(0, &second), block_certificate(7, &second)]);
    deliver_all(&mut book, &[block_vote(1, 2, [1; 32])]);
    book
}

/// A frame with a byte that no kind uses.
fn spoilt(mut frame: FrameBytes) -> FrameBytes {
    frame[UNUSED] = 1;
    frame
}

#[test]
fn open_2_then_1() {
    assert_eq!(RULES.open(&mut [0; 7], 4, 4, 1, &ones(4), &[0]), Err(2));
    assert_eq!(RULES.open(&mut [0; 7], 4, 3, 1, &ones(4), &[0]), Err(1));
}

#[test]
fn deliver_1_4_6_5_7_9_8_10() {
    let mut book = busy_book();
    let other = block(2, 0, ZERO, &[entry(2)]);
    let high = block(3, 0, ZERO, &[]);
    let cases = [
        (spoilt(dummy_vote(0, 0)), 4),
        (spoilt(dummy_vote(0, 3)), 4),
        (spoilt(dummy_vote(9, 2)), 4),
        (spoilt(proposal(1, &other)), 4),
        (spoilt(dummy_certificate(3, 2)), 4),
        (spoilt(block_vote(1, 2, [2; 32])), 4),
        (spoilt(block_certificate(7, &other)), 4),
        (dummy_vote(9, 0), 6),
        (dummy_vote(9, 3), 6),
        (dummy_certificate(16, 3), 6),
        (proposal(3, &high), 6),
        (block_certificate(1, &high), 6),
        (proposal(9, &other), 5),
        (block_vote(9, 2, ZERO), 5),
        (block_certificate(16, &other), 5),
        (dummy_certificate(48, 2), 5),
        (proposal(1, &other), 7),
        (proposal(0, &other), 8),
        (block_certificate(3, &other), 9),
        (block_certificate(3, &block(2, 0, ZERO, &[entry(1)])), 9),
        (block_certificate(14, &other), 10),
    ];
    for (frame, number) in cases {
        assert_eq!(RULES.deliver(&mut book, &frame), Err(number));
        assert_eq!(book, busy_book());
    }
    book[7] = 255;
    assert_eq!(RULES.deliver(&mut book, &[]), Err(1));
}

#[test]
fn height_0_is_4_for_kinds_with_a_block() {
    let mut book = new_book(4, 2, &[0]);
    let nowhere = block(0, 0, ZERO, &[]);
    let frames = [(proposal(0, &nowhere), 4), (block_certificate(7, &nowhere), 4)];
    let bare = [frame(2, 0, 0, 0), frame(4, 0, 0, 0), frame(6, 0, 0, 7), frame(7, 0, 0, 7)];
    for (frame, number) in frames.into_iter().chain(bare.map(|frame| (frame, 6))) {
        assert_eq!(RULES.deliver(&mut book, &frame), Err(number));
    }
}

#[test]
fn move_1_then_3() {
    let mut book = busy_book();
    book[CURRENT] = 0;
    assert_eq!(RULES.make_move(&mut book, &mut []), Err(1));
    book[CURRENT] = 1;
    assert_eq!(RULES.make_move(&mut book, &mut []), Err(3));
}

#[test]
fn signal_1_6_14() {
    let mut book = busy_book();
    assert_eq!(RULES.signal(&mut book, 3), Err(6));
    assert_eq!(RULES.signal(&mut book, 2), Err(14));
    book[CURRENT] = 3;
    assert_eq!(RULES.signal(&mut book, 3), Err(6));
    assert_eq!(RULES.signal(&mut book, 1), Err(14));
    book[CURRENT] = 4;
    assert_eq!(RULES.signal(&mut book, 3), Err(1));
}

#[test]
fn submit_1_4_13_12() {
    let mut book = busy_book();
    book[CURRENT] = 0;
    assert_eq!(RULES.submit(&mut book, &[]), Err(1));
    book[CURRENT] = 1;
    for tag in 0..32 {
        RULES.submit(&mut book, &entry(tag)).unwrap();
    }
    assert_eq!(RULES.submit(&mut book, &[0; 15]), Err(4));
    assert_eq!(RULES.submit(&mut book, &entry(0)), Err(13));
    assert_eq!(RULES.submit(&mut book, &entry(99)), Err(12));
}

#[test]
fn fetch_1_4_6_3_11() {
    let mut book = busy_book();
    assert_eq!(RULES.fetch(&book, 8, 0, &mut []), Err(4));
    assert_eq!(RULES.fetch(&book, 6, 0, &mut []), Err(6));
    assert_eq!(RULES.fetch(&book, 6, 3, &mut []), Err(6));
    assert_eq!(RULES.fetch(&book, 6, 1, &mut []), Err(3));
    assert_eq!(RULES.fetch(&book, 6, 1, &mut [0; 224]), Err(11));
    book[CURRENT] = 0;
    assert_eq!(RULES.fetch(&book, 8, 0, &mut []), Err(1));
}
