//! Refusals 1 to 14 by their examples; each leaves the book and the reply as they were. 15 is among the tests of
//! packets, 16 among those of observers.

use crate::common::*;

/// Delivers a frame that is refused, and looks whether the book is untouched.
fn refused(book: &mut [u8], frame: &[u8]) -> u8 {
    let before = book.to_vec();
    let number = RULES.deliver(book, frame).unwrap_err();
    assert_eq!(book, before);
    number
}

/// Fetches what is refused, and looks whether the reply is untouched.
fn no_fetch(book: &[u8], kind: u64, height: u64, length: usize) -> u8 {
    let mut reply = vec![0xaa; length];
    let number = RULES.fetch(book, kind, height, &mut reply).unwrap_err();
    assert!(reply.iter().all(|&byte| byte == 0xaa));
    number
}

#[test]
fn number_1_length() {
    let mut book = vec![0xee; 1455];
    assert_eq!(RULES.open(&mut book, 4, 2, 1, &ones(4), &[0]), Err(1));
    assert_eq!(book, vec![0xee; 1455]);
    let mut book = new_book(4, 2, &[0]);
    book.pop();
    assert_eq!(refused(&mut book, &dummy_vote(0, 1)), 1);
    let mut reply = [0xaa; 448];
    assert_eq!(RULES.make_move(&mut book, &mut reply), Err(1));
    assert_eq!(reply, [0xaa; 448]);
    assert_eq!(RULES.signal(&mut book, 1), Err(1));
    assert_eq!(RULES.submit(&mut book, &entry(1)), Err(1));
    assert_eq!(RULES.size(&book), Err(1));
    assert_eq!(RULES.read(&book, &mut reply), []);
    assert_eq!(no_fetch(&book, 6, 1, 224), 1);
}

#[test]
fn number_2_arguments_of_open() {
    let mut book = vec![0xee; 1456];
    let big = u64::MAX;
    let cases: [(u64, u64, u64, &[u8]); 14] = [
        (4, 4, 1, &[0]),
        (0, 0, 1, &[0]),
        (17, 0, 1, &[0]),
        (big, 0, 1, &[0]),
        (4, big, 1, &[0]),
        (260, 0, 1, &[0]),
        (4, 2, 0, &[]),
        (4, 2, 1001, &[0; 1001]),
        (4, 2, big, &[0]),
        (4, 2, 65_537, &[0]),
        (4, 2, 257, &[0]),
        (4, 2, 1, &[]),
        (4, 2, 1, &[0, 0]),
        (4, 2, 1, &[4]),
    ];
    for (n, own, heights, leaders) in cases {
        assert_eq!(RULES.open(&mut book, n, own, heights, &ones(n), leaders), Err(2));
        assert_eq!(book, vec![0xee; 1456]);
    }
    assert_eq!(RULES.open(&mut book, 4, 3, 1, &ones(4), &[3]), Ok(()));
}

#[test]
fn number_3_short_replies() {
    let mut book = new_book(4, 2, &[2]);
    let before = book.clone();
    let mut reply = [0xaa; 447];
    assert_eq!(RULES.make_move(&mut book, &mut reply), Err(3));
    assert_eq!((book.clone(), reply), (before, [0xaa; 447]));
    deliver_all(&mut book, &[dummy_certificate(7, 1)]);
    assert_eq!(no_fetch(&book, 6, 1, 223), 3);
    assert_eq!(no_fetch(&book, 6, 1, 0), 3);
}

#[test]
fn number_4_kinds_and_lengths() {
    let mut book = new_book(4, 2, &[0]);
    assert_eq!(refused(&mut book, &frame(8, 0, 1, 0)), 4);
    assert_eq!(refused(&mut book, &frame(0, 0, 1, 0)), 4);
    assert_eq!(refused(&mut book, &dummy_vote(0, 1)[..223]), 4);
    assert_eq!(refused(&mut book, &[dummy_vote(0, 1), [0; 224]].concat()), 4);
    assert_eq!(refused(&mut book, &[]), 4);
    for kind in [0, 1, 4, 8, 261, u64::MAX] {
        assert_eq!(no_fetch(&book, kind, 1, 224), 4);
    }
    let before = book.clone();
    for length in [0, 15, 17] {
        assert_eq!(RULES.submit(&mut book, &vec![1; length]), Err(4));
    }
    assert_eq!(book, before);
}

#[test]
fn number_5_no_such_replica() {
    let mut book = new_book(4, 2, &[0]);
    assert_eq!(refused(&mut book, &dummy_certificate(16, 1)), 5);
    assert_eq!(refused(&mut book, &dummy_certificate(23, 1)), 5);
    assert_eq!(refused(&mut book, &finalize_certificate(0x8007, 1)), 5);
    assert_eq!(refused(&mut book, &dummy_vote(4, 1)), 5);
    assert_eq!(refused(&mut book, &finalize(255, 1)), 5);
    assert_eq!(refused(&mut book, &block_vote(16, 1, ZERO)), 5);
}

#[test]
fn number_6_no_such_height() {
    let mut book = new_book(4, 2, &[0]);
    assert_eq!(refused(&mut book, &dummy_vote(0, 0)), 6);
    assert_eq!(refused(&mut book, &dummy_vote(0, 2)), 6);
    assert_eq!(refused(&mut book, &dummy_certificate(7, 255)), 6);
    assert_eq!(refused(&mut book, &proposal(0, &block(200, 199, ZERO, &[]))), 6);
    for height in [0, 2, 257, u64::MAX] {
        assert_eq!(RULES.signal(&mut book, height), Err(6));
        assert_eq!(no_fetch(&book, 6, height, 224), 6);
    }
}

#[test]
fn number_7_not_the_leader() {
    let mut book = new_book(4, 2, &[0]);
    assert_eq!(refused(&mut book, &proposal(1, &block(1, 0, ZERO, &[]))), 7);
}

#[test]
fn number_8_unlike_the_kept() {
    let mut book = new_book(4, 2, &[0, 0]);
    deliver_all(&mut book, &[block_vote(1, 1, [1; 32])]);
    assert_eq!(refused(&mut book, &block_vote(1, 1, [2; 32])), 8);
    deliver_all(&mut book, &[proposal(0, &block(2, 0, ZERO, &[]))]);
    assert_eq!(refused(&mut book, &proposal(0, &block(2, 0, ZERO, &[entry(1)]))), 8);
}

/// There the second proposal fires the timer (`equivocation.rs`); below, where the height is passed, it is 8.
#[test]
fn number_8_is_no_second_proposal_at_the_current_height() {
    let mut book = new_book(4, 2, &[0]);
    let second = proposal(0, &block(1, 0, ZERO, &[entry(1)]));
    deliver_all(&mut book, &[proposal(0, &block(1, 0, ZERO, &[])), dummy_certificate(7, 1)]);
    deliver_all(&mut book.clone(), &[second]);
    moves(&mut book);
    assert_eq!(refused(&mut book, &second), 8);
}

#[test]
fn number_9_no_quorum() {
    let mut book = new_book(4, 2, &[0]);
    assert_eq!(refused(&mut book, &dummy_certificate(3, 1)), 9);
    assert_eq!(refused(&mut book, &finalize_certificate(0, 1)), 9);
    assert_eq!(refused(&mut book, &block_certificate(12, &block(1, 0, ZERO, &[]))), 9);
}

#[test]
fn number_10_another_block() {
    let mut book = new_book(4, 2, &[0]);
    deliver_all(&mut book, &[block_certificate(7, &block(1, 0, ZERO, &[entry(1)]))]);
    assert_eq!(refused(&mut book, &block_certificate(7, &block(1, 0, ZERO, &[entry(2)]))), 10);
}

#[test]
fn number_11_nothing_to_fetch() {
    let mut book = new_book(4, 2, &[0]);
    for kind in 5..=7 {
        assert_eq!(no_fetch(&book, kind, 1, 224), 11);
    }
    deliver_all(&mut book, &[dummy_vote(0, 1), dummy_vote(1, 1), finalize(3, 1)]);
    for kind in 5..=7 {
        assert_eq!(no_fetch(&book, kind, 1, 300), 11);
    }
}

#[test]
fn numbers_12_and_13_submit() {
    let mut book = new_book(4, 2, &[0]);
    for tag in 0..32 {
        assert_eq!(RULES.submit(&mut book, &entry(tag)), Ok(()));
        let before = book.clone();
        assert_eq!(RULES.submit(&mut book, &entry(tag)), Err(13));
        assert_eq!(book, before);
    }
    let before = book.clone();
    assert_eq!(RULES.submit(&mut book, &entry(32)), Err(12));
    assert_eq!(book, before);
}

#[test]
fn number_14_stale_signal() {
    let mut book = new_book(4, 2, &[0, 1]);
    let before = book.clone();
    assert_eq!(RULES.signal(&mut book, 2), Err(14));
    assert_eq!(book, before);
    assert_eq!(RULES.signal(&mut book, 1), Ok(()));
    let before = book.clone();
    assert_eq!(RULES.signal(&mut book, 1), Err(14));
    assert_eq!(book, before);
}
