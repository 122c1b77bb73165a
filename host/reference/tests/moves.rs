//! The five moves: which comes first, what it writes, what it leaves alone.

use crate::common::*;
use reference::{Certificate, Move};

fn pass(height: Height, certificate: Certificate, finalized: bool) -> Move {
    Move::Pass { height, certificate, finalized }
}

/// A book of replica 2 among 4 with three heights led by 0, 1, 2.
fn book_of_three() -> Vec<u8> {
    new_book(4, 2, &[0, 1, 2])
}

#[test]
fn a_height_with_a_block_is_voted_on_and_passed() {
    let mut book = book_of_three();
    let first = block(1, 0, ZERO, &[entry(1)]);
    deliver_all(&mut book, &[proposal(0, &first)]);
    let (made, reply) = one_move(&mut book);
    assert_eq!((made, book[3]), (Move::Vote { height: 1 }, 4));
    assert_eq!(reply[..224], vote_for(2, &first));
    assert_eq!(reply[224..], [0xaa; 224]);
    assert_eq!(one_move(&mut book).0, Move::Idle);
    deliver_all(&mut book, &[0, 2, 3].map(|signer| vote_for(signer, &first)));
    let (made, reply) = one_move(&mut book);
    assert_eq!(made, pass(1, Certificate::Block, true));
    assert_eq!(reply[..224], block_certificate(13, &first));
    assert_eq!(reply[224..], finalize(2, 1));
    assert_eq!((book[3], book[CURRENT]), (0, 2));
}

#[test]
fn the_order_is_one_to_five() {
    let mut book = new_book(4, 2, &[2]);
    let first = block(1, 0, ZERO, &[]);
    let frames = [proposal(2, &first), block_certificate(7, &first), finalize_certificate(7, 1)];
    deliver_all(&mut book, &frames);
    RULES.signal(&mut book, 1).unwrap();
    let expected =
        [Move::Dummy { height: 1 }, Move::Final { height: 1 }, pass(1, Certificate::Block, false)];
    assert_eq!(moves(&mut book), expected);
    let mut book = new_book(4, 2, &[2]);
    deliver_all(&mut book, &[proposal(2, &first)]);
    assert_eq!(moves(&mut book), [Move::Offer { height: 1 }, Move::Vote { height: 1 }]);
}

#[test]
fn dummy_vote_does_not_bar_the_block_vote() {
    let mut book = book_of_three();
    deliver_all(&mut book, &[proposal(0, &block(1, 0, ZERO, &[]))]);
    RULES.signal(&mut book, 1).unwrap();
    assert_eq!(moves(&mut book), [Move::Dummy { height: 1 }, Move::Vote { height: 1 }]);
    assert_eq!(book[3], 7);
}

#[test]
fn the_timer_is_remembered_until_the_pass() {
    let mut book = book_of_three();
    RULES.signal(&mut book, 1).unwrap();
    assert_eq!(moves(&mut book), [Move::Dummy { height: 1 }]);
    deliver_all(&mut book, &[block_certificate(7, &block(1, 0, ZERO, &[]))]);
    assert_eq!(moves(&mut book), [pass(1, Certificate::Block, false)]);
    assert_eq!((book[3], book[CURRENT]), (0, 2));
}

#[test]
fn only_the_timer_flag_bars_the_finalize() {
    let mut book = book_of_three();
    book[3] = 2 | 4 | 8;
    deliver_all(&mut book, &[dummy_certificate(7, 1)]);
    assert_eq!(one_move(&mut book).0, pass(1, Certificate::Dummy, true));
}

#[test]
fn a_block_certificate_goes_before_a_dummy_one() {
    let mut book = book_of_three();
    let first = block(1, 0, ZERO, &[]);
    deliver_all(&mut book, &[dummy_certificate(7, 1), block_certificate(11, &first)]);
    let (made, reply) = one_move(&mut book);
    assert_eq!(made, pass(1, Certificate::Block, true));
    assert_eq!(reply[..224], block_certificate(11, &first));
}

#[test]
fn a_notarized_block_that_hangs_in_the_air_is_passed_by_its_dummies() {
    let mut book = book_of_three();
    let second = block(2, 1, [5; 32], &[]);
    deliver_all(&mut book, &[dummy_certificate(7, 1), block_certificate(7, &second)]);
    assert_eq!(moves(&mut book), [pass(1, Certificate::Dummy, true)]);
    deliver_all(&mut book, &[dummy_certificate(7, 2)]);
    assert_eq!(one_move(&mut book).0, pass(2, Certificate::Dummy, true));
}

#[test]
fn no_pass_and_no_offer_without_a_chain_below() {
    let mut book = book_of_three();
    book[CURRENT] = 3;
    deliver_all(&mut book, &[dummy_certificate(7, 3), dummy_certificate(7, 2)]);
    assert_eq!(moves(&mut book), []);
    deliver_all(&mut book, &[dummy_certificate(7, 1)]);
    assert_eq!(moves(&mut book), [pass(3, Certificate::Dummy, true)]);
    assert_eq!(book[CURRENT], 4);
}

#[test]
fn without_a_chain_below_the_held_block_can_still_stand() {
    let mut book = new_book(4, 2, &[0, 2]);
    let first = block(1, 0, ZERO, &[]);
    book[CURRENT] = 2;
    deliver_all(&mut book, &[proposal(2, &block_on(2, &first, &[]))]);
    assert_eq!(moves(&mut book), []);
    deliver_all(&mut book, &[block_certificate(7, &first)]);
    assert_eq!(moves(&mut book), [Move::Offer { height: 2 }, Move::Vote { height: 2 }]);
}

#[test]
fn the_offer_takes_the_highest_parent() {
    let mut book = new_book(4, 2, &[0, 1, 0, 2]);
    let first = block(1, 0, ZERO, &[]);
    let second = block_on(2, &first, &[entry(4)]);
    book[CURRENT] = 4;
    let dummies = [1, 2, 3].map(|height| dummy_certificate(7, height));
    let blocks = [block_certificate(7, &second), block_certificate(7, &first)];
    let mut expected = block(4, 0, ZERO, &[]);
    deliver_all(&mut book, &dummies);
    assert_eq!(one_move(&mut book.clone()).1[..224], proposal(2, &expected));
    deliver_all(&mut book, &blocks[..1]);
    assert_eq!(one_move(&mut book.clone()).1[..224], proposal(2, &expected));
    deliver_all(&mut book, &blocks[1..]);
    expected = block_on(4, &second, &[]);
    assert_eq!(one_move(&mut book).1[..224], proposal(2, &expected));
}

#[test]
fn the_offer_carries_eight_new_entries_in_order() {
    let mut book = new_book(4, 2, &[0, 2]);
    for tag in 1..=12 {
        RULES.submit(&mut book, &entry(tag)).unwrap();
    }
    let first = block(1, 0, ZERO, &[entry(5), entry(2), entry(40)]);
    deliver_all(&mut book, &[block_certificate(7, &first)]);
    assert_eq!(one_move(&mut book).0, pass(1, Certificate::Block, true));
    let pending = book[PENDING..CONTENTS].to_vec();
    let expected = block_on(2, &first, &[1, 3, 4, 6, 7, 8, 9, 10].map(entry));
    assert_eq!(one_move(&mut book).1[..224], proposal(2, &expected));
    assert_eq!((book[6], &book[PENDING..CONTENTS]), (12, &pending[..]));
}

#[test]
fn pending_repeats_are_each_carried() {
    let mut book = new_book(4, 2, &[2]);
    book[6] = 2;
    book[PENDING..PENDING + 32].fill(3);
    let expected = block(1, 0, ZERO, &[[3; 16]; 2]);
    assert_eq!(one_move(&mut book).1[..224], proposal(2, &expected));
}

#[test]
fn heights_above_the_current_are_finalized_too() {
    let mut book = book_of_three();
    let first = block(1, 0, ZERO, &[]);
    let (second, third) = (block_on(2, &first, &[]), block(3, 0, ZERO, &[]));
    let blocks = [&first, &second, &third].map(|block| block_certificate(7, block));
    deliver_all(&mut book, &blocks);
    deliver_all(&mut book, &[1, 2, 3].map(|height| finalize_certificate(7, height)));
    assert_eq!(one_move(&mut book).0, Move::Final { height: 2 });
    assert_eq!((book[CURRENT], book[FINALIZED]), (1, 2));
}

#[test]
fn past_the_last_height_only_finals_are_left() {
    let mut book = new_book(4, 0, &[0]);
    deliver_all(&mut book, &[dummy_certificate(7, 1)]);
    assert_eq!(moves(&mut book), [pass(1, Certificate::Dummy, true)]);
    let first = block(1, 0, ZERO, &[]);
    let frames = [block_certificate(7, &first), finalize_certificate(7, 1), proposal(0, &first)];
    deliver_all(&mut book, &frames);
    assert_eq!(moves(&mut book), [Move::Final { height: 1 }]);
    book[3] = 1;
    assert_eq!(moves(&mut book), []);
}

#[test]
fn bytes_past_the_frames_are_kept() {
    let mut book = new_book(4, 2, &[2]);
    let mut reply = [0xaa; 1000];
    assert_eq!(RULES.make_move(&mut book, &mut reply), Ok(Move::Offer { height: 1 }));
    assert_eq!(reply[224..], [0xaa; 776]);
    deliver_all(&mut book, &[dummy_certificate(7, 1)]);
    let expected = Ok(pass(1, Certificate::Dummy, true));
    assert_eq!(RULES.make_move(&mut book, &mut reply), expected);
    assert_eq!(reply[448..], [0xaa; 552]);
}
