//! The lettered examples, a to l.

use crate::common::*;
use reference::{is_quorum, Certificate, Move};

#[test]
fn a_to_d_quorums() {
    for (n, enough) in [(4, 3), (6, 4), (16, 11), (1, 1)] {
        let mask = |members: u32| ((1u32 << members) - 1) as u16;
        assert!(is_quorum(mask(enough), &vec![1; n]), "n {n}");
        assert!(!is_quorum(mask(enough - 1), &vec![1; n]), "n {n}");
    }
}

/// The same four limits as a call sees them: a certificate is refused below them.
#[test]
fn a_to_d_by_certificate() {
    for (n, enough) in [(4, 3), (6, 4), (16, 11), (1, 1)] {
        let mask = |members: u32| ((1u32 << members) - 1) as u16;
        let mut book = new_book(n, 0, &[0]);
        let below = dummy_certificate(mask(enough - 1), 1);
        assert_eq!(RULES.deliver(&mut book, &below), Err(9), "n {n}");
        deliver_all(&mut book, &[dummy_certificate(mask(enough), 1)]);
    }
}

#[test]
fn e_longest_book() {
    assert_eq!(reference::book_length(63), 56_016);
    assert!(is_sound(&new_book(16, 15, &[0; 63])));
}

#[test]
fn f_new_book_of_another_leader_is_idle() {
    let mut book = new_book(4, 2, &[0]);
    let before = book.clone();
    let (made, reply) = one_move(&mut book);
    assert_eq!((made, reply, book), (Move::Idle, [0xaa; 448], before));
}

#[test]
fn g_signal_then_dummy_vote_then_idle() {
    let mut book = new_book(4, 2, &[0]);
    RULES.signal(&mut book, 1).unwrap();
    let (made, reply) = one_move(&mut book);
    assert_eq!(made, Move::Dummy { height: 1 });
    assert_eq!(reply[..224], dummy_vote(2, 1));
    assert_eq!(reply[224..], [0xaa; 224]);
    assert_eq!(book[3], 3);
    assert_eq!(one_move(&mut book).0, Move::Idle);
}

#[test]
fn h_dummy_votes_of_three_pass_and_finalize() {
    let mut book = new_book(4, 3, &[0]);
    deliver_all(&mut book, &[dummy_vote(0, 1), dummy_vote(1, 1), dummy_vote(2, 1)]);
    let (made, reply) = one_move(&mut book);
    let certificate = Certificate::Dummy;
    assert_eq!(made, Move::Pass { height: 1, certificate, finalized: true });
    assert_eq!(reply[..224], dummy_certificate(7, 1));
    assert_eq!(reply[224..], finalize(3, 1));
    assert_eq!((book[3], book[CURRENT]), (0, 2));
}

#[test]
fn i_after_the_timer_the_second_frame_is_zero() {
    let mut book = new_book(4, 3, &[0]);
    RULES.signal(&mut book, 1).unwrap();
    assert_eq!(one_move(&mut book).0, Move::Dummy { height: 1 });
    deliver_all(&mut book, &[dummy_vote(0, 1), dummy_vote(1, 1), dummy_vote(2, 1)]);
    let (made, reply) = one_move(&mut book);
    let certificate = Certificate::Dummy;
    assert_eq!(made, Move::Pass { height: 1, certificate, finalized: false });
    assert_eq!(reply[..224], dummy_certificate(7, 1));
    assert_eq!(reply[224..], [0; 224]);
    assert_eq!((book[3], book[CURRENT]), (0, 2));
}

#[test]
fn j_own_leader_proposes() {
    let mut book = new_book(4, 2, &[2]);
    let (made, reply) = one_move(&mut book);
    assert_eq!(made, Move::Offer { height: 1 });
    assert_eq!(reply[..224], proposal(2, &block(1, 0, ZERO, &[])));
    assert_eq!(reply[224..], [0xaa; 224]);
    assert_eq!(book[3], 8);
    assert_eq!(one_move(&mut book).0, Move::Idle);
}

#[test]
fn k_finalizes_without_a_block() {
    let mut book = new_book(4, 2, &[0]);
    deliver_all(&mut book, &[finalize_certificate(7, 1)]);
    assert_eq!(moves(&mut book), []);
    assert_eq!(book[FINALIZED], 0);
}

#[test]
fn l_no_gap_without_dummies() {
    let mut book = new_book(4, 3, &[0, 1, 2]);
    let first = block(1, 0, ZERO, &[]);
    let third = block_on(3, &first, &[]);
    let both = [block_certificate(7, &first), block_certificate(7, &third)];
    deliver_all(&mut book, &both);
    deliver_all(&mut book, &[finalize_certificate(7, 3)]);
    assert_eq!(moves(&mut book).len(), 1);
    assert_eq!((book[CURRENT], book[FINALIZED]), (2, 0));
    deliver_all(&mut book, &[dummy_certificate(7, 2)]);
    assert_eq!(one_move(&mut book).0, Move::Final { height: 3 });
}
