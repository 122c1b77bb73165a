//! A leader who says two things (request 2.2): a second, different proposal at the current height fires the timer.

use crate::common::*;
use reference::Delivered::{Fresh, Known};
use reference::{Certificate, Counts, Move};

/// The flags of the current height.
const TIMER_FIRED: u8 = 1;
const DUMMY_VOTED: u8 = 2;
const BLOCK_VOTED: u8 = 4;
const PROPOSED: u8 = 8;

/// One of the pages that the leader of a height may say; no two are alike.
fn page(height: Height, tag: u8) -> Block {
    block(height, 0, ZERO, &[entry(tag)])
}

/// A book of replica 2 among 4 with two heights, led by 0 and 1; the leader's page 1 of height 1 is held.
fn with_one_page() -> Vec<u8> {
    let mut book = new_book(4, 2, &[0, 1]);
    deliver_all(&mut book, &[proposal(0, &page(1, 1))]);
    book
}

/// A book in which the leader's second page of height 1 came too.
fn with_two_pages() -> Vec<u8> {
    let mut book = with_one_page();
    fires_the_timer(&mut book, &proposal(0, &page(1, 2)));
    book
}

/// A delivery that must be fresh and add flag 1, and change nothing else.
#[track_caller]
fn fires_the_timer(book: &mut [u8], frame: &FrameBytes) {
    let mut expected = book.to_vec();
    assert_eq!(expected[FLAGS] & TIMER_FIRED, 0);
    expected[FLAGS] += TIMER_FIRED;
    assert_eq!(RULES.deliver(book, frame), Ok(Fresh));
    assert_eq!(book, expected);
}

/// A delivery that gets this answer and changes nothing.
#[track_caller]
fn changes_nothing(book: &mut [u8], frame: &FrameBytes, answer: Result<reference::Delivered, u8>) {
    let before = book.to_vec();
    assert_eq!(RULES.deliver(book, frame), answer);
    assert_eq!(book, before);
}

fn pass(height: Height, certificate: Certificate, finalized: bool) -> Move {
    Move::Pass { height, certificate, finalized }
}

#[test]
fn a_second_page_at_the_current_height_fires_the_timer() {
    let mut book = with_one_page();
    fires_the_timer(&mut book, &proposal(0, &page(1, 2)));
    let held = body(&book, 1);
    assert_eq!(book[held..held + 176], page(1, 1));
}

#[test]
fn the_same_page_again_does_not() {
    changes_nothing(&mut with_one_page(), &proposal(0, &page(1, 1)), Ok(Known));
}

/// Any byte of a page makes it another one: count, entries, back height or back digest.
#[test]
fn pages_that_differ_in_one_field_are_two() {
    let other = block(2, 1, ZERO, &[[0; 16]]);
    let mut last_byte = other;
    last_byte[63] ^= 1;
    for second in [
        block(2, 1, ZERO, &[]),
        block(2, 1, [8; 32], &[[0; 16]]),
        block(2, 0, ZERO, &[[0; 16]]),
        last_byte,
    ] {
        let mut book = new_book(4, 2, &[0, 1]);
        book[CURRENT] = 2;
        deliver_all(&mut book, &[proposal(1, &other)]);
        fires_the_timer(&mut book, &proposal(1, &second));
    }
}

#[test]
fn every_other_flag_is_kept() {
    for flags in (0..16).filter(|flags| flags & TIMER_FIRED == 0) {
        let mut book = with_one_page();
        book[FLAGS] = flags;
        fires_the_timer(&mut book, &proposal(0, &page(1, 2)));
        changes_nothing(&mut book, &proposal(0, &page(1, 2)), Ok(Known));
    }
}

#[test]
fn what_comes_before_it_is_refused_as_ever() {
    let mut book = with_one_page();
    let mut spoilt = proposal(0, &page(1, 2));
    spoilt[UNUSED] = 1;
    changes_nothing(&mut book, &spoilt, Err(4));
    changes_nothing(&mut book, &proposal(4, &page(1, 2)), Err(5));
    changes_nothing(&mut book, &proposal(1, &page(1, 2)), Err(7));
    book[63] = 1;
    changes_nothing(&mut book, &proposal(0, &page(1, 2)), Err(1));
}

#[test]
fn the_first_page_is_held_whatever_is_notarized() {
    let mut book = new_book(4, 2, &[0]);
    deliver_all(&mut book, &[block_certificate(7, &page(1, 1)), proposal(0, &page(1, 2))]);
    assert_eq!(book[FLAGS], 0);
    let held = body(&book, 1);
    assert_eq!(book[held..held + 176], page(1, 2));
}

#[test]
fn it_is_compared_with_the_held_page_and_not_with_the_notarized_one() {
    let mut book = new_book(4, 2, &[0]);
    deliver_all(&mut book, &[block_certificate(7, &page(1, 1)), proposal(0, &page(1, 2))]);
    changes_nothing(&mut book, &proposal(0, &page(1, 2)), Ok(Known));
    fires_the_timer(&mut book, &proposal(0, &page(1, 1)));
}

/// A book at height 1 with one page, and the certificates that make the height notarized, linked, settled or a dummy.
fn certified(certificates: &[FrameBytes]) -> Vec<u8> {
    let mut book = with_one_page();
    deliver_all(&mut book, certificates);
    book
}

#[test]
fn a_height_that_could_be_passed_is_no_exception() {
    let linked = block_certificate(7, &page(1, 1));
    let in_the_air = block_certificate(7, &block(2, 1, [5; 32], &[]));
    for certificates in [
        &[linked][..],
        &[linked, finalize_certificate(7, 1)],
        &[dummy_certificate(7, 1)],
        &[dummy_certificate(7, 1), linked],
        &[linked, in_the_air],
    ] {
        fires_the_timer(&mut certified(certificates), &proposal(0, &page(1, 2)));
    }
    let mut book = new_book(4, 2, &[0, 1]);
    book[CURRENT] = 2;
    deliver_all(&mut book, &[in_the_air, proposal(1, &page(2, 1))]);
    fires_the_timer(&mut book, &proposal(1, &page(2, 2)));
}

#[test]
fn the_pass_that_follows_does_not_finalize() {
    let cases = [
        (block_certificate(7, &page(1, 1)), Certificate::Block),
        (dummy_certificate(7, 1), Certificate::Dummy),
    ];
    for (frame, certificate) in cases {
        let mut book = certified(&[frame]);
        assert_eq!(one_move(&mut book.clone()).0, pass(1, certificate, true));
        fires_the_timer(&mut book, &proposal(0, &page(1, 2)));
        let (made, reply) = one_move(&mut book);
        assert_eq!(made, Move::Dummy { height: 1 });
        assert_eq!(reply[..224], dummy_vote(2, 1));
        let (made, reply) = one_move(&mut book);
        assert_eq!(made, pass(1, certificate, false));
        assert_eq!(reply[..224], frame);
        assert_eq!(reply[224..], [0; 224]);
        assert_eq!((book[FLAGS], book[CURRENT]), (0, 2));
    }
}

#[test]
fn the_dummy_vote_follows_with_no_signal() {
    let mut book = with_two_pages();
    let (made, reply) = one_move(&mut book);
    assert_eq!(made, Move::Dummy { height: 1 });
    assert_eq!(reply[..224], dummy_vote(2, 1));
    assert_eq!(book[FLAGS], TIMER_FIRED | DUMMY_VOTED);
}

/// The first page is voted for all the same, before or after: the paper allows both votes.
#[test]
fn the_held_page_still_gets_its_vote() {
    let mut book = with_two_pages();
    assert_eq!(one_move(&mut book).0, Move::Dummy { height: 1 });
    let (made, reply) = one_move(&mut book);
    assert_eq!(made, Move::Vote { height: 1 });
    assert_eq!(reply[..224], vote_for(2, &page(1, 1)));
    let mut book = with_one_page();
    assert_eq!(moves(&mut book), [Move::Vote { height: 1 }]);
    fires_the_timer(&mut book, &proposal(0, &page(1, 2)));
    assert_eq!(moves(&mut book), [Move::Dummy { height: 1 }]);
    assert_eq!(book[FLAGS], TIMER_FIRED | DUMMY_VOTED | BLOCK_VOTED);
}

#[test]
fn above_the_current_height_it_is_refused_and_forgotten() {
    let mut book = new_book(4, 2, &[0, 1]);
    deliver_all(&mut book, &[proposal(1, &page(2, 1))]);
    changes_nothing(&mut book, &proposal(1, &page(2, 2)), Err(8));
    deliver_all(&mut book, &[dummy_certificate(7, 1)]);
    assert_eq!(one_move(&mut book).0, pass(1, Certificate::Dummy, true));
    assert_eq!((book[FLAGS], book[CURRENT]), (0, 2));
    assert_eq!(one_move(&mut book).0, Move::Vote { height: 2 });
    fires_the_timer(&mut book, &proposal(1, &page(2, 2)));
}

#[test]
fn below_the_current_height_it_is_refused() {
    let mut book = with_one_page();
    deliver_all(&mut book, &[dummy_certificate(7, 1)]);
    moves(&mut book);
    assert_eq!(book[CURRENT], 2);
    changes_nothing(&mut book, &proposal(0, &page(1, 2)), Err(8));
    deliver_all(&mut book, &[proposal(1, &page(2, 1))]);
    changes_nothing(&mut book, &proposal(0, &page(1, 2)), Err(8));
}

#[test]
fn past_the_last_height_it_is_refused_everywhere() {
    let mut book = new_book(4, 2, &[0, 1]);
    deliver_all(&mut book, &[proposal(0, &page(1, 1)), proposal(1, &page(2, 1))]);
    deliver_all(&mut book, &[1, 2].map(|height| dummy_certificate(7, height)));
    moves(&mut book);
    assert_eq!(book[CURRENT], 3);
    changes_nothing(&mut book, &proposal(0, &page(1, 2)), Err(8));
    changes_nothing(&mut book, &proposal(1, &page(2, 2)), Err(8));
}

#[test]
fn a_third_page_and_the_second_again_are_known() {
    let mut book = with_two_pages();
    for tag in [2, 3, 1] {
        changes_nothing(&mut book, &proposal(0, &page(1, tag)), Ok(Known));
    }
    moves(&mut book);
    changes_nothing(&mut book, &proposal(0, &page(1, 3)), Ok(Known));
}

#[test]
fn after_a_signal_every_second_page_is_known() {
    let mut book = with_one_page();
    RULES.signal(&mut book, 1).unwrap();
    changes_nothing(&mut book, &proposal(0, &page(1, 2)), Ok(Known));
    assert_eq!(one_move(&mut book).0, Move::Dummy { height: 1 });
    changes_nothing(&mut book, &proposal(0, &page(1, 3)), Ok(Known));
}

#[test]
fn a_signal_after_it_is_14() {
    let mut book = with_two_pages();
    let before = book.clone();
    assert_eq!(RULES.signal(&mut book, 1), Err(14));
    assert_eq!(book, before);
}

/// Sound, though no calls lead there: the dummy vote is cast and the timer has not fired.
#[test]
fn with_flag_2_alone_there_is_no_second_dummy_vote() {
    let mut book = with_one_page();
    book[FLAGS] = DUMMY_VOTED | BLOCK_VOTED;
    fires_the_timer(&mut book, &proposal(0, &page(1, 2)));
    assert_eq!(moves(&mut book), []);
    deliver_all(&mut book, &[dummy_certificate(7, 1)]);
    assert_eq!(moves(&mut book), [pass(1, Certificate::Dummy, false)]);
}

/// A leader whose own book gets a page that it did not offer, with its signature.
#[test]
fn the_leaders_own_book_is_no_exception() {
    let mut book = new_book(4, 2, &[2]);
    let (made, reply) = one_move(&mut book);
    assert_eq!(made, Move::Offer { height: 1 });
    deliver_all(&mut book, &[reply[..224].try_into().unwrap()]);
    fires_the_timer(&mut book, &proposal(2, &page(1, 2)));
    assert_eq!(book[FLAGS], TIMER_FIRED | PROPOSED);
}

#[test]
fn a_second_block_vote_is_refused_at_the_current_height_too() {
    let mut book = with_one_page();
    deliver_all(&mut book, &[vote_for(0, &page(1, 1))]);
    changes_nothing(&mut book, &vote_for(0, &page(1, 2)), Err(8));
}

#[test]
fn a_packet_takes_two_pages_as_two_deliveries() {
    let mut book = new_book(4, 2, &[0, 1]);
    let frames = [proposal(0, &page(1, 1)), proposal(0, &page(1, 2))];
    let counts = RULES.packet(&mut book, &frames.concat());
    assert_eq!(counts, Ok(Counts { fresh: 2, known: 0, refused: 0 }));
    assert_eq!(book, with_two_pages());
    let more = [
        proposal(0, &page(1, 3)),
        proposal(0, &page(1, 2)),
        proposal(1, &page(2, 1)),
        proposal(1, &page(2, 2)),
    ];
    let counts = RULES.packet(&mut book, &more.concat());
    assert_eq!(counts, Ok(Counts { fresh: 1, known: 2, refused: 1 }));
    let mut expected = with_two_pages();
    deliver_all(&mut expected, &more[2..3]);
    assert_eq!(book, expected);
}
