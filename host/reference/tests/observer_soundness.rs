//! An observer's book damaged for every row of soundness, and what a sound one may freely hold.

use crate::common::observer::*;
use crate::common::*;

/// Three heights: a finalized block at 1, a dummy at 2, a block on 1 at 3.
fn full_book() -> Vec<u8> {
    let mut book = new_observer(4, 3);
    let first = block(1, 0, ZERO, &[entry(1), entry(2)]);
    let third = block_on(3, &first, &[entry(3)]);
    observe_all(&mut book, &[block_certificate(7, &first), dummy_certificate(11, 2)]);
    observe_all(&mut book, &[block_certificate(13, &third), finalize_certificate(14, 1)]);
    assert_eq!(observer_moves(&mut book), [reference::Move::Final { height: 1 }]);
    assert!(is_sound_observer(&book));
    book
}

/// The full book with one byte replaced.
fn with(at: usize, byte: u8) -> Vec<u8> {
    let mut book = full_book();
    book[at] = byte;
    book
}

#[track_caller]
fn assert_unsound(book: &[u8]) {
    assert!(!is_sound_observer(book));
}

#[test]
fn length() {
    let book = full_book();
    for length in 0..book.len() {
        assert_unsound(&book[..length]);
    }
    assert_unsound(&[&book[..], &[0]].concat());
}

#[test]
fn numbers_of_the_head() {
    for n in [0, 17, 255] {
        assert_unsound(&with(0, n));
    }
    for heights in [0, 1, 2, 4, 64, 255] {
        assert_unsound(&with(HEIGHTS, heights));
    }
    (4..=255).chain([0]).for_each(|edition| assert_unsound(&with(7, edition)));
}

/// Own number, flags, current height and pending count of a replica's head: every value but zero.
#[test]
fn bytes_that_a_replica_uses() {
    for at in [1, FLAGS, CURRENT, CURRENT + 1, 6] {
        (1..=255).for_each(|byte| assert_unsound(&with(at, byte)));
    }
}

#[test]
fn heights_out_of_range_with_a_fitting_length() {
    for heights in [0, 1001, 1024, 1256, 2000] {
        let mut book = new_observer(4, 1);
        book.resize(reference::observer_book_length(heights), 0);
        put_height(&mut book[HEIGHTS..HEIGHTS + 2], heights);
        assert_unsound(&book);
    }
}

#[test]
fn masks_and_states() {
    for height in 1..=3 {
        let states = (0..=255).filter(|state| ![0, 2].contains(state));
        states.for_each(|state| assert_unsound(&with(observer_row(height), state)));
        for mask in 0..3 {
            assert_unsound(&with(observer_row(height) + 2 + 2 * mask, 0x1f));
            assert_unsound(&with(observer_row(height) + 3 + 2 * mask, 1));
            assert_unsound(&with(observer_row(height) + 3 + 2 * mask, 0x80));
        }
    }
}

#[test]
fn form_of_a_notarized_block() {
    let third = observer_page(&full_book(), 3);
    assert_unsound(&with(third, 2));
    assert_unsound(&with(third + 2, 3));
    assert_unsound(&with(third + 4, 0));
    assert_unsound(&with(third + 4, 9));
    let zeros = HIGH_BYTES.into_iter().chain(5..16).chain(64..176);
    zeros.for_each(|at| assert_unsound(&with(third + at, 1)));
    let first = observer_page(&full_book(), 1);
    (16..48).for_each(|at| assert_unsound(&with(first + at, 1)));
}

#[test]
fn certificate_of_a_notarized_block() {
    assert_unsound(&with(observer_row(1) + 2, 3));
    assert_unsound(&with(observer_row(3) + 2, 0));
    assert!(is_sound_observer(&with(observer_row(1) + 2, 15)));
    assert_unsound(&with(observer_row(2), 2));
}

#[test]
fn bytes_called_zero() {
    (46..64).for_each(|at| assert_unsound(&with(at, 1)));
    (1..=3).for_each(|height| assert_unsound(&with(observer_row(height) + 1, 0x40)));
}

#[test]
fn finalized_height() {
    for height in [2, 3, 4, 255] {
        assert_unsound(&with(FINALIZED, height));
    }
    assert!(is_sound_observer(&with(FINALIZED, 0)));
    assert_unsound(&with(observer_row(1) + 6, 12));
    let mut book = full_book();
    observe_all(&mut book, &[finalize_certificate(7, 3)]);
    book[FINALIZED] = 3;
    assert!(is_sound_observer(&book));
    book[observer_row(2) + 4] = 3;
    assert_unsound(&book);
    book[observer_row(2) + 4] = 7;
    assert!(is_sound_observer(&book));
    let third = observer_page(&book, 3);
    book[third + 20] ^= 1;
    assert_unsound(&book);
}

#[test]
fn what_is_free() {
    let book = full_book();
    let second = observer_page(&book, 2);
    for at in second..second + 176 {
        assert!(is_sound_observer(&with(at, 0xa5)), "byte {at}");
    }
    for mask in 0..16 {
        assert!(is_sound_observer(&with(observer_row(2) + 2, mask)));
        assert!(is_sound_observer(&with(observer_row(2) + 4, mask)));
        assert!(is_sound_observer(&with(observer_row(3) + 6, mask)));
    }
}
