//! A book damaged for every row of soundness, and what a sound book may freely hold.

use crate::common::*;

/// Three heights: a finalized block at 1, a dummy at 2, a block on 1 at 3 with its proposal held.
fn full_book() -> Vec<u8> {
    let mut book = new_book(4, 3, &[0, 1, 2]);
    let first = block(1, 0, ZERO, &[entry(1), entry(2)]);
    let third = block_on(3, &first, &[entry(3)]);
    deliver_all(&mut book, &[block_certificate(7, &first), dummy_certificate(11, 2)]);
    deliver_all(&mut book, &[proposal(2, &third), block_certificate(13, &third)]);
    deliver_all(&mut book, &[finalize_certificate(14, 1), vote_for(1, &third)]);
    RULES.submit(&mut book, &entry(9)).unwrap();
    assert_eq!(one_move(&mut book).0, reference::Move::Final { height: 1 });
    assert!(is_sound(&book));
    book
}

/// The full book with one byte replaced.
fn with(at: usize, byte: u8) -> Vec<u8> {
    let mut book = full_book();
    book[at] = byte;
    book
}

#[track_caller]
fn assert_unsound(book: &[u8]) {
    assert!(!is_sound(book));
}

#[test]
fn length() {
    let book = full_book();
    for length in 0..book.len() {
        assert_unsound(&book[..length]);
    }
    assert_unsound(&[&book[..], &[0]].concat());
    assert_unsound(&[]);
}

#[test]
fn numbers_of_the_head() {
    for n in [0, 17, 255] {
        assert_unsound(&with(0, n));
    }
    for own in [4, 16, 255] {
        assert_unsound(&with(1, own));
    }
    for heights in [0, 1, 2, 4, 64, 255] {
        assert_unsound(&with(HEIGHTS, heights));
    }
    for current in [0, 5, 255] {
        assert_unsound(&with(CURRENT, current));
    }
    (16..=255).for_each(|flags| assert_unsound(&with(3, flags)));
    (33..=255).for_each(|pending| assert_unsound(&with(6, pending)));
    (4..=255).chain([0]).for_each(|edition| assert_unsound(&with(7, edition)));
}

#[test]
fn heights_out_of_range_with_a_fitting_length() {
    for heights in [0, 1001, 1024, 1256, 2000] {
        let mut book = new_book(4, 2, &[0]);
        book.resize(reference::book_length(heights), 0);
        put_height(&mut book[HEIGHTS..HEIGHTS + 2], heights);
        assert_unsound(&book);
    }
}

#[test]
fn leaders_masks_and_states() {
    for height in 1..=3 {
        assert_unsound(&with(row(height), 4));
        (4..=255).for_each(|state| assert_unsound(&with(row(height) + 1, state)));
        for mask in 0..4 {
            assert_unsound(&with(row(height) + 2 + 2 * mask, 0x1f));
            assert_unsound(&with(row(height) + 3 + 2 * mask, 1));
            assert_unsound(&with(row(height) + 3 + 2 * mask, 0x80));
        }
    }
}

#[test]
fn forms_of_blocks() {
    let (held, notarized) = (body(&full_book(), 3), body(&full_book(), 3) + 176);
    let zeros = HIGH_BYTES.into_iter().chain(5..16).chain(64..176);
    for start in [held, notarized] {
        assert_unsound(&with(start, 2));
        assert_unsound(&with(start + 2, 3));
        assert_unsound(&with(start + 4, 0));
        assert_unsound(&with(start + 4, 9));
        zeros.clone().for_each(|at| assert_unsound(&with(start + at, 1)));
    }
    let first = body(&full_book(), 1) + 176;
    (16..48).for_each(|at| assert_unsound(&with(first + at, 1)));
}

#[test]
fn certificate_of_a_notarized_block() {
    assert_unsound(&with(row(1) + 2, 3));
    assert_unsound(&with(row(3) + 2, 0));
    assert!(is_sound(&with(row(1) + 2, 15)));
    assert_unsound(&with(row(2) + 1, 2));
}

#[test]
fn bytes_called_zero() {
    (46..64).for_each(|at| assert_unsound(&with(at, 1)));
    for height in 1..=3 {
        (10..16).for_each(|at| assert_unsound(&with(row(height) + at, 0x40)));
    }
}

#[test]
fn finalized_height() {
    for height in [2, 3, 4, 255] {
        assert_unsound(&with(FINALIZED, height));
    }
    assert!(is_sound(&with(FINALIZED, 0)));
    assert_unsound(&with(row(1) + 6, 12));
    let mut book = full_book();
    deliver_all(&mut book, &[finalize_certificate(7, 3)]);
    book[FINALIZED] = 3;
    assert!(is_sound(&book));
    book[row(2) + 4] = 3;
    assert_unsound(&book);
    book[row(2) + 4] = 7;
    assert!(is_sound(&book));
    let third = body(&book, 3) + 176;
    book[third + 20] ^= 1;
    assert_unsound(&book);
}

#[test]
fn what_is_free() {
    let book = full_book();
    let unmarked_blocks =
        (body(&book, 2)..body(&book, 2) + 352).chain(body(&book, 1)..body(&book, 1) + 176);
    let votes = body(&book, 1) + 352..body(&book, 2);
    let places = PENDING..CONTENTS;
    for at in unmarked_blocks.chain(votes).chain(places) {
        assert!(is_sound(&with(at, 0xa5)), "byte {at}");
    }
    (0..16).for_each(|flags| assert!(is_sound(&with(3, flags))));
    (1..=4).for_each(|current| assert!(is_sound(&with(CURRENT, current))));
    (0..=32).for_each(|pending| assert!(is_sound(&with(6, pending))));
    assert!(is_sound(&with(row(2) + 2, 1)));
    assert!(is_sound(&with(row(1) + 8, 15)));
}
