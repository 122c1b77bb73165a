//! What each kind of frame does to the book.

use crate::common::*;
use reference::Delivered::{Fresh, Known};

/// Bytes and where they stand in a book.
type Change<'a> = (usize, &'a [u8]);

/// Delivers a frame twice: fresh and then known, with no more change.
#[track_caller]
fn fresh_then_known(book: &mut [u8], frame: &FrameBytes) {
    let before = book.to_vec();
    assert_eq!(RULES.deliver(book, frame), Ok(Fresh));
    assert_ne!(book, before);
    let after = book.to_vec();
    assert_eq!(RULES.deliver(book, frame), Ok(Known));
    assert_eq!(book, after);
}

/// The book with some bytes replaced.
fn changed(book: &[u8], changes: &[Change]) -> Vec<u8> {
    let mut book = book.to_vec();
    for (at, bytes) in changes {
        book[*at..at + bytes.len()].copy_from_slice(bytes);
    }
    book
}

#[test]
fn statements_of_one_signer() {
    let start = new_book(4, 2, &[0, 1]);
    let block = block(2, 0, ZERO, &[entry(1)]);
    let (row, body) = (row(2), body(&start, 2));
    let cases: [(FrameBytes, &[Change]); 4] = [
        (proposal(1, &block), &[(row + 1, &[1]), (body, &block)]),
        (block_vote(3, 2, [7; 32]), &[(row + 8, &[8]), (body + 352 + 96, &[7; 32])]),
        (dummy_vote(3, 2), &[(row + 4, &[8])]),
        (finalize(1, 2), &[(row + 6, &[2])]),
    ];
    for (frame, changes) in cases {
        let mut book = start.clone();
        fresh_then_known(&mut book, &frame);
        assert_eq!(book, changed(&start, changes));
    }
}

#[test]
fn certificates() {
    let start = new_book(4, 2, &[0, 1]);
    let block = block(2, 0, ZERO, &[entry(1)]);
    let (row, body) = (row(2), body(&start, 2));
    let cases: [(FrameBytes, &[Change]); 3] = [
        (block_certificate(13, &block), &[(row + 1, &[2, 13]), (body + 176, &block)]),
        (dummy_certificate(7, 2), &[(row + 4, &[7])]),
        (finalize_certificate(14, 2), &[(row + 6, &[14])]),
    ];
    for (frame, changes) in cases {
        let mut book = start.clone();
        fresh_then_known(&mut book, &frame);
        assert_eq!(book, changed(&start, changes));
    }
}

#[test]
fn masks_are_joined() {
    let mut book = new_book(4, 2, &[0]);
    for (frame, at) in [
        (dummy_certificate as fn(u16, Height) -> FrameBytes, row(1) + 4),
        (finalize_certificate, row(1) + 6),
    ] {
        fresh_then_known(&mut book, &frame(7, 1));
        fresh_then_known(&mut book, &frame(14, 1));
        assert_eq!(book[at], 15);
        assert_eq!(RULES.deliver(&mut book, &frame(11, 1)), Ok(Known));
    }
    assert_eq!(RULES.deliver(&mut book, &dummy_vote(0, 1)), Ok(Known));
    assert_eq!(RULES.deliver(&mut book, &finalize(3, 1)), Ok(Known));
}

#[test]
fn the_same_certified_block_keeps_its_mask() {
    let mut book = new_book(4, 2, &[0]);
    let block = block(1, 0, ZERO, &[]);
    deliver_all(&mut book, &[block_certificate(7, &block)]);
    let before = book.clone();
    assert_eq!(RULES.deliver(&mut book, &block_certificate(15, &block)), Ok(Known));
    assert_eq!(book, before);
}

#[test]
fn votes_then_proposal_notarize() {
    let mut book = new_book(4, 2, &[0]);
    let block = block(1, 0, ZERO, &[entry(1)]);
    deliver_all(&mut book, &[vote_for(1, &block), block_vote(0, 1, ZERO), vote_for(3, &block)]);
    deliver_all(&mut book, &[vote_for(2, &block)]);
    let before = book.clone();
    deliver_all(&mut book, &[proposal(0, &block)]);
    let start = body(&book, 1);
    let changes: [Change; 3] = [(row(1) + 1, &[3, 14]), (start, &block), (start + 176, &block)];
    assert_eq!(book, changed(&before, &changes));
}

#[test]
fn proposal_then_votes_notarize_once() {
    let mut book = new_book(4, 2, &[0]);
    let block = block(1, 0, ZERO, &[entry(1)]);
    deliver_all(&mut book, &[proposal(0, &block), vote_for(1, &block), vote_for(3, &block)]);
    assert_eq!(book[row(1) + 1..row(1) + 4], [1, 0, 0]);
    deliver_all(&mut book, &[vote_for(0, &block)]);
    assert_eq!(book[row(1) + 1..row(1) + 4], [3, 11, 0]);
    deliver_all(&mut book, &[vote_for(2, &block)]);
    assert_eq!(book[row(1) + 1..row(1) + 4], [3, 11, 0]);
    assert_eq!(book[row(1) + 8], 15);
}

#[test]
fn votes_alone_or_for_another_digest_do_not() {
    let mut book = new_book(4, 2, &[0]);
    let block = block(1, 0, ZERO, &[entry(1)]);
    deliver_all(&mut book, &[0, 1, 2, 3].map(|signer| block_vote(signer, 1, [3; 32])));
    deliver_all(&mut book, &[proposal(0, &block)]);
    assert_eq!(book[row(1) + 1..row(1) + 4], [1, 0, 0]);
}

#[test]
fn a_notarized_block_stays() {
    let mut book = new_book(4, 2, &[0]);
    let (one, two) = (block(1, 0, ZERO, &[entry(1)]), block(1, 0, ZERO, &[entry(2)]));
    deliver_all(&mut book, &[block_certificate(7, &one), proposal(0, &two)]);
    deliver_all(&mut book, &[vote_for(0, &two), vote_for(1, &two), vote_for(3, &two)]);
    assert_eq!(book[row(1) + 1..row(1) + 4], [3, 7, 0]);
    let start = body(&book, 1);
    assert_eq!((&book[start..start + 176], &book[start + 176..start + 352]), (&two[..], &one[..]));
}

#[test]
fn junk_in_free_areas_is_overwritten_only_where_needed() {
    let mut book = new_book(4, 2, &[0]);
    let start = body(&book, 1);
    book[start..].fill(0x5a);
    book[row(1) + 2] = 5;
    let before = book.clone();
    let block = block(1, 0, ZERO, &[entry(1)]);
    deliver_all(&mut book, &[proposal(0, &block)]);
    assert_eq!(book, changed(&before, &[(row(1) + 1, &[1]), (start, &block)]));
    let before = book.clone();
    deliver_all(&mut book, &[block_certificate(14, &block)]);
    assert_eq!(book, changed(&before, &[(row(1) + 1, &[3, 14]), (start + 176, &block)]));
}

#[test]
fn a_lone_replica_notarizes_by_its_own_vote() {
    let mut book = new_book(1, 0, &[0]);
    let block = block(1, 0, ZERO, &[]);
    deliver_all(&mut book, &[proposal(0, &block), vote_for(0, &block)]);
    assert_eq!(book[row(1) + 1..row(1) + 4], [3, 1, 0]);
}
