//! Packets: the counts, the book afterwards, and what is refused before any frame.

use crate::common::random::Random;
use crate::common::random_book::{random_block, random_book, random_mask};
use crate::common::*;
use reference::Delivered::{Fresh, Known};
use reference::{sha256, Counts};

/// The counts of a packet that is not refused.
fn counts(fresh: u64, known: u64, refused: u64) -> Result<Counts, u8> {
    Ok(Counts { fresh, known, refused })
}

/// Delivers each frame by itself and counts.
fn one_by_one(book: &mut [u8], frames: &[FrameBytes]) -> Counts {
    let mut counts = Counts::default();
    for frame in frames {
        match RULES.deliver(book, frame) {
            Ok(Fresh) => counts.fresh += 1,
            Ok(Known) => counts.known += 1,
            Err(_) => counts.refused += 1,
        }
    }
    counts
}

/// Delivers frames as a packet: counts and book must be those of delivering each by itself.
#[track_caller]
fn as_one_by_one(book: &mut [u8], frames: &[FrameBytes]) -> Result<Counts, u8> {
    let mut other = book.to_vec();
    let expected = one_by_one(&mut other, frames);
    let answer = RULES.packet(book, &frames.concat());
    assert_eq!(answer, Ok(expected));
    assert_eq!(book, other);
    let Counts { fresh, known, refused } = expected;
    assert_eq!(fresh + known + refused, frames.len() as u64);
    answer
}

/// Delivers the frames of a packet singly after it: those that it took are known, the others refused again.
#[track_caller]
fn singly_afterwards(book: &mut [u8], frames: &[FrameBytes], counted: Counts) {
    let Counts { fresh, known, refused } = counted;
    let again = Counts { fresh: 0, known: fresh + known, refused };
    assert_eq!(one_by_one(book, frames), again);
}

/// A packet that must be refused, and change nothing.
#[track_caller]
fn refused(book: &[u8], packet: &[u8]) -> u8 {
    let mut after = book.to_vec();
    let number = RULES.packet(&mut after, packet).unwrap_err();
    assert_eq!(after, book);
    number
}

#[test]
fn an_empty_packet_counts_nothing() {
    let mut book = new_book(4, 2, &[0]);
    let before = book.clone();
    assert_eq!(RULES.packet(&mut book, &[]), counts(0, 0, 0));
    assert_eq!(book, before);
}

#[test]
fn a_refused_frame_is_counted_and_the_rest_goes_on() {
    let mut book = new_book(4, 2, &[0]);
    let frames = [dummy_vote(9, 1), dummy_vote(0, 1), dummy_vote(0, 2), dummy_vote(1, 1)];
    assert_eq!(as_one_by_one(&mut book, &frames), counts(2, 0, 2));
    assert_eq!(book[row(1) + 4], 3);
}

#[test]
fn each_frame_meets_the_book_that_those_before_it_left() {
    let mut book = new_book(4, 2, &[0]);
    let votes = [block_vote(1, 1, [1; 32]), block_vote(1, 1, [2; 32]), block_vote(1, 1, [1; 32])];
    assert_eq!(as_one_by_one(&mut book, &votes), counts(1, 1, 1));
    let mut book = new_book(4, 2, &[0]);
    let page = block(1, 0, ZERO, &[entry(1)]);
    let votes = [0, 1, 3].map(|signer| vote_for(signer, &page));
    let frames = [&votes[..], &[proposal(0, &page), block_certificate(7, &page)]].concat();
    assert_eq!(as_one_by_one(&mut book, &frames), counts(4, 1, 0));
    assert_eq!(book[row(1) + 1..row(1) + 3], [3, 11]);
}

#[test]
fn counts_are_as_large_as_the_packet() {
    let mut book = new_book(4, 2, &[0]);
    assert_eq!(as_one_by_one(&mut book, &[dummy_vote(0, 1); 300]), counts(1, 299, 0));
    assert_eq!(as_one_by_one(&mut book, &vec![frame(8, 0, 1, 0); 70_000]), counts(0, 0, 70_000));
}

#[test]
fn number_15_an_uneven_length() {
    let book = new_book(4, 2, &[0]);
    let frames = [dummy_vote(0, 1), dummy_vote(1, 1)].concat();
    for length in [1, 223, 225, 447] {
        assert_eq!(refused(&book, &frames[..length]), 15);
    }
    assert_eq!(refused(&book, &[&frames[..], &[0]].concat()), 15);
    assert_eq!(RULES.packet(&mut book.clone(), &frames[..224]), counts(1, 0, 0));
    assert_eq!(RULES.packet(&mut book.clone(), &frames), counts(2, 0, 0));
}

#[test]
fn packet_1_then_15() {
    let mut book = new_book(4, 2, &[0]);
    book[63] = 1;
    for length in [0, 1, 224, 225] {
        assert_eq!(refused(&book, &dummy_vote(0, 1).repeat(2)[..length]), 1);
    }
    assert_eq!(refused(&[], &[]), 1);
}

/// A frame that a book of this kind may well take, or one with a byte changed.
fn any_frame(random: &mut Random, book: &[u8]) -> FrameBytes {
    let (n, heights) = (book[0], heights_of(book));
    let (signer, height) = (random.below(n.into()) as u8, 1 + random.below(heights) as Height);
    let page = random_block(book, random, height, sha256::digest);
    let mut frame = match random.below(7) {
        0 => proposal(book[row(height.into())], &page),
        1 => vote_for(signer, &page),
        2 => dummy_vote(signer, height),
        3 => finalize(signer, height),
        4 => block_certificate(random_mask(random, n), &page),
        5 => dummy_certificate(random_mask(random, n), height),
        _ => finalize_certificate(random_mask(random, n), height),
    };
    if random.one_in(6) {
        frame[random.below(6)] ^= 1 << random.below(8);
    }
    frame
}

#[test]
fn random_packets_on_random_books() {
    let mut random = Random::new(8);
    let mut sum = Counts::default();
    for _ in 0..2000 {
        let mut book = random_book(&mut random, sha256::digest);
        let mut frames: Vec<_> =
            (0..random.below(9)).map(|_| any_frame(&mut random, &book)).collect();
        if random.one_in(3) {
            frames.extend_from_within(..frames.len() / 2);
        }
        let counted = as_one_by_one(&mut book, &frames).unwrap();
        singly_afterwards(&mut book, &frames, counted);
        sum.fresh += counted.fresh;
        sum.known += counted.known;
        sum.refused += counted.refused;
        assert!(is_sound(&book));
    }
    let Counts { fresh, known, refused } = sum;
    assert!([fresh, known, refused].iter().all(|count| *count > 1000), "{sum}");
}
