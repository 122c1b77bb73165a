//! Observers' books for the tests: where their bytes are, and their calls in short.

use super::{weight_bytes, FrameBytes, Height, RULES};
use reference::{observer_book_length, Delivered, Move};

/// A new observer's book.
pub fn new_observer(n: u64, heights: Height) -> Vec<u8> {
    weighed_observer(&vec![1; n as usize], heights)
}

/// A new observer's book over replicas of these weights.
pub fn weighed_observer(weights: &[u16], heights: Height) -> Vec<u8> {
    let mut book = vec![0xee; observer_book_length(heights)];
    let n = weights.len() as u64;
    RULES.observer_open(&mut book, n, heights.into(), &weight_bytes(weights)).unwrap();
    book
}

/// Where the row of a height begins.
pub fn observer_row(height: usize) -> usize {
    64 + 8 * (height - 1)
}

/// Where the notarized block of a height begins.
pub fn observer_page(book: &[u8], height: usize) -> usize {
    64 + 8 * super::heights_of(book) + 176 * (height - 1)
}

/// Delivers certificates that must all be fresh.
pub fn observe_all(book: &mut [u8], frames: &[FrameBytes]) {
    for frame in frames {
        assert_eq!(RULES.observer_deliver(book, frame), Ok(Delivered::Fresh));
    }
}

/// Moves until idle.
pub fn observer_moves(book: &mut [u8]) -> Vec<Move> {
    let made = std::iter::repeat_with(|| RULES.observer_move(book).unwrap());
    made.take_while(|&made| made != Move::Idle).take(1000).collect()
}

/// Whether an observer's book is sound, by the call that has no other refusal.
pub fn is_sound_observer(book: &[u8]) -> bool {
    match RULES.observer_size(book) {
        Ok(_) => true,
        Err(number) => {
            assert_eq!(number, 1);
            false
        }
    }
}

/// The log that an observer reads, as bytes.
pub fn observed_log(book: &[u8]) -> Vec<u8> {
    let mut buffer = vec![0; 128_000];
    RULES.observer_read(book, &mut buffer).to_vec()
}
