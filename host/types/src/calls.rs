//! The calls of a replica and of an observer over byte slices, as one trait that each implementation fulfils.

use crate::{Counts, Delivered, Move};

/// A replica's calls, then those of an observer: with the number of heights that its head says, no book has the length
/// of both, so that a replica's call finds an observer's book not sound, and the other way round. An error is the
/// number of a refusal; a refused call changes no byte.
pub trait Calls {
    /// Makes a new book. The weights are two bytes for each replica, the low one first ([`crate::weight_bytes`]): 2, 1.
    fn open(
        &self,
        book: &mut [u8],
        n: u64,
        own: u64,
        heights: u64,
        weights: &[u8],
        leaders: &[u8],
    ) -> Result<(), u8>;

    /// Takes a frame into the book: 1, 4, 6, 5, 7, 9, 8, 10. A second, different proposal of the current height's
    /// leader is not refused: it fires the timer.
    fn deliver(&self, book: &mut [u8], frame: &[u8]) -> Result<Delivered, u8>;

    /// Takes the frames of a packet in order, each by itself, and counts what became of them: 1, 15.
    fn packet(&self, book: &mut [u8], packet: &[u8]) -> Result<Counts, u8>;

    /// Makes the first move that applies and writes its frames to the reply's front: 1, 3.
    fn make_move(&self, book: &mut [u8], reply: &mut [u8]) -> Result<Move, u8>;

    /// Tells that the timer of a height fired: 1, 6, 14.
    fn signal(&self, book: &mut [u8], height: u64) -> Result<(), u8>;

    /// Adds a pending entry: 1, 4, 13, 12.
    fn submit(&self, book: &mut [u8], entry: &[u8]) -> Result<(), u8>;

    /// The length of the log in bytes (document 01: register size); an entry that equals an earlier one of its chain is
    /// not counted: 1.
    fn size(&self, book: &[u8]) -> Result<u64, u8>;

    /// Writes the log to the buffer's front, each entry once and at its first place, and counts its bytes; 0, and
    /// nothing written, where it cannot.
    fn read(&self, book: &[u8], buffer: &mut [u8]) -> u64;

    /// Writes a certificate of kind 5, 6 or 7 to the reply's front: 1, 4, 6, 3, 11.
    fn fetch(&self, book: &[u8], kind: u64, height: u64, reply: &mut [u8]) -> Result<(), u8>;

    /// Makes a new observer's book, with weights as [`Calls::open`] takes them: 2, 1.
    fn observer_open(
        &self,
        book: &mut [u8],
        n: u64,
        heights: u64,
        weights: &[u8],
    ) -> Result<(), u8>;

    /// Takes a certificate into an observer's book: 1, 4, 16, 6, 5, 9, 10.
    fn observer_deliver(&self, book: &mut [u8], frame: &[u8]) -> Result<Delivered, u8>;

    /// Makes the one move that an observer has, [`Move::Final`], or is idle; nothing is written but the book: 1.
    fn observer_move(&self, book: &mut [u8]) -> Result<Move, u8>;

    /// The length in bytes of the log that an observer reads, in which each entry counts once too: 1.
    fn observer_size(&self, book: &[u8]) -> Result<u64, u8>;

    /// Writes that log to the buffer's front and counts its bytes; 0, and nothing written, where it cannot.
    fn observer_read(&self, book: &[u8], buffer: &mut [u8]) -> u64;
}
