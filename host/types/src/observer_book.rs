//! An observer's book that owns its bytes, over any implementation of the calls.

use crate::refusal::Refusal;
use crate::{
    field, head_height, observer_book_length, weight_bytes, Calls, Delivered, Height, Move,
    Weights, ENTRY,
};

/// The bytes of an observer's book together with what works on them. An observer has no vote: it is given certificates,
/// follows the log, and says nothing.
#[derive(Clone, Debug)]
pub struct ObserverBook<C> {
    calls: C,
    bytes: Vec<u8>,
}

impl<C: Calls> ObserverBook<C> {
    /// A new book over `n` replicas and so many heights; the weights are one for each replica.
    pub fn open(
        calls: C,
        n: u64,
        heights: Height,
        weights: &[u16],
    ) -> Result<ObserverBook<C>, Refusal> {
        let mut bytes = vec![0; observer_book_length(heights)];
        let opened = calls.observer_open(&mut bytes, n, heights.into(), &weight_bytes(weights));
        opened.map_err(Refusal::of)?;
        Ok(ObserverBook { calls, bytes })
    }

    /// A book kept elsewhere, as bytes; [`Refusal::Unsound`] if they are no sound observer's book.
    pub fn from_bytes(calls: C, bytes: Vec<u8>) -> Result<ObserverBook<C>, Refusal> {
        calls.observer_size(&bytes).map_err(Refusal::of)?;
        Ok(ObserverBook { calls, bytes })
    }

    /// The bytes of the book, to be kept.
    pub fn bytes(&self) -> &[u8] {
        &self.bytes
    }

    /// The number of replicas.
    pub fn n(&self) -> u8 {
        self.bytes.get(field::N).copied().unwrap_or(0)
    }

    /// The weights of the replicas as read: all 1 in a book of the first edition.
    pub fn weights(&self) -> Weights {
        Weights::of(&self.bytes)
    }

    /// The number of heights, H.
    pub fn heights(&self) -> Height {
        head_height(&self.bytes, field::HEIGHTS)
    }

    /// The finalized height, g (document 01: settled height).
    pub fn finalized(&self) -> Height {
        head_height(&self.bytes, field::FINALIZED)
    }

    /// Takes a certificate whose signatures hold; [`Refusal::NotACertificate`] for any other frame of the right form.
    pub fn deliver(&mut self, frame: &[u8]) -> Result<Delivered, Refusal> {
        self.calls.observer_deliver(&mut self.bytes, frame).map_err(Refusal::of)
    }

    /// Lets the finalized height follow the certificates: [`Move::Final`] with the new one, or [`Move::Idle`].
    pub fn make_move(&mut self) -> Result<Move, Refusal> {
        self.calls.observer_move(&mut self.bytes).map_err(Refusal::of)
    }

    /// The log as a list of entries (document 01: the register): each entry of the settled chain once, at its first
    /// place.
    pub fn log(&self) -> Result<Vec<[u8; ENTRY]>, Refusal> {
        let size = self.calls.observer_size(&self.bytes).map_err(Refusal::of)?;
        let mut buffer = vec![0; usize::try_from(size).unwrap_or(0)];
        let part = self.calls.observer_read(&self.bytes, &mut buffer);
        buffer.truncate(usize::try_from(part).unwrap_or(0));
        Ok(buffer.as_chunks::<ENTRY>().0.to_vec())
    }
}
