//! What becomes of each frame of several, told beforehand on a copy of the book.

use crate::{Answered, Book, Calls, Evidence, ObserverBook, Refusal, FRAME};

impl<C: Calls + Clone> Book<C> {
    /// What [`Book::deliver`] answers to each frame, in order, with no move between two of them. This book stays as it
    /// is: the calls are made on a copy, so that each frame meets the book that those before it left.
    pub fn answers<'f>(&self, frames: impl IntoIterator<Item = &'f [u8]>) -> Vec<Answered> {
        let mut copy = self.clone();
        let deliver = |frame: &[u8]| {
            let answer = copy.deliver(frame);
            Answered { answer, evidence: Evidence::of(copy.bytes(), frame, answer) }
        };
        frames.into_iter().map(deliver).collect()
    }

    /// What becomes of each frame of a packet, which [`Book::deliver_packet`] only counts: ask before that call, or on
    /// the book as it was before it. Refused as the packet is. It takes the time of delivering the frames singly.
    pub fn packet_answers(&self, packet: &[u8]) -> Result<Vec<Answered>, Refusal> {
        self.clone().deliver_packet(packet)?;
        Ok(self.answers(packet.chunks(FRAME)))
    }
}

impl<C: Calls + Clone> ObserverBook<C> {
    /// What [`ObserverBook::deliver`] answers to each frame, in order; made on a copy.
    pub fn answers<'f>(&self, frames: impl IntoIterator<Item = &'f [u8]>) -> Vec<Answered> {
        let mut copy = self.clone();
        let deliver = |frame: &[u8]| {
            let answer = copy.deliver(frame);
            Answered { answer, evidence: Evidence::of(copy.bytes(), frame, answer) }
        };
        frames.into_iter().map(deliver).collect()
    }
}
