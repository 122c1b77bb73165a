//! Deliver: taking one certificate into an observer's book.

use super::state::Observed;
use crate::block::Block;
use crate::deliver::{join, known_if, require};
use crate::frame::{Frame, Statement};
use crate::state::NOTARIZED;
use crate::{quorum, refusal, Delivered, Rules};

impl Rules {
    /// Takes a certificate whose signatures the host has checked.
    ///
    /// Refuses with 1, 4, 16, 6, 5, 9, 10 in this order.
    pub fn observer_deliver(&self, book: &mut [u8], frame: &[u8]) -> Result<Delivered, u8> {
        let mut state = self.observer_sound(book)?;
        let frame = Frame::read(frame).ok_or(refusal::MALFORMED)?;
        let mask = signers(&frame).ok_or(refusal::NOT_A_CERTIFICATE)?;
        let (n, weights) = (state.head.n, state.head.weights);
        let slot = state.slot_mut(frame.height).ok_or(refusal::NO_SUCH_HEIGHT)?;
        require(quorum::is_within(mask, n), refusal::NO_SUCH_REPLICA)?;
        require(quorum::is_quorum(mask, &weights), refusal::NO_QUORUM)?;
        let answer = match frame.statement {
            Statement::BlockCertificate { block, .. } => slot.take_block(mask, block),
            Statement::DummyCertificate { .. } => Ok(join(&mut slot.dummies, mask)),
            Statement::FinalizeCertificate { .. } => Ok(join(&mut slot.finalizes, mask)),
            _ => Err(refusal::NOT_A_CERTIFICATE),
        }?;
        state.store(book);
        Ok(answer)
    }
}

/// The mask of a certificate; none for a statement of a single signer.
fn signers(frame: &Frame) -> Option<u16> {
    match frame.statement {
        Statement::BlockCertificate { mask, .. }
        | Statement::DummyCertificate { mask }
        | Statement::FinalizeCertificate { mask } => Some(mask),
        Statement::Proposal { .. }
        | Statement::BlockVote { .. }
        | Statement::DummyVote { .. }
        | Statement::Finalize { .. } => None,
    }
}

impl Observed {
    /// Takes over the first certified block, with its mask; the same one again is known, whoever signed it.
    fn take_block(&mut self, mask: u16, block: &Block) -> Result<Delivered, u8> {
        if let Some(notarized) = self.notarized() {
            return known_if(notarized == block, refusal::OTHER_BLOCK);
        }
        self.block = *block;
        self.certificate = mask;
        self.marks = NOTARIZED;
        Ok(Delivered::Fresh)
    }
}
