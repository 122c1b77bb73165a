//! Fetch: the certificates that a book holds.

use crate::frame::{Frame, Statement, FRAME};
use crate::height::Height;
use crate::state::State;
use crate::{quorum, refusal, Rules};

impl Rules {
    /// Writes the certificate of a kind from 5 to 7 for a height to the front of the reply.
    ///
    /// Refuses with 1, 4, 6, 3, 11 in this order.
    pub fn fetch(&self, book: &[u8], kind: u64, height: u64, reply: &mut [u8]) -> Result<(), u8> {
        let state = self.sound(book)?;
        let kind = u8::try_from(kind).ok().filter(|kind| (5..=7).contains(kind));
        let kind = kind.ok_or(refusal::MALFORMED)?;
        let height = state.known_height(height).ok_or(refusal::NO_SUCH_HEIGHT)?;
        let first = reply.first_chunk_mut::<FRAME>().ok_or(refusal::SHORT_REPLY)?;
        state.certificate(kind, height).ok_or(refusal::NO_CERTIFICATE)?.write(first);
        Ok(())
    }
}

impl State {
    /// The height in its own type, if it is one of the book's.
    pub fn known_height(&self, height: u64) -> Option<Height> {
        let height = Height::try_from(height).ok()?;
        self.slot(height).map(|_| height)
    }

    /// The certificate of a kind for a height, if the book has a quorum for it.
    pub fn certificate(&self, kind: u8, height: Height) -> Option<Frame<'_>> {
        let slot = self.slot(height)?;
        let (mask, statement) = match kind {
            5 => {
                let (mask, block) = (slot.certificate, slot.notarized()?);
                (mask, Statement::BlockCertificate { mask, block })
            }
            6 => (slot.dummies, Statement::DummyCertificate { mask: slot.dummies }),
            7 => (slot.finalizes, Statement::FinalizeCertificate { mask: slot.finalizes }),
            _ => return None,
        };
        quorum::is_quorum(mask, &self.head.weights).then_some(Frame { height, statement })
    }
}
