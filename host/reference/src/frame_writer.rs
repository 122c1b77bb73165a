//! Writing a frame into lent bytes.

use crate::frame::{Frame, FrameBytes, Statement};
use crate::height;

impl Frame<'_> {
    /// Writes all 224 bytes; what the kind does not use becomes zero.
    pub fn write(&self, to: &mut FrameBytes) {
        to.fill(0);
        to[0] = self.statement.kind();
        to[2..4].copy_from_slice(&height::to_bytes(self.height));
        match self.statement {
            Statement::Proposal { signer, block } => {
                to[1] = signer;
                to[48..].copy_from_slice(block);
            }
            Statement::BlockVote { signer, digest } => {
                to[1] = signer;
                to[16..48].copy_from_slice(digest);
            }
            Statement::DummyVote { signer } | Statement::Finalize { signer } => to[1] = signer,
            Statement::BlockCertificate { mask, block } => {
                to[4..6].copy_from_slice(&mask.to_le_bytes());
                to[48..].copy_from_slice(block);
            }
            Statement::DummyCertificate { mask } | Statement::FinalizeCertificate { mask } => {
                to[4..6].copy_from_slice(&mask.to_le_bytes());
            }
        }
    }
}
