//! Reading a frame: its form alone, with no book at hand.

use crate::frame::{Frame, FrameBytes, Statement, FRAME};
use crate::{block, height};

impl<'a> Frame<'a> {
    /// The frame in these bytes, if they have the form of one.
    ///
    /// Writing the frame again must give the same bytes, so that whatever its kind does not use is
    /// zero. Heights and signers may still be out of any book's range.
    pub fn read(bytes: &'a [u8]) -> Option<Frame<'a>> {
        let bytes: &FrameBytes = bytes.try_into().ok()?;
        let height = height::from_bytes([bytes[2], bytes[3]]);
        let frame = Frame { height, statement: statement(bytes)? };
        let mut again = [0; FRAME];
        frame.write(&mut again);
        (again == *bytes && frame.block_fits()).then_some(frame)
    }

    /// Whether the block, in a kind that has one, is well formed for the frame's height.
    fn block_fits(&self) -> bool {
        match self.statement {
            Statement::Proposal { block, .. } | Statement::BlockCertificate { block, .. } => {
                block::is_well_formed(block, self.height)
            }
            _ => true,
        }
    }
}

/// The statement by its kind, out of the fields that the kind uses.
fn statement(bytes: &FrameBytes) -> Option<Statement<'_>> {
    let signer = bytes[1];
    let mask = u16::from_le_bytes([bytes[4], bytes[5]]);
    let digest = bytes[16..48].as_array()?;
    let block = bytes[48..].as_array()?;
    match bytes[0] {
        1 => Some(Statement::Proposal { signer, block }),
        2 => Some(Statement::BlockVote { signer, digest }),
        3 => Some(Statement::DummyVote { signer }),
        4 => Some(Statement::Finalize { signer }),
        5 => Some(Statement::BlockCertificate { mask, block }),
        6 => Some(Statement::DummyCertificate { mask }),
        7 => Some(Statement::FinalizeCertificate { mask }),
        _ => None,
    }
}
