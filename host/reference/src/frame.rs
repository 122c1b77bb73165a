//! Frames as values: a height and what is stated about it.

use crate::block::Block;
use crate::height::Height;

/// The length of a frame in bytes.
pub const FRAME: usize = 224;

/// The bytes of a frame.
pub(crate) type FrameBytes = [u8; FRAME];

/// A frame of the right form; digest and block are borrowed.
#[derive(Clone, Copy)]
pub(crate) struct Frame<'a> {
    pub height: Height,
    pub statement: Statement<'a>,
}

/// What a frame states, one case for each kind from 1 to 7.
#[derive(Clone, Copy)]
pub(crate) enum Statement<'a> {
    Proposal { signer: u8, block: &'a Block },
    BlockVote { signer: u8, digest: &'a [u8; 32] },
    DummyVote { signer: u8 },
    Finalize { signer: u8 },
    BlockCertificate { mask: u16, block: &'a Block },
    DummyCertificate { mask: u16 },
    FinalizeCertificate { mask: u16 },
}

impl Statement<'_> {
    /// The number of the kind.
    pub fn kind(&self) -> u8 {
        match self {
            Statement::Proposal { .. } => 1,
            Statement::BlockVote { .. } => 2,
            Statement::DummyVote { .. } => 3,
            Statement::Finalize { .. } => 4,
            Statement::BlockCertificate { .. } => 5,
            Statement::DummyCertificate { .. } => 6,
            Statement::FinalizeCertificate { .. } => 7,
        }
    }
}
