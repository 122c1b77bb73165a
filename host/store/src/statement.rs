//! What a replica says of a height in its own name.

use crate::digits;
use std::fmt;
use types::{Frame, Height, BLOCK, FRAME};

/// A statement of one signer about a height, blocks by their digest.
#[derive(Clone, Copy, Debug, PartialEq, Eq, PartialOrd, Ord)]
pub enum Statement {
    /// A frame of kind 1, with the SHA-256 of its block.
    Proposal([u8; 32]),
    /// A frame of kind 2.
    BlockVote([u8; 32]),
    /// A frame of kind 3.
    DummyVote,
    /// A frame of kind 4.
    Finalize,
}

impl Statement {
    /// The first and the last of all statements, by their order.
    pub(crate) const FIRST: Statement = Statement::Proposal([0; 32]);
    pub(crate) const LAST: Statement = Statement::Finalize;

    /// The statement of a frame in this signer's name, and its height; none of certificates and of other signers.
    pub fn of(frame: &[u8; FRAME], own: u8) -> Option<(Height, Statement)> {
        let (signer, height, statement) = match Frame::parts(frame)? {
            Frame::Proposal { signer, block } => {
                let digest = sha256::digest(frame.last_chunk::<BLOCK>()?);
                (signer, block.height, Statement::Proposal(digest))
            }
            Frame::BlockVote { signer, height, digest } => {
                (signer, height, Statement::BlockVote(digest))
            }
            Frame::DummyVote { signer, height } => (signer, height, Statement::DummyVote),
            Frame::Finalize { signer, height } => (signer, height, Statement::Finalize),
            _ => return None,
        };
        (signer == own).then_some((height, statement))
    }

    /// Whether no honest replica says both of one height.
    pub fn contradicts(self, other: Statement) -> bool {
        use Statement::{BlockVote, DummyVote, Finalize, Proposal};
        match (self, other) {
            (Proposal(one), Proposal(two)) | (BlockVote(one), BlockVote(two)) => one != two,
            (DummyVote, Finalize) | (Finalize, DummyVote) => true,
            _ => false,
        }
    }

    /// The statement of such words as it is shown by; none of others.
    pub(crate) fn parse(words: &str) -> Option<Statement> {
        match words.split_once(' ') {
            Some(("proposal", digest)) => digits::parse(digest).map(Statement::Proposal),
            Some(("page-vote", digest)) => digits::parse(digest).map(Statement::BlockVote),
            None if words == "blank-vote" => Some(Statement::DummyVote),
            None if words == "finalise" => Some(Statement::Finalize),
            _ => None,
        }
    }
}

impl fmt::Display for Statement {
    fn fmt(&self, to: &mut fmt::Formatter<'_>) -> fmt::Result {
        match self {
            Statement::Proposal(digest) => write!(to, "proposal {}", digits::print(digest)),
            Statement::BlockVote(digest) => write!(to, "page-vote {}", digits::print(digest)),
            Statement::DummyVote => write!(to, "blank-vote"),
            Statement::Finalize => write!(to, "finalise"),
        }
    }
}
