//! The answers of deliver, packet and move.

use crate::Height;
use std::fmt;

/// What became of a frame that was not refused.
#[derive(Clone, Copy, Debug, PartialEq, Eq)]
pub enum Delivered {
    /// The frame changed the book. Where it is the second block of the current height's leader, the change is flag 1
    /// alone: its timer fired ([`crate::is_second_block`] tells).
    Fresh,
    /// The book held all of it already, or it is such a second block and the timer had fired.
    Known,
}

/// What became of the frames of a packet; the three sum to their number. In C this is `mavunilai_counts`.
#[derive(Clone, Copy, Debug, Default, PartialEq, Eq)]
#[repr(C)]
pub struct Counts {
    /// Frames that changed the book.
    pub fresh: u64,
    /// Frames that changed nothing and were not refused.
    pub known: u64,
    /// Frames that were refused, each at its turn.
    pub refused: u64,
}

impl fmt::Display for Counts {
    /// The words of the answer in an exchange file.
    fn fmt(&self, to: &mut fmt::Formatter<'_>) -> fmt::Result {
        write!(to, "counts {} {} {}", self.fresh, self.known, self.refused)
    }
}

/// The certificate that lets a replica pass a height.
#[derive(Clone, Copy, Debug, PartialEq, Eq)]
pub enum Certificate {
    /// A quorum voted for the block (kind 5).
    Block,
    /// A quorum voted for the dummy block (kind 6).
    Dummy,
}

impl Certificate {
    /// The number of the frame kind.
    pub const fn kind(self) -> u8 {
        match self {
            Certificate::Block => 5,
            Certificate::Dummy => 6,
        }
    }
}

/// What a move did.
#[derive(Clone, Copy, Debug, PartialEq, Eq)]
pub enum Move {
    /// A vote for the dummy block was written.
    Dummy {
        /// The height voted on.
        height: Height,
    },
    /// The finalized height grew; nothing was written.
    Final {
        /// The new finalized height.
        height: Height,
    },
    /// The replica left a height; a certificate and a second frame were written.
    Pass {
        /// The height left behind.
        height: Height,
        /// The certificate in the first frame.
        certificate: Certificate,
        /// Whether the second frame is a finalize; otherwise it is all zero.
        finalized: bool,
    },
    /// A proposal was written.
    Offer {
        /// The height proposed for.
        height: Height,
    },
    /// A vote for the held block was written.
    Vote {
        /// The height voted on.
        height: Height,
    },
    /// No move applies.
    Idle,
}

impl Move {
    /// The number of the move in the list of document 01; 0 for idle.
    pub const fn number(self) -> u8 {
        match self {
            Move::Idle => 0,
            Move::Dummy { .. } => 1,
            Move::Final { .. } => 2,
            Move::Pass { .. } => 3,
            Move::Offer { .. } => 4,
            Move::Vote { .. } => 5,
        }
    }

    /// The height that the move is about; 0 for idle.
    pub const fn height(self) -> Height {
        match self {
            Move::Idle => 0,
            Move::Dummy { height }
            | Move::Final { height }
            | Move::Pass { height, .. }
            | Move::Offer { height }
            | Move::Vote { height } => height,
        }
    }

    /// How many whole frames the move wrote to the reply; a zero second frame is none.
    pub const fn frames(self) -> usize {
        match self {
            Move::Idle | Move::Final { .. } => 0,
            Move::Pass { finalized: true, .. } => 2,
            _ => 1,
        }
    }
}

impl fmt::Display for Move {
    /// The line that the rehearsal prints for the move; `idle` has none there.
    fn fmt(&self, to: &mut fmt::Formatter<'_>) -> fmt::Result {
        match self {
            Move::Idle => write!(to, "idle"),
            Move::Dummy { height } => write!(to, "dummy {height}"),
            Move::Final { height } => write!(to, "final {height}"),
            Move::Pass { height, certificate, finalized } => {
                let second = if *finalized { 4 } else { 0 };
                write!(to, "pass {height} {} {second}", certificate.kind())
            }
            Move::Offer { height } => write!(to, "offer {height}"),
            Move::Vote { height } => write!(to, "vote {height}"),
        }
    }
}
