//! A sound book told in parts, for programs that show it to people; an observer's book too.

pub use crate::observer::inspect::{inspect_observer, ObservedHeight, ObserverInspection};

use crate::block;
use crate::entry::ENTRY;
use crate::height::Height;
use crate::state::Slot;
use crate::Rules;
use types::Weights;

/// What a sound book says as a whole.
#[derive(Clone, Debug)]
pub struct Inspection {
    /// The number of replicas.
    pub n: u8,
    /// What each replica weighs.
    pub weights: Weights,
    /// The replica's own number.
    pub own: u8,
    /// The flags of the current height.
    pub flags: u8,
    /// The current height.
    pub current: Height,
    /// The finalized height.
    pub finalized: Height,
    /// The number of pending entries.
    pub pending: u8,
    /// The height that a proposal at the current height would name as its parent, if a chain ends below.
    pub parent: Option<Height>,
    /// All entries of the chain that ends at the finalized height, repeats among them: the log before it is shortened.
    pub carried: Vec<[u8; ENTRY]>,
    /// The heights from 1 up.
    pub heights: Vec<AtHeight>,
}

/// What a sound book says of a height.
#[derive(Clone, Debug)]
pub struct AtHeight {
    /// The leader.
    pub leader: u8,
    /// The parent height and number of entries of the held proposal.
    pub held: Option<(Height, u8)>,
    /// Whether the held proposal extends a chain of the book.
    pub held_extends: bool,
    /// The parent height and number of entries of the notarized block.
    pub notarized: Option<(Height, u8)>,
    /// The mask of replicas whose block vote is kept.
    pub voters: u16,
    /// The masks of the block, dummy and finalize certificates.
    pub masks: [u16; 3],
    /// Whether the dummies are a quorum (document 01: blank).
    pub dummy: bool,
    /// Whether the notarized block extends a chain of the book.
    pub linked: bool,
    /// Whether the height is linked and its finalizes are a quorum (document 01: settled).
    pub finalized: bool,
}

/// The parts of a book; refused with 1 if it is not sound.
pub fn inspect(book: &[u8]) -> Result<Inspection, u8> {
    let rules = Rules::SHA256;
    let state = rules.sound(book)?;
    let chain = rules.chain(&state);
    let tell = |(height, slot): (Height, &Slot)| AtHeight {
        leader: slot.leader,
        held: slot.held().map(|held| (block::parent_height(held), held[4])),
        held_extends: slot.held().is_some_and(|held| chain.extends(held, height)),
        notarized: slot.notarized().map(|block| (block::parent_height(block), block[4])),
        voters: slot.voters,
        masks: [slot.certificate, slot.dummies, slot.finalizes],
        dummy: chain.is_dummy(height),
        linked: chain.is_linked(height),
        finalized: chain.is_finalized(height),
    };
    Ok(Inspection {
        n: state.head.n,
        weights: Weights::of(book),
        own: state.head.own,
        flags: state.head.flags,
        current: state.head.current,
        finalized: state.head.finalized,
        pending: state.head.pending_count,
        parent: chain.parent_for(state.head.current),
        carried: chain.entries(state.head.finalized).into_iter().copied().collect(),
        heights: (1..).zip(&state.slots).map(tell).collect(),
    })
}
