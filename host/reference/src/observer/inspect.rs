//! A sound observer's book told in parts, for programs that show it to people.

use super::state::Observed;
use crate::block;
use crate::entry::ENTRY;
use crate::height::Height;
use crate::Rules;
use types::Weights;

/// What a sound observer's book says as a whole.
#[derive(Clone, Debug)]
pub struct ObserverInspection {
    /// The number of replicas.
    pub n: u8,
    /// What each replica weighs.
    pub weights: Weights,
    /// The finalized height.
    pub finalized: Height,
    /// The largest height that the book shows as finalized: that to which a move goes.
    pub largest: Height,
    /// All entries of the chain that ends at the finalized height, repeats among them: the log before it is shortened.
    pub carried: Vec<[u8; ENTRY]>,
    /// The heights from 1 up.
    pub heights: Vec<ObservedHeight>,
}

/// What a sound observer's book says of a height.
#[derive(Clone, Debug)]
pub struct ObservedHeight {
    /// The parent height and number of entries of the notarized block.
    pub notarized: Option<(Height, u8)>,
    /// The masks of the block, dummy and finalize certificates.
    pub masks: [u16; 3],
    /// Whether the dummies are a quorum (document 01: blank).
    pub dummy: bool,
    /// Whether the notarized block extends a chain of the book.
    pub linked: bool,
    /// Whether the height is linked and its finalizes are a quorum (document 01: settled).
    pub finalized: bool,
}

/// The parts of an observer's book; refused with 1 if it is not sound.
pub fn inspect_observer(book: &[u8]) -> Result<ObserverInspection, u8> {
    let rules = Rules::SHA256;
    let state = rules.observer_sound(book)?;
    let chain = rules.chain(&state);
    let tell = |(height, slot): (Height, &Observed)| ObservedHeight {
        notarized: slot.notarized().map(|block| (block::parent_height(block), block[4])),
        masks: [slot.certificate, slot.dummies, slot.finalizes],
        dummy: chain.is_dummy(height),
        linked: chain.is_linked(height),
        finalized: chain.is_finalized(height),
    };
    Ok(ObserverInspection {
        n: state.head.n,
        weights: Weights::of(book),
        finalized: state.head.finalized,
        largest: chain.largest_finalized(),
        carried: chain.entries(state.head.finalized).into_iter().copied().collect(),
        heights: (1..).zip(&state.slots).map(tell).collect(),
    })
}
