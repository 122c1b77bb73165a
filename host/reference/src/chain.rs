//! Chains: which heights are dummies, which blocks extend one another, what is finalized.

use crate::block::Block;
use crate::height::Height;
use crate::view::View;
use crate::{quorum, Digest, Rules};

/// A state, a replica's or an observer's, seen as chains of blocks, with the digest that ties a block to its parent.
#[derive(Clone, Copy)]
pub(crate) struct Chain<'a> {
    pub(crate) view: &'a dyn View,
    pub(crate) digest: Digest,
}

impl Rules {
    /// The chains of a state.
    pub(crate) fn chain<'a>(&self, view: &'a dyn View) -> Chain<'a> {
        Chain { view, digest: self.digest }
    }
}

impl<'a> Chain<'a> {
    /// Whether a quorum voted for the dummy block of a height (document 01: blank).
    pub fn is_dummy(&self, height: Height) -> bool {
        let shown = self.view.shown(height);
        shown.is_some_and(|shown| quorum::is_quorum(shown.dummies, self.view.weights()))
    }

    /// The notarized block of a height.
    pub fn notarized(&self, height: Height) -> Option<&'a Block> {
        self.view.shown(height)?.notarized
    }

    /// Whether a chain of notarized blocks and dummies goes from this height down to 0.
    pub fn is_linked(&self, height: Height) -> bool {
        self.link(height).is_some_and(|link| link.linked)
    }

    /// Whether a height is linked and a quorum finalized it (document 01: settled).
    pub fn is_finalized(&self, height: Height) -> bool {
        let shown = self.view.shown(height);
        shown.is_some_and(|shown| quorum::is_quorum(shown.finalizes, self.view.weights()))
            && self.is_linked(height)
    }

    /// The largest finalized height, 0 if there is none.
    pub fn largest_finalized(&self) -> Height {
        let mut heights = (1..=self.view.heights()).rev();
        heights.find(|&height| self.is_finalized(height)).unwrap_or(0)
    }

    /// The parent for a block of this height: the largest linked height below it from which dummies
    /// reach up to it. None if no chain ends just below this height.
    pub fn parent_for(&self, height: Height) -> Option<Height> {
        let below = height.checked_sub(1)?;
        let lowest = self.link(below)?.dummies_from.saturating_sub(1);
        (lowest..=below).rev().find(|&parent| self.is_linked(parent))
    }
}
