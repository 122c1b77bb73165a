//! What chains are made of: what the states of a replica and of an observer have in common.

use crate::block::Block;
use crate::height::Height;
use crate::links::Links;

/// A state that chains can be seen in.
pub(crate) trait View {
    /// What each replica weighs.
    fn weights(&self) -> &[u16];

    /// The last height.
    fn heights(&self) -> Height;

    /// What is shown of a height, if the height is one of the book's.
    fn shown(&self, height: Height) -> Option<Shown<'_>>;

    /// What has been worked out of its chains.
    fn links(&self) -> &Links;
}

/// What a state shows of one height: the notarized block, and who voted for the dummy block and who finalized.
#[derive(Clone, Copy)]
pub(crate) struct Shown<'a> {
    pub notarized: Option<&'a Block>,
    pub dummies: u16,
    pub finalizes: u16,
}
