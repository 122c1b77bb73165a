//! The state of an observer as a record.

use crate::block::Block;
use crate::head::Head;
use crate::height::Height;
use crate::links::Links;
use crate::state::NOTARIZED;
use crate::view::{Shown, View};

/// The length in bytes of an observer's book with this many heights.
pub fn observer_book_length(heights: Height) -> usize {
    usize::from(heights).saturating_mul(184).saturating_add(64)
}

/// A whole observer's book, field by field. Of the head it has no more than an observer's has.
#[derive(Clone)]
pub(crate) struct ObserverState {
    pub head: Head,
    pub slots: Vec<Observed>,
    /// No part of the book: what a call has found out about the slots.
    pub links: Links,
}

/// What an observer's book keeps of one height. A block that no mark covers keeps whatever bytes it has, and so does
/// its certificate.
#[derive(Clone)]
pub(crate) struct Observed {
    pub marks: u8,
    pub certificate: u16,
    pub dummies: u16,
    pub finalizes: u16,
    pub block: Block,
}

impl ObserverState {
    /// The slot of a height, to be changed, if the height is one of the book's; what was found out about the slots is
    /// forgotten.
    pub fn slot_mut(&mut self, height: Height) -> Option<&mut Observed> {
        self.links = Links::default();
        self.slots.get_mut(usize::from(height.checked_sub(1)?))
    }
}

impl View for ObserverState {
    fn weights(&self) -> &[u16] {
        &self.head.weights
    }

    fn heights(&self) -> Height {
        self.head.heights
    }

    fn shown(&self, height: Height) -> Option<Shown<'_>> {
        let slot = self.slots.get(usize::from(height.checked_sub(1)?))?;
        let (dummies, finalizes) = (slot.dummies, slot.finalizes);
        Some(Shown { notarized: slot.notarized(), dummies, finalizes })
    }

    fn links(&self) -> &Links {
        &self.links
    }
}

impl Observed {
    /// The block, if one is notarized.
    pub fn notarized(&self) -> Option<&Block> {
        (self.marks & NOTARIZED != 0).then_some(&self.block)
    }
}
