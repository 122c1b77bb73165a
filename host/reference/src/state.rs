//! The state of a replica (document 01: book) as a record.

use crate::block::Block;
use crate::entry::Entry;
use crate::head::Head;
use crate::height::Height;
use crate::links::Links;
use crate::quorum;
use crate::view::{Shown, View};

/// The places for pending entries.
pub(crate) const PLACES: usize = 32;

/// The most replicas, and so the places for votes at a height.
pub(crate) const REPLICAS: usize = 16;

/// Flag of the current height: its timer fired, by a signal or because its leader equivocates.
pub(crate) const TIMER_FIRED: u8 = 1;
/// Flag of the current height: the vote for the dummy block was cast.
pub(crate) const DUMMY_VOTED: u8 = 2;
/// Flag of the current height: the vote for a block was cast.
pub(crate) const BLOCK_VOTED: u8 = 4;
/// Flag of the current height: the leader's proposal was made.
pub(crate) const PROPOSED: u8 = 8;

/// Bit of a slot's marks: a proposal is held.
pub(crate) const HELD: u8 = 1;
/// Bit of a slot's marks: a block is notarized.
pub(crate) const NOTARIZED: u8 = 2;

/// The length in bytes of a book with this many heights.
pub fn book_length(heights: Height) -> usize {
    usize::from(heights).saturating_mul(880).saturating_add(576)
}

/// A whole book, field by field. Areas that no mark or count covers keep whatever bytes they have.
#[derive(Clone)]
pub(crate) struct State {
    pub head: Head,
    pub pending: [Entry; PLACES],
    pub slots: Vec<Slot>,
    /// No part of the book: what a call has found out about the slots.
    pub links: Links,
}

/// What a book keeps of one height.
#[derive(Clone)]
pub(crate) struct Slot {
    pub leader: u8,
    pub marks: u8,
    pub certificate: u16,
    pub dummies: u16,
    pub finalizes: u16,
    pub voters: u16,
    pub proposal: Block,
    pub block: Block,
    pub votes: [[u8; 32]; REPLICAS],
}

impl State {
    /// The slot of a height, if the height is one of the book's.
    pub fn slot(&self, height: Height) -> Option<&Slot> {
        self.slots.get(usize::from(height.checked_sub(1)?))
    }

    /// The slot of a height, to be changed: what was found out about the slots is forgotten.
    pub fn slot_mut(&mut self, height: Height) -> Option<&mut Slot> {
        self.links = Links::default();
        self.slots.get_mut(usize::from(height.checked_sub(1)?))
    }

    /// Whether a flag of the current height is set.
    pub fn has(&self, flag: u8) -> bool {
        self.head.flags & flag != 0
    }

    /// The pending entries up to the count.
    pub fn pending(&self) -> impl Iterator<Item = &Entry> {
        self.pending.iter().take(usize::from(self.head.pending_count))
    }
}

impl View for State {
    fn weights(&self) -> &[u16] {
        &self.head.weights
    }

    fn heights(&self) -> Height {
        self.head.heights
    }

    fn shown(&self, height: Height) -> Option<Shown<'_>> {
        self.slot(height).map(|slot| Shown {
            notarized: slot.notarized(),
            dummies: slot.dummies,
            finalizes: slot.finalizes,
        })
    }

    fn links(&self) -> &Links {
        &self.links
    }
}

impl Slot {
    /// The proposal, if one is held.
    pub fn held(&self) -> Option<&Block> {
        (self.marks & HELD != 0).then_some(&self.proposal)
    }

    /// The block, if one is notarized.
    pub fn notarized(&self) -> Option<&Block> {
        (self.marks & NOTARIZED != 0).then_some(&self.block)
    }

    /// The digest that a replica voted for, if it voted.
    pub fn vote(&self, replica: u8) -> Option<&[u8; 32]> {
        let digest = self.votes.get(usize::from(replica))?;
        (self.voters & quorum::only(replica) != 0).then_some(digest)
    }
}
