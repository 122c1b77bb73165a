//! Open: a new book.

use crate::block::BLOCK;
use crate::entry::ENTRY;
use crate::head::Head;
use crate::height::Height;
use crate::links::Links;
use crate::soundness::MOST_REPLICAS;
use crate::state::{Slot, State, PLACES, REPLICAS};
use crate::{edition, refusal, weights, Rules};

impl Rules {
    /// Makes a new book for replica `own` of `n`, with `heights` heights, the weight of each replica in two bytes, and
    /// the leader of each height (document 01: the roll). Whatever the book held before is lost.
    ///
    /// Refuses with 2, 1 in this order.
    pub fn open(
        &self,
        book: &mut [u8],
        n: u64,
        own: u64,
        heights: u64,
        weights: &[u8],
        leaders: &[u8],
    ) -> Result<(), u8> {
        let state = new_state(n, own, heights, weights, leaders).ok_or(refusal::OUT_OF_RANGE)?;
        let bytes = state.encode();
        if bytes.len() != book.len() {
            return Err(refusal::UNSOUND);
        }
        book.copy_from_slice(&bytes);
        Ok(())
    }
}

/// The state that a replica begins with, if all arguments are in range.
fn new_state(n: u64, own: u64, heights: u64, weights: &[u8], leaders: &[u8]) -> Option<State> {
    let weights = weights::opened(n, weights)?;
    let in_range = (1..=MOST_REPLICAS).contains(&n)
        && own < n
        && (1..=edition::MOST_HEIGHTS.into()).contains(&heights)
        && u64::try_from(leaders.len()) == Ok(heights)
        && leaders.iter().all(|&leader| u64::from(leader) < n);
    let head = Head {
        n: u8::try_from(n).ok()?,
        own: u8::try_from(own).ok()?,
        heights: Height::try_from(heights).ok()?,
        current: 1,
        edition: edition::LONG,
        weights,
        ..Head::default()
    };
    let slots = leaders.iter().map(|&leader| new_slot(leader)).collect();
    let pending = [[0; ENTRY]; PLACES];
    in_range.then_some(State { head, pending, slots, links: Links::default() })
}

/// A height of which nothing is known but its leader.
fn new_slot(leader: u8) -> Slot {
    Slot {
        leader,
        marks: 0,
        certificate: 0,
        dummies: 0,
        finalizes: 0,
        voters: 0,
        proposal: [0; BLOCK],
        block: [0; BLOCK],
        votes: [[0; 32]; REPLICAS],
    }
}
