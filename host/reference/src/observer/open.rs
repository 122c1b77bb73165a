//! Open: a new observer's book.

use super::state::{Observed, ObserverState};
use crate::block::BLOCK;
use crate::head::Head;
use crate::height::Height;
use crate::links::Links;
use crate::soundness::MOST_REPLICAS;
use crate::{edition, refusal, weights, Rules};

impl Rules {
    /// Makes a new observer's book over `n` replicas, with `heights` heights and the weight of each replica in two
    /// bytes. Whatever the book held before is lost.
    ///
    /// Refuses with 2, 1 in this order.
    pub fn observer_open(
        &self,
        book: &mut [u8],
        n: u64,
        heights: u64,
        weights: &[u8],
    ) -> Result<(), u8> {
        let state = new_state(n, heights, weights).ok_or(refusal::OUT_OF_RANGE)?;
        let bytes = state.encode();
        if bytes.len() != book.len() {
            return Err(refusal::UNSOUND);
        }
        book.copy_from_slice(&bytes);
        Ok(())
    }
}

/// The state that an observer begins with, if both numbers and the weights are in range.
fn new_state(n: u64, heights: u64, weights: &[u8]) -> Option<ObserverState> {
    let weights = weights::opened(n, weights)?;
    let in_range =
        (1..=MOST_REPLICAS).contains(&n) && (1..=edition::MOST_HEIGHTS.into()).contains(&heights);
    let head = Head {
        n: u8::try_from(n).ok()?,
        heights: Height::try_from(heights).ok()?,
        edition: edition::LONG,
        weights,
        ..Head::default()
    };
    let nothing =
        Observed { marks: 0, certificate: 0, dummies: 0, finalizes: 0, block: [0; BLOCK] };
    let slots = vec![nothing; head.heights.into()];
    in_range.then_some(ObserverState { head, slots, links: Links::default() })
}
