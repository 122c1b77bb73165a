//! Which observers' books are sound, and getting the state out of one.

use super::state::{Observed, ObserverState};
use crate::height::Height;
use crate::state::NOTARIZED;
use crate::weights::Weights;
use crate::{block, quorum, refusal, Rules};

impl Rules {
    /// The state of a sound observer's book; of any other bytes, refusal 1.
    pub(crate) fn observer_sound(&self, book: &[u8]) -> Result<ObserverState, u8> {
        let state = ObserverState::decode(book).ok_or(refusal::UNSOUND)?;
        let (n, weights, finalized) = (state.head.n, &state.head.weights, state.head.finalized);
        let mut slots = (1..).zip(&state.slots);
        let sound = state.head.setting_is_sound()
            && slots.all(|(height, slot)| slot_is_sound(slot, height, n, weights))
            && (finalized == 0 || self.chain(&state).is_finalized(finalized));
        sound.then_some(state).ok_or(refusal::UNSOUND)
    }
}

/// Whether what the book keeps of a height is in order by itself. No proposal is ever held, so the state is 0 or 2.
fn slot_is_sound(slot: &Observed, height: Height, n: u8, weights: &Weights) -> bool {
    let masks = [slot.certificate, slot.dummies, slot.finalizes];
    masks.into_iter().all(|mask| quorum::is_within(mask, n))
        && [0, NOTARIZED].contains(&slot.marks)
        && slot.notarized().is_none_or(|notarized| {
            block::is_well_formed(notarized, height) && quorum::is_quorum(slot.certificate, weights)
        })
}
