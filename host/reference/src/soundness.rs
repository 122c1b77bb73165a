//! Which books are sound, and getting the state out of one.

use crate::head::Head;
use crate::height::Height;
use crate::state::{Slot, State, HELD, NOTARIZED, PLACES};
use crate::weights::Weights;
use crate::{block, quorum, refusal, Rules};

/// The most replicas of a book.
pub(crate) const MOST_REPLICAS: u64 = 16;

/// All flags of the current height together.
const ALL_FLAGS: u8 = 15;

impl Rules {
    /// The state of a sound book; of any other, refusal 1.
    pub(crate) fn sound(&self, book: &[u8]) -> Result<State, u8> {
        let state = State::decode(book).ok_or(refusal::UNSOUND)?;
        let (n, weights, finalized) = (state.head.n, &state.head.weights, state.head.finalized);
        let mut slots = (1..).zip(&state.slots);
        let sound = head_is_sound(&state.head)
            && slots.all(|(height, slot)| slot_is_sound(slot, height, n, weights))
            && (finalized == 0 || self.chain(&state).is_finalized(finalized));
        sound.then_some(state).ok_or(refusal::UNSOUND)
    }
}

/// Whether the numbers of the head are in range, the finalized height aside.
fn head_is_sound(head: &Head) -> bool {
    head.setting_is_sound()
        && head.own < head.n
        && (1..=head.heights.saturating_add(1)).contains(&head.current)
        && head.flags <= ALL_FLAGS
        && usize::from(head.pending_count) <= PLACES
}

/// Whether what the book keeps of a height is in order by itself.
fn slot_is_sound(slot: &Slot, height: Height, n: u8, weights: &Weights) -> bool {
    let masks = [slot.certificate, slot.dummies, slot.finalizes, slot.voters];
    slot.leader < n
        && masks.into_iter().all(|mask| quorum::is_within(mask, n))
        && slot.marks <= HELD | NOTARIZED
        && slot.held().is_none_or(|held| block::is_well_formed(held, height))
        && slot.notarized().is_none_or(|notarized| {
            block::is_well_formed(notarized, height) && quorum::is_quorum(slot.certificate, weights)
        })
}
