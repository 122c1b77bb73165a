//! Signal: the timer of the current height fired.

use crate::state::TIMER_FIRED;
use crate::{refusal, Rules};

impl Rules {
    /// Marks the timer of the current height as fired.
    ///
    /// Refuses with 1, 6, 14 in this order.
    pub fn signal(&self, book: &mut [u8], height: u64) -> Result<(), u8> {
        let mut state = self.sound(book)?;
        let height = state.known_height(height).ok_or(refusal::NO_SUCH_HEIGHT)?;
        if height != state.head.current || state.has(TIMER_FIRED) {
            return Err(refusal::STALE_SIGNAL);
        }
        state.head.flags |= TIMER_FIRED;
        state.store(book);
        Ok(())
    }
}
