//! Submit: a new entry for the log.

use crate::entry::{Entry, ENTRY};
use crate::state::PLACES;
use crate::{refusal, Rules};

impl Rules {
    /// Puts an entry behind the pending ones, after those that the log holds have been dropped.
    ///
    /// Refuses with 1, 4, 13, 12 in this order.
    pub fn submit(&self, book: &mut [u8], entry: &[u8]) -> Result<(), u8> {
        let mut state = self.sound(book)?;
        let entry: &Entry = entry.try_into().map_err(|_| refusal::MALFORMED)?;
        let logged = self.chain(&state).log(state.head.finalized);
        if state.pending().any(|pending| pending == entry) || logged.contains(&entry) {
            return Err(refusal::REPEATED);
        }
        let kept = state.pending().filter(|pending| !logged.contains(pending));
        let entries: Vec<Entry> = kept.chain([entry]).copied().collect();
        if entries.len() > PLACES {
            return Err(refusal::FULL);
        }
        state.head.pending_count = u8::try_from(entries.len()).map_err(|_| refusal::FULL)?;
        state.pending = [[0; ENTRY]; PLACES];
        state.pending.iter_mut().zip(entries).for_each(|(place, entry)| *place = entry);
        state.store(book);
        Ok(())
    }
}
