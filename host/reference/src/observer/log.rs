//! The log that an observer reads (document 01: register): its size, and reading it.

use crate::entry::ENTRY;
use crate::{log, Rules};

impl Rules {
    /// The length in bytes of the log: the entries of the chain that ends at the finalized height, each counted once.
    ///
    /// Refuses with 1.
    pub fn observer_size(&self, book: &[u8]) -> Result<usize, u8> {
        let state = self.observer_sound(book)?;
        Ok(self.chain(&state).log(state.head.finalized).len().saturating_mul(ENTRY))
    }

    /// Writes the log to the front of the buffer, each entry at its first place, and returns that part. The part is
    /// empty, and nothing is written, if the book is not sound or the log does not fit.
    pub fn observer_read<'a>(&self, book: &[u8], buffer: &'a mut [u8]) -> &'a mut [u8] {
        let Ok(state) = self.observer_sound(book) else {
            return &mut [];
        };
        log::write(&self.chain(&state).log(state.head.finalized), buffer)
    }
}
