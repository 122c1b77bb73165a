//! Move: the one move of an observer, by which the finalized height follows the book.

use crate::{Move, Rules};

impl Rules {
    /// Makes move 2 if it applies. Nothing is written but the book, so that no reply is asked for.
    ///
    /// Refuses with 1.
    pub fn observer_move(&self, book: &mut [u8]) -> Result<Move, u8> {
        let mut state = self.observer_sound(book)?;
        let height = self.chain(&state).largest_finalized();
        if height <= state.head.finalized {
            return Ok(Move::Idle);
        }
        state.head.finalized = height;
        state.store(book);
        Ok(Move::Final { height })
    }
}
