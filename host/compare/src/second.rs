//! The second of a pair: a replica, or something that is asked and may fail to answer.

use exchange::{Answer, Call};
use types::Calls;

/// What is held against the first replica of a pair.
pub trait Second {
    /// A case of this name begins: the books of the last one will not come again.
    fn begin(&mut self, _case: &str) {}

    /// Makes a call on the lent bytes; a sentence if there was no answer.
    fn make(&mut self, call: &Call, book: &mut [u8], buffer: &mut [u8]) -> Result<Answer, String>;
}

impl<C: Calls> Second for C {
    fn make(&mut self, call: &Call, book: &mut [u8], buffer: &mut [u8]) -> Result<Answer, String> {
        Ok(call.make(self, book, buffer))
    }
}
