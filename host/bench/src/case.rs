//! One thing to measure: a call, the book that it gets, and the answer that shows it did what its name says.

use exchange::{Answer, Call};
use types::Calls;

/// A call on a book.
#[derive(Clone, Debug)]
pub struct Case {
    /// The call in words, with what is special about it.
    pub name: &'static str,
    /// The book before the call.
    pub book: Vec<u8>,
    /// The call.
    pub call: Call,
    /// The length of the reply or reading buffer.
    pub lent: usize,
    /// The answer in the words of an exchange file.
    pub answer: String,
}

impl Case {
    /// Makes the call once on each replica. The answers must be the one expected, and all bytes afterwards the same.
    pub fn check<A: Calls, B: Calls>(&self, ours: &A, reference: &B) -> Result<(), String> {
        let (answer, bytes) = self.make(ours);
        let (other, other_bytes) = self.make(reference);
        if answer.to_string() != self.answer || other.to_string() != self.answer {
            let expected = &self.answer;
            return Err(format!("{}: '{answer}' and '{other}', not '{expected}'", self.name));
        }
        match bytes == other_bytes {
            true => Ok(()),
            false => Err(format!("{}: the replicas leave other bytes", self.name)),
        }
    }

    /// The answer, and the book and the buffer after the call.
    fn make(&self, calls: &impl Calls) -> (Answer, [Vec<u8>; 2]) {
        let (mut book, mut buffer) = (self.book.clone(), vec![0xaa; self.lent]);
        let answer = self.call.make(calls, &mut book, &mut buffer);
        (answer, [book, buffer])
    }
}
