//! Why a comparison ends before its last call.

use exchange::{Answer, Call, List};
use std::fmt;

/// What a call answered and left.
#[derive(Clone, Debug, PartialEq, Eq)]
pub struct Outcome {
    /// The answer.
    pub answer: Answer,
    /// The book after the call.
    pub book: Vec<u8>,
    /// The reply or reading buffer after the call.
    pub buffer: Vec<u8>,
}

/// What differed, and a list of one call that shows it.
#[derive(Clone, Debug)]
pub struct Difference {
    /// What differed.
    pub sentence: String,
    /// The buffers before the call, and the call with what the first replica made of it.
    pub list: List,
    /// The call.
    pub call: Call,
    /// What the first replica made of it.
    pub one: Outcome,
    /// What the second made of it; nothing if it gave no answer.
    pub two: Option<Outcome>,
}

impl fmt::Display for Difference {
    fn fmt(&self, to: &mut fmt::Formatter<'_>) -> fmt::Result {
        write!(to, "{}\n{}", self.sentence, self.list)
    }
}

/// Why no further call is made.
#[derive(Clone, Debug)]
pub enum Halt {
    /// As many as were wanted are made.
    Enough,
    /// The two differ.
    Differs(Box<Difference>),
}

/// Where a comparison stopped, and what it found there.
#[derive(Clone, Debug)]
pub struct Stop {
    /// The case: the seed, the part and what it is about.
    pub case: String,
    /// The number of the last call, counted from 1.
    pub call: u64,
    /// What is wrong.
    pub sentence: String,
    /// The call, if it is about one.
    pub difference: Option<Box<Difference>>,
}

impl fmt::Display for Stop {
    fn fmt(&self, to: &mut fmt::Formatter<'_>) -> fmt::Result {
        write!(to, "{}, call {}: ", self.case, self.call)?;
        match &self.difference {
            None => write!(to, "{}", self.sentence),
            Some(difference) => write!(to, "{difference}"),
        }
    }
}
