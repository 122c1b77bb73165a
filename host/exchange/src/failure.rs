//! A call of a list that did not come out as expected: where, and what is known about its buffers.

use crate::{Expected, Line, Problem, Stage};
use std::fmt;

/// Where a list was not met.
#[derive(Clone, Debug)]
pub struct Failure {
    /// The line, and what differs.
    pub problem: Problem,
    /// The name of the case that the line belongs to.
    pub case: Option<String>,
    /// The call with its buffers; none if a buffer was missing.
    pub unmet: Option<Unmet>,
}

/// A call with its buffers before and after, and what was expected.
#[derive(Clone, Debug)]
pub struct Unmet {
    /// The line with the call.
    pub step: Line,
    /// The book before the call, and the second buffer if one was lent.
    pub before: Vec<Vec<u8>>,
    /// All buffers after it.
    pub stage: Stage,
    /// What was expected.
    pub expected: Expected,
}

impl fmt::Display for Failure {
    fn fmt(&self, to: &mut fmt::Formatter<'_>) -> fmt::Result {
        write!(to, "{}", self.problem)?;
        self.case.iter().try_for_each(|case| write!(to, " (case \"{case}\")"))
    }
}
