//! What a comparison did, in numbers, and what it should have done but did not.

use crate::Kinds;
use exchange::Tally;
use std::fmt;

/// The numbers of a whole comparison.
#[derive(Clone, Debug, Default)]
pub struct Report {
    /// The seed that decides the calls.
    pub seed: u64,
    /// The answers.
    pub tally: Tally,
    /// The kinds of input.
    pub kinds: Kinds,
    /// Lists of calls on single books.
    pub lists: u64,
    /// Networks that were run to their end.
    pub networks: u64,
    /// Those of them with dishonest stations.
    pub with_dishonest: u64,
    /// Networks in which some honest log was not empty at the end.
    pub with_log: u64,
    /// Times that two honest logs of which neither was empty were held against each other.
    pub held_together: u64,
}

impl Report {
    /// What never occurred, in words.
    pub fn missing(&self) -> Vec<String> {
        let mut missing = self.tally.missing();
        missing.extend(self.kinds.missing());
        if self.with_log == 0 {
            missing.push("a network with a log that is not empty".to_string());
        }
        if self.held_together == 0 {
            missing.push("two logs to hold against each other".to_string());
        }
        missing
    }
}

impl fmt::Display for Report {
    fn fmt(&self, to: &mut fmt::Formatter<'_>) -> fmt::Result {
        writeln!(to, "seed {}", self.seed)?;
        write!(to, "{}", self.tally)?;
        writeln!(to, "{:>10}  lists on single books", self.lists)?;
        writeln!(to, "{:>10}  networks", self.networks)?;
        writeln!(to, "{:>10}  networks with a log that is not empty", self.with_log)?;
        writeln!(to, "{:>10}  pairs of logs, both not empty, neither forks", self.held_together)?;
        write!(to, "{}", self.kinds)
    }
}
