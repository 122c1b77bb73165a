//! How often each refusal, each move and each kind of pass occurred.

use crate::Answer;
use std::collections::BTreeMap;
use std::fmt;
use types::{Certificate, Move, LAST_REFUSAL};

/// The numbers of the table of refusals.
const REFUSALS: std::ops::RangeInclusive<u8> = 1..=LAST_REFUSAL;

/// Counts of answers.
#[derive(Clone, Debug, Default, PartialEq, Eq)]
pub struct Tally {
    calls: u64,
    refusals: BTreeMap<u8, u64>,
    moves: BTreeMap<u8, u64>,
    passes: BTreeMap<(u8, bool), u64>,
}

impl Tally {
    /// Counts one answer.
    pub fn count(&mut self, answer: &Answer) {
        self.calls = self.calls.saturating_add(1);
        match answer {
            Answer::Deny(number) => bump(&mut self.refusals, *number),
            Answer::Moved(made) => bump(&mut self.moves, made.number()),
            _ => {}
        }
        if let Answer::Moved(Move::Pass { certificate, finalized, .. }) = answer {
            bump(&mut self.passes, (certificate.kind(), *finalized));
        }
    }

    /// Adds the counts of another tally.
    pub fn add(&mut self, other: &Tally) {
        self.calls = self.calls.saturating_add(other.calls);
        merge(&mut self.refusals, &other.refusals);
        merge(&mut self.moves, &other.moves);
        merge(&mut self.passes, &other.passes);
    }

    /// The number of calls.
    pub fn calls(&self) -> u64 {
        self.calls
    }

    /// What never occurred, in words; empty if everything did.
    pub fn missing(&self) -> Vec<String> {
        let rows = self.rows().into_iter();
        rows.filter(|(_, count)| *count == 0).map(|(name, _)| name).collect()
    }

    /// Every refusal, move and kind of pass with its count.
    fn rows(&self) -> Vec<(String, u64)> {
        let refusal = |number| (format!("refusal {number}"), get(&self.refusals, &number));
        let moved = |(number, name): (u8, &str)| {
            (format!("move {number} ({name})"), get(&self.moves, &number))
        };
        let pass = |(kind, finalized): (Certificate, bool)| {
            let second = if finalized { "a finalise" } else { "zeros" };
            let key = (kind.kind(), finalized);
            (format!("pass with certificate {} and {second}", key.0), get(&self.passes, &key))
        };
        let names = ["idle", "dummy", "final", "pass", "offer", "vote"];
        let kinds = [Certificate::Block, Certificate::Dummy];
        let passes = kinds.into_iter().flat_map(|kind| [(kind, true), (kind, false)]);
        let mut rows: Vec<_> = REFUSALS.map(refusal).collect();
        rows.extend((0..).zip(names).map(moved));
        rows.extend(passes.map(pass));
        rows
    }
}

impl fmt::Display for Tally {
    fn fmt(&self, to: &mut fmt::Formatter<'_>) -> fmt::Result {
        writeln!(to, "{:>10}  calls", self.calls)?;
        self.rows().iter().try_for_each(|(name, count)| writeln!(to, "{count:>10}  {name}"))
    }
}

/// One more of a key.
fn bump<K: Ord>(counts: &mut BTreeMap<K, u64>, key: K) {
    let count = counts.entry(key).or_insert(0);
    *count = count.saturating_add(1);
}

/// The count of a key.
fn get<K: Ord>(counts: &BTreeMap<K, u64>, key: &K) -> u64 {
    counts.get(key).copied().unwrap_or(0)
}

/// Adds counts key by key.
fn merge<K: Ord + Copy>(to: &mut BTreeMap<K, u64>, from: &BTreeMap<K, u64>) {
    for (key, count) in from {
        let sum = to.entry(*key).or_insert(0);
        *sum = sum.saturating_add(*count);
    }
}
