//! The comparison finds faults in what a replica makes of entries that a chain carries again: each one here has one, in
//! the calls of stations or in those of observers, and some thousand calls show it.

#[macro_use]
mod as_reference;

use compare::run;
use reference::inspect::{inspect, inspect_observer};
use reference::Rules;
use types::{Calls, ENTRY};

/// An entry.
type Entry = [u8; ENTRY];

/// What a faulty replica does wrong.
#[derive(Clone, Copy, Debug, PartialEq, Eq)]
enum Fault {
    None,
    CountsEveryPlace,
    SizeAloneCountsEveryPlace,
    ReadAloneCountsEveryPlace,
    KeepsTheLastPlace,
    ComparesNeighbours,
    ComparesWithTheFirst,
    LeavesOutTheLastByte,
    LeavesOutTheFirstByte,
    TakesZerosForRepeats,
    CountsZerosEachTime,
    ReadNeedsRoomForAll,
    FillsTheRestWithRepeats,
}

/// The reference with a fault of its stations or of its observers.
#[derive(Clone, Copy)]
struct Faulty {
    fault: Fault,
    observers: bool,
}

const RULES: Rules = Rules::SHA256;

impl Fault {
    /// Whether this replica takes an entry for a filing of its own, after these.
    fn counts(self, before: &[Entry], after: &[Entry], entry: &Entry) -> bool {
        let zeros = *entry == [0; ENTRY];
        match self {
            Fault::CountsEveryPlace => true,
            Fault::KeepsTheLastPlace => !after.contains(entry),
            Fault::ComparesNeighbours => before.last() != Some(entry),
            Fault::ComparesWithTheFirst => before.first() != Some(entry),
            Fault::LeavesOutTheLastByte => before.iter().all(|one| one[..15] != entry[..15]),
            Fault::LeavesOutTheFirstByte => before.iter().all(|one| one[1..] != entry[1..]),
            Fault::TakesZerosForRepeats => !zeros && !before.contains(entry),
            Fault::CountsZerosEachTime => zeros || !before.contains(entry),
            _ => !before.contains(entry),
        }
    }

    /// The log that this replica makes of what a chain carries.
    fn log(self, carried: &[Entry]) -> Vec<Entry> {
        let mut log = Vec::new();
        for (at, entry) in carried.iter().enumerate() {
            if self.counts(&carried[..at], &carried[at + 1..], entry) {
                log.push(*entry);
            }
        }
        log
    }

    /// The size of it.
    fn size(self, carried: &[Entry]) -> u64 {
        match self {
            Fault::SizeAloneCountsEveryPlace => (ENTRY * carried.len()) as u64,
            _ => (ENTRY * self.log(carried).len()) as u64,
        }
    }

    /// Reads it.
    fn read(self, carried: &[Entry], buffer: &mut [u8]) -> u64 {
        let log = match self {
            Fault::ReadAloneCountsEveryPlace => carried.to_vec(),
            _ => self.log(carried),
        };
        let needed = if self == Fault::ReadNeedsRoomForAll { carried.len() } else { log.len() };
        if buffer.len() < ENTRY * needed {
            return 0;
        }
        if self == Fault::FillsTheRestWithRepeats {
            let all = log.iter().chain(carried.iter().skip(log.len())).flatten();
            buffer.iter_mut().zip(all).for_each(|(to, from)| *to = *from);
        }
        buffer.iter_mut().zip(log.iter().flatten()).for_each(|(to, from)| *to = *from);
        (ENTRY * log.len()) as u64
    }
}

impl Calls for Faulty {
    as_reference! { open deliver packet make_move signal submit fetch observer_open observer_deliver observer_move }

    fn size(&self, book: &[u8]) -> Result<u64, u8> {
        match self.observers {
            true => Calls::size(&RULES, book),
            false => inspect(book).map(|told| self.fault.size(&told.carried)),
        }
    }

    fn read(&self, book: &[u8], buffer: &mut [u8]) -> u64 {
        match (self.observers, inspect(book)) {
            (false, Ok(told)) => self.fault.read(&told.carried, buffer),
            _ => Calls::read(&RULES, book, buffer),
        }
    }

    fn observer_size(&self, book: &[u8]) -> Result<u64, u8> {
        match self.observers {
            true => inspect_observer(book).map(|told| self.fault.size(&told.carried)),
            false => Calls::observer_size(&RULES, book),
        }
    }

    fn observer_read(&self, book: &[u8], buffer: &mut [u8]) -> u64 {
        match (self.observers, inspect_observer(book)) {
            (true, Ok(told)) => self.fault.read(&told.carried, buffer),
            _ => Calls::observer_read(&RULES, book, buffer),
        }
    }
}

/// The calls within which a fault must show.
const CALLS: u64 = 40_000;

#[test]
fn no_fault_is_found_where_none_is() {
    for observers in [false, true] {
        run(RULES, Faulty { fault: Fault::None, observers }, 3, CALLS / 2).unwrap();
    }
}

#[test]
fn each_fault_is_found() {
    for fault in [
        Fault::CountsEveryPlace,
        Fault::SizeAloneCountsEveryPlace,
        Fault::ReadAloneCountsEveryPlace,
        Fault::KeepsTheLastPlace,
        Fault::ComparesNeighbours,
        Fault::ComparesWithTheFirst,
        Fault::LeavesOutTheLastByte,
        Fault::LeavesOutTheFirstByte,
        Fault::TakesZerosForRepeats,
        Fault::CountsZerosEachTime,
        Fault::ReadNeedsRoomForAll,
        Fault::FillsTheRestWithRepeats,
    ] {
        for observers in [false, true] {
            let found = run(RULES, Faulty { fault, observers }, 3, CALLS);
            let sentence = found.err().unwrap_or_else(|| panic!("{fault:?} was not found"));
            assert!(sentence.contains(exchange::HEADING), "{fault:?}: {sentence}");
        }
    }
}

/// Two replicas that both keep the last place agree with each other, but their logs do not grow at the end alone.
#[test]
fn a_log_by_last_places_does_not_begin_with_what_it_was() {
    let found = (1..=8).filter_map(|seed| {
        let both =
            [false, true].map(|observers| Faulty { fault: Fault::KeepsTheLastPlace, observers });
        both.into_iter().find_map(|one| run(one, one, seed, CALLS).err())
    });
    let found: Vec<String> = found.collect();
    let sentence = "a log does not begin with what it was before";
    assert!(found.iter().any(|found| found.contains(sentence)), "{found:?}");
}
