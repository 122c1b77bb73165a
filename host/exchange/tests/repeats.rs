//! The lists of the folder on chains that carry entries again: buffers of every length beside the two sizes occur, for
//! stations and for observers, and what is read is each entry at its first place, worked out here once more.

use crate::played::{list, played};
use exchange::{scenarios, Call, List, ObserverCall};
use reference::inspect::{inspect, inspect_observer};

/// An entry.
type Entry = [u8; 16];

/// A read of a register: whether a station's, what its chain carries, the buffer before and after.
struct Reading {
    station: bool,
    carried: Vec<Entry>,
    before: Vec<u8>,
    after: Vec<u8>,
}

impl Reading {
    /// The first places of what the chain carries.
    fn register(&self) -> Vec<Entry> {
        let mut register: Vec<Entry> = Vec::new();
        for entry in &self.carried {
            if !register.contains(entry) {
                register.push(*entry);
            }
        }
        register
    }

    /// The lengths of the register, of what the chain carries and of the buffer.
    fn lengths(&self) -> (usize, usize, usize) {
        (16 * self.register().len(), 16 * self.carried.len(), self.before.len())
    }
}

/// The reads of sound books that a list makes.
fn readings(list: &List) -> Vec<Reading> {
    let mut found = Vec::new();
    for made in played(list) {
        let carried = match made.call {
            Call::Read => inspect(&made.book).map(|told| told.carried),
            Call::Observer(ObserverCall::Read) => {
                inspect_observer(&made.book).map(|told| told.carried)
            }
            _ => continue,
        };
        if let Ok(carried) = carried {
            let (station, before, after) = (made.call == Call::Read, made.before, made.after);
            found.push(Reading { station, carried, before, after });
        }
    }
    found
}

/// The reads of all lists.
fn all() -> Vec<Reading> {
    scenarios::NAMES.into_iter().flat_map(|name| readings(&list(name))).collect()
}

#[test]
fn each_entry_is_read_once_at_its_first_place() {
    for reading in all() {
        let mut expected = reading.before.clone();
        let register = reading.register().concat();
        if let Some(front) = expected.get_mut(..register.len()) {
            front.copy_from_slice(&register);
        }
        assert_eq!(reading.after, expected);
    }
}

#[test]
fn buffers_of_every_length_beside_the_two_sizes_occur() {
    let all = all();
    for station in [true, false] {
        let of = |wanted: fn(usize, usize, usize) -> bool| {
            let is = |one: &&Reading| {
                let (size, raw, lent) = one.lengths();
                one.station == station && size < raw && wanted(size, raw, lent)
            };
            all.iter().filter(is).count()
        };
        assert!(of(|_, _, _| true) > 20);
        assert!(of(|_, _, lent| lent == 0) > 0);
        assert!(of(|size, _, lent| lent + 1 == size) > 0);
        assert!(of(|size, _, lent| lent == size) > 0);
        assert!(of(|size, raw, lent| size < lent && lent < raw) > 0);
        assert!(of(|_, raw, lent| lent == raw) > 0);
        assert!(of(|_, raw, lent| lent > raw) > 0);
        assert!(of(|size, raw, _| size == 16 && raw == 16 * 8) > 0);
        assert!(of(|size, raw, _| size > 16 * 255 && raw == 16 * 8 * 63) > 0);
    }
}
