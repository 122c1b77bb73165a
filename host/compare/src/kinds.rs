//! The kinds of input and of answers that a large comparison must have had, and how often each occurred.

use crate::traits::{observer_read_length, read_length, reply_length};
use crate::{
    height_kinds, listening, observer_kinds, observer_single, packet_kinds, repeat_kinds,
    second_page_kinds, two_pages, weight_kinds,
};
use exchange::{Answer, Call, ObserverCall};
use std::collections::{BTreeMap, BTreeSet};
use std::fmt;
use types::{field, head_height, Delivered, MOST_REPLICAS, MOST_SHORT_HEIGHTS};

/// The refusals of each call that has some.
const REFUSALS: [(&str, &[u8]); 12] = [
    ("open", &[1, 2]),
    ("deliver", &[1, 4, 5, 6, 7, 8, 9, 10]),
    ("packet", &[1, 15]),
    ("move", &[1, 3]),
    ("signal", &[1, 6, 14]),
    ("submit", &[1, 4, 12, 13]),
    ("size", &[1]),
    ("fetch", &[1, 3, 4, 6, 11]),
    ("observer-open", &[1, 2]),
    ("observer-deliver", &[1, 4, 5, 6, 9, 10, 16]),
    ("observer-move", &[1]),
    ("observer-size", &[1]),
];

/// The kinds that the generators name, or that are seen by looking at a book.
const NAMED: [&str; 28] = [
    "book: new, opened over junk",
    "book: sound, that no run makes",
    "book: with a free byte set",
    "book: with a notarised page that does not stand",
    "book: with a held page that does not stand",
    "book: with flags that no run sets",
    "book: with a settled height above the current one",
    "book: damaged at one byte, no longer sound",
    "book: damaged at one byte, still sound",
    "book: cut or lengthened",
    "book: garbage of a book's length",
    "book: garbage of another length",
    "frame: sent again to one book",
    "network: with dishonest stations",
    "network: frame lost",
    "network: frame comes again",
    "network: frames come in a packet",
    "network: two proposals for one height",
    "network: a leader's two pages fire a timer",
    "network: a dishonest vote for each page of a height",
    "network: a dishonest blank vote",
    "network: a dishonest finalise",
    "network: a certificate sent to some only",
    "network: a certificate fetched and sent",
    "network: the timer of a station fires",
    "network: an entry is submitted",
    "network: a dishonest proposal carries an entry again",
    "network: a log leaves out a repeat",
];

/// The places of a lent buffer's length around its limit.
const LENGTHS: [&str; 5] = ["far below", "one below", "exactly", "one above", "far above"];

/// How often each kind occurred; those that must occur are there with 0 from the start.
#[derive(Clone, Debug)]
pub struct Kinds {
    counts: BTreeMap<String, u64>,
    /// The numbers of stations, the numbers of heights and the flags of the sound books that were called on; then the
    /// two numbers of observers' books.
    sizes: [BTreeSet<u64>; 5],
}

impl Default for Kinds {
    fn default() -> Kinds {
        let counts = expected().into_iter().map(|name| (name, 0)).collect();
        Kinds { counts, sizes: Default::default() }
    }
}

/// The names of all kinds that must occur.
fn expected() -> Vec<String> {
    let refused = |(call, numbers): (&str, &'static [u8])| {
        let call = call.to_string();
        numbers.iter().map(move |number| format!("call: {call}, refused with {number}"))
    };
    let done = ["open", "signal", "submit", "fetch", "observer-open"];
    let done = done.map(|call| format!("call: {call}, done"));
    let kinds = (1..=7).flat_map(|kind| ["fresh", "known"].map(|word| delivered(kind, word)));
    let lengths = ["reply of move", "reply of fetch", "buffer of read", "buffer of observer-read"];
    let lengths = lengths.into_iter().flat_map(|of| LENGTHS.map(|place| length(of, place)));
    let timers = (0..16).step_by(2).map(timer);
    let two_pages = second_page_kinds::NAMES.into_iter().chain(two_pages::NAMES);
    let observers = observer_kinds::NAMES.into_iter().chain(observer_single::NAMES);
    let observers = observers.chain(listening::NAMES).chain(weight_kinds::NAMES);
    let observers = observers.chain(height_kinds::NAMES);
    let named = NAMED.into_iter().chain(packet_kinds::NAMES).chain(two_pages).chain(observers);
    let named = named.map(str::to_string);
    let mut all: Vec<String> = REFUSALS.into_iter().flat_map(refused).collect();
    all.extend(done.into_iter().chain(kinds).chain(lengths).chain(timers).chain(named));
    all.extend(second_page_kinds::by_flags().chain(observer_kinds::by_kind()));
    all.extend(repeat_kinds::names().into_iter().chain(weight_kinds::names()));
    all.extend(height_kinds::names());
    all
}

/// A delivered frame's kind with what became of it.
fn delivered(kind: u8, word: &str) -> String {
    format!("call: deliver, kind {kind}, {word}")
}

/// A buffer's length.
fn length(of: &str, place: &str) -> String {
    format!("length: {of}, {place} the limit")
}

/// A timer that fires when these flags are set.
fn timer(flags: u8) -> String {
    format!("timer: fires with flags {flags:>2}")
}

impl Kinds {
    /// One more of a kind.
    pub fn saw(&mut self, name: &str) {
        match self.counts.get_mut(name) {
            Some(count) => *count = count.saturating_add(1),
            None => _ = self.counts.insert(name.to_string(), 1),
        }
    }

    /// Sees a call, the book and the length of the buffer that it was lent, and its answer.
    pub fn see(&mut self, call: &Call, book: &[u8], lent: usize, answer: Answer) {
        self.see_answer(call, answer);
        self.see_length(call, book, lent, answer);
        match call {
            Call::Packet { packet } => {
                let names = packet_kinds::kinds(book, packet, answer);
                names.into_iter().for_each(|name| self.saw(name));
            }
            Call::Deliver { frame } => {
                let names = second_page_kinds::kinds(book, frame, answer);
                names.iter().for_each(|name| self.saw(name));
            }
            _ => {}
        }
        observer_kinds::kinds(call, book, answer).iter().for_each(|name| self.saw(name));
        repeat_kinds::kinds(call, book, lent, answer).iter().for_each(|name| self.saw(name));
        weight_kinds::kinds(call, book, answer).iter().for_each(|name| self.saw(name));
        height_kinds::kinds(call, book, answer).iter().for_each(|name| self.saw(name));
        let flags = book.get(field::FLAGS).copied().unwrap_or(0);
        if let (Call::Signal { .. }, Answer::Done) = (call, answer) {
            self.saw(&timer(flags));
        }
        self.see_sizes(call, book, answer, flags);
    }

    /// Notes the numbers of a book that a call shows to be sound.
    fn see_sizes(&mut self, call: &Call, book: &[u8], answer: Answer, flags: u8) {
        let (sound, first) = match call {
            Call::Open { .. } | Call::Read => (false, 0),
            Call::Observer(ObserverCall::Open { .. } | ObserverCall::Read) => (false, 0),
            Call::Observer(_) => (true, 3),
            _ => (true, 0),
        };
        if let (true, Some(n)) = (sound && answer != Answer::Deny(1), book.get(field::N)) {
            let heights = head_height(book, field::HEIGHTS);
            let values = [u64::from(*n), heights.into(), flags.into()];
            let short = |at: usize| at != 1 || heights <= MOST_SHORT_HEIGHTS;
            let sizes = self.sizes.iter_mut().skip(first).zip(values).take(3).enumerate();
            let told = sizes.filter(|(at, _)| short(*at));
            told.for_each(|(_, (seen, value))| _ = seen.insert(value));
        }
    }

    /// Counts a call with its answer.
    fn see_answer(&mut self, call: &Call, answer: Answer) {
        let words = call.words("", "");
        let name = words.split(' ').next().unwrap_or("");
        match (call, answer) {
            (_, Answer::Deny(number)) => self.saw(&format!("call: {name}, refused with {number}")),
            (_, Answer::Done) => self.saw(&format!("call: {name}, done")),
            (Call::Deliver { frame }, Answer::Delivered(what)) => {
                let word = if what == Delivered::Fresh { "fresh" } else { "known" };
                self.saw(&delivered(frame.first().copied().unwrap_or(0), word));
            }
            _ => {}
        }
    }

    /// Counts where a buffer's length lies, if the call got as far as looking at it.
    fn see_length(&mut self, call: &Call, book: &[u8], lent: usize, answer: Answer) {
        let (of, limit) = match call {
            Call::Move => ("reply of move", reply_length(answer, 448)),
            Call::Fetch { .. } => ("reply of fetch", reply_length(answer, 224)),
            Call::Read => ("buffer of read", read_length(book)),
            Call::Observer(ObserverCall::Read) => {
                ("buffer of observer-read", observer_read_length(book))
            }
            _ => return,
        };
        let Some(limit) = limit else { return };
        let place = match lent {
            _ if lent == limit => "exactly",
            _ if lent.saturating_add(1) == limit => "one below",
            _ if lent < limit => "far below",
            _ if lent == limit.saturating_add(1) => "one above",
            _ => "far above",
        };
        self.saw(&length(of, place));
    }

    /// What never occurred, in words.
    pub fn missing(&self) -> Vec<String> {
        let never = self.counts.iter().filter(|(_, count)| **count == 0);
        let mut missing: Vec<String> = never.map(|(name, _)| name.clone()).collect();
        for (seen, (all, of)) in self.sizes.iter().zip(SIZES) {
            if seen.len() < all {
                missing.push(format!("{} of {all} {of}", all.saturating_sub(seen.len())));
            }
        }
        missing
    }
}

/// How many values each size has.
const SIZES: [(usize, &str); 5] = [
    (MOST_REPLICAS as usize, "numbers of stations"),
    (MOST_SHORT_HEIGHTS as usize, "numbers of heights up to 63"),
    (16, "values of the flags"),
    (MOST_REPLICAS as usize, "numbers of stations of observers"),
    (MOST_SHORT_HEIGHTS as usize, "numbers of heights up to 63 of observers"),
];

impl fmt::Display for Kinds {
    fn fmt(&self, to: &mut fmt::Formatter<'_>) -> fmt::Result {
        for (seen, (all, of)) in self.sizes.iter().zip(SIZES) {
            writeln!(to, "{:>10}  of {all} {of}", seen.len())?;
        }
        self.counts.iter().try_for_each(|(name, count)| writeln!(to, "{count:>10}  {name}"))
    }
}

#[cfg(test)]
mod tests {
    use super::*;

    #[test]
    fn a_kind_that_never_occurs_is_missing() {
        let mut kinds = Kinds::default();
        let all = kinds.missing();
        assert_eq!(all.len(), expected().len() + SIZES.len());
        kinds.saw("frame: sent again to one book");
        kinds.see(&Call::Signal { height: 1 }, &[4, 0, 1, 6, 1, 0, 0, 1], 0, Answer::Done);
        let left = kinds.missing();
        let gone: Vec<_> = all.iter().filter(|name| !left.contains(name)).collect();
        assert!(gone.iter().any(|name| *name == "timer: fires with flags  6"));
        assert!(left.contains(&"15 of 16 numbers of stations".to_string()));
        assert!(gone.iter().any(|name| *name == "weights: book of edition 1, a station"));
        assert_eq!(gone.len(), 7);
    }
}
