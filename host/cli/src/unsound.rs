//! Why bytes are no sound book: the first rule that is broken, with its height and its byte.

use crate::{unsound_heights, unsound_observer, unsound_setting, weighed};
use exchange::fields;
use reference::inspect::inspect;
use reference::is_quorum;
use types::{field, head_height, height_at, is_observers, mask_at, Weights};
use types::{
    put_head_height, Area, Height, Layout, ALL_FLAGS, BLOCK, BLOCK_HEIGHT, BLOCK_PARENT, ENTRY,
};
use types::{MOST_ENTRIES, MOST_PENDING, MOST_REPLICAS};

/// A byte, and what is wrong with it.
pub type Fault = (usize, String);

/// A sentence about the first rule that these bytes break; none if they are a sound book, a station's or an observer's.
/// Which of the two they are meant to be is told by the length for the number of heights that the head says. Where no
/// kind of book has that length for it, both are named whose length it is.
pub fn reason(book: &[u8]) -> Option<String> {
    if let Some(rule) = unsound_heights::no_length(book) {
        return Some(rule);
    }
    if let Some((byte, rule)) = unsound_setting::edition(book) {
        return Some(format!("byte {byte} (edition): {rule}"));
    }
    if let Some((byte, rule)) = unsound_heights::fault(book) {
        return Some(format!("byte {byte} (number of heights): {rule}"));
    }
    let (byte, rule) = match is_observers(book) {
        true => unsound_observer::fault(book)?,
        false => station(book)?,
    };
    let place = fields::place(book, byte).map(|(name, _)| format!(" ({name})"));
    Some(format!("byte {byte}{}: {rule}", place.unwrap_or_default()))
}

/// What is wrong with bytes of the length of a station's book with the heights that its head says.
fn station(book: &[u8]) -> Option<Fault> {
    let heights = head_height(book, field::HEIGHTS);
    head(book, heights)
        .or_else(|| (1..=heights).find_map(|height| slot(book, height)))
        .or_else(|| settled(book))
}

/// A byte of the book.
pub fn at(book: &[u8], byte: usize) -> u8 {
    book.get(byte).copied().unwrap_or(0)
}

/// The first byte of a range that is not zero, as a fault.
pub fn zeros(book: &[u8], mut range: std::ops::Range<usize>) -> Option<Fault> {
    let byte = range.find(|byte| at(book, *byte) != 0)?;
    Some((byte, format!("it is {}, and must be zero", at(book, byte))))
}

/// What is wrong with the head of a book with so many heights; its edition, which is known, and the settled height aside.
fn head(book: &[u8], heights: Height) -> Option<Fault> {
    let value = |byte| at(book, byte);
    let current = head_height(book, field::CURRENT);
    let (n, own, flags) = (value(field::N), value(field::OWN), value(field::FLAGS));
    let pending = value(field::PENDING);
    let last = heights.saturating_add(1);
    let rules = [
        (
            !(1..=MOST_REPLICAS).contains(&n),
            field::N,
            format!("n is {n}, not 1 to {MOST_REPLICAS}"),
        ),
        (own >= n, field::OWN, format!("own number {own} is not below n, which is {n}")),
        (flags > ALL_FLAGS, field::FLAGS, format!("flags {flags} are not below 16")),
        (
            !(1..=last).contains(&current),
            field::CURRENT.place(book).start,
            format!("the current height is {current}, not 1 to {last}"),
        ),
        (
            pending > MOST_PENDING,
            field::PENDING,
            format!("{pending} entries are pending, {MOST_PENDING} at most can be"),
        ),
    ];
    let broken = rules.into_iter().find(|(broken, ..)| *broken);
    broken.map(|(_, byte, rule)| (byte, rule)).or_else(|| unsound_setting::fault(book))
}

/// What is wrong with a height by itself.
fn slot(book: &[u8], height: Height) -> Option<Fault> {
    let layout = Layout::new(head_height(book, field::HEIGHTS));
    let [row, held, notarized] =
        [Area::Row, Area::Held, Area::Notarized].map(|area| layout.area(height, area).start);
    let (n, leader) = (at(book, field::N), at(book, row));
    let place = |offset: usize| row.saturating_add(offset);
    let state = at(book, place(1));
    if leader >= n {
        return Some((row, format!("leader {leader} is not below n, which is {n}")));
    }
    if state > 3 {
        return Some((place(1), format!("the state is {state}, above 3")));
    }
    let strange = |offset: &usize| mask_at(book, place(*offset)).checked_shr(n.into()) > Some(0);
    if let Some(offset) = [2, 4, 6, 8].into_iter().find(strange) {
        return Some((
            place(offset),
            format!("the mask has a bit that is not below n, which is {n}"),
        ));
    }
    let certificate = mask_at(book, place(2));
    let short = if state & 2 != 0 { no_quorum(book, certificate) } else { None };
    let quorum = || short.map(|rule| (place(2), rule));
    let page =
        |bit: u8, start: usize| if state & bit != 0 { page(book, height, start) } else { None };
    zeros(book, place(10)..place(16))
        .or_else(|| page(1, held))
        .or_else(|| page(2, notarized))
        .or_else(quorum)
}

/// What is wrong with the signers of a notarised page's certificate, if they are no quorum.
pub fn no_quorum(book: &[u8], certificate: u16) -> Option<String> {
    let weights = Weights::of(book);
    let weigh = weighed::beside_quorum(&weights, certificate);
    let rule = "a page is notarised, and the signers of its certificate are no quorum";
    (!is_quorum(certificate, weights.each())).then(|| format!("{rule}: they weigh {weigh}"))
}

/// Why a linked height is not settled: what its finalises weigh.
pub fn few_finalises(book: &[u8], settled: Height, finalises: u16) -> String {
    let weigh = weighed::beside_quorum(&Weights::of(book), finalises);
    format!("height {settled} is not settled: its finalises are no quorum, they weigh {weigh}")
}

/// What is wrong with a page of a height that begins at a byte.
pub fn page(book: &[u8], height: Height, start: usize) -> Option<Fault> {
    let place = |offset: usize| start.saturating_add(offset);
    let [own, back] = [BLOCK_HEIGHT, BLOCK_PARENT].map(|at| height_at(book, place(at)));
    let count = at(book, place(4));
    let rules = [
        (
            own != height,
            BLOCK_HEIGHT,
            format!("the page says height {own}, and stands at {height}"),
        ),
        (back >= height, BLOCK_PARENT, format!("its back height {back} is not below {height}")),
        (
            count > MOST_ENTRIES,
            4,
            format!("it says {count} entries, {MOST_ENTRIES} at most can be"),
        ),
    ];
    if let Some((_, offset, rule)) = rules.into_iter().find(|(broken, ..)| *broken) {
        return Some((place(offset), rule));
    }
    let past = usize::from(count).saturating_mul(ENTRY).saturating_add(48);
    let digest = if back == 0 { place(16)..place(48) } else { 0..0 };
    [place(5)..place(16), digest, place(past)..place(BLOCK)]
        .into_iter()
        .find_map(|range| zeros(book, range))
}

/// What is wrong with the settled height of a book in which all else is right.
fn settled(book: &[u8]) -> Option<Fault> {
    let settled = head_height(book, field::FINALIZED);
    let mut copy = book.to_vec();
    put_head_height(&mut copy, field::FINALIZED, 0);
    let told = inspect(&copy).ok()?;
    let height = told.heights.get(usize::from(settled).checked_sub(1)?);
    let rule = match height {
        Some(height) if height.finalized => return None,
        None => format!("the settled height is {settled}, above the last one"),
        Some(height) if !height.linked => {
            format!("height {settled} is not settled: it is not linked")
        }
        Some(height) => {
            let [.., finalises] = height.masks;
            few_finalises(book, settled, finalises)
        }
    };
    Some((field::FINALIZED.place(book).start, rule))
}

#[cfg(test)]
#[allow(clippy::indexing_slicing, clippy::arithmetic_side_effects)] // a test may panic
#[allow(clippy::unwrap_used, clippy::panic)]
mod tests {
    use super::*;
    use compare::{walk, Pair, Second};
    use exchange::{Answer, Call};
    use reference::Rules;
    use types::{is_observers, Calls};

    /// Holds each book of a comparison against the reference: a reason is there where it is not sound, and only there.
    /// The counts are of stations' books and others, then of observers'.
    #[derive(Default)]
    struct Reasons {
        sound: [u32; 2],
        not: [u32; 2],
    }

    impl Second for Reasons {
        fn make(
            &mut self,
            call: &Call,
            book: &mut [u8],
            buffer: &mut [u8],
        ) -> Result<Answer, String> {
            let sizes =
                [Calls::size(&Rules::SHA256, book), Calls::observer_size(&Rules::SHA256, book)];
            match (reason(book), sizes) {
                (None, [Ok(_), Err(1)]) => self.sound[0] += 1,
                (None, [Err(1), Ok(_)]) => self.sound[1] += 1,
                (Some(_), [Err(1), Err(1)]) => self.not[usize::from(is_observers(book))] += 1,
                (found, size) => return Err(format!("{found:?} and {size:?}")),
            }
            Ok(call.make(&Rules::SHA256, book, buffer))
        }
    }

    #[test]
    fn a_reason_is_there_if_and_only_if_the_book_is_not_sound() {
        let mut pair = Pair::new(Rules::SHA256, Reasons::default());
        if let Err(stop) = walk(&mut pair, 9, 20_000) {
            panic!("{}", stop.sentence);
        }
        let seen = pair.second();
        let enough =
            |counts: [u32; 2], least: [u32; 2]| counts[0] > least[0] && counts[1] > least[1];
        assert!(enough(seen.sound, [1000, 500]), "{:?}", seen.sound);
        assert!(enough(seen.not, [200, 100]), "{:?}", seen.not);
    }
}
