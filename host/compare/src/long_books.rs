//! Random books of more than 63 heights, heads that say too many, and heights of a head that are wrong by a byte.

use crate::frames::any_entries;
use crate::weights::any_weights;
use crate::Random;
use reference::{sha256, Rules};
use types::{book_length, field, head_height, observer_book_length, put_edition, put_head_height};
use types::{Area, Block, Book, Entries, Frame, HeadHeight, Height, Layout, ObserverArea};
use types::{ObserverBook, ObserverLayout, Weights, ENTRY, MOST_ENTRIES, MOST_HEIGHTS};

/// Numbers of heights about which a byte or a bound ends.
const EDGES: [Height; 7] = [64, 255, 256, 257, 258, 512, MOST_HEIGHTS];

/// The heights of a head.
const OF_HEAD: [HeadHeight; 3] = [field::HEIGHTS, field::CURRENT, field::FINALIZED];

/// A number of heights above 63: the most, one about which something ends, or any up to 600.
pub fn long_heights(random: &mut Random) -> Height {
    match random.below(3) {
        0 => random.height_below(536).saturating_add(64),
        1 => MOST_HEIGHTS,
        _ => random.pick(&EDGES).copied().unwrap_or(MOST_HEIGHTS),
    }
}

/// The length of the longest log that a book of so many heights as its head says can have; of short ones that of 63.
pub fn longest_log(book: &[u8]) -> usize {
    let heights = usize::from(head_height(book, field::HEIGHTS).clamp(63, MOST_HEIGHTS));
    heights.saturating_mul(usize::from(MOST_ENTRIES)).saturating_mul(ENTRY)
}

/// A new book with the length for the heights that its head says, which its edition may not have.
pub fn stretched(random: &mut Random, observers: bool) -> Vec<u8> {
    let sorts = [(1, 63), (1, 64), (1, 255), (2, 63), (2, 64), (2, 255), (3, 64), (3, 256)];
    let sorts = sorts.into_iter().chain([(3, 1000), (3, 1001), (3, 1024)]).collect::<Vec<_>>();
    let (edition, heights) = random.pick(&sorts).copied().unwrap_or((3, 64));
    let weights = any_weights(random, 4);
    let weights = if edition == 1 { &[1; 4][..] } else { &weights };
    let new: Option<Vec<u8>> = match observers {
        true => ObserverBook::open(Rules::SHA256, 4, 1, weights).ok().map(|b| b.bytes().to_vec()),
        false => Book::open(Rules::SHA256, 4, 2, weights, &[0]).ok().map(|b| b.bytes().to_vec()),
    };
    let mut book = new.unwrap_or_default();
    book.truncate(64);
    put_edition(&mut book, edition);
    put_head_height(&mut book, field::HEIGHTS, heights);
    book.resize(if observers { observer_book_length(heights) } else { book_length(heights) }, 0);
    book
}

/// A station's book whose pages are linked up to a height in the upper half, with blanks among them: some heights are
/// finalised, none is settled yet, a proposal is held above them, and the current height is that or any.
pub fn linked(random: &mut Random, heights: Height) -> Vec<u8> {
    let weights = any_weights(random, 4);
    let leaders: Vec<u8> = (0..heights).map(|_| random.byte_below(4)).collect();
    let new = Book::open(Rules::SHA256, 4, 2, &weights, &leaders);
    let Ok(mut book) = new else { return Vec::new() };
    let (mut frames, mut below) = (Vec::new(), Block::default());
    let top = heights.saturating_sub(random.height_below(heights / 2));
    for height in 1..=top {
        if random.one_in(8) {
            frames.push(Frame::DummyCertificate { mask: 15, height });
            continue;
        }
        let parent = below.height;
        let digest = if parent == 0 { [0; 32] } else { sha256::digest(&below.bytes()) };
        let entries = Entries::first_of(&any_entries(random));
        below = Block { height, parent, digest, entries };
        frames.push(Frame::BlockCertificate { mask: 15, block: below.clone() });
    }
    if let Some(&signer) = leaders.get(usize::from(top)) {
        let (height, parent) = (top.saturating_add(1), below.height);
        let digest = sha256::digest(&below.bytes());
        let block = Block { height, parent, digest, ..Block::default() };
        frames.push(Frame::Proposal { signer, block });
    }
    let some = (0..4).map(|_| random.height_below(heights).saturating_add(1)).collect::<Vec<_>>();
    let finals = some.into_iter().chain([below.height]);
    frames.extend(finals.map(|height| Frame::FinalizeCertificate { mask: 15, height }));
    let packet: Vec<u8> = frames.iter().flat_map(Frame::bytes).collect();
    _ = book.deliver_packet(&packet);
    entered(random, book.bytes().to_vec(), top)
}

/// The book at its height above the linked ones mostly, or at one near it or any, every other time with any flags.
fn entered(random: &mut Random, mut book: Vec<u8>, top: Height) -> Vec<u8> {
    let heights = head_height(&book, field::HEIGHTS);
    let any = random.height_below(heights.saturating_add(1)).saturating_add(1);
    let current = match random.below(4) {
        0 => any,
        1 => top.saturating_sub(random.height_below(3)),
        _ => top.saturating_add(1),
    };
    put_head_height(&mut book, field::CURRENT, current);
    let flags = if random.one_in(2) { random.byte_below(16) } else { 0 };
    book.iter_mut().skip(field::FLAGS).take(1).for_each(|byte| *byte = flags);
    book
}

/// The observer's book that has the certificates of a station's.
pub fn watched(station: &[u8]) -> Vec<u8> {
    let heights = head_height(station, field::HEIGHTS);
    let weights = Weights::of(station);
    let n = weights.each().len() as u64;
    let new = ObserverBook::open(Rules::SHA256, n, heights, weights.each());
    let mut book = new.map(|book| book.bytes().to_vec()).unwrap_or_default();
    let (from, to) = (Layout::new(heights), ObserverLayout::new(heights));
    for height in 1..=heights {
        let row = station.get(from.area(height, Area::Row)).unwrap_or(&[]);
        let page = station.get(from.area(height, Area::Notarized)).unwrap_or(&[]);
        let state = row.get(1).map_or(0, |state| state & 2);
        let row: Vec<u8> =
            [state, 0].into_iter().chain(row.iter().skip(2).take(6).copied()).collect();
        let places = [(ObserverArea::Row, &row[..]), (ObserverArea::Notarized, page)];
        for (area, bytes) in places {
            let start = to.area(height, area).start;
            book.iter_mut().skip(start).zip(bytes).for_each(|(to, from)| *to = *from);
        }
    }
    book
}

/// Changes a height of the head: a bit of it, its high byte, the place that another edition has for it, or the edition
/// with all that it says.
pub fn damage_head(random: &mut Random, book: &mut [u8]) {
    let of = random.pick(&OF_HEAD).copied().unwrap_or(field::HEIGHTS);
    let (place, bit) = (of.place(book), 1_u8 << random.below(2));
    let other = if place.start == of.long { of.short } else { of.long };
    let at = match random.below(4) {
        0 => place.end.saturating_sub(1),
        1 | 2 => other,
        _ => field::UNUSED.saturating_add(random.index(18)),
    };
    book.iter_mut().skip(at).take(1).for_each(|byte| *byte ^= bit);
}

#[cfg(test)]
mod tests {
    use super::*;
    use std::collections::BTreeSet;
    use types::Calls;

    /// Whether a replica finds a book sound.
    fn is_sound(book: &[u8], observers: bool) -> bool {
        match observers {
            true => Calls::observer_size(&Rules::SHA256, book).is_ok(),
            false => Calls::size(&Rules::SHA256, book).is_ok(),
        }
    }

    #[test]
    fn stretched_books_are_sound_by_their_edition_alone() {
        let mut random = Random::new(1);
        let mut seen = BTreeSet::new();
        for at in 0..400 {
            let observers = at % 2 == 0;
            let book = stretched(&mut random, observers);
            let (edition, heights) = (book[field::EDITION], head_height(&book, field::HEIGHTS));
            let sound = (1..=types::most_heights(edition)).contains(&heights);
            assert_eq!(is_sound(&book, observers), sound, "{edition} {heights}");
            seen.insert((observers, edition, heights));
        }
        assert_eq!(seen.len(), 22);
    }

    #[test]
    fn linked_books_settle_at_their_last_page() {
        let mut random = Random::new(3);
        for heights in [64, 257, 300] {
            let book = linked(&mut random, heights);
            let mut watched = watched(&book);
            assert!(is_sound(&book, false) && is_sound(&watched, true));
            let moved = Calls::observer_move(&Rules::SHA256, &mut watched);
            assert!(moved.is_ok_and(|moved| moved.height() > heights / 2 - 20), "{moved:?}");
        }
    }

    #[test]
    fn long_books_have_two_bytes_of_heights() {
        let mut random = Random::new(2);
        let all: BTreeSet<Height> = (0..200).map(|_| long_heights(&mut random)).collect();
        assert!(all.iter().all(|heights| (64..=MOST_HEIGHTS).contains(heights)));
        assert!(EDGES.iter().all(|edge| all.contains(edge)) && all.len() > 40);
        assert_eq!([longest_log(&[]), types::MOST_LOG], [8_064, 128_000]);
    }
}
