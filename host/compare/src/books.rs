//! Random books: new ones, sound ones that no run makes, damaged ones and garbage.

use crate::frames::{any_block, any_entry, any_mask};
use crate::long_books::damage_head;
use crate::weights::{any_weights, damage_weights, some_edition};
use crate::Random;
use reference::{is_quorum, sha256, Rules};
use types::{book_length, field, head_height, mask_at, put_head_height, Weights};
use types::{Area, Book, Calls, Height, Layout};
use types::{ALL_FLAGS, BLOCK, MOST_PENDING, MOST_REPLICAS, MOST_SHORT_HEIGHTS};

/// A number of heights that every edition may have: mostly small, now and then up to 63.
pub fn any_heights(random: &mut Random) -> Height {
    let bound = match random.below(16) {
        0 => MOST_SHORT_HEIGHTS,
        1..=3 => 20,
        _ => 6,
    };
    random.height_below(bound).saturating_add(1)
}

/// A number of replicas.
pub fn any_replicas(random: &mut Random) -> u8 {
    let bound = if random.one_in(2) { 5 } else { MOST_REPLICAS };
    random.byte_below(bound).saturating_add(1)
}

/// Arguments to open a book with: n, own number and leaders.
pub fn any_arguments(random: &mut Random) -> (u8, u8, Vec<u8>) {
    let heights = any_heights(random);
    arguments_for(random, heights)
}

/// The same for a number of heights.
pub fn arguments_for(random: &mut Random, heights: Height) -> (u8, u8, Vec<u8>) {
    let n = any_replicas(random);
    let leaders = (0..heights).map(|_| random.byte_below(n)).collect();
    (n, random.byte_below(n), leaders)
}

/// A new book for stations of these weights.
fn opened(weights: &[u16], own: u8, leaders: &[u8]) -> Vec<u8> {
    let n = weights.len() as u64;
    let book = Book::open(Rules::SHA256, n, own.into(), weights, leaders);
    book.map_or_else(|_| Vec::new(), |book| book.bytes().to_vec())
}

/// A sound book of any edition with any weights, any flags, any current height, junk in every free byte, and blocks
/// that may not fit together.
pub fn strange_book(random: &mut Random, heights: Height) -> Vec<u8> {
    let (n, own, leaders) = arguments_for(random, heights);
    let mut book = opened(&any_weights(random, n), own, &leaders);
    some_edition(random, &mut book);
    let layout = Layout::new(heights);
    random.fill(&mut book[layout.area(1, Area::Held).start..]);
    let current = random.height_below(heights.saturating_add(1)).saturating_add(1);
    put_head_height(&mut book, field::CURRENT, current);
    let all = MOST_PENDING.saturating_add(1);
    book[field::PENDING] = if random.one_in(4) { MOST_PENDING } else { random.byte_below(all) };
    book[field::FLAGS] = random.byte_below(ALL_FLAGS.saturating_add(1));
    for place in book[layout.pending()].chunks_mut(16) {
        place.copy_from_slice(&any_entry(random));
    }
    for (height, leader) in (1..=heights).zip(leaders) {
        fill_height(random, &mut book, height, leader);
    }
    settle(random, &mut book);
    book
}

/// The row and the blocks of one height.
fn fill_height(random: &mut Random, book: &mut [u8], height: Height, leader: u8) {
    let (n, layout) = (book[field::N], Layout::new(head_height(book, field::HEIGHTS)));
    let weights = Weights::of(book);
    let all = u16::MAX >> 16_u8.saturating_sub(n).min(15);
    let state = random.byte_below(4) | if random.one_in(3) { 0 } else { 2 };
    let mut row = [0; 16];
    (row[0], row[1]) = (leader, state);
    for mask in row[2..10].chunks_mut(2) {
        mask.copy_from_slice(&(any_mask(random, &weights) & all).to_le_bytes());
    }
    if state & 2 != 0 {
        let some = is_quorum(mask_at(&row, 2), weights.each());
        let mask = if some { mask_at(&row, 2) } else { all };
        row[2..4].copy_from_slice(&mask.to_le_bytes());
        let block = any_block(random, book, height).bytes();
        book[layout.area(height, Area::Notarized)].copy_from_slice(&block);
    }
    if state & 1 != 0 {
        let block = any_block(random, book, height).bytes();
        book[layout.area(height, Area::Held)].copy_from_slice(&block);
        some_votes(random, &mut book[layout.area(height, Area::Votes)], &sha256::digest(&block));
    }
    book[layout.area(height, Area::Row)].copy_from_slice(&row);
}

/// Makes some of the vote digests of a height those of its held block.
fn some_votes(random: &mut Random, votes: &mut [u8], digest: &[u8; 32]) {
    let few = random.below(4).saturating_add(1);
    for vote in votes.chunks_exact_mut(32) {
        if !random.one_in(few) {
            vote.copy_from_slice(digest);
        }
    }
}

/// Makes some settled height the finalized one, if a few tries find one.
fn settle(random: &mut Random, book: &mut [u8]) {
    for _ in 0..3 {
        let height = random.height_below(head_height(book, field::HEIGHTS)).saturating_add(1);
        put_head_height(book, field::FINALIZED, height);
        if Calls::size(&Rules::SHA256, book).is_ok() {
            return;
        }
    }
    put_head_height(book, field::FINALIZED, 0);
}

/// Changes one byte, a weight, the edition or a height of the head, or cuts or lengthens the book.
pub fn damage(random: &mut Random, book: &mut Vec<u8>) {
    match random.below(12) {
        0 | 1 => return damage_weights(random, book),
        2 => return damage_head(random, book),
        _ => {}
    }
    let at = any_place(random, book);
    let bit = 1 << random.below(8);
    let any = if random.one_in(2) { random.byte() } else { random.byte_below(66) };
    match (random.below(12), book.get_mut(at)) {
        (0, _) => book.truncate(book.len().saturating_sub(random.index(3).saturating_add(1))),
        (1, _) => book.push(0),
        (2..=6, Some(byte)) => *byte = any,
        (_, Some(byte)) => *byte ^= bit,
        (_, None) => book.push(any),
    }
}

/// A place in a book: in the head's fields, the head, the contents, a body's blocks or anywhere.
fn any_place(random: &mut Random, book: &[u8]) -> usize {
    let heights = head_height(book, field::HEIGHTS);
    let height = random.height_below(heights).saturating_add(1);
    let layout = Layout::new(heights);
    let held = layout.area(height, Area::Held).start;
    let range = match random.below(6) {
        0 => 0..8,
        1 => 0..64,
        2 | 3 => layout.area(height, Area::Row),
        4 => held..held.saturating_add(2 * BLOCK),
        _ => 0..book.len(),
    };
    range.start.saturating_add(random.index(range.len())).min(book.len().saturating_sub(1))
}

/// Bytes of any length, often that of a book, sometimes with a head that looks like one.
pub fn garbage(random: &mut Random) -> Vec<u8> {
    let heights = any_heights(random);
    let length = match random.below(6) {
        0 => random.index(60_000),
        1 | 2 => random.index(4000),
        3 => random.index(600),
        _ => book_length(heights),
    };
    let mut book = vec![0; length];
    if random.one_in(2) {
        random.fill(&mut book);
    }
    let mut like = opened(&any_weights(random, 4), 2, &vec![0; heights.into()]);
    some_edition(random, &mut like);
    if random.one_in(2) {
        book.iter_mut().zip(like).take(64).for_each(|(to, from)| *to = from);
    }
    book
}

#[cfg(test)]
mod tests {
    use super::*;
    use std::collections::BTreeSet;

    #[test]
    fn strange_books_are_sound_and_of_every_size() {
        let mut random = Random::new(1);
        let mut seen = [const { BTreeSet::new() }; 4];
        let mut finalized = 0;
        for _ in 0..6000 {
            let heights = any_heights(&mut random);
            let book = strange_book(&mut random, heights);
            assert!(Calls::size(&Rules::SHA256, &book).is_ok());
            let [n, own, flags] =
                [field::N, field::OWN, field::FLAGS].map(|at| u64::from(book[at]));
            let values = [n, own, head_height(&book, field::HEIGHTS).into(), flags];
            seen.iter_mut().zip(values).for_each(|(seen, value)| _ = seen.insert(value));
            finalized += u32::from(head_height(&book, field::FINALIZED) > 0);
        }
        assert_eq!(seen.map(|seen| seen.len()), [16, 16, MOST_SHORT_HEIGHTS.into(), 16]);
        assert!(finalized > 600);
    }

    #[test]
    fn damaged_books_are_of_both_sorts() {
        let mut random = Random::new(2);
        let mut sound = [0, 0];
        for _ in 0..600 {
            let mut book = strange_book(&mut random, 3);
            let before = book.clone();
            damage(&mut random, &mut book);
            let at = usize::from(Calls::size(&Rules::SHA256, &book).is_ok() && book != before);
            sound[at] += 1;
        }
        assert!(sound.iter().all(|count| *count > 50), "{sound:?}");
    }
}
