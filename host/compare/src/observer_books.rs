//! Random observers' books: sound ones that no run makes, damaged ones and garbage.

use crate::books::{any_heights, any_replicas};
use crate::frames::any_mask;
use crate::long_books::damage_head;
use crate::observer_frames::{any_observed_block, observed};
use crate::weights::{any_weights, damage_weights, some_edition};
use crate::Random;
use reference::inspect::{inspect_observer, ObservedHeight};
use reference::{is_quorum, Rules};
use types::{field, head_height, mask_at, observer_book_length, put_head_height, Weights};
use types::{Calls, Height, ObserverArea, ObserverBook, ObserverLayout};

/// A new observer's book over stations of these weights.
pub fn opened(weights: &[u16], heights: Height) -> Vec<u8> {
    let book = ObserverBook::open(Rules::SHA256, weights.len() as u64, heights, weights);
    book.map_or_else(|_| Vec::new(), |book| book.bytes().to_vec())
}

/// A sound book of any edition with any weights, junk in every free byte, and blocks that may not fit together.
pub fn strange_observer(random: &mut Random, heights: Height) -> Vec<u8> {
    let n = any_replicas(random);
    let mut book = opened(&any_weights(random, n), heights);
    some_edition(random, &mut book);
    random.fill(&mut book[ObserverLayout::new(heights).area(1, ObserverArea::Notarized).start..]);
    (1..=heights).for_each(|height| fill_height(random, &mut book, height));
    settle(random, &mut book);
    book
}

/// The row and the block of one height.
fn fill_height(random: &mut Random, book: &mut [u8], height: Height) {
    let (n, layout) = (book[field::N], ObserverLayout::new(head_height(book, field::HEIGHTS)));
    let weights = Weights::of(book);
    let all = u16::MAX >> 16_u8.saturating_sub(n).min(15);
    let mut row = [0; 8];
    for mask in row[2..].chunks_mut(2) {
        mask.copy_from_slice(&(any_mask(random, &weights) & all).to_le_bytes());
    }
    if !random.one_in(3) {
        row[0] = 2;
        let some = is_quorum(mask_at(&row, 2), weights.each());
        let mask = if some { mask_at(&row, 2) } else { all };
        row[2..4].copy_from_slice(&mask.to_le_bytes());
        let block = any_observed_block(random, book, height).bytes();
        book[layout.area(height, ObserverArea::Notarized)].copy_from_slice(&block);
    }
    book[layout.area(height, ObserverArea::Row)].copy_from_slice(&row);
}

/// Makes some settled height the finalized one, if a few tries find one.
fn settle(random: &mut Random, book: &mut [u8]) {
    for _ in 0..3 {
        let height = random.height_below(head_height(book, field::HEIGHTS)).saturating_add(1);
        put_head_height(book, field::FINALIZED, height);
        if Calls::observer_size(&Rules::SHA256, book).is_ok() {
            return;
        }
    }
    put_head_height(book, field::FINALIZED, 0);
}

/// Changes one byte, often to a value that a station's book has there, a weight or the edition, or cuts or lengthens
/// the book.
pub fn damage(random: &mut Random, book: &mut Vec<u8>) {
    match random.below(12) {
        0 | 1 => return damage_weights(random, book),
        2 => return damage_head(random, book),
        _ => {}
    }
    let at = any_place(random, book);
    let bit = 1 << random.below(8);
    let any = if random.one_in(3) { random.byte() } else { random.byte_below(5) };
    match (random.below(12), book.get_mut(at)) {
        (0, _) => book.truncate(book.len().saturating_sub(random.index(3).saturating_add(1))),
        (1, _) => book.push(0),
        (2..=7, Some(byte)) => *byte = any,
        (_, Some(byte)) => *byte ^= bit,
        (_, None) => book.push(any),
    }
}

/// The bytes of the head that a station's book uses and an observer's does not, in one edition or another.
const STATIONS: [usize; 6] = [
    field::OWN,
    field::FLAGS,
    field::CURRENT.short,
    field::CURRENT.long,
    field::CURRENT.long + 1,
    field::PENDING,
];

/// A place in an observer's book: in the head's fields, the head, a row, a page or anywhere.
fn any_place(random: &mut Random, book: &[u8]) -> usize {
    let heights = head_height(book, field::HEIGHTS);
    let height = random.height_below(heights).saturating_add(1);
    let layout = ObserverLayout::new(heights);
    let range = match random.below(7) {
        0 => return *random.pick(&STATIONS).unwrap_or(&0),
        1 if random.one_in(2) => 0..8,
        1 => 0..64,
        2 | 3 => layout.area(height, ObserverArea::Row),
        4 => layout.area(height, ObserverArea::Notarized),
        _ => 0..book.len(),
    };
    range.start.saturating_add(random.index(range.len())).min(book.len().saturating_sub(1))
}

/// Bytes of any length, often that of an observer's book, sometimes with a head that looks like one.
pub fn garbage(random: &mut Random) -> Vec<u8> {
    let heights = any_heights(random);
    let length = match random.below(6) {
        0 => random.index(12_000),
        1 => random.index(70),
        _ => observer_book_length(heights),
    };
    let mut book = vec![0; length];
    if random.one_in(2) {
        random.fill(&mut book);
    }
    if random.one_in(2) {
        let mut like = opened(&any_weights(random, 4), heights);
        some_edition(random, &mut like);
        book.iter_mut().zip(like).take(64).for_each(|(to, from)| *to = from);
    }
    book
}

/// The kinds that a sound observer's book is of.
pub fn traits(book: &[u8]) -> Vec<&'static str> {
    let Ok(told) = inspect_observer(book) else { return Vec::new() };
    let not_linked = |height: &ObservedHeight| height.notarized.is_some() && !height.linked;
    let free = |(height, slot): (Height, &ObservedHeight)| {
        let page = observed(book, height, ObserverArea::Notarized);
        slot.notarized.is_none() && page.iter().any(|byte| *byte != 0)
    };
    let masked = |slot: &ObservedHeight| slot.notarized.is_none() && slot.masks[0] != 0;
    let traits = [
        ((1..).zip(&told.heights).any(free), "observer's book: with a free byte set"),
        (told.heights.iter().any(masked), "observer's book: with a certificate mask and no page"),
        (told.heights.iter().any(not_linked), "observer's book: with a page that does not stand"),
        (told.finalized < told.largest, "observer's book: with a settled height ahead of it"),
    ];
    traits.into_iter().filter(|(is, _)| *is).map(|(_, name)| name).collect()
}

#[cfg(test)]
mod tests {
    use super::*;
    use std::collections::BTreeSet;
    use types::MOST_SHORT_HEIGHTS;

    #[test]
    fn strange_books_are_sound_and_of_every_size() {
        let mut random = Random::new(1);
        let mut seen = [const { BTreeSet::new() }; 2];
        let mut finalized = 0;
        for _ in 0..6000 {
            let heights = any_heights(&mut random);
            let book = strange_observer(&mut random, heights);
            assert!(Calls::observer_size(&Rules::SHA256, &book).is_ok());
            let values = [u64::from(book[field::N]), heights.into()];
            seen.iter_mut().zip(values).for_each(|(seen, value)| _ = seen.insert(value));
            finalized += u32::from(head_height(&book, field::FINALIZED) > 0);
        }
        assert_eq!(seen.map(|seen| seen.len()), [16, MOST_SHORT_HEIGHTS.into()]);
        assert!(finalized > 600);
    }

    #[test]
    fn damaged_books_are_of_both_sorts() {
        let mut random = Random::new(2);
        let mut sound = [0, 0];
        for _ in 0..600 {
            let mut book = strange_observer(&mut random, 3);
            let before = book.clone();
            damage(&mut random, &mut book);
            let is_sound = Calls::observer_size(&Rules::SHA256, &book).is_ok();
            sound[usize::from(is_sound && book != before)] += 1;
        }
        assert!(sound.iter().all(|count| *count > 50), "{sound:?}");
    }
}
