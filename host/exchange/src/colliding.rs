//! Entries that collide on purpose: all of them have one place in a filter without a key, as who looks for repeats by
//! one may have it.

use types::ENTRY;

/// The factors by which such a filter takes an entry's four words to a place.
const FACTORS: [u64; 4] = [3609, 4842, 6902, 1601];

/// The places of the filter.
const PLACES: u64 = 8179;

/// The place of all colliding entries; any other would do.
const PLACE: u64 = 1;

/// The place of an entry, by its four words of 32 bits, the low byte first.
pub fn place_in_filter(entry: &[u8; ENTRY]) -> u64 {
    let words = entry.as_chunks::<4>().0.iter().map(|word| u64::from(u32::from_le_bytes(*word)));
    let sum = words
        .zip(FACTORS)
        .fold(0_u64, |sum, (word, factor)| sum.wrapping_add(word.wrapping_mul(factor)));
    sum % PLACES
}

/// The entry of a number among many that differ and have one place. The first byte is 0 to 3, the second word is the
/// number, and the last word is the smallest that brings the entry to the place.
pub fn colliding(number: usize) -> [u8; ENTRY] {
    let second = u32::try_from(number).unwrap_or(u32::MAX);
    let of = |last: u32| {
        let words = [second % 4, second, 0, last].map(u32::to_le_bytes);
        let mut entry = [0; ENTRY];
        entry.copy_from_slice(words.as_flattened());
        entry
    };
    (0..u32::MAX)
        .map(of)
        .find(|entry| place_in_filter(entry) == PLACE)
        .unwrap_or_else(|| of(u32::MAX))
}

#[cfg(test)]
mod tests {
    use super::*;
    use std::collections::BTreeSet;
    use types::{MOST_ENTRIES, MOST_HEIGHTS};

    #[test]
    fn they_differ_and_have_one_place() {
        let count = usize::from(MOST_HEIGHTS) * usize::from(MOST_ENTRIES);
        let entries: BTreeSet<_> = (0..count).map(colliding).collect();
        assert_eq!(entries.len(), count);
        assert!(entries.iter().all(|entry| entry[0] < 4 && place_in_filter(entry) == PLACE));
    }

    #[test]
    fn places_are_those_of_the_sum() {
        let mut entry = [0; ENTRY];
        assert_eq!(place_in_filter(&entry), 0);
        (entry[0], entry[5]) = (3, 1);
        assert_eq!(place_in_filter(&entry), (3 * FACTORS[0] + 256 * FACTORS[1]) % PLACES);
        let most = FACTORS.iter().map(|factor| factor * u64::from(u32::MAX)).sum::<u64>();
        assert!(most > PLACES);
        assert_eq!(place_in_filter(&[0xff; ENTRY]), most % PLACES);
    }
}
