//! Weights against the page, in a station's and in an observer's head.

use super::bench::{Bench, HEIGHTS, N, OWN, ROLL};
use std::ops::Range;
use types::{weight_bytes, Calls};

/// A weight for each station, so that every byte of one is told from the others.
const WEIGHTS: [u16; N as usize] = [1000, 1, 256, 517];

/// A kind of head: its heading, and whether it is an observer's.
const HEADS: [(&str, bool); 2] = [("Head", false), ("Head of an observer's book", true)];

impl<C: Calls + Copy> Bench<'_, C> {
    /// A new book of a kind, with these weights, over old bytes that are not zero.
    pub fn weighed(&self, observers: bool, weights: &[u16]) -> Result<Vec<u8>, u8> {
        let (length, bytes) = (
            if observers { 64 + 184 * HEIGHTS } else { 576 + 880 * HEIGHTS },
            weight_bytes(weights),
        );
        let mut book = vec![0xa5; length];
        let heights = HEIGHTS as u64;
        let opened = match observers {
            true => self.calls.observer_open(&mut book, N, heights, &bytes),
            false => self.calls.open(&mut book, N, OWN, heights, &bytes, &ROLL),
        };
        opened.map(|()| book)
    }

    /// Whether a book of a kind is sound.
    pub fn is_sound(&self, observers: bool, book: &[u8]) -> bool {
        let size = if observers { self.calls.observer_size(book) } else { self.calls.size(book) };
        size.is_ok()
    }
}

/// All that the page says of weights.
pub fn hold<C: Calls + Copy>(bench: &Bench<C>) {
    for (heading, observers) in HEADS {
        let area = bench.formats.place(heading, "weights");
        placed(bench, observers, area.clone());
        ranges(bench, observers, area);
    }
}

/// The weight of station s stands at 8 + 2 s, with the low byte first, and the places from n up are zero.
fn placed<C: Calls + Copy>(bench: &Bench<C>, observers: bool, area: Range<usize>) {
    let book = bench.weighed(observers, &WEIGHTS).unwrap();
    for station in 0..16 {
        let at = 8 + 2 * station;
        assert!(area.contains(&at) && area.contains(&(at + 1)));
        let weight = WEIGHTS.get(station).copied().unwrap_or(0);
        assert_eq!(book[at..at + 2], weight.to_le_bytes(), "station {station}");
    }
}

/// A weight is 1 to 1,000 below n and zero from n up, in opening and in a book.
fn ranges<C: Calls + Copy>(bench: &Bench<C>, observers: bool, area: Range<usize>) {
    for (before, at) in area.step_by(2).enumerate() {
        for weight in [0, 1, 255, 256, 1000, 1001, 65535] {
            let fits = if before < N as usize { (1..=1000).contains(&weight) } else { weight == 0 };
            let mut book = bench.weighed(observers, &WEIGHTS).unwrap();
            book[at..at + 2].copy_from_slice(&u16::to_le_bytes(weight));
            assert_eq!(bench.is_sound(observers, &book), fits, "station {before}: {weight}");
            let mut weights = WEIGHTS;
            if let Some(place) = weights.get_mut(before) {
                *place = weight;
                assert_eq!(bench.weighed(observers, &weights).err(), (!fits).then_some(2));
            }
        }
    }
}
