//! A replica, the page that it is held to, and pages, frames and books made by the places of that page.

use super::page::Formats;
use exchange::equal_weights;
use reference::sha256;
use std::ops::Range;
use types::{Calls, Delivered};

/// The heights of a book.
pub const HEIGHTS: usize = 3;

/// The stations and the own number of a book.
pub const N: u64 = 4;
pub const OWN: u64 = 2;

/// A leader for each height.
pub const ROLL: [u8; HEIGHTS] = [0, 1, 2];

/// A replica and the page that it is held to.
pub struct Bench<'a, C> {
    pub calls: C,
    pub formats: &'a Formats,
}

impl<C: Calls + Copy> Bench<'_, C> {
    /// A book opened over old bytes that are not zero.
    pub fn opened(&self, n: u64, own: u64, roll: &[u8]) -> Vec<u8> {
        let mut book = vec![0xa5; 576 + 880 * roll.len()];
        self.calls.open(&mut book, n, own, roll.len() as u64, &equal_weights(n), roll).unwrap();
        book
    }

    /// The book that most tests begin with.
    pub fn new_book(&self) -> Vec<u8> {
        self.opened(N, OWN, &ROLL)
    }

    /// A field of the head.
    pub fn head(&self, field: &str) -> Range<usize> {
        self.formats.place("Head", field)
    }

    /// A number of two bytes in the head of a book.
    pub fn number(&self, book: &[u8], heading: &str, field: &str) -> u16 {
        let place = self.formats.place(heading, field);
        u16::from_le_bytes(book[place].try_into().unwrap())
    }

    /// A field of a height's row, as the page places rows.
    pub fn row(&self, height: usize, field: &str) -> Range<usize> {
        shifted(self.formats.place("Row of a height", field), 576 + 16 * (height - 1))
    }

    /// A field of a height's body, as the page places bodies.
    pub fn body(&self, height: usize, field: &str) -> Range<usize> {
        let start = 576 + 16 * HEIGHTS + 864 * (height - 1);
        shifted(self.formats.place("Body of a height", field), start)
    }

    /// A page on a parent page, or on none.
    pub fn page(&self, height: u16, parent: Option<&[u8]>, entries: &[[u8; 16]]) -> Vec<u8> {
        let mut page = vec![0; 176];
        let mut put = |field: &str, bytes: &[u8]| {
            let place = self.formats.place("Page", field);
            page[place.start..place.start + bytes.len()].copy_from_slice(bytes);
        };
        put("height", &height.to_le_bytes());
        put("count", &[entries.len() as u8]);
        put("entries", entries.as_flattened());
        if let Some(parent) = parent {
            put("back height", &parent[self.formats.place("Page", "height")]);
            put("back digest", &sha256::digest(parent));
        }
        page
    }

    /// A frame of a kind and a height, with these other fields.
    pub fn frame(&self, kind: u8, height: u16, fields: &[(&str, &[u8])]) -> Vec<u8> {
        let mut frame = vec![0; 224];
        let height = height.to_le_bytes();
        let all: [(&str, &[u8]); 2] = [("kind", &[kind]), ("height", &height)];
        for (field, bytes) in all.iter().chain(fields) {
            frame[self.formats.place("Frame", field)].copy_from_slice(bytes);
        }
        frame
    }

    /// One frame of each kind, for height 1 of a new book, each of which is taken.
    pub fn one_of_each_kind(&self) -> Vec<Vec<u8>> {
        let page = self.page(1, None, &[[3; 16]; 8]);
        let digest = sha256::digest(&page);
        vec![
            self.frame(1, 1, &[("signer", &[ROLL[0]]), ("page", &page)]),
            self.frame(2, 1, &[("signer", &[1]), ("digest", &digest)]),
            self.frame(3, 1, &[("signer", &[3])]),
            self.frame(4, 1, &[("signer", &[3])]),
            self.frame(5, 1, &[("mask", &[0b1110, 0]), ("page", &page)]),
            self.frame(6, 1, &[("mask", &[0b0111, 0])]),
            self.frame(7, 1, &[("mask", &[0b1011, 0])]),
        ]
    }

    /// Delivers a frame that must be fresh.
    pub fn fresh(&self, book: &mut [u8], frame: &[u8]) {
        assert_eq!(self.calls.deliver(book, frame), Ok(Delivered::Fresh));
    }
}

/// The places moved up.
pub fn shifted(place: Range<usize>, by: usize) -> Range<usize> {
    place.start + by..place.end + by
}

/// Of two books that differ, the bytes that do are among these places, and some byte of each place does.
pub fn changed(before: &[u8], after: &[u8], places: &[Range<usize>]) {
    let differ = |at: &usize| before[*at] != after[*at];
    assert_eq!(before.len(), after.len());
    for at in (0..before.len()).filter(differ) {
        assert!(places.iter().any(|place| place.contains(&at)), "byte {at} is none of {places:?}");
    }
    for place in places {
        assert!(place.clone().any(|at| differ(&at)), "nothing changed at {place:?}");
    }
}
