//! Heights: their type, and their bytes in frames, in blocks and in the head of a book.
//!
//! Books, frames and answers have this one type. The calls of the trait [`crate::Calls`] take any number, as the C
//! interface does: [`nearest_height`] leads from a number to a height.

use crate::{field, EDITION, FIRST_EDITION, MOST_SHORT_HEIGHTS};
use std::ops::Range;

/// A height of a book, or a number of heights.
pub type Height = u16;

/// The height that a number is. A number that no height can be becomes the highest one, which no book has either: a
/// call refuses both alike.
pub fn nearest_height(number: u64) -> Height {
    Height::try_from(number).unwrap_or(Height::MAX)
}

/// The two bytes of a height in a frame or a block, the low one first.
pub fn height_bytes(height: Height) -> [u8; 2] {
    height.to_le_bytes()
}

/// The height whose two bytes stand at an offset of a frame, a block or a book; bytes past the end count as 0.
pub fn height_at(bytes: &[u8], at: usize) -> Height {
    let byte = |at: usize| bytes.get(at).copied().unwrap_or(0);
    Height::from_le_bytes([byte(at), byte(at.saturating_add(1))])
}

/// Writes the two bytes of a height to an offset of a frame, a block or a book; nothing past the end.
pub fn put_height(bytes: &mut [u8], at: usize, height: Height) {
    bytes.iter_mut().skip(at).zip(height_bytes(height)).for_each(|(to, from)| *to = from);
}

/// A height of a book's head, which is one of [`field::HEIGHTS`], [`field::CURRENT`] and [`field::FINALIZED`]: its
/// place goes by the edition.
#[derive(Clone, Copy, Debug, PartialEq, Eq)]
pub struct HeadHeight {
    /// Its byte in editions 1 and 2; zero in edition 3.
    pub short: usize,
    /// The first of its two bytes in edition 3; both are zero in editions 1 and 2.
    pub long: usize,
}

impl HeadHeight {
    /// Where a book has it: one byte, or two in edition 3.
    pub fn place(self, book: &[u8]) -> Range<usize> {
        match is_long(book) {
            true => self.long..self.long.saturating_add(2),
            false => self.short..self.short.saturating_add(1),
        }
    }
}

/// Whether the head of a book has its heights in two bytes each.
fn is_long(book: &[u8]) -> bool {
    book.get(field::EDITION) == Some(&EDITION)
}

/// The most heights that a book of an edition may have.
pub fn most_heights(edition: u8) -> Height {
    match edition {
        FIRST_EDITION..EDITION => MOST_SHORT_HEIGHTS,
        _ => crate::MOST_HEIGHTS,
    }
}

/// A height of a book's head, read by the book's edition; bytes past the end count as 0.
pub fn head_height(book: &[u8], of: HeadHeight) -> Height {
    let place = book.get(of.place(book)).unwrap_or(&[]);
    height_at(place, 0)
}

/// Writes a height of a book's head by the book's edition; nothing past the end. Where the edition has one byte, a
/// height that does not fit becomes 255, which no such book has.
pub fn put_head_height(book: &mut [u8], of: HeadHeight, height: Height) {
    let place = of.place(book);
    let fitting = if place.len() == 1 { height.min(u8::MAX.into()) } else { height };
    book.iter_mut()
        .take(place.end)
        .skip(place.start)
        .zip(height_bytes(fitting))
        .for_each(|(to, from)| *to = from);
}

#[cfg(test)]
mod tests {
    use super::*;

    /// A head of this edition, the rest zero.
    fn head(edition: u8) -> [u8; 64] {
        let mut head = [0; 64];
        head[field::EDITION] = edition;
        head
    }

    /// The three heights of a head.
    const ALL: [HeadHeight; 3] = [field::HEIGHTS, field::CURRENT, field::FINALIZED];

    #[test]
    fn heights_have_a_low_and_a_high_byte() {
        let mut bytes = [9; 4];
        put_height(&mut bytes, 1, 0x0203);
        assert_eq!((bytes, height_at(&bytes, 1)), ([9, 3, 2, 9], 0x0203));
        put_height(&mut bytes, 3, 1000);
        assert_eq!((bytes[3], height_at(&bytes, 3), height_at(&bytes, 4)), (0xe8, 0xe8, 0));
        assert_eq!([1, 65_535, 65_536, 65_537].map(nearest_height), [1, 65_535, 65_535, 65_535]);
    }

    #[test]
    fn editions_have_them_at_their_places() {
        for edition in [1, 2] {
            let mut book = head(edition);
            (50..).zip(ALL).for_each(|(height, of)| put_head_height(&mut book, of, height));
            assert_eq!((book[2], book[4], book[5]), (50, 51, 52));
            assert_eq!((book[3], book[6], &book[8..]), (0, 0, &[0; 56][..]));
            assert_eq!(ALL.map(|of| head_height(&book, of)), [50, 51, 52]);
        }
        let mut book = head(EDITION);
        (511..).zip(ALL).for_each(|(height, of)| put_head_height(&mut book, of, height));
        assert_eq!(book[40..46], [255, 1, 0, 2, 1, 2]);
        assert_eq!(
            (&book[..7], &book[8..40], &book[46..]),
            (&[0; 7][..], &[0; 32][..], &[0; 18][..])
        );
        assert_eq!(ALL.map(|of| head_height(&book, of)), [511, 512, 513]);
    }

    #[test]
    fn a_height_without_room_is_none_of_the_book() {
        let mut book = head(2);
        put_head_height(&mut book, field::HEIGHTS, 257);
        assert_eq!((head_height(&book, field::HEIGHTS), book[3]), (255, 0));
    }

    #[test]
    fn any_bytes_are_read() {
        assert_eq!(ALL.map(|of| head_height(&[], of)), [0; 3]);
        let short = &mut [EDITION; 41];
        assert_eq!(head_height(short, field::HEIGHTS), 0);
        put_head_height(short, field::HEIGHTS, 0x0203);
        put_head_height(&mut [], field::HEIGHTS, 1);
        assert_eq!((short[40], [0, 1, 2, 3, 4].map(most_heights)), (3, [1000, 63, 63, 1000, 1000]));
    }
}
