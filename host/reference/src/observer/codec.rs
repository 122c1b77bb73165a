//! An observer's state as bytes: the layout of its book, both ways.

use super::state::{observer_book_length, Observed, ObserverState};
use crate::block::BLOCK;
use crate::head::{Head, HEAD};
use crate::links::Links;

/// The length of a row.
const ROW: usize = 8;

impl ObserverState {
    /// The state in these bytes, if the length is right and all that must be zero in a book of this edition is zero:
    /// writing the state again gives the same bytes. Own number, flags, current height and pending count are among the
    /// zeros.
    pub fn decode(book: &[u8]) -> Option<ObserverState> {
        let (head, rest) = book.split_first_chunk::<HEAD>()?;
        let Head { n, heights, finalized, edition, weights, .. } = Head::decode(head);
        if book.len() != observer_book_length(heights) {
            return None;
        }
        let (rows, blocks) = rest.split_at_checked(ROW.checked_mul(usize::from(heights))?)?;
        let both = rows.as_chunks::<ROW>().0.iter().zip(blocks.as_chunks::<BLOCK>().0);
        let slots = both.map(|(row, block)| Observed::decode(row, block)).collect::<Option<_>>()?;
        let head = Head { n, heights, finalized, edition, weights, ..Head::default() };
        let state = ObserverState { head, slots, links: Links::default() };
        (state.encode() == book).then_some(state)
    }

    /// The bytes of the state.
    pub fn encode(&self) -> Vec<u8> {
        let mut book = Vec::with_capacity(observer_book_length(self.head.heights));
        book.extend(self.head.encode());
        self.slots.iter().for_each(|slot| book.extend(slot.encode_row()));
        self.slots.iter().for_each(|slot| book.extend(slot.block));
        book
    }

    /// Writes the state over the book it was decoded from.
    pub fn store(&self, book: &mut [u8]) {
        book.iter_mut().zip(self.encode()).for_each(|(to, from)| *to = from);
    }
}

impl Observed {
    /// The slot in a row and its block.
    fn decode(row: &[u8; ROW], block: &[u8; BLOCK]) -> Option<Observed> {
        let [[marks, _], certificate, dummies, finalizes] = *row.as_chunks::<2>().0.as_array()?;
        Some(Observed {
            marks,
            certificate: u16::from_le_bytes(certificate),
            dummies: u16::from_le_bytes(dummies),
            finalizes: u16::from_le_bytes(finalizes),
            block: *block,
        })
    }

    /// The slot's row: the byte after the state is zero.
    fn encode_row(&self) -> [u8; ROW] {
        let mut row = [0; ROW];
        row[0] = self.marks;
        let masks = [self.certificate, self.dummies, self.finalizes];
        for (to, mask) in row[2..].as_chunks_mut::<2>().0.iter_mut().zip(masks) {
            *to = mask.to_le_bytes();
        }
        row
    }
}
