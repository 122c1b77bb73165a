//! The state as bytes: the layout of the book, both ways.

use crate::block::BLOCK;
use crate::entry::ENTRY;
use crate::head::{Head, HEAD};
use crate::links::Links;
use crate::state::{book_length, Slot, State, PLACES, REPLICAS};

/// The lengths of the book's parts after the head.
const PENDING: usize = PLACES * ENTRY;
const ROW: usize = 16;
const BODY: usize = 2 * BLOCK + VOTES;
const VOTES: usize = REPLICAS * 32;

impl State {
    /// The state in these bytes, if the length is right and all that must be zero in a book of this edition is zero:
    /// writing the state again gives the same bytes.
    pub fn decode(book: &[u8]) -> Option<State> {
        let (head, rest) = book.split_first_chunk::<HEAD>()?;
        let head = Head::decode(head);
        if book.len() != book_length(head.heights) {
            return None;
        }
        let (pending, rest) = rest.split_first_chunk::<PENDING>()?;
        let (rows, bodies) = rest.split_at_checked(ROW.checked_mul(head.heights.into())?)?;
        let pending = *pending.as_chunks::<ENTRY>().0.as_array()?;
        let both = rows.as_chunks::<ROW>().0.iter().zip(bodies.as_chunks::<BODY>().0);
        let slots = both.map(|(row, body)| Slot::decode(row, body)).collect::<Option<_>>()?;
        let state = State { head, pending, slots, links: Links::default() };
        (state.encode() == book).then_some(state)
    }

    /// The bytes of the state.
    pub fn encode(&self) -> Vec<u8> {
        let mut book = Vec::with_capacity(book_length(self.head.heights));
        book.extend(self.head.encode());
        book.extend(self.pending.as_flattened());
        self.slots.iter().for_each(|slot| book.extend(slot.encode_row()));
        self.slots.iter().for_each(|slot| slot.encode_body(&mut book));
        book
    }

    /// Writes the state over the book it was decoded from, or over one of the same length.
    pub fn store(&self, book: &mut [u8]) {
        book.iter_mut().zip(self.encode()).for_each(|(to, from)| *to = from);
    }
}

impl Slot {
    /// The slot in a row of the contents and its body.
    fn decode(row: &[u8; ROW], body: &[u8; BODY]) -> Option<Slot> {
        let mask = |at: usize| Some(u16::from_le_bytes(*row.get(at..)?.first_chunk()?));
        let (proposal, rest) = body.split_first_chunk::<BLOCK>()?;
        let (block, votes) = rest.split_first_chunk::<BLOCK>()?;
        Some(Slot {
            leader: row[0],
            marks: row[1],
            certificate: mask(2)?,
            dummies: mask(4)?,
            finalizes: mask(6)?,
            voters: mask(8)?,
            proposal: *proposal,
            block: *block,
            votes: *votes.as_chunks::<32>().0.as_array()?,
        })
    }

    /// The slot's row of the contents.
    fn encode_row(&self) -> [u8; ROW] {
        let mut row = [0; ROW];
        row[0] = self.leader;
        row[1] = self.marks;
        let masks = [self.certificate, self.dummies, self.finalizes, self.voters];
        for (to, mask) in row[2..].as_chunks_mut::<2>().0.iter_mut().zip(masks) {
            *to = mask.to_le_bytes();
        }
        row
    }

    /// Appends the slot's body.
    fn encode_body(&self, book: &mut Vec<u8>) {
        book.extend(self.proposal);
        book.extend(self.block);
        book.extend(self.votes.as_flattened());
    }
}
