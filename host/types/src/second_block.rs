//! A leader who says two things, seen by looking at a book and a frame.

use crate::{field, head_height, height_at, Area, Height, Layout, BLOCK, FRAME, FRAME_HEIGHT};

/// The kind of a proposal's frame.
const PROPOSAL: u8 = 1;

/// The bit of a row's state that says that a proposal is held.
const HELD: u8 = 1;

/// The block of the proposal that a book holds at a height; none if it holds none or has no such height.
pub fn held_block(book: &[u8], height: Height) -> Option<&[u8; BLOCK]> {
    let heights = head_height(book, field::HEIGHTS);
    let layout = Layout::new(heights);
    let row = book.get(layout.area(height, Area::Row))?;
    let held = (1..=heights).contains(&height) && row.get(1)? & HELD != 0;
    book.get(layout.area(height, Area::Held))?.first_chunk().filter(|_| held)
}

/// Whether a frame is a proposal of another block than the one that the book holds at its height.
///
/// Of a frame that deliver took, or refused with 8, this says that the leader of the height proposed two blocks: the
/// frame and the one that brought the held block are evidence against him. Deliver never replaces a held block, so
/// that the book before that call and the book after it say the same. A packet may itself bring the first block: ask
/// about its frames after the packet and before any move, and deliver each that this tells once more; any refusal but
/// 8 says that it is no second block.
pub fn is_second_block(book: &[u8], frame: &[u8]) -> bool {
    let block = frame.first_chunk::<FRAME>().and_then(|frame| frame.last_chunk::<BLOCK>());
    let held = held_block(book, height_at(frame, FRAME_HEIGHT));
    let proposes = frame.len() == FRAME && frame.first() == Some(&PROPOSAL);
    proposes && held.is_some_and(|held| Some(held) != block)
}
