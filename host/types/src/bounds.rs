//! The bounds of documents 01 and 02, each by its name.

use crate::{Height, ENTRY};

/// The most heights of a book, whatever its edition; [`crate::most_heights`] has those of an edition.
pub const MOST_HEIGHTS: Height = 1_000;

/// The most heights of a book of edition 1 or 2, and of the programs that hold whole books.
pub const MOST_SHORT_HEIGHTS: Height = 63;

/// The most replicas of a book.
pub const MOST_REPLICAS: u8 = 16;

/// The most entries of a block.
pub const MOST_ENTRIES: u8 = 8;

/// The most pending entries of a book.
pub const MOST_PENDING: u8 = 32;

/// The bytes of the longest log: all blocks are full, and no entry repeats another.
pub const MOST_LOG: usize = MOST_HEIGHTS as usize * MOST_ENTRIES as usize * ENTRY;

/// The most that a replica weighs; the least is 1.
pub const MOST_WEIGHT: u16 = 1_000;

/// The edition of books without weights in their head: all are read as 1. It is document 01's.
pub const FIRST_EDITION: u8 = 1;

/// The edition of books with weights whose heights have one byte each in the head. It is request 2.6's.
pub const SECOND_EDITION: u8 = 2;

/// The edition of books with weights whose heights have two bytes each in the head, which open makes; no later one is
/// sound.
pub const EDITION: u8 = 3;

/// All flags of the current height together.
pub const ALL_FLAGS: u8 = 15;

/// The last number of the table of refusals.
pub const LAST_REFUSAL: u8 = 16;
