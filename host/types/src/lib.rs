//! What a replica and its callers share: the calls as a trait, their answers, frames, and where things are in a book.
//!
//! Nothing here decides anything: the rules are those of the replica behind the trait [`Calls`]. No input
//! makes a function of this crate panic.

#![warn(clippy::indexing_slicing, clippy::arithmetic_side_effects)]
#![warn(clippy::unwrap_used, clippy::expect_used, clippy::panic)]

mod answer;
mod answers;
mod block;
mod book;
mod bounds;
mod calls;
mod editions;
mod entries;
mod evidence;
mod frame;
mod height;
mod layout;
mod observer_book;
mod observer_layout;
pub mod packing;
pub mod refusal;
mod second_block;
mod weights;

pub use answer::{Certificate, Counts, Delivered, Move};
pub use block::{Block, BLOCK, BLOCK_HEIGHT, BLOCK_PARENT};
pub use book::{Book, Written};
pub use bounds::*;
pub use calls::Calls;
pub use editions::{put_edition, put_first_edition};
pub use entries::{Entries, TooManyEntries};
pub use evidence::{Answered, Evidence};
pub use frame::{Frame, FRAME, FRAME_HEIGHT};
pub use height::{
    head_height, height_at, height_bytes, most_heights, nearest_height, put_head_height,
    put_height, HeadHeight, Height,
};
pub use layout::{book_length, field, mask_at, Area, Layout, ENTRY};
pub use observer_book::ObserverBook;
pub use observer_layout::{is_observers, observer_book_length, ObserverArea, ObserverLayout};
pub use refusal::Refusal;
pub use second_block::{held_block, is_second_block};
pub use weights::{put_weights, weight_bytes, Weights};
