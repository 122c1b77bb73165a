//! The reference replica: the rules of document 01, and of requests 2.1 to 2.7 of document 02, in plain Rust, apart
//! from the proved replica.
//!
//! Every call takes the bytes that it may read or write and answers with a value or with the number
//! of a refusal. A refused call leaves all lent bytes as they were. No input makes a call panic.
//!
//! The calls are methods of [`Rules`]. [`Rules::SHA256`] digests blocks with SHA-256; any other digest function
//! can take its place, so that definitions can be compared on books with a cheaper digest.

#![forbid(unsafe_code)]
#![warn(clippy::indexing_slicing, clippy::arithmetic_side_effects)]
#![warn(clippy::unwrap_used, clippy::expect_used, clippy::panic)]

mod block;
mod calls;
mod chain;
mod codec;
mod deliver;
mod edition;
mod entry;
mod fetch;
mod frame;
mod frame_reader;
mod frame_writer;
mod head;
mod height;
pub mod inspect;
mod links;
mod log;
mod make_move;
mod observer;
mod open;
mod packet;
mod quorum;
pub mod refusal;
pub mod rehearsal;
mod rules;
mod signal;
mod soundness;
mod state;
mod submit;
mod view;
mod weights;

pub use entry::ENTRY;
pub use frame::FRAME;
pub use observer::observer_book_length;
pub use quorum::is_quorum;
pub use rules::{Digest, Rules};
pub use sha256;
pub use state::book_length;
pub use types::{Certificate, Counts, Delivered, Height, Move};
