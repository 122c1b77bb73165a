//! Observers (request 2.3 of document 02): a book without a vote, which follows the log by certificates alone.
//!
//! Chains, quorums and frames are those of a replica; the book, its soundness and the five calls are here.

mod codec;
mod deliver;
pub mod inspect;
mod log;
mod make_move;
mod open;
mod soundness;
mod state;

pub use state::observer_book_length;
