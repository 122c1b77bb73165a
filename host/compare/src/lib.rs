//! Compares two replicas on random lists of calls: every answer and every byte of every buffer, after every call.
//!
//! Half of the calls go to single books, new, strange, damaged and garbage ones, ones whose leaders say two things, and
//! those of observers, some beside a station; the other half run whole networks in which observers listen, with the
//! check that no two logs of honest replicas and observers fork. The seed decides everything. The second of the two may
//! be a program that is asked line by line, or a [`Scribe`] that writes the calls down.

#![warn(clippy::unwrap_used, clippy::expect_used, clippy::panic)]

mod books;
mod choose;
mod difference;
mod frames;
mod guarded;
mod height_kinds;
mod kinds;
mod listening;
mod long_books;
mod mischief;
mod network;
mod observer_books;
mod observer_frames;
mod observer_kinds;
mod observer_single;
mod packet_kinds;
mod packets;
mod pair;
mod random;
mod repeat_kinds;
mod report;
mod run;
mod scribe;
mod second;
mod second_page_kinds;
mod single;
mod traits;
mod two_pages;
mod weight_kinds;
mod weights;

pub use difference::{Difference, Halt, Outcome, Stop};
pub use kinds::Kinds;
pub use pair::Pair;
pub use random::Random;
pub use report::Report;
pub use run::{run, walk, LARGE};
pub use scribe::Scribe;
pub use second::Second;
