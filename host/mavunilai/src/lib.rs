//! The proved replica as a Rust library: a book that owns its bytes, typed answers, frames by name.
//!
//! With the feature `proved` the static library of the proved replica is linked, and `Proved` makes its calls. A
//! program that can do without it uses [`Book`] over another implementation of [`Calls`]. A call that is refused gives
//! a [`Refusal`], which is an error that says why. No input makes a call panic.
//!
//! Each replica has a weight, 1 to 1000, given when a book is opened; replicas that weigh two thirds of all are a
//! quorum. Here four of them weigh the same:
//!
//! ```
//! # fn main() -> Result<(), mavunilai::Refusal> {
//! use mavunilai::{Book, Frame, Refusal};
//! // With the feature: mavunilai::open(4, 2, &[1; 4], &[0, 1, 2])?
//! let mut book = Book::open(reference::Rules::SHA256, 4, 2, &[1; 4], &[0, 1, 2])?;
//! for signer in [0, 1, 2] {
//!     book.deliver(&Frame::DummyVote { signer, height: 1 }.bytes())?;
//! }
//! let (made, frames) = book.make_move()?;
//! assert_eq!(made.to_string(), "pass 1 6 4");
//! assert_eq!(frames[0], Frame::DummyCertificate { mask: 7, height: 1 }.bytes());
//! assert_eq!(frames[1], Frame::Finalize { signer: 2, height: 1 }.bytes());
//! assert_eq!((book.current(), book.leader(2)), (2, Some(1)));
//! assert_eq!(book.signal(1), Err(Refusal::NotDue)); // height 1 is passed: a late timer
//! # Ok(())
//! # }
//! ```
//!
//! An observer has no vote: [`ObserverBook`] takes certificates alone, and reads the log. Here it follows a large
//! replica, 10 of a total weight of 13, and three small ones: what the large one signed is a certificate, while the
//! three others are no quorum.
//!
//! ```
//! # fn main() -> Result<(), mavunilai::Refusal> {
//! use mavunilai::{Block, Frame, Move, ObserverBook, Refusal};
//! // With the feature: mavunilai::observe(4, 3, &[10, 1, 1, 1])?
//! let mut book = ObserverBook::open(reference::Rules::SHA256, 4, 3, &[10, 1, 1, 1])?;
//! let block = Block { height: 1, entries: [[1; 16]].into(), ..Block::default() };
//! let vote = Frame::Finalize { signer: 0, height: 1 }.bytes();
//! assert_eq!(book.deliver(&vote), Err(Refusal::NotACertificate));
//! let small = Frame::FinalizeCertificate { mask: 0b1110, height: 1 }.bytes();
//! assert_eq!(book.deliver(&small), Err(Refusal::NoQuorum));
//! book.deliver(&Frame::BlockCertificate { mask: 0b0001, block }.bytes())?;
//! book.deliver(&Frame::FinalizeCertificate { mask: 0b0001, height: 1 }.bytes())?;
//! assert_eq!(book.make_move()?, Move::Final { height: 1 });
//! assert_eq!(book.log()?, [[1; 16]]);
//! # Ok(())
//! # }
//! ```

#![warn(clippy::indexing_slicing, clippy::arithmetic_side_effects)]
#![warn(clippy::unwrap_used, clippy::expect_used, clippy::panic)]

#[cfg(feature = "proved")]
mod foreign;

#[cfg(feature = "proved")]
pub use foreign::{digest, fits, Proved};
/// A book in a file: locked while it is open, each call committed together with its frames.
pub use store;
pub use types::packing::INTERFACE;
pub use types::{
    book_length, held_block, is_second_block, nearest_height, observer_book_length, Answered,
    Block, Book, Calls, Certificate, Counts, Delivered, Entries, Evidence, Frame, Height, Move,
    ObserverBook, Refusal, TooManyEntries, Weights, Written, BLOCK, ENTRY, FRAME, MOST_HEIGHTS,
    MOST_REPLICAS, MOST_SHORT_HEIGHTS, MOST_WEIGHT,
};

/// The file of the static library that is linked: the archive with which a program in C is linked too.
#[cfg(feature = "proved")]
pub const ARCHIVE: &str = env!("MAVUNILAI_ARCHIVE");

/// A new book of the proved replica for replica `own` of `n`, with one weight for each replica, 1 to 1000, and one
/// leader for each height.
///
/// ```
/// # fn main() -> Result<(), mavunilai::Refusal> {
/// use mavunilai::{Frame, Refusal};
/// let mut book = mavunilai::open(4, 2, &[3, 1, 1, 1], &[0, 1, 2])?;
/// let two = Frame::DummyCertificate { mask: 0b0011, height: 1 }.bytes(); // 4 of 6: two thirds
/// let three = Frame::DummyCertificate { mask: 0b1110, height: 1 }.bytes(); // 3 of 6
/// assert_eq!(book.deliver(&three), Err(Refusal::NoQuorum));
/// assert!(book.deliver(&two).is_ok());
/// assert_eq!(mavunilai::open(4, 2, &[3, 1, 1], &[0]).err(), Some(Refusal::OutOfRange));
/// # Ok(())
/// # }
/// ```
#[cfg(feature = "proved")]
pub fn open(n: u64, own: u64, weights: &[u16], leaders: &[u8]) -> Result<Book<Proved>, Refusal> {
    Book::open(Proved, n, own, weights, leaders)
}

/// A new observer's book of the proved replica, over `n` replicas with one weight for each, and so many heights.
///
/// ```
/// let book = mavunilai::observe(4, 3, &[10, 1, 1, 1]).unwrap();
/// assert_eq!((book.n(), book.heights()), (4, 3));
/// assert!(mavunilai::observe(4, 3, &[10, 1, 1, 1001]).is_err());
/// ```
#[cfg(feature = "proved")]
pub fn observe(n: u64, heights: Height, weights: &[u16]) -> Result<ObserverBook<Proved>, Refusal> {
    ObserverBook::open(Proved, n, heights, weights)
}
