//! One call of an observer with its arguments, made on any implementation.

use crate::call::{done, number};
use crate::{bytes, Answer};
use types::Calls;

/// A call on an observer's book; the book and the reading buffer are lent when it is made.
#[derive(Clone, Debug, PartialEq, Eq)]
#[allow(missing_docs)] // the fields are the calls' arguments
pub enum ObserverCall {
    /// Makes a new book.
    Open { n: u64, heights: u64, weights: Vec<u8> },
    /// Takes a certificate.
    Deliver { frame: Vec<u8> },
    /// Settles.
    Move,
    /// The size of the log.
    Size,
    /// Reads the log.
    Read,
}

impl ObserverCall {
    /// Whether the call is lent a second buffer: to read into.
    pub fn lends(&self) -> bool {
        *self == ObserverCall::Read
    }

    /// Whether the call may write to the book.
    pub fn writes(&self) -> bool {
        match self {
            ObserverCall::Open { .. } | ObserverCall::Deliver { .. } | ObserverCall::Move => true,
            ObserverCall::Size | ObserverCall::Read => false,
        }
    }

    /// Makes the call. Those that are lent no second buffer leave it alone.
    pub fn make(&self, calls: &impl Calls, book: &mut [u8], buffer: &mut [u8]) -> Answer {
        match self {
            ObserverCall::Open { n, heights, weights } => {
                done(calls.observer_open(book, *n, *heights, weights))
            }
            ObserverCall::Deliver { frame } => {
                calls.observer_deliver(book, frame).map_or_else(Answer::Deny, Answer::Delivered)
            }
            ObserverCall::Move => {
                calls.observer_move(book).map_or_else(Answer::Deny, Answer::Moved)
            }
            ObserverCall::Size => calls.observer_size(book).map_or_else(Answer::Deny, Answer::Size),
            ObserverCall::Read => Answer::Part(calls.observer_read(book, buffer)),
        }
    }

    /// The words of the call on a book and a second buffer of these names.
    pub fn words(&self, book: &str, buffer: &str) -> String {
        match self {
            ObserverCall::Open { n, heights, weights } => {
                format!("observer-open {book} {n} {heights} {}", bytes::print(weights))
            }
            ObserverCall::Deliver { frame } => {
                format!("observer-deliver {book} {}", bytes::print(frame))
            }
            ObserverCall::Move => format!("observer-move {book}"),
            ObserverCall::Size => format!("observer-size {book}"),
            ObserverCall::Read => format!("observer-read {book} {buffer}"),
        }
    }

    /// The call in these words, with those that stand for its buffers; none if they are no call of an observer.
    pub fn parse<'a>(
        words: &[&'a str],
    ) -> Result<Option<(ObserverCall, &'a str, &'a str)>, String> {
        Ok(Some(match *words {
            ["observer-open", book, n, heights, weights] => {
                let (n, heights, weights) = (number(n)?, number(heights)?, bytes::parse(weights)?);
                (ObserverCall::Open { n, heights, weights }, book, "")
            }
            ["observer-deliver", book, frame] => {
                (ObserverCall::Deliver { frame: bytes::parse(frame)? }, book, "")
            }
            ["observer-move", book] => (ObserverCall::Move, book, ""),
            ["observer-size", book] => (ObserverCall::Size, book, ""),
            ["observer-read", book, buffer] => (ObserverCall::Read, book, buffer),
            _ => return Ok(None),
        }))
    }
}
