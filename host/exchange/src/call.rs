//! One call with its arguments, made on any replica.

use crate::bytes::{self, shorten};
use crate::{Answer, ObserverCall};
use types::Calls;

/// A call; the book and the reply or reading buffer are lent when it is made.
#[derive(Clone, Debug, PartialEq, Eq)]
#[allow(missing_docs)] // the fields are the calls' arguments
pub enum Call {
    /// Makes a new book.
    Open { n: u64, own: u64, heights: u64, weights: Vec<u8>, leaders: Vec<u8> },
    /// Takes a frame.
    Deliver { frame: Vec<u8> },
    /// Takes the frames of a packet.
    Packet { packet: Vec<u8> },
    /// Makes a move.
    Move,
    /// The timer of a height fired.
    Signal { height: u64 },
    /// Adds an entry.
    Submit { entry: Vec<u8> },
    /// The size of the log.
    Size,
    /// Reads the log.
    Read,
    /// Gets a certificate.
    Fetch { kind: u64, height: u64 },
    /// A call on an observer's book.
    Observer(ObserverCall),
}

impl Call {
    /// Whether the call is lent a second buffer: a reply or a reading buffer.
    pub fn lends(&self) -> bool {
        match self {
            Call::Move | Call::Read | Call::Fetch { .. } => true,
            Call::Open { .. } | Call::Deliver { .. } | Call::Packet { .. } => false,
            Call::Signal { .. } | Call::Submit { .. } | Call::Size => false,
            Call::Observer(call) => call.lends(),
        }
    }

    /// Whether the call may write to the book.
    pub fn writes(&self) -> bool {
        match self {
            Call::Open { .. } | Call::Deliver { .. } | Call::Packet { .. } => true,
            Call::Move | Call::Signal { .. } | Call::Submit { .. } => true,
            Call::Size | Call::Read | Call::Fetch { .. } => false,
            Call::Observer(call) => call.writes(),
        }
    }

    /// Makes the call. Those that are lent no second buffer leave it alone.
    pub fn make(&self, calls: &impl Calls, book: &mut [u8], buffer: &mut [u8]) -> Answer {
        match self {
            Call::Open { n, own, heights, weights, leaders } => {
                done(calls.open(book, *n, *own, *heights, weights, leaders))
            }
            Call::Deliver { frame } => {
                calls.deliver(book, frame).map_or_else(Answer::Deny, Answer::Delivered)
            }
            Call::Packet { packet } => {
                calls.packet(book, packet).map_or_else(Answer::Deny, Answer::Counted)
            }
            Call::Move => calls.make_move(book, buffer).map_or_else(Answer::Deny, Answer::Moved),
            Call::Signal { height } => done(calls.signal(book, *height)),
            Call::Submit { entry } => done(calls.submit(book, entry)),
            Call::Size => calls.size(book).map_or_else(Answer::Deny, Answer::Size),
            Call::Read => Answer::Part(calls.read(book, buffer)),
            Call::Fetch { kind, height } => done(calls.fetch(book, *kind, *height, buffer)),
            Call::Observer(call) => call.make(calls, book, buffer),
        }
    }

    /// The words of the call on a book and a second buffer of these names.
    pub fn words(&self, book: &str, buffer: &str) -> String {
        match self {
            Call::Open { n, own, heights, weights, leaders } => {
                let [weights, leaders] = [weights, leaders].map(|bytes| bytes::print(bytes));
                format!("open {book} {n} {own} {heights} {weights} {leaders}")
            }
            Call::Deliver { frame } => format!("deliver {book} {}", bytes::print(frame)),
            Call::Packet { packet } => format!("packet {book} {}", bytes::print(packet)),
            Call::Move => format!("move {book} {buffer}"),
            Call::Signal { height } => format!("signal {book} {height}"),
            Call::Submit { entry } => format!("submit {book} {}", bytes::print(entry)),
            Call::Size => format!("size {book}"),
            Call::Read => format!("read {book} {buffer}"),
            Call::Fetch { kind, height } => format!("fetch {book} {kind} {height} {buffer}"),
            Call::Observer(call) => call.words(book, buffer),
        }
    }

    /// The call in these words, with those that stand for its buffers; the second is empty if none is lent.
    pub fn parse(words: &[&str]) -> Result<(Call, String, String), String> {
        let mut second = "";
        let (call, book) = match *words {
            ["open", book, n, own, heights, weights, leaders] => {
                let (n, own, heights) = (number(n)?, number(own)?, number(heights)?);
                let (weights, leaders) = (bytes::parse(weights)?, bytes::parse(leaders)?);
                (Call::Open { n, own, heights, weights, leaders }, book)
            }
            ["deliver", book, frame] => (Call::Deliver { frame: bytes::parse(frame)? }, book),
            ["packet", book, packet] => (Call::Packet { packet: bytes::parse(packet)? }, book),
            ["move", book, buffer] => {
                second = buffer;
                (Call::Move, book)
            }
            ["signal", book, height] => (Call::Signal { height: number(height)? }, book),
            ["submit", book, entry] => (Call::Submit { entry: bytes::parse(entry)? }, book),
            ["size", book] => (Call::Size, book),
            ["read", book, buffer] => {
                second = buffer;
                (Call::Read, book)
            }
            ["fetch", book, kind, height, buffer] => {
                second = buffer;
                (Call::Fetch { kind: number(kind)?, height: number(height)? }, book)
            }
            _ => {
                let (call, book, buffer) = ObserverCall::parse(words)?.ok_or_else(|| {
                    format!("'{}' is no call with its arguments", shorten(&words.join(" ")))
                })?;
                second = buffer;
                (Call::Observer(call), book)
            }
        };
        Ok((call, book.to_string(), second.to_string()))
    }
}

/// The answer of a call that says nothing else.
pub(crate) fn done(answer: Result<(), u8>) -> Answer {
    answer.map_or_else(Answer::Deny, |()| Answer::Done)
}

/// A number of 64 bits.
pub(crate) fn number(word: &str) -> Result<u64, String> {
    word.parse().map_err(|_| format!("'{word}' is no number"))
}
