//! One line of what `certificates`, `fetch`, `move` and `run` print: a frame, or an answer beside it.

use crate::frame_input::is_answer;
use types::FRAME;

/// What a line holds.
#[derive(Clone, Debug, PartialEq, Eq)]
pub enum Line {
    /// The digits of a frame.
    Frame(Box<[u8; FRAME]>),
    /// An answer, or nothing.
    Nothing,
    /// Something else, with a sentence about it.
    Strange(String),
}

/// What a line holds, without its end.
pub fn parse(line: &str) -> Line {
    let line = line.trim();
    if line.is_empty() || is_answer(line) {
        return Line::Nothing;
    }
    let is_digits = line.chars().all(|digit| digit.is_ascii_hexdigit());
    let bytes = exchange::bytes::parse(line).ok().filter(|_| is_digits);
    match bytes.map(<Vec<u8> as TryInto<[u8; FRAME]>>::try_into) {
        Some(Ok(frame)) => Line::Frame(Box::new(frame)),
        Some(Err(bytes)) => {
            Line::Strange(format!("a frame has {FRAME} bytes, these are {}", bytes.len()))
        }
        None => Line::Strange("it is neither a frame in digits nor an answer".to_string()),
    }
}
