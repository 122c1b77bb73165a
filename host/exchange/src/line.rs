//! One line of a list: a remark, bytes given to a buffer, or a call with what is expected of it.

use crate::bytes::{self, shorten};
use crate::{Answer, Call};
use reference::sha256;
use std::fmt;

/// What a call must answer and its buffers afterwards: the book, then the second buffer if any.
#[derive(Clone, Debug, PartialEq, Eq)]
pub struct Expected {
    /// The answer.
    pub answer: Answer,
    /// The digests.
    pub digests: Vec<[u8; 32]>,
    /// The bytes, if the list has them in full.
    pub bytes: Option<Vec<Vec<u8>>>,
}

impl Expected {
    /// What is expected, with the bytes of the buffers in full.
    pub fn in_full(answer: Answer, bytes: Vec<Vec<u8>>) -> Expected {
        let digests = bytes.iter().map(|bytes| sha256::digest(bytes)).collect();
        Expected { answer, digests, bytes: Some(bytes) }
    }

    /// Whether a call came to this: the same answer and the same bytes.
    pub fn is_met_by(&self, found: &Expected) -> bool {
        (self.answer, &self.digests) == (found.answer, &found.digests)
    }
}

/// A line of a list.
#[derive(Clone, Debug, PartialEq, Eq)]
#[allow(missing_docs)] // the fields are told in the cases' comments
pub enum Line {
    /// Nothing but words for people; empty for an empty line.
    Remark(String),
    /// A buffer of this name holds these bytes from now on.
    Give { name: String, bytes: Vec<u8> },
    /// A call on the buffers of these names; the second is empty if none is lent.
    Call { call: Call, book: String, buffer: String, expected: Option<Expected> },
}

impl fmt::Display for Line {
    fn fmt(&self, to: &mut fmt::Formatter<'_>) -> fmt::Result {
        match self {
            Line::Remark(text) if text.is_empty() => Ok(()),
            Line::Remark(text) => write!(to, "# {text}"),
            Line::Give { name, bytes } => write!(to, "give {name} {}", bytes::print(bytes)),
            Line::Call { call, book, buffer, expected } => {
                write!(to, "{}", call.words(book, buffer))?;
                expected.iter().try_for_each(|expected| match expected.bytes {
                    None => write!(to, " = {expected}"),
                    Some(_) => write!(to, " {FULL} {expected}"),
                })
            }
        }
    }
}

impl fmt::Display for Expected {
    fn fmt(&self, to: &mut fmt::Formatter<'_>) -> fmt::Result {
        write!(to, "{}", self.answer)?;
        if let Some(all) = &self.bytes {
            return all.iter().try_for_each(|bytes| write!(to, " {}", bytes::print(bytes)));
        }
        for digest in &self.digests {
            write!(to, " ")?;
            digest.iter().try_for_each(|byte| write!(to, "{byte:02x}"))?;
        }
        Ok(())
    }
}

impl Line {
    /// The line of a text, or a sentence about what is wrong with it.
    pub fn parse(text: &str) -> Result<Line, String> {
        let text = text.trim();
        if text.is_empty() {
            return Ok(Line::Remark(String::new()));
        }
        if let Some(remark) = text.strip_prefix('#') {
            return Ok(Line::Remark(remark.trim().to_string()));
        }
        let words: Vec<&str> = text.split_whitespace().collect();
        if let ["give", name, literal] = *words {
            return Ok(Line::Give { name: name.to_string(), bytes: bytes::parse(literal)? });
        }
        let is_sign = |word: &&str| [PLAIN, FULL].contains(word);
        let mut halves = words.split(is_sign);
        let (call, book, buffer) = Call::parse(halves.next().unwrap_or(&[]))?;
        if book == buffer {
            return Err("a call needs two different buffers".to_string());
        }
        let full = words.contains(&FULL);
        let expected = halves.next().map(|half| expected(half, &call, full)).transpose()?;
        match halves.next() {
            Some(_) => Err("a line has one '=' or '==' at most".to_string()),
            None => Ok(Line::Call { call, book, buffer, expected }),
        }
    }
}

/// Stands before an answer with digests.
const PLAIN: &str = "=";

/// Stands before an answer with the bytes in full.
const FULL: &str = "==";

/// What stands behind the equals sign: an answer and digests, or bytes in full.
pub(crate) fn expected(words: &[&str], call: &Call, full: bool) -> Result<Expected, String> {
    let (buffers, what) = match (call.lends(), full) {
        (false, false) => (1, "1 digest"),
        (true, false) => (2, "2 digests"),
        (false, true) => (1, "the bytes of 1 buffer"),
        (true, true) => (2, "the bytes of 2 buffers"),
    };
    let (answer, rest) = words
        .split_at_checked(words.len().saturating_sub(buffers))
        .ok_or_else(|| "the answer is missing".to_string())?;
    let wrong = || format!("'{}' is no answer followed by {what}", shorten(&words.join(" ")));
    let answer = Answer::parse(answer).ok_or_else(wrong)?;
    if full {
        let all = rest.iter().map(|word| bytes::parse(word)).collect::<Result<_, _>>()?;
        return Ok(Expected::in_full(answer, all));
    }
    let digests = rest.iter().map(|word| digest(word)).collect::<Result<_, _>>()?;
    Ok(Expected { answer, digests, bytes: None })
}

/// A digest of 64 digits.
fn digest(word: &str) -> Result<[u8; 32], String> {
    let wrong = || format!("'{word}' is no digest");
    if word.len() != 64 {
        return Err(wrong());
    }
    bytes::parse(word)?.try_into().map_err(|_| wrong())
}
