//! Small things out of words: bytes of a known length, lists of numbers.

use crate::problem::Problem;
pub use exchange::words::{count, entry, hex, members, short};

/// Bytes of a known length out of hexadecimal text.
pub fn bytes<const LENGTH: usize>(name: &str, text: &str) -> Result<[u8; LENGTH], Problem> {
    let wrong = |sentence: String| Problem::input(format!("--{name}: {sentence}"));
    let bytes = exchange::bytes::parse(text).map_err(wrong)?;
    let count = bytes.len();
    bytes.try_into().map_err(|_| wrong(format!("{LENGTH} bytes are needed, these are {count}")))
}

/// A list of small numbers with commas between them.
pub fn numbers(name: &str, text: &str) -> Result<Vec<u8>, Problem> {
    let number = |word: &str| word.trim().parse::<u8>();
    let list: Result<_, _> = text.split(',').map(number).collect();
    list.map_err(|_| {
        Problem::input(format!("--{name} {text}: no numbers with commas between them"))
    })
}
