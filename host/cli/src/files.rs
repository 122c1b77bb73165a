//! Reading what a command is given: a file or standard input, bytes or their text.

use crate::problem::Problem;
use std::io::Read;

/// The most bytes that are read of a list, or of the rehearsal's frames.
const MOST_TEXT: usize = 1 << 28;

/// The most bytes that are read of a book or of frames.
pub const MOST_BYTES: usize = 1 << 24;

/// The bytes of a file, of standard input for `-`.
pub fn read(name: &str) -> Result<Vec<u8>, Problem> {
    read_some(name, MOST_TEXT)
}

/// The same for a file that may have so many bytes.
pub fn read_some(name: &str, most: usize) -> Result<Vec<u8>, Problem> {
    let mut bytes = Vec::new();
    let bound = (most as u64).saturating_add(1);
    let outcome = match name {
        "-" => std::io::stdin().take(bound).read_to_end(&mut bytes),
        _ => std::fs::File::open(name).and_then(|file| file.take(bound).read_to_end(&mut bytes)),
    };
    outcome.map_err(|error| Problem::input(format!("{name} cannot be read: {error}")))?;
    if bytes.len() > most {
        return Err(Problem::input(format!(
            "{name} has more than {most} bytes, which is too much"
        )));
    }
    Ok(bytes)
}

/// The text of a file.
pub fn read_text(name: &str) -> Result<String, Problem> {
    String::from_utf8(read(name)?).map_err(|_| Problem::input(format!("{name} is no text")))
}

/// The bytes of a file that holds them as they are, or written as hexadecimal text.
pub fn read_bytes(name: &str) -> Result<Vec<u8>, Problem> {
    let bytes = read_some(name, MOST_BYTES)?;
    let wrong = |sentence| Problem::input(format!("{name}: {sentence}"));
    match std::str::from_utf8(&bytes).ok().and_then(digits) {
        Some(words) => words.iter().try_fold(Vec::new(), |mut all, word| {
            all.extend(exchange::bytes::parse(word).map_err(wrong)?);
            Ok(all)
        }),
        None => Ok(bytes),
    }
}

/// The words of a text of hexadecimal digits: one if it has digits alone, however they are wrapped
/// over lines; else each is written as in a list, with its `+` and `*`.
fn digits(text: &str) -> Option<Vec<String>> {
    let is_digit = |c: char| c.is_ascii_hexdigit() || "+*".contains(c) || c.is_ascii_whitespace();
    let words: Vec<String> = text.split_ascii_whitespace().map(str::to_string).collect();
    match text.contains(['+', '*']) {
        _ if words.is_empty() || !text.chars().all(is_digit) => None,
        true => Some(words),
        false => Some(vec![words.concat()]),
    }
}
