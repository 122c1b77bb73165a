//! Bytes as text: hexadecimal digits, with long runs of one byte shortened.
//!
//! A literal is `-` for no bytes, or pieces joined by `+`. A piece is pairs of digits, or one pair, `*` and how often.

use std::fmt::Write;

/// Runs of this many equal bytes or more are shortened when written.
const RUN: usize = 8;

/// A text of more letters is cut in messages.
const SHORT: usize = 40;

/// The most bytes that one literal may stand for, so that a typing error does not fill the memory.
pub const MOST: usize = 1 << 20;

/// The text of some bytes.
pub fn print(bytes: &[u8]) -> String {
    if bytes.is_empty() {
        return "-".to_string();
    }
    let mut text = String::new();
    let mut plain = false;
    for run in bytes.chunk_by(|one, next| one == next) {
        let long = run.len() >= RUN;
        if !text.is_empty() && (long || !plain) {
            text.push('+');
        }
        plain = !long;
        print_run(&mut text, run, long);
    }
    text
}

/// Appends a run of equal bytes, shortened if it is long.
fn print_run(text: &mut String, run: &[u8], long: bool) {
    if let (true, Some(byte)) = (long, run.first()) {
        _ = write!(text, "{byte:02x}*{}", run.len());
        return;
    }
    for byte in run {
        _ = write!(text, "{byte:02x}");
    }
}

/// The bytes of a text, or a sentence about what is wrong with it.
pub fn parse(text: &str) -> Result<Vec<u8>, String> {
    let mut bytes = Vec::new();
    if text == "-" {
        return Ok(bytes);
    }
    for piece in text.split('+') {
        let (digits, times) = match piece.split_once('*') {
            None => (piece, 1),
            Some((digits, times)) => (digits, repeat_count(digits, times)?),
        };
        let part = pairs(digits)?;
        if part.len().saturating_mul(times).saturating_add(bytes.len()) > MOST {
            return Err(format!("more than {MOST} bytes"));
        }
        (0..times).for_each(|_| bytes.extend_from_slice(&part));
    }
    Ok(bytes)
}

/// How often a run repeats its byte.
fn repeat_count(digits: &str, times: &str) -> Result<usize, String> {
    match times.parse() {
        Ok(times) if digits.len() == 2 => Ok(times),
        _ => Err(format!("'{digits}*{times}' is no byte and count")),
    }
}

/// The bytes of pairs of hexadecimal digits.
fn pairs(digits: &str) -> Result<Vec<u8>, String> {
    let wrong = || format!("'{}' is not pairs of hexadecimal digits", shorten(digits));
    if digits.is_empty() || !digits.len().is_multiple_of(2) {
        return Err(wrong());
    }
    let value = |digit: u8| char::from(digit).to_digit(16).and_then(|v| u8::try_from(v).ok());
    let pair = |pair: &[u8]| match pair {
        [high, low] => Some(value(*high)? << 4 | value(*low)?),
        _ => None,
    };
    digits.as_bytes().chunks(2).map(|two| pair(two).ok_or_else(wrong)).collect()
}

/// The beginning of a long text, for messages; what cannot be printed becomes `?`.
pub fn shorten(text: &str) -> String {
    let printable = |letter: char| if letter.is_control() { '?' } else { letter };
    let mut short: String = text.chars().take(SHORT).map(printable).collect();
    if text.chars().nth(SHORT).is_some() {
        short.push_str("..");
    }
    short
}

#[cfg(test)]
mod tests {
    use super::*;

    #[test]
    fn bytes_come_back() {
        let mut long = vec![3, 0, 1];
        long.extend([0; 221]);
        long.extend([9, 9, 9]);
        long.extend([1; 8]);
        long.extend([2; 8]);
        assert_eq!(print(&long), "030001+00*221+090909+01*8+02*8");
        for bytes in [vec![], vec![1], vec![0; 8], vec![7; 300], long] {
            assert_eq!(parse(&print(&bytes)), Ok(bytes));
        }
    }

    #[test]
    fn plain_digits_are_fine() {
        assert_eq!(parse("00aAfF"), Ok(vec![0, 0xaa, 0xff]));
    }

    #[test]
    fn wrong_texts_get_a_sentence() {
        for text in ["", "0", "0g", "00+", "+00", "00*", "00*x", "0000*2", "*3", "é", "00*99999999"]
        {
            assert!(parse(text).is_err(), "{text}");
        }
    }
}
