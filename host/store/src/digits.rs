//! Bytes as hexadecimal digits.

use std::fmt::Write;

/// The digits of some bytes.
pub fn print(bytes: &[u8]) -> String {
    let mut text = String::new();
    bytes.iter().for_each(|byte| _ = write!(text, "{byte:02x}"));
    text
}

/// The bytes of so many pairs of digits; none for another text.
pub fn parse<const LENGTH: usize>(text: &str) -> Option<[u8; LENGTH]> {
    let value =
        |digit: u8| char::from(digit).to_digit(16).and_then(|value| u8::try_from(value).ok());
    let (pairs, rest) = text.as_bytes().as_chunks::<2>();
    let pair = |[high, low]: &[u8; 2]| Some(value(*high)? << 4 | value(*low)?);
    let bytes: Option<Vec<u8>> = pairs.iter().map(pair).collect();
    bytes.filter(|_| rest.is_empty())?.try_into().ok()
}
