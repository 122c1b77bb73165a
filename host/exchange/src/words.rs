//! Small things in words: numbers of things, masks, flags, digests, entries.

use std::fmt::Write;

/// The flags of the current height, in words.
const FLAGS: [(u8, &str); 4] =
    [(1, "timer fired"), (2, "blank vote cast"), (4, "page vote cast"), (8, "proposed")];

/// The bits of a height's state, in words.
const STATES: [(u8, &str); 2] = [(1, "proposal held"), (2, "page notarised")];

/// The names of the flags that are set.
pub fn flags(flags: u8) -> Vec<&'static str> {
    named(&FLAGS, flags)
}

/// The names of the bits of a height's state that are set.
pub fn state(state: u8) -> Vec<&'static str> {
    named(&STATES, state)
}

/// The names of the bits that are set.
fn named(names: &[(u8, &'static str)], bits: u8) -> Vec<&'static str> {
    names.iter().filter(|(bit, _)| bits & bit != 0).map(|(_, name)| *name).collect()
}

/// The members of a mask, `-` if it has none.
pub fn members(mask: u16) -> String {
    let bit = |at: &u32| mask.checked_shr(*at).is_some_and(|rest| rest % 2 == 1);
    let names: Vec<String> = (0..16).filter(bit).map(|at| at.to_string()).collect();
    if names.is_empty() {
        return "-".to_string();
    }
    names.join(" ")
}

/// A number of things, with the word for one or for more.
pub fn count(number: usize, one: &str, more: &str) -> String {
    format!("{number} {}", if number == 1 { one } else { more })
}

/// Bytes as hexadecimal digits.
pub fn hex(bytes: &[u8]) -> String {
    let mut text = String::new();
    bytes.iter().for_each(|byte| _ = write!(text, "{byte:02x}"));
    text
}

/// The first eight digits of a digest.
pub fn short(digest: &[u8]) -> String {
    hex(digest.get(..4).unwrap_or(digest))
}

/// An entry as digits, and as text where it is text.
pub fn entry(bytes: &[u8]) -> String {
    let printable = |byte: &u8| byte.is_ascii_graphic() || *byte == b' ';
    match std::str::from_utf8(bytes) {
        Ok(text) if bytes.iter().all(printable) => format!("{}  \"{text}\"", hex(bytes)),
        _ => hex(bytes),
    }
}
