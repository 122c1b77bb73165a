//! A file that frames are handed to: a line of digits for each, new ones at the end.

use crate::place::Place;
use crate::{digits, Error, Files};
use types::FRAME;

/// A file with so many bytes is too long.
const MOST: usize = 1 << 26;

/// Adds frames to the file. It is replaced as a whole, so that no reader sees a part of a frame; one who moves it
/// away meanwhile may get frames twice, but misses none. A file that holds anything else is left alone.
pub fn append<F: Files>(place: &Place<F>, frames: &[[u8; FRAME]]) -> Result<(), Error> {
    read(place)?;
    if frames.is_empty() {
        return Ok(());
    }
    let _lock = place.lock()?;
    let mut text = read(place)?;
    for frame in frames {
        text.extend(digits::print(frame).into_bytes());
        text.push(b'\n');
    }
    place.replace(&text)
}

/// The lines that are there, none if there is no file yet.
fn read<F: Files>(place: &Place<F>) -> Result<Vec<u8>, Error> {
    let text = place.read(MOST)?.unwrap_or_default();
    (text.len() < MOST && is_pile(&text)).then_some(text).ok_or(Error::Foreign(place.path.clone()))
}

/// Whether the bytes are lines of frames and nothing else.
fn is_pile(text: &[u8]) -> bool {
    let (lines, rest) = text.as_chunks::<{ 2 * FRAME + 1 }>();
    let is_line = |line: &[u8; 2 * FRAME + 1]| match line.split_last() {
        Some((b'\n', digits)) => digits.iter().all(u8::is_ascii_hexdigit),
        _ => false,
    };
    rest.is_empty() && lines.iter().all(is_line)
}
