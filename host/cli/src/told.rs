//! A call, and the fields in which buffers differ, in words.

use crate::{show_frame, words};
use exchange::fields::{differences, Change, Shape};
use exchange::{Call, ObserverCall};
use types::FRAME;

/// The most fields, or frames of a packet, that are told one by one.
const MOST: usize = 30;

/// The lines about a call on buffers of these names: as a list has it, and its frame or frames in words.
pub fn call(call: &Call, book: &str, buffer: &str) -> Vec<String> {
    let mut lines = vec![format!("the call: {}", call.words(book, buffer))];
    match call {
        Call::Deliver { frame } | Call::Observer(ObserverCall::Deliver { frame }) => {
            lines.push(format!("its frame: {}", one_line(frame)))
        }
        Call::Packet { packet } => lines.extend(frames(packet)),
        _ => {}
    }
    lines
}

/// A frame in words, on one line.
fn one_line(frame: &[u8]) -> String {
    let text = show_frame::text(frame).unwrap_or_else(|problem| problem.sentence);
    text.trim_end().replace('\n', ", ")
}

/// The frames of a packet, one to a line.
fn frames(packet: &[u8]) -> Vec<String> {
    let (frames, stray) = packet.as_chunks::<FRAME>();
    let count = words::count(frames.len(), "frame", "frames");
    let behind = match stray.len() {
        0 => String::new(),
        more => format!(" and {} behind", words::count(more, "byte", "bytes")),
    };
    let mut lines = vec![format!("its packet: {count}{behind}")];
    let numbered = frames.iter().enumerate();
    lines.extend(few(numbered.map(|(before, frame)| {
        let number = before.saturating_add(1);
        format!("  {number}: {}", one_line(frame))
    })));
    lines
}

/// The first of these lines, and how many more there are.
fn few(lines: impl ExactSizeIterator<Item = String>) -> Vec<String> {
    let more = lines.len().saturating_sub(MOST);
    let mut few: Vec<String> = lines.take(MOST).collect();
    if more > 0 {
        few.push(format!("  and {more} more"));
    }
    few
}

/// The fields in which two books differ, one to a line, with the names of the two.
pub fn books(names: [&str; 2], one: &[u8], two: &[u8]) -> Vec<String> {
    lines("books", names, &differences(Shape::Book, one, two))
}

/// The same for the second buffers of a call; nothing if it is lent none.
pub fn buffers(call: &Call, names: [&str; 2], [one, two]: [&[u8]; 2]) -> Vec<String> {
    match call {
        Call::Move | Call::Fetch { .. } => {
            lines("replies", names, &differences(Shape::Reply, one, two))
        }
        Call::Read | Call::Observer(ObserverCall::Read) => {
            lines("buffers", names, &differences(Shape::Register, one, two))
        }
        _ => Vec::new(),
    }
}

/// Fields with both values.
fn lines(what: &str, [one, two]: [&str; 2], changes: &[Change]) -> Vec<String> {
    if changes.is_empty() {
        return vec![format!("{what}: the same")];
    }
    let count = words::count(changes.len(), "field", "fields");
    let mut lines = vec![format!("{what}: {count} of {one} and {two} differ")];
    lines.extend(few(changes.iter().map(|change| {
        let Change { place, byte, one: first, two: second } = change;
        format!("  {place} (byte {byte}): {one} {first}, {two} {second}")
    })));
    lines
}
