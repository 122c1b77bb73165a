//! A call of a list that did not come out as expected: which fields differ, as far as the list tells.

use crate::told;
use exchange::{Call, Line, Unmet};
use reference::{sha256, Rules};

/// What is held against what the replica left: its name, the book, and the second buffer if one is lent.
type Other = (&'static str, Vec<Vec<u8>>);

/// The lines about the call and its buffers.
pub fn lines(unmet: &Unmet) -> Vec<String> {
    let Line::Call { call, book, buffer, .. } = &unmet.step else { return Vec::new() };
    let bytes = |name: &str| unmet.stage.bytes(name).unwrap_or(&[]);
    let mut lines = told::call(call, book, buffer);
    let (name, other) = match expected(unmet, call) {
        Some(other) => other,
        None => {
            lines.push(
                "the list has digests alone, so that the expected bytes are not known (`record --full` writes them); \
                 what the call changed:"
                    .to_string(),
            );
            ("before", unmet.before.clone())
        }
    };
    let mut other = other.iter().map(Vec::as_slice);
    lines.extend(told::books([name, "here"], other.next().unwrap_or(&[]), bytes(book)));
    if let Some(other) = other.next() {
        lines.extend(told::buffers(call, [name, "here"], [other, bytes(buffer)]));
    }
    lines
}

/// The expected bytes, if the list has them, or if they are those before the call or those that the reference leaves.
fn expected(unmet: &Unmet, call: &Call) -> Option<Other> {
    if let Some(bytes) = &unmet.expected.bytes {
        return Some(("expected", bytes.clone()));
    }
    let mut reference = unmet.before.clone();
    if let [book, rest @ ..] = reference.as_mut_slice() {
        let mut none = Vec::new();
        call.make(&Rules::SHA256, book, rest.first_mut().unwrap_or(&mut none));
    }
    [unmet.before.clone(), reference]
        .into_iter()
        .find(|all| {
            all.iter().map(|bytes| sha256::digest(bytes)).eq(unmet.expected.digests.iter().copied())
        })
        .map(|bytes| ("expected", bytes))
}
