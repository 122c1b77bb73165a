//! The lists of the folder as they are played on the reference: each call with its bytes before it and after it.

use exchange::{Answer, Call, Line, List, Stage};
use reference::Rules;
use std::path::PathBuf;

/// The file of a list.
pub fn file(name: &str) -> PathBuf {
    let root = PathBuf::from(env!("CARGO_MANIFEST_DIR")).join("../..");
    root.join("exchange").join(format!("{name}.txt"))
}

/// The list in a file of the folder.
pub fn list(name: &str) -> List {
    let text = std::fs::read_to_string(file(name)).unwrap();
    List::parse(&text).unwrap_or_else(|problem| panic!("{name}: {problem}"))
}

/// A call of a list: the name of its book, the book and the second buffer before it and after it, the answer.
pub struct Played {
    pub call: Call,
    pub name: String,
    pub book: Vec<u8>,
    pub left: Vec<u8>,
    pub before: Vec<u8>,
    pub after: Vec<u8>,
    pub answer: Answer,
}

/// The calls of a list in order, each on the bytes that those before it left.
pub fn played(list: &List) -> Vec<Played> {
    let (mut stage, mut found) = (Stage::default(), Vec::new());
    for line in &list.lines {
        match line {
            Line::Remark(_) => {}
            Line::Give { name, bytes } => stage.give(name, bytes.clone()),
            Line::Call { call, book: name, buffer, .. } => {
                let lent =
                    |stage: &Stage| stage.bytes(buffer).map(<[u8]>::to_vec).unwrap_or_default();
                let (book, before) = (stage.bytes(name).unwrap().to_vec(), lent(&stage));
                let answer = stage.make(&Rules::SHA256, call, name, buffer).unwrap().answer;
                let left = stage.bytes(name).unwrap().to_vec();
                let (call, name, after) = (call.clone(), name.clone(), lent(&stage));
                found.push(Played { call, name, book, left, before, after, answer });
            }
        }
    }
    found
}
