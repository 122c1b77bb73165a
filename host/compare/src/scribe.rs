//! Writes the calls of a comparison down as a list.

use crate::Second;
use exchange::{Answer, Call, Expected, Line, List};
use reference::sha256;
use types::Calls;

/// The name of every reply and reading buffer.
const BUFFER: &str = "buffer";

/// The second of a pair that makes each call on a replica and keeps it as a line.
#[derive(Clone, Debug)]
pub struct Scribe<C> {
    calls: C,
    full: bool,
    list: List,
    books: Vec<Vec<u8>>,
    buffer: Option<Vec<u8>>,
}

impl<C> Scribe<C> {
    /// Nothing is written yet; buffers are written as bytes, not as digests, if all are wanted in full.
    pub fn new(calls: C, full: bool) -> Scribe<C> {
        Scribe { calls, full, list: List::default(), books: Vec::new(), buffer: None }
    }

    /// The list so far.
    pub fn list(&self) -> &List {
        &self.list
    }

    /// The place of a book with these bytes; a new one is given.
    fn place(&mut self, book: &[u8]) -> usize {
        let known = self.books.iter().position(|bytes| bytes == book);
        known.unwrap_or_else(|| {
            self.books.push(book.to_vec());
            let at = self.books.len().saturating_sub(1);
            self.list.lines.push(Line::Give { name: name(at), bytes: book.to_vec() });
            at
        })
    }

    /// Gives a lent buffer, if it is not what the last call left there.
    fn lend(&mut self, buffer: &[u8]) {
        if self.buffer.as_deref() != Some(buffer) {
            let (name, bytes) = (BUFFER.to_string(), buffer.to_vec());
            self.list.lines.push(Line::Give { name, bytes });
        }
    }

    /// What a call came to.
    fn expected(&self, answer: Answer, buffers: &[&[u8]]) -> Expected {
        if self.full {
            let bytes = buffers.iter().map(|bytes| bytes.to_vec()).collect();
            return Expected::in_full(answer, bytes);
        }
        let digests = buffers.iter().map(|bytes| sha256::digest(bytes)).collect();
        Expected { answer, digests, bytes: None }
    }
}

/// The name of a book.
fn name(at: usize) -> String {
    format!("book{at}")
}

impl<C: Calls> Second for Scribe<C> {
    fn begin(&mut self, case: &str) {
        self.books.clear();
        self.list.lines.extend(["", case].map(|text| Line::Remark(text.to_string())));
    }

    fn make(&mut self, call: &Call, book: &mut [u8], buffer: &mut [u8]) -> Result<Answer, String> {
        let at = self.place(book);
        if call.lends() {
            self.lend(buffer);
        }
        let answer = call.make(&self.calls, book, buffer);
        if let Some(kept) = self.books.get_mut(at) {
            kept.copy_from_slice(book);
        }
        let (lent, expected) = match call.lends() {
            true => {
                self.buffer = Some(buffer.to_vec());
                (BUFFER.to_string(), self.expected(answer, &[book, buffer]))
            }
            false => (String::new(), self.expected(answer, &[book])),
        };
        let (call, book, expected) = (call.clone(), name(at), Some(expected));
        self.list.lines.push(Line::Call { call, book, buffer: lent, expected });
        Ok(answer)
    }
}
