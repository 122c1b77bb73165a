//! The buffers of a list by name, and making a call on them.

use crate::{Answer, Call, Expected};
use reference::sha256;
use std::collections::BTreeMap;
use types::Calls;

/// The buffers as the lines so far have left them.
#[derive(Clone, Debug, Default)]
pub struct Stage {
    buffers: BTreeMap<String, Vec<u8>>,
}

impl Stage {
    /// Puts bytes into a buffer, in place of any it held.
    pub fn give(&mut self, name: &str, bytes: Vec<u8>) {
        self.buffers.insert(name.to_string(), bytes);
    }

    /// The bytes of a buffer.
    pub fn bytes(&self, name: &str) -> Option<&[u8]> {
        self.buffers.get(name).map(Vec::as_slice)
    }

    /// All buffers with their names.
    pub fn all(&self) -> impl Iterator<Item = (&str, &[u8])> {
        self.buffers.iter().map(|(name, bytes)| (name.as_str(), bytes.as_slice()))
    }

    /// Makes a call and says what came of it.
    pub fn make(
        &mut self,
        calls: &impl Calls,
        call: &Call,
        book: &str,
        buffer: &str,
    ) -> Result<Expected, String> {
        let mut lent = if call.lends() { self.take(buffer)? } else { Vec::new() };
        let bytes = self.buffers.get_mut(book);
        let answer = bytes.map(|bytes| call.make(calls, bytes, &mut lent));
        let mut digests: Vec<_> = self.bytes(book).map(sha256::digest).into_iter().collect();
        if call.lends() {
            digests.push(sha256::digest(&lent));
            self.give(buffer, lent);
        }
        let answer: Answer = answer.ok_or_else(|| missing(book))?;
        Ok(Expected { answer, digests, bytes: None })
    }

    /// Takes a buffer away, to lend it beside the book.
    fn take(&mut self, name: &str) -> Result<Vec<u8>, String> {
        self.buffers.remove(name).ok_or_else(|| missing(name))
    }
}

/// The sentence about a name that no line gave.
pub(crate) fn missing(name: &str) -> String {
    format!("no line before gives '{name}'")
}
