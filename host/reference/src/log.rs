//! The log (document 01: register): the entries of a chain, each once, their size, and reading them.

use crate::block::{self, Block};
use crate::chain::Chain;
use crate::entry::{Entry, ENTRY};
use crate::height::Height;
use crate::Rules;
use std::collections::HashSet;

impl<'a> Chain<'a> {
    /// All entries of the chain that ends in the block of a linked height, oldest block first, as often as its blocks
    /// carry them: the log before it is shortened.
    pub fn entries(&self, height: Height) -> Vec<&'a Entry> {
        let mut blocks: Vec<&Block> = self.blocks(height).collect();
        blocks.reverse();
        blocks.into_iter().flat_map(block::entries).collect()
    }

    /// The blocks of that chain, the newest first. Heights fall from each to the next, so that they end.
    fn blocks(&self, height: Height) -> impl Iterator<Item = &'a Block> {
        let mut next = Some(height);
        let chain = *self;
        std::iter::from_fn(move || {
            let height = next?;
            let block = chain.notarized(height)?;
            next = Some(block::parent_height(block)).filter(|parent| *parent < height);
            Some(block)
        })
    }

    /// The log of that chain: what is filed again counts once, at its first place.
    pub fn log(&self, height: Height) -> Vec<&'a Entry> {
        let mut filed: HashSet<&Entry> = HashSet::new();
        let mut entries = self.entries(height);
        entries.retain(|entry| filed.insert(*entry));
        entries
    }
}

impl Rules {
    /// The length in bytes of the log: the entries of the chain that ends at the finalized height, each counted once.
    ///
    /// Refuses with 1.
    pub fn size(&self, book: &[u8]) -> Result<usize, u8> {
        let state = self.sound(book)?;
        Ok(self.chain(&state).log(state.head.finalized).len().saturating_mul(ENTRY))
    }

    /// Writes the log to the front of the buffer, each entry at its first place, and returns that part. The part is
    /// empty, and nothing is written, if the book is not sound or the log does not fit.
    pub fn read<'a>(&self, book: &[u8], buffer: &'a mut [u8]) -> &'a mut [u8] {
        let Ok(state) = self.sound(book) else {
            return &mut [];
        };
        write(&self.chain(&state).log(state.head.finalized), buffer)
    }
}

/// Writes entries to the front of a buffer and returns that part; the empty part, and nothing written, if they do not
/// fit.
pub(crate) fn write<'a>(entries: &[&Entry], buffer: &'a mut [u8]) -> &'a mut [u8] {
    let size = entries.len().saturating_mul(ENTRY);
    let Some((front, _)) = buffer.split_at_mut_checked(size) else {
        return &mut [];
    };
    for (place, entry) in front.as_chunks_mut::<ENTRY>().0.iter_mut().zip(entries) {
        *place = **entry;
    }
    front
}
