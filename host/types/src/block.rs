//! Blocks (document 01: pages) as values, and their 176 bytes.

use crate::{height_at, put_height, Entries, Height, ENTRY};

/// The length of a block in bytes.
pub const BLOCK: usize = 176;

/// Where a block has its height.
pub const BLOCK_HEIGHT: usize = 0;

/// Where a block has the height of its parent.
pub const BLOCK_PARENT: usize = 2;

/// The parts of a block. Not every value is well formed: that is the replica's to judge.
#[derive(Clone, Debug, Default, PartialEq, Eq)]
pub struct Block {
    /// The height of the block.
    pub height: Height,
    /// The height of its parent (document 01: back height).
    pub parent: Height,
    /// The digest of its parent (document 01: back digest).
    pub digest: [u8; 32],
    /// Its entries, eight at most.
    pub entries: Entries,
}

impl Block {
    /// The 176 bytes.
    pub fn bytes(&self) -> [u8; BLOCK] {
        let mut bytes = [0; BLOCK];
        let mut count = 0u8;
        bytes[16..48].copy_from_slice(&self.digest);
        for (to, entry) in bytes[48..].chunks_exact_mut(ENTRY).zip(self.entries.iter()) {
            to.copy_from_slice(entry);
            count = count.saturating_add(1);
        }
        put_height(&mut bytes, BLOCK_HEIGHT, self.height);
        put_height(&mut bytes, BLOCK_PARENT, self.parent);
        bytes[4] = count;
        bytes
    }

    /// The parts of a block's bytes; entries up to the count, at most eight.
    pub fn parts(bytes: &[u8; BLOCK]) -> Block {
        let (height, parent) = (height_at(bytes, BLOCK_HEIGHT), height_at(bytes, BLOCK_PARENT));
        let mut block = Block { height, parent, ..Block::default() };
        block.digest.copy_from_slice(&bytes[16..48]);
        let places = bytes[48..].as_chunks::<ENTRY>().0;
        block.entries = Entries::first_of(places.get(..bytes[4].into()).unwrap_or(places));
        block
    }
}
