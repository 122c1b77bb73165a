//! Blocks (document 01: pages): their 176 bytes, their form and their parts.

use crate::entry::{Entry, ENTRY};
use crate::height::{self, Height};

/// The length of a block in bytes.
pub(crate) const BLOCK: usize = 176;

/// The most entries that a block carries.
pub(crate) const MOST: u8 = 8;

/// The bytes of a block, not necessarily well formed.
pub(crate) type Block = [u8; BLOCK];

/// Writes a block out of its parts; of the entries at most eight.
pub(crate) fn compose<'a>(
    height: Height,
    parent: Height,
    digest: &[u8; 32],
    entries: impl Iterator<Item = &'a Entry>,
) -> Block {
    let mut block = [0; BLOCK];
    let mut count = 0u8;
    for (place, entry) in block[48..].as_chunks_mut::<ENTRY>().0.iter_mut().zip(entries) {
        *place = *entry;
        count = count.saturating_add(1);
    }
    block[0..2].copy_from_slice(&height::to_bytes(height));
    block[2..4].copy_from_slice(&height::to_bytes(parent));
    block[4] = count;
    block[16..48].copy_from_slice(digest);
    block
}

/// Whether a block has the form of one at this height.
pub(crate) fn is_well_formed(block: &Block, height: Height) -> bool {
    let parent = parent_height(block);
    let past_count = places(block).skip(usize::from(count(block)));
    block[0..2] == height::to_bytes(height)
        && parent < height
        && count(block) <= MOST
        && is_zero(&block[5..16])
        && (parent > 0 || is_zero(parent_digest(block)))
        && past_count.flatten().all(|&byte| byte == 0)
}

/// The height of the parent block, 0 if the chain begins here (document 01: back height).
pub(crate) fn parent_height(block: &Block) -> Height {
    height::from_bytes([block[2], block[3]])
}

/// The digest of the parent block (document 01: back digest).
pub(crate) fn parent_digest(block: &Block) -> &[u8] {
    &block[16..48]
}

/// The entries up to the count.
pub(crate) fn entries(block: &Block) -> impl Iterator<Item = &Entry> {
    places(block).take(usize::from(count(block)))
}

/// The number of entries that the block says it carries.
fn count(block: &Block) -> u8 {
    block[4]
}

/// All eight places for entries.
fn places(block: &Block) -> impl Iterator<Item = &Entry> {
    block[48..].as_chunks::<ENTRY>().0.iter()
}

/// Whether all bytes are zero.
fn is_zero(bytes: &[u8]) -> bool {
    bytes.iter().all(|&byte| byte == 0)
}
