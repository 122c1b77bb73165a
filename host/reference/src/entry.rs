//! Entries: 16 bytes of any value.

/// The length of an entry in bytes.
pub const ENTRY: usize = 16;

/// The bytes of an entry.
pub(crate) type Entry = [u8; ENTRY];
