//! Heights as bytes of frames, blocks and heads: a low byte and a high one.

pub(crate) use types::Height;

/// The two bytes of a height.
pub(crate) fn to_bytes(height: Height) -> [u8; 2] {
    height.to_le_bytes()
}

/// The height in two bytes.
pub(crate) fn from_bytes(bytes: [u8; 2]) -> Height {
    Height::from_le_bytes(bytes)
}
