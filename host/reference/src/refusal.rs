//! The sixteen refusals by number, as the calls return them.

/// The book is not sound, or at open its length does not fit the number of heights.
pub const UNSOUND: u8 = 1;
/// An argument of open is out of range.
pub const OUT_OF_RANGE: u8 = 2;
/// The reply buffer is too short.
pub const SHORT_REPLY: u8 = 3;
/// The bytes of a frame or entry, or the kind to fetch, are not of the required form.
pub const MALFORMED: u8 = 4;
/// A signer, or a bit of a mask, names no replica.
pub const NO_SUCH_REPLICA: u8 = 5;
/// The height is 0 or above the last one.
pub const NO_SUCH_HEIGHT: u8 = 6;
/// The proposer is not the leader of the height.
pub const NOT_LEADER: u8 = 7;
/// Another vote of the same signer is kept already, or another proposal at a height that is not the current one.
pub const CONFLICT: u8 = 8;
/// The signers of a certificate do not weigh enough.
pub const NO_QUORUM: u8 = 9;
/// Another block is notarized at the height.
pub const OTHER_BLOCK: u8 = 10;
/// There is no such certificate to fetch.
pub const NO_CERTIFICATE: u8 = 11;
/// No place is left among the pending entries.
pub const FULL: u8 = 12;
/// The entry is pending or logged already.
pub const REPEATED: u8 = 13;
/// The signal is not for the current height, or its timer fired before.
pub const STALE_SIGNAL: u8 = 14;
/// The length of a packet is no multiple of a frame's.
pub const UNEVEN_PACKET: u8 = 15;
/// An observer was given a proposal, a vote or a finalize.
pub const NOT_A_CERTIFICATE: u8 = 16;
