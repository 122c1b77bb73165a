//! The refusals: by name, by number, and in words for people.

use crate::LAST_REFUSAL;
use std::error::Error;
use std::fmt;

/// Why a call was refused. A refused call changes no byte.
///
/// The number is that of the table in documents 01 and 02, and its text is what [`meaning`] says of it.
#[derive(Clone, Copy, Debug, PartialEq, Eq, Hash)]
#[non_exhaustive]
#[repr(u8)]
pub enum Refusal {
    /// The bytes are no sound book; at open, their length does not fit the number of heights.
    Unsound = 1,
    /// N, own number, number of heights, a weight or a leader is out of range, or there are not n weights.
    OutOfRange = 2,
    /// The reply is too short.
    ShortReply = 3,
    /// A frame, an entry or a kind to fetch does not have the required form.
    Malformed = 4,
    /// A signer or a bit of the mask is not below n.
    NoSuchSigner = 5,
    /// The height is 0 or above the last one.
    NoSuchHeight = 6,
    /// The proposer does not lead the height.
    NotLeader = 7,
    /// Another block vote of this signer is kept, or another proposal at a height that is not the current one. The
    /// frame is evidence against him: keep it.
    OtherKept = 8,
    /// The certificate's mask is no quorum.
    NoQuorum = 9,
    /// Another block is notarized at this height. The frame is evidence: keep it.
    OtherNotarized = 10,
    /// The book holds no such certificate.
    NoCertificate = 11,
    /// 32 entries are pending, and the log holds none of them.
    PendingFull = 12,
    /// The entry is pending or in the log.
    EntryKnown = 13,
    /// The signal is not for the current height, or its timer fired before, by a signal or by the leader's second
    /// proposal. A late timer is no fault.
    NotDue = 14,
    /// The length of a packet is not a multiple of 224, so that it is not whole frames.
    UnevenPacket = 15,
    /// The frame is a proposal, a vote or a finalize; an observer takes certificates alone.
    NotACertificate = 16,
    /// No refusal of the table: the library has another interface number, or its answer is none that this one knows.
    OtherInterface = crate::packing::UNKNOWN,
}

/// The refusals of the table, from 1 up.
const TABLE: [Refusal; LAST_REFUSAL as usize] = [
    Refusal::Unsound,
    Refusal::OutOfRange,
    Refusal::ShortReply,
    Refusal::Malformed,
    Refusal::NoSuchSigner,
    Refusal::NoSuchHeight,
    Refusal::NotLeader,
    Refusal::OtherKept,
    Refusal::NoQuorum,
    Refusal::OtherNotarized,
    Refusal::NoCertificate,
    Refusal::PendingFull,
    Refusal::EntryKnown,
    Refusal::NotDue,
    Refusal::UnevenPacket,
    Refusal::NotACertificate,
];

impl Refusal {
    /// The refusal of a number; [`Refusal::OtherInterface`] for one that is not of the table.
    pub fn of(number: u8) -> Refusal {
        let place = usize::from(number).checked_sub(1);
        place.and_then(|place| TABLE.get(place)).copied().unwrap_or(Refusal::OtherInterface)
    }

    /// The number in the table; [`crate::packing::UNKNOWN`] for [`Refusal::OtherInterface`].
    pub const fn number(self) -> u8 {
        self as u8
    }
}

impl fmt::Display for Refusal {
    /// What [`meaning`] says of its number.
    fn fmt(&self, to: &mut fmt::Formatter<'_>) -> fmt::Result {
        to.write_str(match self {
            Refusal::OtherInterface => "the library is of another interface than this program",
            _ => meaning(self.number()),
        })
    }
}

impl Error for Refusal {}

impl From<Refusal> for u8 {
    fn from(refusal: Refusal) -> u8 {
        refusal.number()
    }
}

/// What a refusal's number means; one sentence without the full stop.
pub fn meaning(number: u8) -> &'static str {
    match number {
        1 => "the book is not sound, or its length does not fit the number of heights",
        2 => "n, own number, number of heights, a weight or a leader is out of range",
        3 => "the reply buffer is too short",
        4 => "the frame, entry or kind does not have the required form",
        5 => "a signer or a bit of the mask names no station",
        6 => "the height is 0 or above the last one",
        7 => "the proposer does not lead that height",
        8 => "another proposal or vote is kept already",
        9 => "the certificate's signers are no quorum",
        10 => "another page is notarised at that height",
        11 => "the book holds no such certificate",
        12 => "all 32 pending places are taken",
        13 => "the entry is pending or in the register already",
        14 => "the signal is not for the current height, or its timer fired before",
        15 => "the packet's length is not a multiple of 224",
        16 => "the frame is no certificate, and an observer takes no other",
        _ => "this is no number of the table of refusals",
    }
}

#[cfg(test)]
mod tests {
    use super::*;

    #[test]
    fn numbers_and_names_go_both_ways() {
        for (number, refusal) in (1..).zip(TABLE) {
            assert_eq!((Refusal::of(number), refusal.number()), (refusal, number));
            assert_eq!(refusal.to_string(), meaning(number));
        }
        for number in [0, LAST_REFUSAL + 1, 255] {
            assert_eq!(Refusal::of(number), Refusal::OtherInterface);
        }
        assert_eq!(u8::from(Refusal::OtherInterface), crate::packing::UNKNOWN);
    }
}
