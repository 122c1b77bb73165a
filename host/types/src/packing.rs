//! Answers as single numbers: how the C interface packs what a call returns.
//!
//! The lowest byte is the refusal, 0 if there is none. What a call says besides stands above it.

use crate::{height_at, height_bytes, Certificate, Delivered, Move, LAST_REFUSAL};

/// The number of the C interface, as MAVUNILAI_INTERFACE of the header; what a library is of, it says itself.
pub const INTERFACE: u64 = 7;

/// Stands for a number that no replica answers with; it is no refusal of the table.
pub const UNKNOWN: u8 = 255;

/// The answer of a call that says nothing else; packet says its counts in a struct that it is lent.
pub fn pack_done(answer: Result<(), u8>) -> u64 {
    answer.map_or_else(u64::from, |()| 0)
}

/// What [`pack_done`] packed.
pub fn unpack_done(number: u64) -> Result<(), u8> {
    match number {
        0 => Ok(()),
        _ => Err(refusal(number)),
    }
}

/// The answer of deliver: byte 1 is 1 for fresh.
pub fn pack_delivered(answer: Result<Delivered, u8>) -> u64 {
    match answer {
        Ok(Delivered::Known) => 0,
        Ok(Delivered::Fresh) => 1 << 8,
        Err(number) => number.into(),
    }
}

/// What [`pack_delivered`] packed.
pub fn unpack_delivered(number: u64) -> Result<Delivered, u8> {
    match number {
        0 => Ok(Delivered::Known),
        0x100 => Ok(Delivered::Fresh),
        _ => Err(refusal(number)),
    }
}

/// The answer of move: byte 1 is the move, bytes 2 and 3 its height, byte 4 the kind of certificate, byte 5 the kind of
/// the second frame.
pub fn pack_move(answer: Result<Move, u8>) -> u64 {
    let made = match answer {
        Ok(made) => made,
        Err(number) => return number.into(),
    };
    let (certificate, second) = match made {
        Move::Pass { certificate, finalized, .. } => {
            (certificate.kind(), if finalized { 4 } else { 0 })
        }
        _ => (0, 0),
    };
    let [low, high] = height_bytes(made.height());
    u64::from_le_bytes([0, made.number(), low, high, certificate, second, 0, 0])
}

/// What [`pack_move`] packed.
pub fn unpack_move(number: u64) -> Result<Move, u8> {
    let bytes = number.to_le_bytes();
    let [_, made, _, _, certificate, second, ..] = bytes;
    let height = height_at(&bytes, 2);
    let kind = if certificate == 5 { Certificate::Block } else { Certificate::Dummy };
    let made = match made {
        0 => Move::Idle,
        1 => Move::Dummy { height },
        2 => Move::Final { height },
        3 => Move::Pass { height, certificate: kind, finalized: second == 4 },
        4 => Move::Offer { height },
        _ => Move::Vote { height },
    };
    if pack_move(Ok(made)) == number {
        return Ok(made);
    }
    Err(refusal(number))
}

/// The answer of size: the size times 256, or the refusal.
pub fn pack_size(answer: Result<u64, u8>) -> u64 {
    answer.map_or_else(u64::from, |size| size.wrapping_mul(256))
}

/// What [`pack_size`] packed.
pub fn unpack_size(number: u64) -> Result<u64, u8> {
    match number % 256 {
        0 => Ok(number / 256),
        _ => Err(refusal(number)),
    }
}

/// The refusal that a number is, or [`UNKNOWN`].
fn refusal(number: u64) -> u8 {
    match u8::try_from(number) {
        Ok(byte) if (1..=LAST_REFUSAL).contains(&byte) => byte,
        _ => UNKNOWN,
    }
}

#[cfg(test)]
mod tests {
    use super::*;

    #[test]
    fn every_answer_comes_back() {
        for refused in 1..=LAST_REFUSAL {
            assert_eq!(unpack_done(pack_done(Err(refused))), Err(refused));
            assert_eq!(unpack_delivered(pack_delivered(Err(refused))), Err(refused));
            assert_eq!(unpack_move(pack_move(Err(refused))), Err(refused));
            assert_eq!(unpack_size(pack_size(Err(refused))), Err(refused));
        }
        for delivered in [Delivered::Fresh, Delivered::Known] {
            assert_eq!(unpack_delivered(pack_delivered(Ok(delivered))), Ok(delivered));
        }
        assert_eq!(unpack_done(pack_done(Ok(()))), Ok(()));
        let longest = crate::MOST_LOG as u64;
        assert_eq!(unpack_size(pack_size(Ok(longest))), Ok(longest));
    }

    #[test]
    fn every_move_comes_back() {
        let pass = |kind, finalized| Move::Pass { height: 9, certificate: kind, finalized };
        let passes = [Certificate::Block, Certificate::Dummy]
            .into_iter()
            .flat_map(|kind| [pass(kind, true), pass(kind, false)]);
        let others = [
            Move::Idle,
            Move::Dummy { height: crate::MOST_HEIGHTS },
            Move::Final { height: 256 },
            Move::Offer { height: 257 },
            Move::Vote { height: 3 },
        ];
        for made in passes.chain(others) {
            assert_eq!(unpack_move(pack_move(Ok(made))), Ok(made));
        }
    }

    #[test]
    fn the_bytes_are_where_the_header_has_them() {
        let pass = Move::Pass { height: 2, certificate: Certificate::Dummy, finalized: true };
        assert_eq!(pack_move(Ok(pass)), 0x04_06_00_02_03_00);
        assert_eq!(pack_move(Ok(Move::Final { height: 1000 })), 0x03_e8_02_00);
        assert_eq!(pack_delivered(Ok(Delivered::Fresh)), 0x100);
        assert_eq!(pack_size(Ok(16)), 0x1000);
    }

    #[test]
    fn other_numbers_are_unknown() {
        for number in [u64::from(LAST_REFUSAL) + 1, 255, 0x104, 0x200, 0x101] {
            assert_eq!(unpack_delivered(number), Err(UNKNOWN));
            assert_eq!(unpack_done(number), Err(UNKNOWN));
        }
        for number in [0x06_00, 0x05_06_00_02_03_00, 0x07_00_02_03_00, 1 << 48, 0x01_00_00] {
            assert_eq!(unpack_move(number), Err(UNKNOWN));
        }
        assert_eq!(unpack_size(0x10f), Err(UNKNOWN));
    }
}
