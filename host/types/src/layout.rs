//! Where things are in a book: lengths and offsets, with readers that take any bytes.

use crate::Height;
use std::ops::Range;

/// The length of an entry in bytes.
pub const ENTRY: usize = 16;

/// The head, by name.
pub mod field {
    use crate::HeadHeight;

    /// The number of replicas.
    pub const N: usize = 0;
    /// The replica's own number.
    pub const OWN: usize = 1;
    /// The number of heights.
    pub const HEIGHTS: HeadHeight = HeadHeight { short: 2, long: 40 };
    /// The flags of the current height.
    pub const FLAGS: usize = 3;
    /// The current height.
    pub const CURRENT: HeadHeight = HeadHeight { short: 4, long: 42 };
    /// The finalized height (document 01: settled height).
    pub const FINALIZED: HeadHeight = HeadHeight { short: 5, long: 44 };
    /// The number of pending entries.
    pub const PENDING: usize = 6;
    /// The edition, 1 to 3.
    pub const EDITION: usize = 7;
    /// The weights from edition 2 on, two bytes for each of sixteen replicas; zero in edition 1.
    pub const WEIGHTS: usize = 8;
    /// The first byte after the weights: the heights of edition 3 start here, and the other editions call it zero.
    pub const LONG: usize = 40;
    /// The first byte of the head that every edition calls zero, up to its end.
    pub const UNUSED: usize = 46;
}

/// What the contents and the body of a height consist of.
#[derive(Clone, Copy, Debug, PartialEq, Eq)]
pub enum Area {
    /// Sixteen bytes: leader, state, four masks, zeros.
    Row,
    /// The held proposal.
    Held,
    /// The notarized block.
    Notarized,
    /// The sixteen vote digests.
    Votes,
}

/// The length in bytes of a book with this many heights.
pub fn book_length(heights: Height) -> usize {
    usize::from(heights).saturating_mul(880).saturating_add(576)
}

/// The offsets in a book with this many heights.
#[derive(Clone, Copy, Debug)]
pub struct Layout {
    heights: Height,
}

impl Layout {
    /// The layout for a number of heights.
    pub fn new(heights: Height) -> Layout {
        Layout { heights }
    }

    /// The places of the pending entries.
    pub fn pending(self) -> Range<usize> {
        64..576
    }

    /// Where an area of a height is; height 0 has none and yields an empty range.
    pub fn area(self, height: Height, area: Area) -> Range<usize> {
        let Some(before) = height.checked_sub(1).map(usize::from) else {
            return 0..0;
        };
        let row = before.saturating_mul(16).saturating_add(576);
        let bodies = usize::from(self.heights).saturating_mul(16).saturating_add(576);
        let body = before.saturating_mul(864).saturating_add(bodies);
        let (start, length) = match area {
            Area::Row => (row, 16),
            Area::Held => (body, 176),
            Area::Notarized => (body.saturating_add(176), 176),
            Area::Votes => (body.saturating_add(352), 512),
        };
        start..start.saturating_add(length)
    }
}

/// The mask of two bytes at an offset; 0 past the end.
pub fn mask_at(bytes: &[u8], at: usize) -> u16 {
    let pair = bytes.get(at..).and_then(|rest| rest.first_chunk::<2>());
    pair.map_or(0, |pair| u16::from_le_bytes(*pair))
}

#[cfg(test)]
mod tests {
    use super::*;

    #[test]
    fn areas_meet_without_gaps() {
        let layout = Layout::new(3);
        assert_eq!(layout.area(1, Area::Row), 576..592);
        assert_eq!(layout.area(3, Area::Row).end, layout.area(1, Area::Held).start);
        assert_eq!(layout.area(1, Area::Votes).end, layout.area(2, Area::Held).start);
        assert_eq!(layout.area(3, Area::Votes).end, book_length(3));
        assert_eq!(book_length(crate::MOST_SHORT_HEIGHTS), 56_016);
        assert_eq!(book_length(crate::MOST_HEIGHTS), 880_576);
    }
}
