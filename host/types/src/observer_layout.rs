//! Where things are in an observer's book: its length and its offsets.

use crate::{field, head_height, Height, BLOCK};
use std::ops::Range;

/// The length of the head, which is that of a replica's book.
const HEAD: usize = 64;

/// The length of a height's row: state, a zero, the masks of the block, dummy and finalize certificates.
const ROW: usize = 8;

/// What an observer's book has of a height.
#[derive(Clone, Copy, Debug, PartialEq, Eq)]
pub enum ObserverArea {
    /// Eight bytes: state, a zero, three masks.
    Row,
    /// The notarized block.
    Notarized,
}

/// The length in bytes of an observer's book with this many heights.
pub fn observer_book_length(heights: Height) -> usize {
    usize::from(heights).saturating_mul(ROW.saturating_add(BLOCK)).saturating_add(HEAD)
}

/// Whether bytes have the length of an observer's book with the number of heights that their head says. No replica's
/// book has the length of an observer's with the same number of heights; the length alone does not tell the two apart.
pub fn is_observers(book: &[u8]) -> bool {
    has_observers_length(book, book.len())
}

/// Whether an observer's book with the number of heights that this head says has this length.
fn has_observers_length(head: &[u8], length: usize) -> bool {
    length == observer_book_length(head_height(head, field::HEIGHTS))
}

/// The offsets in an observer's book with this many heights.
#[derive(Clone, Copy, Debug)]
pub struct ObserverLayout {
    heights: Height,
}

impl ObserverLayout {
    /// The layout for a number of heights.
    pub fn new(heights: Height) -> ObserverLayout {
        ObserverLayout { heights }
    }

    /// Where an area of a height is; height 0 has none and yields an empty range.
    pub fn area(self, height: Height, area: ObserverArea) -> Range<usize> {
        let Some(before) = height.checked_sub(1).map(usize::from) else {
            return 0..0;
        };
        let pages = usize::from(self.heights).saturating_mul(ROW).saturating_add(HEAD);
        let (first, length) = match area {
            ObserverArea::Row => (HEAD, ROW),
            ObserverArea::Notarized => (pages, BLOCK),
        };
        let start = before.saturating_mul(length).saturating_add(first);
        start..start.saturating_add(length)
    }
}

#[cfg(test)]
mod tests {
    use super::*;
    use crate::{book_length, EDITION, MOST_HEIGHTS, MOST_SHORT_HEIGHTS};

    #[test]
    fn areas_meet_without_gaps() {
        let layout = ObserverLayout::new(3);
        assert_eq!(layout.area(1, ObserverArea::Row), 64..72);
        let rows_end = layout.area(3, ObserverArea::Row).end;
        assert_eq!(rows_end, layout.area(1, ObserverArea::Notarized).start);
        let first = layout.area(1, ObserverArea::Notarized);
        assert_eq!((first.len(), first.end), (176, layout.area(2, ObserverArea::Notarized).start));
        assert_eq!(layout.area(3, ObserverArea::Notarized).end, observer_book_length(3));
        assert_eq!(layout.area(0, ObserverArea::Row), 0..0);
        let lengths = [1, MOST_SHORT_HEIGHTS, MOST_HEIGHTS].map(observer_book_length);
        assert_eq!(lengths, [248, 11_656, 184_064]);
    }

    #[test]
    fn no_book_is_a_replicas_and_an_observers() {
        for (edition, heights) in [(1, 0..=255), (2, 0..=255), (EDITION, 0..=Height::MAX)] {
            for heights in heights {
                let mut head = [0; HEAD];
                head[field::EDITION] = edition;
                crate::put_head_height(&mut head, field::HEIGHTS, heights);
                let is = |length: fn(Height) -> usize| has_observers_length(&head, length(heights));
                assert_eq!([is(observer_book_length), is(book_length)], [true, false], "{heights}");
            }
        }
    }

    #[test]
    fn the_length_alone_does_not_tell() {
        assert_eq!((book_length(22), observer_book_length(108)), (19_936, 19_936));
        for (heights, observers) in [(22, false), (108, true)] {
            let mut book = [0; 19_936];
            book[field::EDITION] = EDITION;
            crate::put_head_height(&mut book, field::HEIGHTS, heights);
            assert_eq!(is_observers(&book), observers);
        }
    }
}
