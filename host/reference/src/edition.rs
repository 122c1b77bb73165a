//! Editions of the book (requests 2.6 and 2.7 of document 02): what each of the three has in its head.

use crate::height::Height;
use std::ops::RangeInclusive;

/// The edition of document 01: no weights, each replica weighs 1.
pub(crate) const FIRST: u8 = 1;

/// The edition that open makes: weights, and two bytes for each height of the head.
pub(crate) const LONG: u8 = 3;

/// The editions that a sound book may have.
const ALL: RangeInclusive<u8> = FIRST..=LONG;

/// The most heights of a book of any edition.
pub(crate) const MOST_HEIGHTS: Height = 1_000;

/// The most heights of a book whose head has one byte for each height.
const MOST_SHORT_HEIGHTS: Height = 63;

/// Whether there is an edition of this number.
pub(crate) fn is_known(edition: u8) -> bool {
    ALL.contains(&edition)
}

/// Whether the head has weights.
pub(crate) fn is_weighed(edition: u8) -> bool {
    edition != FIRST
}

/// Whether the head has two bytes for each height.
pub(crate) fn is_long(edition: u8) -> bool {
    edition == LONG
}

/// How many heights a book of an edition may have.
pub(crate) fn heights(edition: u8) -> RangeInclusive<Height> {
    1..=if is_long(edition) { MOST_HEIGHTS } else { MOST_SHORT_HEIGHTS }
}
