//! Weights (request 2.6 of document 02): how much each replica counts for, and their bytes in the head by edition.

use crate::edition;
use crate::head::HEAD;
use crate::soundness::MOST_REPLICAS;
use std::ops::RangeInclusive;

/// What a replica may weigh.
const RANGE: RangeInclusive<u16> = 1..=1_000;

/// The places for weights in a head.
const PLACES: usize = MOST_REPLICAS as usize;

/// Where the weights begin in a head, and how many bytes they take.
const START: usize = 8;
const AREA: usize = 2 * PLACES;

/// The weights as read, one for each place; what is absent weighs nothing.
pub(crate) type Weights = [u16; PLACES];

/// The weights in a head of this many replicas and this edition.
pub(crate) fn decode(head: &[u8; HEAD], n: u8, edition: u8) -> Weights {
    if !edition::is_weighed(edition) {
        return collect((0..n).map(|_| 1));
    }
    let pairs = head[START..].as_chunks::<2>().0.iter();
    collect(pairs.map(|pair| u16::from_le_bytes(*pair)))
}

/// The bytes of the head that belong to weights: all zero where the edition has none.
pub(crate) fn encode(weights: &Weights, edition: u8) -> [u8; AREA] {
    let mut bytes = [0; AREA];
    if edition::is_weighed(edition) {
        let places = bytes.as_chunks_mut::<2>().0.iter_mut();
        places.zip(weights).for_each(|(to, weight)| *to = weight.to_le_bytes());
    }
    bytes
}

/// The weights that open is given, two bytes for each replica, if there are n of them and all are in range.
pub(crate) fn opened(n: u64, bytes: &[u8]) -> Option<Weights> {
    let n = usize::try_from(n).ok()?;
    let (pairs, rest) = bytes.as_chunks::<2>();
    let weights = collect(pairs.iter().map(|pair| u16::from_le_bytes(*pair)));
    (rest.is_empty() && pairs.len() == n && are_of(n, &weights)).then_some(weights)
}

/// Whether the first n weights are in range and the others nothing.
pub(crate) fn are_of(n: usize, weights: &Weights) -> bool {
    weights.split_at_checked(n).is_some_and(|(present, absent)| {
        present.iter().all(|weight| RANGE.contains(weight))
            && absent.iter().all(|&weight| weight == 0)
    })
}

/// The first sixteen of some weights, with nothing in the places after them.
fn collect(from: impl Iterator<Item = u16>) -> Weights {
    let mut weights = [0; PLACES];
    weights.iter_mut().zip(from).for_each(|(place, weight)| *place = weight);
    weights
}
