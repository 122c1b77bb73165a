//! What stations weigh, in words.

use crate::words;
use types::Weights;

/// The weights with commas between them, as `--weights` takes them.
pub fn list(weights: &Weights) -> String {
    weights.each().iter().map(u16::to_string).collect::<Vec<_>>().join(",")
}

/// Whether each station weighs 1, so that a weight is a number of stations.
fn are_ones(weights: &Weights) -> bool {
    weights.each().iter().all(|weight| *weight == 1)
}

/// The weights as a field of a table: `all 1`, or `10,1,1,1`.
pub fn column(weights: &Weights) -> String {
    match are_ones(weights) {
        true => "all 1".to_string(),
        false => list(weights),
    }
}

/// A sentence about the weights and what a quorum weighs.
pub fn sentence(weights: &Weights) -> String {
    let each = match are_ones(weights) {
        true => "Each station weighs 1".to_string(),
        false => format!("The stations weigh {}", list(weights)),
    };
    format!("{each}; a quorum weighs {} or more of {}.", weights.needed(), weights.total())
}

/// What the stations of a mask weigh beside what a quorum does, as `21 of 32, 22 needed`.
pub fn beside_quorum(weights: &Weights, mask: u16) -> String {
    let (held, total, needed) = (weights.weight_of(mask), weights.total(), weights.needed());
    format!("{held} of {total}, {needed} needed")
}

/// The stations of a mask, and what they weigh together where not each weighs 1.
pub fn members(weights: &Weights, mask: u16) -> String {
    let members = words::members(mask);
    match mask == 0 || are_ones(weights) {
        true => members,
        false => format!("{members} (weight {})", weights.weight_of(mask)),
    }
}
