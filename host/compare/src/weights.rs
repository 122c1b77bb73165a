//! Random weights of stations: equal ones, large and small mixed, ones that make a station a quorum alone; wrong ones
//! for Open; and masks that weigh about two thirds.

use crate::Random;
use types::{field, head_height, put_edition, weight_bytes, Weights, FIRST_EDITION};
use types::{MOST_REPLICAS, MOST_SHORT_HEIGHTS, MOST_WEIGHT, SECOND_EDITION};

/// Weights that a large and a small partner may have.
const MIXED: [u16; 6] = [1, 1, 2, 3, 10, 100];

/// Weights for n stations; every third time all are 1.
pub fn any_weights(random: &mut Random, n: u8) -> Vec<u16> {
    let sort = random.below(9);
    let one = weight_below(random, MOST_WEIGHT);
    let bound = if sort == 3 { 4 } else { MOST_WEIGHT };
    let mut weights: Vec<u16> = (0..n)
        .map(|_| match sort {
            0..=2 => 1,
            3 | 4 => weight_below(random, bound),
            5 => one,
            6 => weight_below(random, 20),
            _ => random.pick(&MIXED).copied().unwrap_or(1),
        })
        .collect();
    if sort == 6 {
        outweigh(random, &mut weights);
    }
    weights
}

/// A weight up to a bound.
fn weight_below(random: &mut Random, bound: u16) -> u16 {
    u16::try_from(random.below(bound.into())).unwrap_or(0).saturating_add(1)
}

/// Makes one station weigh twice what all others weigh, or one less.
fn outweigh(random: &mut Random, weights: &mut [u16]) {
    let at = random.index(weights.len());
    let others = weights.iter().enumerate().filter(|(place, _)| *place != at);
    let twice = others.map(|(_, weight)| weight).sum::<u16>().saturating_mul(2);
    let weight = twice.saturating_sub(u16::from(random.one_in(3))).clamp(1, MOST_WEIGHT);
    weights.iter_mut().skip(at).take(1).for_each(|place| *place = weight);
}

/// The bytes of weights for Open, every third time wrong ones: out of range, too few, too many, or an odd number of
/// bytes.
pub fn weights_to_open(random: &mut Random, n: u64) -> Vec<u8> {
    let known = u8::try_from(n).unwrap_or(MOST_REPLICAS).min(MOST_REPLICAS.saturating_add(1));
    let mut weights = any_weights(random, known);
    let at = random.index(weights.len());
    let wrong = [0, 0, MOST_WEIGHT.saturating_add(1), 1256, u16::MAX];
    let place = random.pick(&wrong).copied().unwrap_or(0);
    let case = random.below(18);
    if case == 0 || case == 1 {
        weights.iter_mut().skip(at).take(1).for_each(|weight| *weight = place);
    }
    let mut bytes = weight_bytes(&weights);
    match case {
        2 => bytes.truncate(bytes.len().saturating_sub(2)),
        3 => bytes.extend([1, 0]),
        4 => bytes.truncate(bytes.len().saturating_sub(1)),
        5 if random.one_in(2) => bytes.push(0),
        5 => bytes.resize(32, 0),
        _ => {}
    }
    bytes
}

/// Makes a sound book of at most 63 heights one of an older edition, every other time: of the first, if its stations
/// all weigh 1, or of the second.
pub fn some_edition(random: &mut Random, book: &mut [u8]) {
    let equal = Weights::of(book).each().iter().all(|weight| *weight == 1);
    let short = head_height(book, field::HEIGHTS) <= MOST_SHORT_HEIGHTS;
    match random.below(6) {
        0..=2 if equal && short => put_edition(book, FIRST_EDITION),
        3 | 4 if short => put_edition(book, SECOND_EDITION),
        _ => {}
    }
}

/// A mask that is just a quorum, or would be one with one station more.
pub fn near_quorum(random: &mut Random, weights: &Weights) -> u16 {
    let n = u8::try_from(weights.each().len()).unwrap_or(MOST_REPLICAS);
    let start = random.byte_below(n);
    let stations = (0..n).map(|at| start.wrapping_add(at).checked_rem(n).unwrap_or(0));
    let mut mask = 0;
    for station in stations {
        let more = mask | 1_u16.checked_shl(station.into()).unwrap_or(0);
        if weights.weight_of(more) >= weights.needed() {
            return if random.one_in(2) { more } else { mask };
        }
        mask = more;
    }
    mask
}

/// Changes the edition or a weight of a book, mostly to a neighbour of what is in range.
pub fn damage_weights(random: &mut Random, book: &mut [u8]) {
    if random.one_in(4) {
        let edition = *random.pick(&[0, 1, 2, 3, 4, 255]).unwrap_or(&0);
        book.iter_mut().skip(field::EDITION).take(1).for_each(|byte| *byte = edition);
        return;
    }
    let wanted = [0, 0, 1, 2, MOST_WEIGHT, MOST_WEIGHT.saturating_add(1), 256, u16::MAX];
    let weight = random.pick(&wanted).copied().unwrap_or(0);
    let n = book.get(field::N).copied().unwrap_or(0);
    let station =
        if random.one_in(3) { random.byte_below(MOST_REPLICAS) } else { random.byte_below(n) };
    let at = usize::from(station).saturating_mul(2).saturating_add(field::WEIGHTS);
    book.iter_mut().skip(at).zip(weight.to_le_bytes()).for_each(|(to, from)| *to = from);
}

#[cfg(test)]
mod tests {
    use super::*;
    use reference::is_quorum;

    #[test]
    fn weights_are_in_range_and_of_every_sort() {
        let mut random = Random::new(1);
        let (mut alone, mut equal, mut exact) = (0, 0, 0);
        for _ in 0..3000 {
            let n = random.byte_below(MOST_REPLICAS).saturating_add(1);
            let weights = any_weights(&mut random, n);
            assert!(weights.len() == n.into());
            assert!(weights.iter().all(|weight| (1..=MOST_WEIGHT).contains(weight)));
            equal += usize::from(weights.iter().all(|weight| *weight == 1));
            alone += usize::from(n > 1 && (0..n).any(|at| is_quorum(1 << at, &weights)));
            let total: u32 = weights.iter().map(|weight| u32::from(*weight)).sum();
            exact += usize::from(weights.iter().any(|weight| 3 * u32::from(*weight) == 2 * total));
        }
        assert!(
            alone > 200 && (800..1400).contains(&equal) && exact > 100,
            "{alone} {equal} {exact}"
        );
    }

    #[test]
    fn masks_are_on_both_sides_of_a_quorum() {
        let mut random = Random::new(2);
        let mut sides = [0, 0];
        for _ in 0..1000 {
            let mut book = [0; 64];
            let n = random.byte_below(MOST_REPLICAS).saturating_add(1);
            book[field::N] = n;
            types::put_weights(&mut book, &any_weights(&mut random, n));
            let weights = Weights::of(&book);
            let mask = near_quorum(&mut random, &weights);
            sides[usize::from(is_quorum(mask, weights.each()))] += 1;
        }
        assert!(sides.iter().all(|count| *count > 300), "{sides:?}");
    }
}
