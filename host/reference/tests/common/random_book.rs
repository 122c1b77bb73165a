//! Random books that are nearly always sound: chains with gaps, forks in the air, free junk.

use super::random::Random;
use super::*;
use reference::Digest;

/// A book of a few heights, of weights of any kind, in any edition. Its finalized height is 0.
pub fn random_book(random: &mut Random, digest: Digest) -> Vec<u8> {
    let (n, heights) = (1 + random.below(16) as u8, 1 + random.below(7) as Height);
    let own = random.below(n.into()) as u64;
    let weights = random_weights(random, n);
    let mut book = weighed_book(&weights, own, &vec![0; heights.into()]);
    book[3] = random.below(16) as u8;
    book[CURRENT] = 1 + random.below(usize::from(heights) + 1) as u8;
    book[6] = random.below(33) as u8;
    if weights.iter().all(|&weight| weight == 1) && random.one_in(2) {
        book = first_edition(&book);
    } else if random.one_in(3) {
        book = second_edition(&book);
    }
    for place in book[PENDING..CONTENTS].chunks_mut(16) {
        place.copy_from_slice(&random_entry(random));
    }
    let bodies = body(&book, 1);
    let junk = random.bytes(book.len() - bodies);
    book[bodies..].copy_from_slice(&junk);
    for height in 1..=heights {
        fill_height(&mut book, random, height, digest);
    }
    book
}

/// Weights for n replicas: all 1, some large and some small, one that outweighs all others, or any.
pub fn random_weights(random: &mut Random, n: u8) -> Vec<u16> {
    let kind = random.below(4);
    let large = random.below(n.into());
    let weight = |at: usize| match kind {
        0 => 1,
        1 => [1, 1, 10, 100][random.below(4)],
        2 if at == large => 1000,
        2 => 1 + random.below(40) as u16,
        _ => 1 + random.below(1000) as u16,
    };
    (0..n.into()).map(weight).collect()
}

/// One of few entries, so that repeats are common.
pub fn random_entry(random: &mut Random) -> [u8; 16] {
    entry(random.below(40) as u8)
}

/// Contents and blocks of one height.
fn fill_height(book: &mut [u8], random: &mut Random, height: Height, digest: Digest) {
    let n = book[0];
    let (row, body) = (row(height.into()), body(book, height.into()));
    let state = random.below(4) as u8 | if random.one_in(3) { 0 } else { 2 };
    book[row] = random.below(n.into()) as u8;
    book[row + 1] = state;
    for at in [2, 4, 6, 8] {
        let mask = random_mask(random, n);
        book[row + at..row + at + 2].copy_from_slice(&mask.to_le_bytes());
    }
    if state & 2 != 0 {
        book[row + 2..row + 4].copy_from_slice(&full_mask(n).to_le_bytes());
        let notarized = random_block(book, random, height, digest);
        book[body + 176..body + 352].copy_from_slice(&notarized);
    }
    if state & 1 != 0 {
        let held = random_block(book, random, height, digest);
        book[body..body + 176].copy_from_slice(&held);
    }
}

/// All replicas.
pub fn full_mask(n: u8) -> u16 {
    ((1u32 << n) - 1) as u16
}

/// Any replicas, often all.
pub fn random_mask(random: &mut Random, n: u8) -> u16 {
    let any = random.next() as u16 & full_mask(n);
    match random.below(3) {
        0 => any,
        1 => full_mask(n),
        _ => any | (random.next() >> 20) as u16 & full_mask(n),
    }
}

/// A well-formed block whose parent is mostly a block of the book.
pub fn random_block(book: &[u8], random: &mut Random, height: Height, digest: Digest) -> Block {
    let near = random.below(3).min(usize::from(height) - 1) as Height;
    let parent =
        if random.one_in(3) { random.below(height.into()) as Height } else { height - 1 - near };
    let start = |parent: Height| body(book, parent.into()) + 176;
    let named = match parent {
        0 => ZERO,
        _ if random.one_in(12) => [random.byte(); 32],
        _ => digest(&book[start(parent)..start(parent) + 176]),
    };
    let entries: Vec<_> = (0..random.below(9)).map(|_| random_entry(random)).collect();
    block(height, parent, named, &entries)
}
