//! SHA-256 of FIPS 180-4, for messages of whole bytes.

#![warn(clippy::indexing_slicing, clippy::arithmetic_side_effects)]
#![warn(clippy::unwrap_used, clippy::expect_used, clippy::panic)]

/// The round constants: from the fractions of the cube roots of the first 64 primes.
const K: [u32; 64] = [
    0x428a2f98, 0x71374491, 0xb5c0fbcf, 0xe9b5dba5, 0x3956c25b, 0x59f111f1, 0x923f82a4, 0xab1c5ed5,
    0xd807aa98, 0x12835b01, 0x243185be, 0x550c7dc3, 0x72be5d74, 0x80deb1fe, 0x9bdc06a7, 0xc19bf174,
    0xe49b69c1, 0xefbe4786, 0x0fc19dc6, 0x240ca1cc, 0x2de92c6f, 0x4a7484aa, 0x5cb0a9dc, 0x76f988da,
    0x983e5152, 0xa831c66d, 0xb00327c8, 0xbf597fc7, 0xc6e00bf3, 0xd5a79147, 0x06ca6351, 0x14292967,
    0x27b70a85, 0x2e1b2138, 0x4d2c6dfc, 0x53380d13, 0x650a7354, 0x766a0abb, 0x81c2c92e, 0x92722c85,
    0xa2bfe8a1, 0xa81a664b, 0xc24b8b70, 0xc76c51a3, 0xd192e819, 0xd6990624, 0xf40e3585, 0x106aa070,
    0x19a4c116, 0x1e376c08, 0x2748774c, 0x34b0bcb5, 0x391c0cb3, 0x4ed8aa4a, 0x5b9cca4f, 0x682e6ff3,
    0x748f82ee, 0x78a5636f, 0x84c87814, 0x8cc70208, 0x90befffa, 0xa4506ceb, 0xbef9a3f7, 0xc67178f2,
];

/// The words before the first block: likewise from the square roots of the first eight primes.
const START: [u32; 8] = [
    0x6a09e667, 0xbb67ae85, 0x3c6ef372, 0xa54ff53a, 0x510e527f, 0x9b05688c, 0x1f83d9ab, 0x5be0cd19,
];

/// The digest of a message.
pub fn digest(message: &[u8]) -> [u8; 32] {
    let mut words = START;
    let mut rest = message;
    while let Some((block, after)) = rest.split_first_chunk::<64>() {
        words = compress(words, block);
        rest = after;
    }
    let bits = (message.len() as u64).wrapping_mul(8);
    let (first, second) = padded(rest, bits);
    words = compress(words, &first);
    if let Some(block) = second {
        words = compress(words, &block);
    }
    join(words)
}

/// The last one or two blocks: the rest of the message, a one bit, zeros, the length in bits.
fn padded(rest: &[u8], bits: u64) -> ([u8; 64], Option<[u8; 64]>) {
    let mut first = [0; 64];
    let marked = rest.iter().copied().chain([0x80]);
    first.iter_mut().zip(marked).for_each(|(to, from)| *to = from);
    if rest.len() < 56 {
        return (with_length(first, bits), None);
    }
    (first, Some(with_length([0; 64], bits)))
}

/// A block whose last eight bytes are the length in bits.
fn with_length(mut block: [u8; 64], bits: u64) -> [u8; 64] {
    if let Some(end) = block.last_chunk_mut::<8>() {
        *end = bits.to_be_bytes();
    }
    block
}

/// The words after one more block.
#[allow(clippy::indexing_slicing)] // the table and the schedule both have 64 words
fn compress(words: [u32; 8], block: &[u8; 64]) -> [u32; 8] {
    let w = schedule(block);
    let [mut a, mut b, mut c, mut d, mut e, mut f, mut g, mut h] = words;
    for t in 0..64 {
        let choice = (e & f) ^ (!e & g);
        let majority = (a & b) ^ (a & c) ^ (b & c);
        let t1 = h
            .wrapping_add(e.rotate_right(6) ^ e.rotate_right(11) ^ e.rotate_right(25))
            .wrapping_add(choice)
            .wrapping_add(K[t])
            .wrapping_add(w[t]);
        let t2 =
            (a.rotate_right(2) ^ a.rotate_right(13) ^ a.rotate_right(22)).wrapping_add(majority);
        h = g;
        g = f;
        f = e;
        e = d.wrapping_add(t1);
        d = c;
        c = b;
        b = a;
        a = t1.wrapping_add(t2);
    }
    let mut sums = [a, b, c, d, e, f, g, h];
    sums.iter_mut().zip(words).for_each(|(sum, word)| *sum = sum.wrapping_add(word));
    sums
}

/// The 64 words that one block gives to the rounds.
#[allow(clippy::indexing_slicing, clippy::arithmetic_side_effects)] // t runs from 16 to 63
fn schedule(block: &[u8; 64]) -> [u32; 64] {
    let mut w = [0; 64];
    for (word, bytes) in w.iter_mut().zip(block.chunks_exact(4)) {
        *word = bytes.iter().fold(0, |high, &low| (high << 8) | u32::from(low));
    }
    for t in 16..64 {
        let near = w[t - 2].rotate_right(17) ^ w[t - 2].rotate_right(19) ^ (w[t - 2] >> 10);
        let far = w[t - 15].rotate_right(7) ^ w[t - 15].rotate_right(18) ^ (w[t - 15] >> 3);
        w[t] = near.wrapping_add(w[t - 7]).wrapping_add(far).wrapping_add(w[t - 16]);
    }
    w
}

/// The eight words as bytes, each with its highest byte first.
fn join(words: [u32; 8]) -> [u8; 32] {
    let mut bytes = [0; 32];
    for (to, word) in bytes.chunks_exact_mut(4).zip(words) {
        to.copy_from_slice(&word.to_be_bytes());
    }
    bytes
}
