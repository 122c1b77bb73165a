//! The head of a book, a replica's or an observer's, as values and as its 64 bytes.

use crate::edition;
use crate::height::{self, Height};
use crate::soundness::MOST_REPLICAS;
use crate::weights::{self, Weights};

/// The length of a head in bytes.
pub(crate) const HEAD: usize = 64;

/// Where a short head has H, the current and the finalized height, a byte each.
const SHORT: [usize; 3] = [2, 4, 5];

/// Where a long head has the three, two bytes each and one behind the other.
const LONG: usize = 40;

/// What a head says. An observer's has nothing but n, H, the finalized height, the edition and the weights.
#[derive(Clone, Default)]
pub(crate) struct Head {
    pub n: u8,
    pub own: u8,
    pub heights: Height,
    pub flags: u8,
    pub current: Height,
    pub finalized: Height,
    pub pending_count: u8,
    pub edition: u8,
    pub weights: Weights,
}

impl Head {
    /// What these bytes say, read by their edition. What the edition calls zero is not looked at: that writing the
    /// head again gives the same bytes is for the caller to see.
    pub fn decode(bytes: &[u8; HEAD]) -> Head {
        let [n, own, _, flags, _, _, pending_count, edition, ..] = *bytes;
        let [heights, current, finalized] = match edition::is_long(edition) {
            true => words(bytes),
            false => SHORT.map(|at| bytes.get(at).copied().map_or(0, Height::from)),
        };
        let weights = weights::decode(bytes, n, edition);
        Head { n, own, heights, flags, current, finalized, pending_count, edition, weights }
    }

    /// The bytes of the head; what the edition does not use is zero.
    pub fn encode(&self) -> [u8; HEAD] {
        let mut bytes = [0; HEAD];
        bytes[..4].copy_from_slice(&[self.n, self.own, 0, self.flags]);
        bytes[6..8].copy_from_slice(&[self.pending_count, self.edition]);
        bytes[8..LONG].copy_from_slice(&weights::encode(&self.weights, self.edition));
        let heights = [self.heights, self.current, self.finalized];
        match edition::is_long(self.edition) {
            true => {
                bytes[LONG..LONG + 6].copy_from_slice(heights.map(height::to_bytes).as_flattened())
            }
            false => SHORT.into_iter().zip(heights).for_each(|(at, height)| {
                let byte = u8::try_from(height).unwrap_or(u8::MAX);
                bytes.iter_mut().skip(at).take(1).for_each(|place| *place = byte);
            }),
        }
        bytes
    }

    /// Whether the edition is known, and n, H and the weights are in its range.
    pub fn setting_is_sound(&self) -> bool {
        edition::is_known(self.edition)
            && (1..=MOST_REPLICAS).contains(&u64::from(self.n))
            && edition::heights(self.edition).contains(&self.heights)
            && weights::are_of(self.n.into(), &self.weights)
    }
}

/// The three heights of a long head.
fn words(bytes: &[u8; HEAD]) -> [Height; 3] {
    let pairs = bytes[LONG..].as_chunks::<2>().0.iter();
    let mut heights = [0; 3];
    heights.iter_mut().zip(pairs).for_each(|(to, pair)| *to = height::from_bytes(*pair));
    heights
}
