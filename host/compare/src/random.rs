//! A small generator of random numbers: the same numbers for the same seed, on every machine.

use types::Height;

/// The generator; its state is never zero.
#[derive(Clone, Debug)]
pub struct Random(u64);

impl Random {
    /// The generator for a seed; nearby seeds give unlike numbers.
    pub fn new(seed: u64) -> Random {
        let mixed = seed.wrapping_add(0x9e37_79b9_7f4a_7c15).wrapping_mul(0xbf58_476d_1ce4_e5b9);
        Random((mixed ^ (mixed >> 29)).wrapping_mul(0x94d0_49bb_1331_11eb) | 1)
    }

    /// The next 64 bits.
    pub fn next_bits(&mut self) -> u64 {
        self.0 ^= self.0 << 13;
        self.0 ^= self.0 >> 7;
        self.0 ^= self.0 << 17;
        self.0
    }

    /// A number below the bound; 0 if the bound is 0.
    pub fn below(&mut self, bound: u64) -> u64 {
        (self.next_bits() >> 11).checked_rem(bound).unwrap_or(0)
    }

    /// A place in a list of this length.
    pub fn index(&mut self, length: usize) -> usize {
        usize::try_from(self.below(length as u64)).unwrap_or(0)
    }

    /// A byte below the bound; 0 if the bound is 0.
    pub fn byte_below(&mut self, bound: u8) -> u8 {
        u8::try_from(self.below(bound.into())).unwrap_or(0)
    }

    /// A height below the bound; 0 if the bound is 0.
    pub fn height_below(&mut self, bound: Height) -> Height {
        Height::try_from(self.below(bound.into())).unwrap_or(0)
    }

    /// True once in so many times.
    pub fn one_in(&mut self, times: u64) -> bool {
        self.below(times) == 0
    }

    /// Any byte.
    pub fn byte(&mut self) -> u8 {
        let [.., last] = self.next_bits().to_le_bytes();
        last
    }

    /// Fills a slice with any bytes.
    pub fn fill(&mut self, to: &mut [u8]) {
        for part in to.chunks_mut(8) {
            let bits = self.next_bits().to_le_bytes();
            part.iter_mut().zip(bits).for_each(|(to, from)| *to = from);
        }
    }

    /// One of the members of a list.
    pub fn pick<'a, T>(&mut self, of: &'a [T]) -> Option<&'a T> {
        of.get(self.index(of.len()))
    }
}
