//! A copy of a lent buffer with marked bytes on both sides, to see a write past its ends.

/// How many marked bytes stand on each side.
const MARGIN: usize = 32;

/// The mark.
const MARK: u8 = 0xd7;

/// A buffer between two margins.
#[derive(Clone, Debug, Default)]
pub struct Guarded {
    bytes: Vec<u8>,
}

impl Guarded {
    /// Takes over a copy of these bytes and sets the margins anew.
    pub fn load(&mut self, bytes: &[u8]) {
        self.bytes.clear();
        self.bytes.extend([MARK; MARGIN]);
        self.bytes.extend_from_slice(bytes);
        self.bytes.extend([MARK; MARGIN]);
    }

    /// The bytes between the margins.
    pub fn part(&mut self) -> &mut [u8] {
        let end = self.bytes.len().saturating_sub(MARGIN);
        self.bytes.get_mut(MARGIN..end).unwrap_or(&mut [])
    }

    /// Whether both margins are as they were set.
    pub fn is_intact(&self) -> bool {
        let marked = |bytes: Option<&[u8; MARGIN]>| bytes == Some(&[MARK; MARGIN]);
        marked(self.bytes.first_chunk()) && marked(self.bytes.last_chunk())
    }
}

#[cfg(test)]
mod tests {
    use super::*;

    #[test]
    fn a_write_beside_the_bytes_is_seen() {
        for length in [0, 1, 448] {
            let mut guarded = Guarded::default();
            guarded.load(&vec![1; length]);
            assert_eq!(guarded.part(), vec![1; length]);
            guarded.part().fill(2);
            assert!(guarded.is_intact());
            for at in [0, MARGIN - 1, MARGIN + length, 2 * MARGIN + length - 1] {
                let mut touched = guarded.clone();
                touched.bytes[at] ^= 1;
                assert!(!touched.is_intact());
            }
        }
    }
}
