//! The entries of a block: eight at most, which the type sees to.

use crate::{ENTRY, MOST_ENTRIES};
use std::error::Error;
use std::fmt;
use std::ops::Deref;

/// How many entries a block has places for.
const PLACES: usize = MOST_ENTRIES as usize;

/// The entries of a block, in order. No value has more than a block has places for: a list of a known length becomes
/// one by `from`, which does not compile for a longer one, any other by `try_from`, which says so.
///
/// ```
/// use types::{Entries, TooManyEntries};
/// let two = Entries::from([[1; 16], [2; 16]]);
/// assert_eq!(two.len(), 2);
/// assert_eq!(Entries::try_from(vec![[1; 16]; 9]), Err(TooManyEntries { count: 9 }));
/// ```
///
/// ```compile_fail
/// let nine = types::Entries::from([[1; 16]; 9]);
/// ```
#[derive(Clone, Debug, Default, PartialEq, Eq)]
pub struct Entries(Vec<[u8; ENTRY]>);

/// More entries than a block has places for.
#[derive(Clone, Copy, Debug, PartialEq, Eq)]
pub struct TooManyEntries {
    /// How many there were.
    pub count: usize,
}

impl Entries {
    /// The first eight of these; those behind them are left out.
    pub fn first_of(entries: &[[u8; ENTRY]]) -> Entries {
        Entries(entries.iter().take(PLACES).copied().collect())
    }
}

impl<const COUNT: usize> From<[[u8; ENTRY]; COUNT]> for Entries {
    fn from(entries: [[u8; ENTRY]; COUNT]) -> Entries {
        const { assert!(COUNT <= PLACES, "a block has places for eight entries") };
        Entries(entries.to_vec())
    }
}

impl TryFrom<Vec<[u8; ENTRY]>> for Entries {
    type Error = TooManyEntries;

    fn try_from(entries: Vec<[u8; ENTRY]>) -> Result<Entries, TooManyEntries> {
        if entries.len() > PLACES {
            return Err(TooManyEntries { count: entries.len() });
        }
        Ok(Entries(entries))
    }
}

impl Deref for Entries {
    type Target = [[u8; ENTRY]];

    fn deref(&self) -> &[[u8; ENTRY]] {
        &self.0
    }
}

impl IntoIterator for Entries {
    type Item = [u8; ENTRY];
    type IntoIter = std::vec::IntoIter<[u8; ENTRY]>;

    fn into_iter(self) -> Self::IntoIter {
        self.0.into_iter()
    }
}

impl fmt::Display for TooManyEntries {
    fn fmt(&self, to: &mut fmt::Formatter<'_>) -> fmt::Result {
        write!(to, "{} entries are too many for a page, which has places for {PLACES}", self.count)
    }
}

impl Error for TooManyEntries {}

#[cfg(test)]
mod tests {
    use super::*;

    #[test]
    fn nine_are_an_error_and_eight_are_not() {
        for count in 0..=20 {
            let entries = vec![[7; ENTRY]; count];
            let made = Entries::try_from(entries.clone());
            let expected =
                if count <= 8 { Ok(entries.len()) } else { Err(TooManyEntries { count }) };
            assert_eq!(made.map(|made| made.len()), expected);
            assert_eq!(Entries::first_of(&entries).len(), count.min(8));
        }
        let said = TooManyEntries { count: 9 }.to_string();
        assert_eq!(said, "9 entries are too many for a page, which has places for 8");
    }
}
