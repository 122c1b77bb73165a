//! The weights of a book's replicas: their bytes in the head, read by edition, and what a mask of replicas weighs.

use crate::{field, FIRST_EDITION, MOST_REPLICAS, SECOND_EDITION};

/// How many replicas the head has room for.
const PLACES: usize = MOST_REPLICAS as usize;

/// The bytes of the head that the weights take, two for each place.
const AREA: usize = 2 * PLACES;

/// The weights of the replicas of a book as read: one for each replica, those of a first edition all 1.
#[derive(Clone, Copy, Debug, PartialEq, Eq)]
pub struct Weights {
    all: [u16; PLACES],
    n: u8,
}

impl Weights {
    /// The weights that the head of a book says, a replica's or an observer's, whatever its bytes are; none past the
    /// end. Whether they are in range is for the replica to judge.
    pub fn of(book: &[u8]) -> Weights {
        let byte = |at: usize| book.get(at).copied().unwrap_or(0);
        let n = byte(field::N).min(MOST_REPLICAS);
        if byte(field::EDITION) == FIRST_EDITION {
            return Weights::equal(n);
        }
        let mut all = [0; PLACES];
        let pairs = book.get(field::WEIGHTS..).unwrap_or(&[]).as_chunks::<2>().0;
        let kept = all.iter_mut().take(n.into()).zip(pairs);
        kept.for_each(|(weight, pair)| *weight = u16::from_le_bytes(*pair));
        Weights { all, n }
    }

    /// `n` replicas that all weigh 1; 16 at most.
    pub fn equal(n: u8) -> Weights {
        let n = n.min(MOST_REPLICAS);
        let mut all = [0; PLACES];
        all.iter_mut().take(n.into()).for_each(|weight| *weight = 1);
        Weights { all, n }
    }

    /// The weights, from replica 0 up.
    pub fn each(&self) -> &[u16] {
        self.all.get(..self.n.into()).unwrap_or(&self.all)
    }

    /// What one replica weighs; an absent one weighs nothing.
    pub fn weight(&self, replica: u8) -> u16 {
        self.each().get(usize::from(replica)).copied().unwrap_or(0)
    }

    /// The total weight, W.
    pub fn total(&self) -> u32 {
        self.each().iter().map(|&weight| u32::from(weight)).sum()
    }

    /// What the replicas of a mask weigh together.
    pub fn weight_of(&self, mask: u16) -> u32 {
        let members = (0..MOST_REPLICAS).filter(|&replica| mask >> replica & 1 == 1);
        members.map(|replica| u32::from(self.weight(replica))).sum()
    }

    /// The least weight that is a quorum.
    pub fn needed(&self) -> u32 {
        self.total().saturating_mul(2).div_ceil(3)
    }
}

/// The bytes of weights as open takes them and as the head has them: two for each replica, the low one first.
pub fn weight_bytes(weights: &[u16]) -> Vec<u8> {
    weights.iter().flat_map(|weight| weight.to_le_bytes()).collect()
}

/// Gives a book these weights; those past 16 are left out. A book of the first edition, which has none, becomes one of
/// the second.
pub fn put_weights(book: &mut [u8], weights: &[u16]) {
    let edition = book.iter_mut().skip(field::EDITION).take(1);
    edition.for_each(|edition| *edition = (*edition).max(SECOND_EDITION));
    let bytes = weight_bytes(weights).into_iter().chain([0; AREA]).take(AREA);
    book.iter_mut().skip(field::WEIGHTS).zip(bytes).for_each(|(to, from)| *to = from);
}

#[cfg(test)]
mod tests {
    use super::*;
    use crate::put_first_edition;

    /// A head of so many replicas with these weights.
    fn head(n: u8, weights: &[u16]) -> [u8; 64] {
        let mut head = [0; 64];
        head[field::N] = n;
        put_weights(&mut head, weights);
        head
    }

    #[test]
    fn weights_are_where_the_document_has_them() {
        let book = head(3, &[1000, 2, 0x0102]);
        assert_eq!(book[7..16], [2, 0xe8, 3, 2, 0, 2, 1, 0, 0]);
        let weights = Weights::of(&book);
        assert_eq!((weights.each(), weights.total()), (&[1000, 2, 258][..], 1260));
        assert_eq!([0, 2, 3, 255].map(|replica| weights.weight(replica)), [1000, 258, 0, 0]);
    }

    #[test]
    fn a_first_edition_is_read_as_ones() {
        let mut book = head(4, &[9, 1, 1, 1]);
        put_first_edition(&mut book);
        assert_eq!(Weights::of(&book), Weights::equal(4));
        assert_eq!(Weights::of(&head(4, &[1; 4])), Weights::equal(4));
        assert_eq!(Weights::equal(4).each(), [1; 4]);
    }

    #[test]
    fn masks_weigh_what_their_replicas_weigh() {
        let weights = Weights::of(&head(4, &[9, 1, 1, 1]));
        let masks = [0, 1, 14, 15, 0xfff0].map(|mask| weights.weight_of(mask));
        assert_eq!((masks, weights.needed()), ([0, 9, 3, 12, 0], 8));
        let needed = [1, 4, 6, 16].map(|n| Weights::equal(n).needed());
        assert_eq!(needed, [1, 3, 4, 11]);
    }

    #[test]
    fn any_bytes_are_read() {
        assert_eq!(Weights::of(&[]).total(), 0);
        assert_eq!(Weights::of(&[255; 11]).each(), [[0xffff].as_slice(), &[0; 15]].concat());
        assert_eq!(Weights::equal(255).total(), 16);
        put_weights(&mut [0; 9], &[7; 40]);
        assert_eq!(weight_bytes(&[1, 1000]), [1, 0, 0xe8, 3]);
    }
}
