//! Books of another edition than open makes, for whoever has to try them: no call makes one.

use crate::{field, head_height, put_head_height, put_weights, Weights, FIRST_EDITION};

/// The length of the head.
const HEAD: usize = 64;

/// Makes a book, a replica's or an observer's, one of another edition that says the same: the heights of its head and
/// its weights go where that edition has them, and what it calls zero becomes zero. The first edition has no weights,
/// so that all are read as 1. A sound book stays sound if the edition has room for its H, and for its weights.
pub fn put_edition(book: &mut [u8], edition: u8) {
    let heights = [field::HEIGHTS, field::CURRENT, field::FINALIZED];
    let read = heights.map(|of| (of, head_height(book, of)));
    let weights = Weights::of(book);
    let short = heights.map(|of| of.short);
    let moved = |at: &usize| short.contains(at) || *at >= field::WEIGHTS;
    let zeroed = book.iter_mut().take(HEAD).enumerate().filter(|(at, _)| moved(at));
    zeroed.for_each(|(_, byte)| *byte = 0);
    if edition != FIRST_EDITION {
        put_weights(book, weights.each());
    }
    book.iter_mut().skip(field::EDITION).take(1).for_each(|byte| *byte = edition);
    read.into_iter().for_each(|(of, height)| put_head_height(book, of, height));
}

/// Makes a book one of the first edition, as [`put_edition`] does.
pub fn put_first_edition(book: &mut [u8]) {
    put_edition(book, FIRST_EDITION);
}

#[cfg(test)]
mod tests {
    use super::*;
    use crate::{EDITION, SECOND_EDITION};

    /// The head of 4 replicas, own 2, flags 5, 9 pending, H 63, current 40, finalized 39, with a byte behind it.
    fn head(weights: &[u16]) -> [u8; 65] {
        let mut head = [0; 65];
        [head[0], head[1], head[3], head[6], head[7], head[64]] = [4, 2, 5, 9, EDITION, 77];
        put_weights(&mut head, weights);
        let numbers = [(field::HEIGHTS, 63), (field::CURRENT, 40), (field::FINALIZED, 39)];
        numbers.into_iter().for_each(|(of, height)| put_head_height(&mut head, of, height));
        head
    }

    #[test]
    fn the_bytes_are_those_of_the_edition() {
        let third = head(&[1; 4]);
        assert_eq!(third[..8], [4, 2, 0, 5, 0, 0, 9, 3]);
        assert_eq!(third[40..46], [63, 0, 40, 0, 39, 0]);
        let mut book = third;
        put_edition(&mut book, SECOND_EDITION);
        assert_eq!(book[..8], [4, 2, 63, 5, 40, 39, 9, 2]);
        assert_eq!((&book[8..40], &book[40..64], book[64]), (&third[8..40], &[0; 24][..], 77));
        put_first_edition(&mut book);
        assert_eq!(book[..8], [4, 2, 63, 5, 40, 39, 9, 1]);
        assert_eq!((&book[8..64], book[64]), (&[0; 56][..], 77));
        put_edition(&mut book, EDITION);
        assert_eq!(book, third);
    }

    #[test]
    fn any_bytes_are_taken() {
        for length in 0..64 {
            for edition in [0, 1, 2, 3, 4, 255] {
                put_edition(&mut vec![255; length], edition);
                put_edition(&mut vec![3; length], edition);
            }
        }
        let mut weighed = head(&[9, 1, 1, 1]);
        put_edition(&mut weighed, SECOND_EDITION);
        assert_eq!(Weights::of(&weighed).each(), [9, 1, 1, 1]);
    }
}
