//! What is wrong with the edition and the weights of a book's head, a station's or an observer's, and with the bytes that
//! the edition calls zero.

use crate::unsound::{at, Fault};
use types::{field, mask_at, EDITION, FIRST_EDITION, MOST_REPLICAS, MOST_WEIGHT, SECOND_EDITION};

/// The end of the head.
const END: usize = 64;

/// What is wrong with the edition. One above the last may be of a program that was made later.
pub fn edition(book: &[u8]) -> Option<Fault> {
    let edition = at(book, field::EDITION);
    let rule = match edition {
        FIRST_EDITION..=EDITION => return None,
        0 => format!("the edition is 0, not {FIRST_EDITION} to {EDITION}"),
        _ => format!(
            "the edition is {edition}, and this program knows {FIRST_EDITION} to {EDITION}: was the book made by a \
             newer one?"
        ),
    };
    Some((field::EDITION, rule))
}

/// What is wrong with weights or zero bytes, in a head whose edition is known and whose n is in range.
pub fn fault(book: &[u8]) -> Option<Fault> {
    let short = [field::HEIGHTS, field::CURRENT, field::FINALIZED].map(|of| of.short);
    match at(book, field::EDITION) {
        FIRST_EDITION => zeros(book, field::WEIGHTS..END),
        SECOND_EDITION => weights(book).or_else(|| zeros(book, field::LONG..END)),
        _ => {
            zeros(book, short).or_else(|| weights(book)).or_else(|| zeros(book, field::UNUSED..END))
        }
    }
}

/// The first weight that is out of range, or that an absent station has.
fn weights(book: &[u8]) -> Option<Fault> {
    let n = at(book, field::N);
    (0..MOST_REPLICAS).find_map(|station| {
        let byte = usize::from(station).saturating_mul(2).saturating_add(field::WEIGHTS);
        let weight = mask_at(book, byte);
        let rule = match station < n {
            true if (1..=MOST_WEIGHT).contains(&weight) => return None,
            true => format!("station {station} weighs {weight}, not 1 to {MOST_WEIGHT}"),
            false if weight == 0 => return None,
            false => {
                format!("it is {weight}, and must be zero: n is {n}, so there is no such station")
            }
        };
        Some((byte, rule))
    })
}

/// The first of these bytes that is not zero, which the book's edition calls so.
fn zeros(book: &[u8], bytes: impl IntoIterator<Item = usize>) -> Option<Fault> {
    let byte = bytes.into_iter().find(|byte| at(book, *byte) != 0)?;
    let (value, edition) = (at(book, byte), at(book, field::EDITION));
    Some((byte, format!("it is {value}, and must be zero in a book of edition {edition}")))
}
