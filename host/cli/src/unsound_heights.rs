//! What is wrong with the length of a book and its number of heights, where it is not told whose book it is.

use crate::unsound::{at, Fault};
use crate::words::count;
use types::{book_length, field, head_height, most_heights, observer_book_length, Height};
use types::{EDITION, MOST_HEIGHTS};

/// A sentence about bytes whose length no book of any number of heights has.
pub fn no_length(book: &[u8]) -> Option<String> {
    let [station, observer] = fitting(book.len());
    if station.or(observer).is_some() {
        return None;
    }
    let newer = match at(book, field::EDITION) {
        0..=EDITION => String::new(),
        edition => {
            format!(
                "; byte {} says edition {edition}, which this program does not know",
                field::EDITION
            )
        }
    };
    let (length, rule) = (book.len(), format!("for any H from 1 to {MOST_HEIGHTS}"));
    Some(format!("the length {length} is not 576 + 880 H, nor 64 + 184 H, {rule}{newer}"))
}

/// What is wrong with the number of heights of a book whose edition is known: neither kind of book has the length for it,
/// or the edition has no room for so many.
pub fn fault(book: &[u8]) -> Option<Fault> {
    let (heights, edition) = (head_height(book, field::HEIGHTS), at(book, field::EDITION));
    let (byte, most) = (field::HEIGHTS.place(book).start, most_heights(edition));
    if heights > most {
        let rule = format!("it is {heights}, and a book of edition {edition} has {most} at most");
        return Some((byte, rule));
    }
    let fitting = fitting(book.len());
    if fitting.contains(&Some(heights)) {
        return None;
    }
    let rule = format!("it is {heights}, and the length is that of {}", whose(fitting));
    Some((byte, rule))
}

/// The number of heights with which a station's book has this length, and that with which an observer's has it.
fn fitting(length: usize) -> [Option<Height>; 2] {
    [book_length, observer_book_length]
        .map(|of: fn(Height) -> usize| (1..=MOST_HEIGHTS).find(|heights| of(*heights) == length))
}

/// Whose book has the length of so many heights of a station's and so many of an observer's.
fn whose(fitting: [Option<Height>; 2]) -> String {
    let kinds = ["a station's book", "an observer's book"].into_iter().zip(fitting);
    let told = kinds.filter_map(|(kind, heights)| {
        Some(format!("{kind} of {}", count(heights?.into(), "height", "heights")))
    });
    told.collect::<Vec<_>>().join(" or of ")
}
