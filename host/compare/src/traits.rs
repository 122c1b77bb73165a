//! What is strange about a book, seen by looking at it, and the limits that its calls put on buffers.

use crate::frames::{area, byte};
use exchange::Answer;
use reference::inspect::{inspect, AtHeight};
use reference::Rules;
use types::{field, head_height, Area, Calls, Height, Layout, ENTRY};

/// The limit of a reply, if the answer shows that its length was looked at.
pub fn reply_length(answer: Answer, limit: usize) -> Option<usize> {
    match answer {
        Answer::Done | Answer::Moved(_) | Answer::Deny(3 | 11) => Some(limit),
        _ => None,
    }
}

/// The limit of a reading buffer: the size of the log, if there is one that is not empty.
pub fn read_length(book: &[u8]) -> Option<usize> {
    let size = Calls::size(&Rules::SHA256, book).ok()?;
    usize::try_from(size).ok().filter(|size| *size > 0)
}

/// The same of an observer's log.
pub fn observer_read_length(book: &[u8]) -> Option<usize> {
    let size = Calls::observer_size(&Rules::SHA256, book).ok()?;
    usize::try_from(size).ok().filter(|size| *size > 0)
}

/// The kinds that a sound book is of.
pub fn kinds(book: &[u8]) -> Vec<&'static str> {
    let Ok(told) = inspect(book) else { return Vec::new() };
    let not_linked = |height: &AtHeight| height.notarized.is_some() && !height.linked;
    let not_standing = |height: &AtHeight| height.held.is_some() && !height.held_extends;
    // No run casts a blank vote before the timer fires, or sets a flag past the last height.
    let passed_all = usize::from(told.current) > told.heights.len();
    let odd_flags = told.flags & 3 == 2 || (passed_all && told.flags > 0);
    let traits = [
        (has_free_byte(book), "book: with a free byte set"),
        (told.heights.iter().any(not_linked), "book: with a notarised page that does not stand"),
        (told.heights.iter().any(not_standing), "book: with a held page that does not stand"),
        (odd_flags, "book: with flags that no run sets"),
        (told.finalized > told.current, "book: with a settled height above the current one"),
    ];
    traits.into_iter().filter(|(is, _)| *is).map(|(_, name)| name).collect()
}

/// Whether a byte is set that no rule looks at: a page that is not held, or a pending place past the count.
fn has_free_byte(book: &[u8]) -> bool {
    let heights = head_height(book, field::HEIGHTS);
    let layout = Layout::new(heights);
    let taken = usize::from(byte(book, field::PENDING)).saturating_mul(ENTRY);
    let pending = book.get(layout.pending()).and_then(|places| places.get(taken..));
    let set = |bytes: &[u8]| bytes.iter().any(|byte| *byte != 0);
    let free = |height: Height, bit: u8, page: Area| {
        byte(area(book, height, Area::Row), 1) & bit == 0 && set(area(book, height, page))
    };
    pending.is_some_and(set)
        || (1..=heights).any(|h| free(h, 1, Area::Held) || free(h, 2, Area::Notarized))
}

#[cfg(test)]
mod tests {
    use super::*;
    use types::Book;

    #[test]
    fn a_new_book_is_of_no_kind() -> Result<(), u8> {
        let book = Book::open(Rules::SHA256, 4, 2, &[1; 4], &[0, 1, 2])?;
        assert_eq!(kinds(book.bytes()), Vec::<&str>::new());
        Ok(())
    }

    #[test]
    fn free_bytes_and_flags_are_seen() -> Result<(), u8> {
        let mut book = Book::open(Rules::SHA256, 4, 2, &[1; 4], &[0, 1, 2])?.bytes().to_vec();
        book[field::FLAGS] = 2;
        book[64] = 1;
        assert_eq!(
            kinds(&book),
            ["book: with a free byte set", "book: with flags that no run sets"]
        );
        Ok(())
    }
}
