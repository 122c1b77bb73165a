//! The file of the frames that wait: which book they belong to, and the frames.

use crate::digits;
use types::{Written, FRAME};

/// The first line.
const HEADING: &str = "mavunilai frames 1";

/// The last line: without it the text is not whole.
const END: &str = "end\n";

/// Frames that are to be sent if the book is the one that is named.
#[derive(Clone, Debug, PartialEq, Eq)]
pub struct Outbox {
    /// The SHA-256 of the book after the call that wrote the frames.
    pub book: [u8; 32],
    /// The frames, in order.
    pub frames: Written,
}

impl Outbox {
    /// The frames of the call that left this book.
    pub fn new(book: &[u8], frames: &[[u8; FRAME]]) -> Outbox {
        Outbox { book: sha256::digest(book), frames: frames.to_vec() }
    }

    /// Whether the frames belong to this book.
    pub fn names(&self, book: &[u8]) -> bool {
        self.book == sha256::digest(book)
    }

    /// The text of the file: a heading, the digest, a line for each frame, an end.
    pub fn text(&self) -> String {
        let book = digits::print(&self.book);
        let frames: String = self.frames.iter().map(|frame| digits::print(frame) + "\n").collect();
        format!("{HEADING}\nbook {book}\n{frames}{END}")
    }

    /// The outbox of such a text; none for another.
    pub fn parse(text: &[u8]) -> Option<Outbox> {
        let text = std::str::from_utf8(text).ok()?;
        let rest = text.strip_prefix(HEADING)?.strip_prefix("\nbook ")?;
        let (book, rest) = rest.split_once('\n')?;
        let frames = rest.strip_suffix(END)?.lines().map(digits::parse);
        let frames: Option<Written> = frames.collect();
        Some(Outbox { book: digits::parse(book)?, frames: frames? })
    }
}

#[cfg(test)]
mod tests {
    use super::*;

    #[test]
    fn an_outbox_comes_back_and_no_part_of_it_does() {
        for count in 0..3 {
            let outbox = Outbox::new(b"book", &vec![[7; FRAME]; count]);
            let text = outbox.text();
            assert!(outbox.names(b"book") && !outbox.names(b"cook"));
            assert_eq!(Outbox::parse(text.as_bytes()), Some(outbox));
            for length in 0..text.len() {
                let part: Vec<u8> = text.bytes().take(length).collect();
                assert_eq!(Outbox::parse(&part), None, "{length}");
            }
        }
    }
}
