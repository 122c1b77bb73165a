//! The kinds of observers' calls that a large comparison must have had, and of which one call is.

use exchange::{Answer, Call, ObserverCall};
use types::{field, head_height, height_at, is_observers, Delivered, Move, FRAME, FRAME_HEIGHT};

/// The names of the kinds, beside those of each refusal and each kind of certificate.
pub const NAMES: [&str; 10] = [
    "observer: settles a height",
    "observer: settles and leaves out heights between",
    "observer: idle",
    "observer: 16, at a height of the book",
    "observer: 16, at height 0",
    "observer: 16, above the last height",
    "observer: 16, of a signer that is none",
    "observer: 4, where the kind is one of 1 to 4",
    "observer: a call on a station's book",
    "observer: a station's call on its book",
];

/// The names of the kinds that a call on a book is of, with its answer; the book is as it was before.
pub fn kinds(call: &Call, book: &[u8], answer: Answer) -> Vec<String> {
    let Call::Observer(call) = call else {
        let other = is_observers(book) && answer == Answer::Deny(1);
        return if other {
            vec!["observer: a station's call on its book".to_string()]
        } else {
            Vec::new()
        };
    };
    let stations = book.len() == types::book_length(head_height(book, field::HEIGHTS));
    let other = (stations && answer == Answer::Deny(1))
        .then(|| "observer: a call on a station's book".to_string());
    let own = match (call, answer) {
        (ObserverCall::Deliver { frame }, _) => delivered(frame, book, answer),
        (ObserverCall::Move, Answer::Moved(made)) => moved(made, book),
        _ => Vec::new(),
    };
    own.into_iter().chain(other).collect()
}

/// The kinds of a delivery.
fn delivered(frame: &[u8], book: &[u8], answer: Answer) -> Vec<String> {
    let (kind, signer) = match frame {
        [kind, signer, ..] => (*kind, *signer),
        _ => return Vec::new(),
    };
    let last = head_height(book, field::HEIGHTS);
    let place = match height_at(frame, FRAME_HEIGHT) {
        0 => "observer: 16, at height 0",
        height if height > last => "observer: 16, above the last height",
        _ => "observer: 16, at a height of the book",
    };
    let stranger = book.get(field::N).is_some_and(|n| signer >= *n);
    match answer {
        Answer::Deny(16) => {
            let kind = format!("call: observer-deliver, kind {kind}, refused with 16");
            let signer = stranger.then(|| "observer: 16, of a signer that is none".to_string());
            [kind, place.to_string()].into_iter().chain(signer).collect()
        }
        Answer::Deny(4) if frame.len() == FRAME && (1..=4).contains(&kind) => {
            vec!["observer: 4, where the kind is one of 1 to 4".to_string()]
        }
        Answer::Delivered(what) => {
            let word = if what == Delivered::Fresh { "fresh" } else { "known" };
            vec![taken(kind, word)]
        }
        _ => Vec::new(),
    }
}

/// The kinds of a move.
fn moved(made: Move, book: &[u8]) -> Vec<String> {
    let before = head_height(book, field::FINALIZED);
    let jumps = made.height() > before.saturating_add(1);
    match made {
        Move::Idle => vec!["observer: idle".to_string()],
        _ if jumps => vec![
            "observer: settles a height".to_string(),
            "observer: settles and leaves out heights between".to_string(),
        ],
        _ => vec!["observer: settles a height".to_string()],
    }
}

/// A certificate's kind with what became of it.
fn taken(kind: u8, word: &str) -> String {
    format!("call: observer-deliver, kind {kind}, {word}")
}

/// The names that have a number or a word in them.
pub fn by_kind() -> Vec<String> {
    let certificates = (5..=7).flat_map(|kind| ["fresh", "known"].map(|word| taken(kind, word)));
    let others = (1..=4).map(|kind| taken(kind, "refused with 16"));
    certificates.chain(others).collect()
}
