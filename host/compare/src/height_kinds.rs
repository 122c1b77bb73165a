//! The kinds of heights that a large comparison must have had, and of which one call is.

use exchange::{Answer, Call, ObserverCall};
use types::{field, head_height, height_at, most_heights, BLOCK_PARENT, FRAME, FRAME_HEIGHT};
use types::{observer_book_length, HeadHeight, EDITION};

/// What is told of stations and of observers: sound books, books with too many heights for their edition, frames.
const BOTH: [&str; 12] = [
    "book of edition 2",
    "book of edition 3",
    "book of 64 heights or more",
    "book of 256 heights or more",
    "book of 1,000 heights",
    "book of edition 1 with more than 63, refused with 1",
    "book of edition 2 with more than 63, refused with 1",
    "book of edition 3 with more than 1,000, refused with 1",
    "frame above 255, fresh",
    "frame above 255 over a short book, refused with 6",
    "page and frame agree in the low byte alone, refused with 4",
    "page with a back height above 255, fresh",
];

/// What is told of a damaged head, of stations and of observers.
const DAMAGED: [&str; 4] = [
    "damaged: a place of edition 1 or 2 in edition 3",
    "damaged: a place of edition 3 in edition 1 or 2",
    "damaged: the high byte of a height",
    "damaged: a zero of edition 3",
];

/// What is told of one of the two alone.
pub const NAMES: [&str; 10] = [
    "heights: signal of a number that is c in its low byte, refused with 6",
    "heights: signal of a number that is c in its low two bytes, refused with 6",
    "heights: fetch of a number that is a height in its low two bytes, refused with 6",
    "heights: move 1 above 255",
    "heights: move 2 above 255",
    "heights: move 3 above 255",
    "heights: move 5 above 255",
    "heights: open of more than 1,000, refused with 2",
    "heights: open of more than 63, done",
    "heights: an observer's move above 255",
];

/// The names that are told of stations and of observers.
pub fn names() -> Vec<String> {
    let all = BOTH.into_iter().chain(DAMAGED);
    all.flat_map(|name| [false, true].map(|observer| named(name, observer))).collect()
}

/// A name with whose call or book it is.
fn named(name: &str, observer: bool) -> String {
    let whose = if observer { "an observer" } else { "a station" };
    format!("heights: {name}, {whose}")
}

/// The names whose condition holds.
fn told<const N: usize>(names: [&'static str; N], is: [bool; N]) -> Vec<&'static str> {
    names.into_iter().zip(is).filter(|(_, is)| *is).map(|(name, _)| name).collect()
}

/// The kinds that a call on a book is of, with its answer; the book is as it was before.
pub fn kinds(call: &Call, book: &[u8], answer: Answer) -> Vec<String> {
    let observer = matches!(call, Call::Observer(_));
    let opens = matches!(call, Call::Open { .. } | Call::Observer(ObserverCall::Open { .. }));
    let both = if opens { Vec::new() } else { of_both(call, book, answer) };
    let names = both.into_iter().map(|name| named(name, observer));
    names.chain(of_station(call, book, answer).into_iter().map(str::to_string)).collect()
}

/// What is told of stations and of observers.
fn of_both(call: &Call, book: &[u8], answer: Answer) -> Vec<&'static str> {
    let edition = book.get(field::EDITION).copied().unwrap_or(0);
    let heights = head_height(book, field::HEIGHTS);
    let sound = !matches!(answer, Answer::Deny(1) | Answer::Part(0));
    let observer = matches!(call, Call::Observer(_));
    let length = if observer { observer_book_length(heights) } else { types::book_length(heights) };
    let too_many =
        answer == Answer::Deny(1) && book.len() == length && heights > most_heights(edition);
    let frame = match call {
        Call::Deliver { frame } | Call::Observer(ObserverCall::Deliver { frame }) => &frame[..],
        _ => &[],
    };
    let [height, page, parent] =
        [FRAME_HEIGHT, 48, 48 + BLOCK_PARENT].map(|at| height_at(frame, at));
    let fresh = answer == Answer::Delivered(types::Delivered::Fresh);
    let paged = frame.len() == FRAME && matches!(frame.first(), Some(1 | 5));
    let low = page != height && page & 255 == height & 255;
    told(
        BOTH,
        [
            sound && edition == 2,
            sound && edition == EDITION,
            sound && heights >= 64,
            sound && heights >= 256,
            sound && heights == types::MOST_HEIGHTS,
            too_many && edition == 1,
            too_many && edition == 2,
            too_many && edition == EDITION,
            fresh && height > 255,
            answer == Answer::Deny(6) && height > 255 && heights < 256,
            answer == Answer::Deny(4) && paged && low,
            fresh && paged && parent > 255,
        ],
    )
}

/// Stands for the move of an observer, among the numbers of a station's.
const OBSERVERS: u8 = 9;

/// What is told of one of the two alone.
fn of_station(call: &Call, book: &[u8], answer: Answer) -> Vec<&'static str> {
    let current = u64::from(head_height(book, field::CURRENT));
    let last = u64::from(head_height(book, field::HEIGHTS));
    let six = answer == Answer::Deny(6);
    let (signal, fetch) = match call {
        Call::Signal { height } if six => (*height, 0),
        Call::Fetch { height, .. } if six => (0, *height),
        _ => (0, 0),
    };
    let moved = match (call, answer) {
        (Call::Move, Answer::Moved(made)) if made.height() > 255 => made.number(),
        (Call::Observer(_), Answer::Moved(made)) if made.height() > 255 => OBSERVERS,
        _ => 0,
    };
    let opened = match call {
        Call::Open { heights, .. } => *heights,
        _ => 0,
    };
    let known = |height: u64| (1..=last).contains(&height);
    let is = [
        signal < 1 << 16 && signal > 255 && signal & 255 == current && known(current),
        signal >= 1 << 16 && signal & 0xffff == current && known(current),
        fetch >= 1 << 16 && known(fetch & 0xffff),
        moved == 1,
        moved == 2,
        moved == 3,
        moved == 5,
        opened > 1000 && answer == Answer::Deny(2),
        opened > 63 && answer == Answer::Done,
        moved == OBSERVERS,
    ];
    told(NAMES, is)
}

/// Where the head of a book differs from the sound one that it was, if that is at a place of heights or a zero.
pub fn damaged(sound: &[u8], book: &[u8], observer: bool) -> Vec<String> {
    let head = |book: &[u8]| book.get(..64).map(<[u8]>::to_vec).unwrap_or_default();
    let (before, after) = (head(sound), head(book));
    let Some(at) = before.iter().zip(&after).position(|(one, two)| one != two) else {
        return Vec::new();
    };
    let long = before.get(field::EDITION) == Some(&EDITION);
    let all = [field::HEIGHTS, field::CURRENT, field::FINALIZED];
    let within = |place: fn(&HeadHeight) -> usize| all.iter().any(|of| place(of) == at);
    let is = [
        long && within(|of| of.short),
        !long && (field::LONG..field::UNUSED).contains(&at),
        long && within(|of| of.long.saturating_add(1)),
        long && at >= field::UNUSED,
    ];
    told(DAMAGED, is).into_iter().map(|name| named(name, observer)).collect()
}
