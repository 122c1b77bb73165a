//! The kinds of weights and editions that a large comparison must have had, and of which one call is.

use exchange::{equal_weights, Answer, Call, ObserverCall};
use reference::{is_quorum, Rules};
use std::cmp::Ordering;
use types::{field, is_observers, mask_at, Calls, Delivered, Weights, MOST_WEIGHT};

/// What a certificate weighs, and what became of it.
const CERTIFICATES: [&str; 5] = [
    "certificate of just two thirds of the weight, taken",
    "certificate of one weight less than a quorum, refused with 9",
    "certificate of a quorum by number alone, refused with 9",
    "certificate of a quorum by weight alone, taken",
    "certificate of one station of several, taken",
];

/// How the weights that Open gets are wrong, all else being right.
const OPENINGS: [&str; 5] = [
    "open: a weight of 0",
    "open: a weight above 1,000",
    "open: too few weights",
    "open: too many weights",
    "open: half a weight",
];

/// What a sound book is, by its weights.
const BOOKS: [&str; 4] = [
    "book of edition 1",
    "book of edition 2 or 3, all weights 1",
    "book of unequal weights",
    "book in which one station of several is a quorum alone",
];

/// Where a damaged book was damaged.
const DAMAGED: [&str; 6] = [
    "damaged: a weight out of range",
    "damaged: a weight, still sound",
    "damaged: a weight of an absent station",
    "damaged: a zero of edition 1",
    "damaged: a zero of edition 2",
    "damaged: the edition",
];

/// What befell votes for a page, and networks.
pub const NAMES: [&str; 10] = [
    NOTARISED,
    BY_NUMBER,
    WEIGHTS_BEFORE_LENGTH,
    "network: unequal weights",
    "network: one station of several is a quorum alone",
    "network: books of editions 1 and 3",
    "network: books of editions 2 and 3",
    "network: an observer's book of edition 1",
    "network: a third or more are dishonest by number, not by weight",
    "network: a certificate of a quorum by number alone is sent",
];

const NOTARISED: &str = "weights: a page notarised by just two thirds of the weight";
const BY_NUMBER: &str = "weights: votes of a quorum by number alone, not notarised";
const WEIGHTS_BEFORE_LENGTH: &str = "weights: open, wrong ones and a length that does not fit, 2";

/// The names that are told of stations and of observers.
pub fn names() -> Vec<String> {
    let all = CERTIFICATES.into_iter().chain(OPENINGS).chain(BOOKS).chain(DAMAGED);
    all.flat_map(|name| [false, true].map(|observer| named(name, observer))).collect()
}

/// A name with whose call or book it is.
fn named(name: &str, observer: bool) -> String {
    let whose = if observer { "an observer" } else { "a station" };
    format!("weights: {name}, {whose}")
}

/// The kinds that a call on a book is of, with its answer; the book is as it was before.
pub fn kinds(call: &Call, book: &[u8], answer: Answer) -> Vec<String> {
    let observer = matches!(call, Call::Observer(_));
    let told = match call {
        Call::Open { n, weights, .. } | Call::Observer(ObserverCall::Open { n, weights, .. }) => {
            let mut told = opening(call, book, *n, weights);
            told.retain(|_| answer == Answer::Deny(2));
            return told;
        }
        Call::Deliver { frame } | Call::Observer(ObserverCall::Deliver { frame }) => {
            certificate(book, frame, answer)
        }
        _ => Vec::new(),
    };
    let sound = !matches!(answer, Answer::Deny(1) | Answer::Part(0));
    let books = if sound { of_book(book) } else { Vec::new() };
    let told = told.into_iter().chain(books).map(|name| named(name, observer));
    told.chain(votes(call, book, answer)).collect()
}

/// How the weights of an opening are wrong, if nothing else is.
fn opening(call: &Call, book: &[u8], n: u64, weights: &[u8]) -> Vec<String> {
    let mut right = call.clone();
    match &mut right {
        Call::Open { weights, .. } | Call::Observer(ObserverCall::Open { weights, .. }) => {
            *weights = equal_weights(n);
        }
        _ => return Vec::new(),
    }
    let observer = matches!(call, Call::Observer(_));
    let wanted = usize::try_from(n).unwrap_or(usize::MAX).saturating_mul(2);
    let (each, rest) = weights.as_chunks::<2>();
    let each = || each.iter().map(|pair| u16::from_le_bytes(*pair));
    let wrong = [
        each().any(|weight| weight == 0) && weights.len() == wanted,
        each().any(|weight| weight > MOST_WEIGHT) && weights.len() == wanted,
        weights.len().saturating_add(1) < wanted,
        weights.len() > wanted.saturating_add(1),
        !rest.is_empty(),
    ];
    let told = OPENINGS.into_iter().zip(wrong).filter(|(_, is)| *is).map(|(name, _)| name);
    match right.make(&Rules::SHA256, &mut book.to_vec(), &mut []) {
        Answer::Done => told.map(|name| named(name, observer)).collect(),
        Answer::Deny(1) => vec![WEIGHTS_BEFORE_LENGTH.to_string()],
        _ => Vec::new(),
    }
}

/// What a sound book is, by its weights.
fn of_book(book: &[u8]) -> Vec<&'static str> {
    let weights = Weights::of(book);
    let equal = weights.each().iter().all(|weight| *weight == 1);
    let first = book.get(field::EDITION) == Some(&types::FIRST_EDITION);
    let alone = weights.each().len() > 1 && singles(&weights).any(|mask| quorum(mask, &weights));
    let is = [first, !first && equal, !equal, alone];
    BOOKS.into_iter().zip(is).filter(|(_, is)| *is).map(|(name, _)| name).collect()
}

/// The masks of one station each.
pub fn singles(weights: &Weights) -> impl Iterator<Item = u16> {
    (0..weights.each().len()).map(|at| 1_u16.checked_shl(at as u32).unwrap_or(0))
}

/// Whether a mask is a quorum by weight.
fn quorum(mask: u16, weights: &Weights) -> bool {
    is_quorum(mask, weights.each())
}

/// Whether it is one by the number of its stations.
fn by_number(mask: u16, weights: &Weights) -> bool {
    is_quorum(mask, &vec![1; weights.each().len()])
}

/// Three times the weight of a mask beside two times the total weight.
fn beside(mask: u16, weights: &Weights) -> Ordering {
    let [three, two] =
        [(3, weights.weight_of(mask)), (2, weights.total())].map(|(by, of)| of.saturating_mul(by));
    three.cmp(&two)
}

/// The kinds of a certificate.
fn certificate(book: &[u8], frame: &[u8], answer: Answer) -> Vec<&'static str> {
    if frame.first().is_none_or(|kind| *kind < 5) {
        return Vec::new();
    }
    let (mask, weights) = (mask_at(frame, 4), Weights::of(book));
    let taken = matches!(answer, Answer::Delivered(_));
    let none = answer == Answer::Deny(9);
    let less = weights.weight_of(mask).saturating_add(1) == weights.needed();
    let is = [
        taken && beside(mask, &weights) == Ordering::Equal,
        none && less,
        none && by_number(mask, &weights),
        taken && !by_number(mask, &weights),
        taken && mask.count_ones() == 1 && weights.each().len() > 1,
    ];
    CERTIFICATES.into_iter().zip(is).filter(|(_, is)| *is).map(|(name, _)| name).collect()
}

/// The kinds of a page vote, or of a proposal, that was kept in a station's book.
fn votes(call: &Call, book: &[u8], answer: Answer) -> Vec<String> {
    let Call::Deliver { frame } = call else { return Vec::new() };
    if !matches!(frame.first(), Some(1 | 2)) || answer != Answer::Delivered(Delivered::Fresh) {
        return Vec::new();
    }
    let mut after = book.to_vec();
    if Calls::deliver(&Rules::SHA256, &mut after, frame).is_err() || is_observers(book) {
        return Vec::new();
    }
    let height = types::height_at(frame, types::FRAME_HEIGHT);
    let [before, row] = [book, &after].map(|book| {
        let row = crate::frames::area(book, height, types::Area::Row);
        [1, 2, 8].map(|at| mask_at(row, at))
    });
    let [was, is] = [before, row].map(|[state, ..]| state & 2 != 0);
    let weights = Weights::of(book);
    let [_, signers, voters] = row;
    let mut told = Vec::new();
    if !was && is && beside(signers, &weights) == Ordering::Equal {
        told.push(NOTARISED.to_string());
    }
    if !is && by_number(voters, &weights) && !quorum(voters, &weights) {
        told.push(BY_NUMBER.to_string());
    }
    told
}

/// Where a book differs from the sound one that it was, if that is in its edition or after it in the head.
pub fn damaged(sound: &[u8], book: &[u8], is_sound: bool) -> Option<String> {
    let head = |book: &[u8]| book.get(..64).map(<[u8]>::to_vec);
    let (before, after) = (head(sound)?, head(book)?);
    let at = before.iter().zip(&after).position(|(one, two)| one != two)?;
    let first = before.get(field::EDITION) == Some(&types::FIRST_EDITION);
    let present = usize::from(*before.first()?).saturating_mul(2).saturating_add(field::WEIGHTS);
    let second = before.get(field::EDITION) == Some(&types::SECOND_EDITION);
    let place = match at {
        field::EDITION => 5,
        _ if at < field::WEIGHTS => return None,
        _ if first => 3,
        _ if at >= field::LONG && second => 4,
        _ if at >= field::LONG => return None,
        _ if at >= present => 2,
        _ => usize::from(is_sound),
    };
    Some(named(DAMAGED.get(place)?, is_observers(sound)))
}
