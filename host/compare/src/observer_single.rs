//! Lists of calls on a single observer's book, and on a station and an observer side by side.

use crate::books::{any_heights, any_replicas, arguments_for};
use crate::choose::{any_call, near_size, Recent};
use crate::long_books::{linked, long_heights, longest_log, stretched, watched};
use crate::observer_books::{damage, garbage, strange_observer, traits};
use crate::observer_frames::{any_certificate, any_observed_bytes};
use crate::weights::{any_weights, some_edition, weights_to_open};
use crate::Random;
use crate::{height_kinds, repeat_kinds, weight_kinds, Halt, Pair, Second};
use exchange::{Answer, Call, ObserverCall};
use reference::Rules;
use types::{book_length, is_observers, observer_book_length, weight_bytes, Calls, Height, Move};
use types::{FRAME, MOST_HEIGHTS, MOST_REPLICAS, MOST_SHORT_HEIGHTS};

/// Nothing, or why it ends here.
type Outcome = Result<(), Halt>;

/// A sentence if something is not as it must be, or why it ends here.
type Found = Result<Option<&'static str>, Halt>;

/// The names of what these lists must have had.
pub const NAMES: [&str; 12] = [
    "observer's book: new, opened over junk",
    "observer's book: sound, that no run makes",
    "observer's book: with a free byte set",
    "observer's book: with a certificate mask and no page",
    "observer's book: with a page that does not stand",
    "observer's book: with a settled height ahead of it",
    "observer's book: damaged at one byte, no longer sound",
    "observer's book: damaged at one byte, still sound",
    "observer's book: cut or lengthened",
    "observer's book: garbage of an observer's length",
    "observer's book: garbage of another length",
    BESIDE,
];

const BESIDE: &str = "observer: reads what a station beside it reads, not empty";

/// Runs one list on an observer's book, of whatever sort, or on one with a station beside it.
pub fn list<A: Calls, B: Second>(pair: &mut Pair<A, B>, random: &mut Random) -> Found {
    let heights = any_heights(random);
    match random.below(24) {
        0 => {
            pair.begin("observers' books of every size");
            every_size(pair, random)?;
        }
        20..=23 => {
            pair.begin("an observer's book of more than 63 heights, or of too many");
            from_long(pair, random)?;
        }
        1..=5 => {
            pair.begin("a new observer's book");
            let count = random.below(200);
            from_new(pair, random, heights, count)?;
        }
        6..=9 => {
            pair.begin("a sound observer's book that no run makes");
            let count = random.below(60);
            from_strange(pair, random, heights, count)?;
        }
        10..=13 => {
            pair.begin("a sound observer's book, damaged");
            from_damaged(pair, random, heights)?;
        }
        14 | 15 => {
            pair.begin("bytes that are no observer's book");
            (0..6).try_for_each(|_| from_garbage(pair, random))?;
        }
        _ => {
            pair.begin("a station and an observer side by side");
            return side_by_side(pair, random, heights);
        }
    }
    Ok(None)
}

/// A few calls on a new book and on a strange one for every number of heights, and of stations.
fn every_size<A: Calls, B: Second>(pair: &mut Pair<A, B>, random: &mut Random) -> Outcome {
    (1..=MOST_SHORT_HEIGHTS).try_for_each(|heights| {
        from_new(pair, random, heights, 1)?;
        from_strange(pair, random, heights, 2)
    })
}

/// Opens a book over junk, sometimes after an opening that may be refused, for stations of these weights.
fn open<A: Calls, B: Second>(
    pair: &mut Pair<A, B>,
    random: &mut Random,
    weights: &[u16],
    heights: Height,
) -> Result<Vec<u8>, Halt> {
    let mut book = vec![0; observer_book_length(heights)];
    random.fill(&mut book);
    if random.one_in(2) {
        let open = Call::Observer(any_open(random, &book));
        pair.make(&open, &mut book, &mut [])?;
    }
    let (n, weights) = (weights.len() as u64, weight_bytes(weights));
    let open = ObserverCall::Open { n, heights: heights.into(), weights };
    pair.make(&Call::Observer(open), &mut book, &mut [])?;
    some_edition(random, &mut book);
    Ok(book)
}

/// Opens a book and goes on from there.
fn from_new<A: Calls, B: Second>(
    pair: &mut Pair<A, B>,
    random: &mut Random,
    heights: Height,
    count: u64,
) -> Outcome {
    let n = any_replicas(random);
    let weights = any_weights(random, n);
    let mut book = open(pair, random, &weights, heights)?;
    pair.kinds.saw("observer's book: new, opened over junk");
    calls(pair, random, &mut book, count)
}

/// Begins with a sound book that no run makes.
fn from_strange<A: Calls, B: Second>(
    pair: &mut Pair<A, B>,
    random: &mut Random,
    heights: Height,
    count: u64,
) -> Outcome {
    let mut book = strange_observer(random, heights);
    pair.kinds.saw("observer's book: sound, that no run makes");
    traits(&book).into_iter().for_each(|name| pair.kinds.saw(name));
    calls(pair, random, &mut book, count)
}

/// A few calls on a book of many heights, which is new, sound and that no run makes, or linked; then one of too many.
fn from_long<A: Calls, B: Second>(pair: &mut Pair<A, B>, random: &mut Random) -> Outcome {
    let heights = long_heights(random);
    match random.below(4) {
        0 => from_new(pair, random, heights, 4)?,
        1 => from_strange(pair, random, heights, 8)?,
        _ => {
            let mut book = watched(&linked(random, heights));
            calls(pair, random, &mut book, 12)?;
        }
    }
    (0..2).try_for_each(|_| {
        let mut book = stretched(random, true);
        pair.make(&Call::Observer(ObserverCall::Size), &mut book, &mut [])?;
        calls(pair, random, &mut book, 2)
    })
}

/// Begins with a sound book in which something was damaged, again and again, and now and then with another one.
fn from_damaged<A: Calls, B: Second>(
    pair: &mut Pair<A, B>,
    random: &mut Random,
    heights: Height,
) -> Outcome {
    let mut sound = strange_observer(random, heights);
    for _ in 0..random.below(60) {
        if random.one_in(6) {
            sound = strange_observer(random, heights);
        }
        let mut book = sound.clone();
        damage(random, &mut book);
        let name = match Calls::observer_size(&Rules::SHA256, &book) {
            _ if book == sound => continue,
            _ if book.len() != sound.len() => "observer's book: cut or lengthened",
            Ok(_) => "observer's book: damaged at one byte, still sound",
            Err(_) => "observer's book: damaged at one byte, no longer sound",
        };
        pair.kinds.saw(name);
        let is_sound = name == "observer's book: damaged at one byte, still sound";
        weight_kinds::damaged(&sound, &book, is_sound).iter().for_each(|name| pair.kinds.saw(name));
        height_kinds::damaged(&sound, &book, true).iter().for_each(|name| pair.kinds.saw(name));
        pair.make(&Call::Observer(ObserverCall::Size), &mut book, &mut [])?;
        let count = random.below(3);
        calls(pair, random, &mut book, count)?;
    }
    Ok(())
}

/// Begins with bytes of any kind; opening may make a book of them.
fn from_garbage<A: Calls, B: Second>(pair: &mut Pair<A, B>, random: &mut Random) -> Outcome {
    let mut book = garbage(random);
    let fits = (1..=MOST_HEIGHTS).any(|heights| observer_book_length(heights) == book.len());
    pair.kinds.saw(match fits {
        true => "observer's book: garbage of an observer's length",
        false => "observer's book: garbage of another length",
    });
    calls(pair, random, &mut book, 4)?;
    let open = Call::Observer(any_open(random, &book));
    pair.make(&open, &mut book, &mut [])?;
    calls(pair, random, &mut book, 6)
}

/// Opening, mostly with numbers that fit the book's length.
pub fn any_open(random: &mut Random, book: &[u8]) -> ObserverCall {
    let fitting = (1..=MOST_HEIGHTS).find(|h| observer_book_length(*h) == book.len());
    let (mut n, mut heights) = (u64::from(any_replicas(random)), u64::from(any_heights(random)));
    if let Some(fitting) = fitting.filter(|_| !random.one_in(4)) {
        heights = fitting.into();
    }
    let (most, last) = (u64::from(MOST_REPLICAS), u64::from(MOST_HEIGHTS));
    match random.below(8) {
        0 => n = *random.pick(&[0, most + 1, 256, 256 + most, u64::MAX]).unwrap_or(&0),
        1 => {
            let outside = [0, last + 1, 256 + heights, 65_536 + heights, u64::MAX];
            heights = *random.pick(&outside).unwrap_or(&0);
        }
        _ => {}
    }
    ObserverCall::Open { n, heights, weights: weights_to_open(random, n) }
}

/// An observer's call and the length of its buffer.
pub fn any_observer_call(random: &mut Random, book: &[u8]) -> (ObserverCall, usize) {
    match random.below(24) {
        0..=13 => (ObserverCall::Deliver { frame: any_observed_bytes(random, book) }, 0),
        14..=18 => (ObserverCall::Move, 0),
        19 => (ObserverCall::Size, 0),
        20 if random.one_in(8) => (any_open(random, book), 0),
        20 | 21 => (ObserverCall::Read, longest_log(book)),
        _ => (ObserverCall::Read, reading_length(random, book)),
    }
}

/// A length around that of the log, or around that which it would have with its repeats.
fn reading_length(random: &mut Random, book: &[u8]) -> usize {
    let size = Calls::observer_size(&Rules::SHA256, book).unwrap_or(0);
    near_size(random, usize::try_from(size).unwrap_or(0), repeat_kinds::observed(book).len())
}

/// So many random calls on an observer's book, each with a buffer of junk; seldom one of a station's.
fn calls<A: Calls, B: Second>(
    pair: &mut Pair<A, B>,
    random: &mut Random,
    book: &mut [u8],
    count: u64,
) -> Outcome {
    let mut recent = Recent::default();
    let mut buffer = Vec::new();
    for _ in 0..count {
        let (call, length) = match random.one_in(48) {
            true => any_call(random, book, &mut recent),
            false => {
                let (call, length) = any_observer_call(random, book);
                (Call::Observer(call), length)
            }
        };
        buffer.resize(length, 0);
        random.fill(&mut buffer);
        pair.make(&call, book, &mut buffer)?;
    }
    Ok(())
}

/// A new station and a new observer get the same certificates in the same order, and move now and then: once both are
/// idle they must read the same.
fn side_by_side<A: Calls, B: Second>(
    pair: &mut Pair<A, B>,
    random: &mut Random,
    heights: Height,
) -> Found {
    let (n, own, leaders) = arguments_for(random, heights);
    let mut station = vec![0; book_length(heights)];
    let weights = any_weights(random, n);
    let opening = Call::Open {
        n: n.into(),
        own: own.into(),
        heights: heights.into(),
        weights: weight_bytes(&weights),
        leaders,
    };
    pair.make(&opening, &mut station, &mut [])?;
    some_edition(random, &mut station);
    let mut observer = open(pair, random, &weights, heights)?;
    for _ in 0..random.below(80) {
        let frame = any_certificate(random, &observer).bytes().to_vec();
        pair.make(&Call::Deliver { frame: frame.clone() }, &mut station, &mut [])?;
        pair.make(&Call::Observer(ObserverCall::Deliver { frame }), &mut observer, &mut [])?;
        if random.one_in(8) {
            pair.make(&Call::Move, &mut station, &mut [0; 2 * FRAME])?;
        }
        if random.one_in(8) {
            pair.make(&Call::Observer(ObserverCall::Move), &mut observer, &mut [])?;
        }
    }
    let one = register(pair, &mut station)?;
    let two = register(pair, &mut observer)?;
    if !one.is_empty() && one == two {
        pair.kinds.saw(BESIDE);
    }
    Ok((one != two).then_some("a station and an observer beside it read different logs"))
}

/// Moves until idle, and reads.
fn register<A: Calls, B: Second>(pair: &mut Pair<A, B>, book: &mut [u8]) -> Result<Vec<u8>, Halt> {
    let (moving, reading, mut reply) = match is_observers(book) {
        true => {
            (Call::Observer(ObserverCall::Move), Call::Observer(ObserverCall::Read), Vec::new())
        }
        false => (Call::Move, Call::Read, vec![0; 2 * FRAME]),
    };
    while let Answer::Moved(made) = pair.make(&moving, book, &mut reply)? {
        if made == Move::Idle {
            break;
        }
    }
    let mut buffer = vec![0; longest_log(book)];
    if let Answer::Part(length) = pair.make(&reading, book, &mut buffer)? {
        buffer.truncate(usize::try_from(length).unwrap_or(0));
    }
    Ok(buffer)
}
