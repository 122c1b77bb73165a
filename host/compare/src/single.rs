//! Lists of calls on single books of stations.

use crate::books::{any_heights, arguments_for, damage, garbage, strange_book};
use crate::choose::{any_call, any_open, Recent};
use crate::long_books::{linked, long_heights, stretched};
use crate::weights::{any_weights, some_edition};
use crate::Random;
use crate::{height_kinds, traits, two_pages, weight_kinds, Halt, Pair, Second};
use exchange::Call;
use reference::Rules;
use types::{book_length, field, head_height, weight_bytes, Calls, Height};
use types::{MOST_HEIGHTS, MOST_SHORT_HEIGHTS};

/// Nothing, or why it ends here.
type Outcome = Result<(), Halt>;

/// Runs one list of calls on one book, of whatever sort; now and then a short list for every number of heights.
pub fn list<A: Calls, B: Second>(pair: &mut Pair<A, B>, random: &mut Random) -> Outcome {
    let heights = any_heights(random);
    match random.below(43) {
        0 => {
            pair.begin("books of every size");
            every_size(pair, random)
        }
        40..=42 => {
            pair.begin("a book of more than 63 heights, or of too many");
            from_long(pair, random)
        }
        1..=13 => {
            pair.begin("a new book");
            let count = random.below(400);
            from_new(pair, random, heights, count)
        }
        14..=16 => {
            pair.begin("leaders who say two things");
            two_pages::list(pair, random, heights)
        }
        17..=29 => {
            pair.begin("a sound book that no run makes");
            let count = random.below(60);
            from_strange(pair, random, heights, count)
        }
        30..=34 => {
            pair.begin("a sound book, damaged");
            from_damaged(pair, random, heights)
        }
        _ => {
            pair.begin("bytes that are no book");
            from_garbage(pair, random)
        }
    }
}

/// A few calls on a new book and on a strange one for every number of heights.
fn every_size<A: Calls, B: Second>(pair: &mut Pair<A, B>, random: &mut Random) -> Outcome {
    (1..=MOST_SHORT_HEIGHTS).try_for_each(|heights| {
        from_new(pair, random, heights, 1)?;
        from_strange(pair, random, heights, 2)
    })
}

/// Opens a book over junk, sometimes after an opening that may be refused, and goes on from there.
fn from_new<A: Calls, B: Second>(
    pair: &mut Pair<A, B>,
    random: &mut Random,
    heights: Height,
    count: u64,
) -> Outcome {
    let (n, own, leaders) = arguments_for(random, heights);
    let mut book = vec![0; book_length(heights)];
    random.fill(&mut book);
    if random.one_in(2) {
        let open = any_open(random, &book);
        pair.make(&open, &mut book, &mut [])?;
    }
    let weights = weight_bytes(&any_weights(random, n));
    let open =
        Call::Open { n: n.into(), own: own.into(), heights: heights.into(), weights, leaders };
    pair.make(&open, &mut book, &mut [])?;
    some_edition(random, &mut book);
    pair.kinds.saw("book: new, opened over junk");
    calls(pair, random, &mut book, count)
}

/// Begins with a sound book that no run makes.
fn from_strange<A: Calls, B: Second>(
    pair: &mut Pair<A, B>,
    random: &mut Random,
    heights: Height,
    count: u64,
) -> Outcome {
    let mut book = strange_book(random, heights);
    pair.kinds.saw("book: sound, that no run makes");
    traits::kinds(&book).into_iter().for_each(|name| pair.kinds.saw(name));
    if random.one_in(4) {
        let height = head_height(&book, field::CURRENT).into();
        pair.make(&Call::Signal { height }, &mut book, &mut [])?;
    }
    calls(pair, random, &mut book, count)
}

/// A few calls on a book of many heights, which is new, sound and that no run makes, or linked; then one of too many.
fn from_long<A: Calls, B: Second>(pair: &mut Pair<A, B>, random: &mut Random) -> Outcome {
    let heights = long_heights(random);
    match random.below(4) {
        0 => from_new(pair, random, heights, 3)?,
        1 => from_strange(pair, random, heights, 8)?,
        _ => {
            let mut book = linked(random, heights);
            for _ in 0..5 {
                pair.make(&Call::Move, &mut book, &mut [0xaa; 448])?;
            }
            calls(pair, random, &mut book, 8)?;
        }
    }
    (0..2).try_for_each(|_| {
        let mut book = stretched(random, false);
        pair.make(&Call::Size, &mut book, &mut [])?;
        calls(pair, random, &mut book, 2)
    })
}

/// Begins with a sound book in which something was damaged, again and again, and now and then with another one.
fn from_damaged<A: Calls, B: Second>(
    pair: &mut Pair<A, B>,
    random: &mut Random,
    heights: Height,
) -> Outcome {
    let mut sound = strange_book(random, heights);
    for _ in 0..random.below(80) {
        if random.one_in(6) {
            sound = strange_book(random, heights);
        }
        let mut book = sound.clone();
        damage(random, &mut book);
        let name = match Calls::size(&Rules::SHA256, &book) {
            _ if book == sound => continue,
            _ if book.len() != sound.len() => "book: cut or lengthened",
            Ok(_) => "book: damaged at one byte, still sound",
            Err(_) => "book: damaged at one byte, no longer sound",
        };
        pair.kinds.saw(name);
        let is_sound = name == "book: damaged at one byte, still sound";
        weight_kinds::damaged(&sound, &book, is_sound).iter().for_each(|name| pair.kinds.saw(name));
        height_kinds::damaged(&sound, &book, false).iter().for_each(|name| pair.kinds.saw(name));
        let count = random.below(3).saturating_add(1);
        calls(pair, random, &mut book, count)?;
    }
    Ok(())
}

/// Begins with bytes of any kind; opening may make a book of them.
fn from_garbage<A: Calls, B: Second>(pair: &mut Pair<A, B>, random: &mut Random) -> Outcome {
    let mut book = garbage(random);
    pair.kinds.saw(match (1..=MOST_HEIGHTS).any(|heights| book_length(heights) == book.len()) {
        true => "book: garbage of a book's length",
        false => "book: garbage of another length",
    });
    calls(pair, random, &mut book, 4)?;
    let open = any_open(random, &book);
    pair.make(&open, &mut book, &mut [])?;
    calls(pair, random, &mut book, 6)
}

/// So many random calls on a book, each with a buffer of junk.
fn calls<A: Calls, B: Second>(
    pair: &mut Pair<A, B>,
    random: &mut Random,
    book: &mut [u8],
    count: u64,
) -> Outcome {
    let mut recent = Recent::default();
    let mut buffer = Vec::new();
    for _ in 0..count {
        let (call, length) = match any_call(random, book, &mut recent) {
            (Call::Observer(_), _) if !pair.has_observers() => (Call::Size, 0),
            chosen => chosen,
        };
        buffer.resize(length, 0);
        random.fill(&mut buffer);
        pair.make(&call, book, &mut buffer)?;
    }
    (0..recent.repeats).for_each(|_| pair.kinds.saw("frame: sent again to one book"));
    Ok(())
}
