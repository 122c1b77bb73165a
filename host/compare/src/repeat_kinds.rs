//! The kinds of entries that a chain carries more than once, and of calls that meet them, that a large comparison must
//! have had.

use exchange::{place_in_filter, Answer, Call, ObserverCall};
use reference::inspect::{inspect, inspect_observer};
use reference::Rules;
use std::collections::BTreeSet;
use types::{Calls, Height, Move, ENTRY};

/// An entry.
type Entry = [u8; ENTRY];

/// The calls whose answers count an entry once.
const CALLS: [&str; 4] = ["size", "read", "observer-size", "observer-read"];

/// What a chain may have that one of these calls is made on.
const SHAPES: [&str; 7] = [
    "a repeat in one page",
    "a repeat over pages",
    "a repeat side by side",
    "a repeat of an entry of zeros",
    "one entry alone, again and again",
    "a repeat, and entries that differ in one byte",
    "a repeat, and entries that collide",
];

/// Where the length of a reading buffer lies, if there are repeats.
const LENGTHS: [&str; 4] = [
    "a buffer of exactly the shortened register",
    "a buffer below the shortened register",
    "a buffer between the shortened and the raw register",
    "a buffer of the raw register or more",
];

/// The kinds of other calls.
const OTHERS: [&str; 4] = [
    "repeats: submit, 13 by an entry that the chain repeats",
    "repeats: submit, an entry that the chain repeats is dropped",
    "repeats: move, a proposal on a chain with repeats",
    "repeats: move, a proposal over a pool with an entry twice",
];

/// The names of all kinds.
pub fn names() -> Vec<String> {
    let shapes = CALLS.into_iter().flat_map(|call| SHAPES.map(|shape| name(call, shape)));
    let reads = CALLS.into_iter().filter(|call| call.ends_with("read"));
    let lengths = reads.flat_map(|call| LENGTHS.map(|place| name(call, place)));
    shapes.chain(lengths).chain(OTHERS.map(str::to_string)).collect()
}

/// The name of a kind of a call.
fn name(call: &str, kind: &str) -> String {
    format!("repeats: {call}, {kind}")
}

/// The kinds of a call on a book, which is as it was before, with the length of the lent buffer and the answer.
pub fn kinds(call: &Call, book: &[u8], lent: usize, answer: Answer) -> Vec<String> {
    let size = |size: Result<u64, u8>| usize::try_from(size.unwrap_or(0)).unwrap_or(0);
    match call {
        Call::Size => shapes("size", &carried(book)),
        Call::Read => {
            reading("read", &carried(book), size(Calls::size(&Rules::SHA256, book)), lent)
        }
        Call::Observer(ObserverCall::Size) => shapes("observer-size", &observed(book)),
        Call::Observer(ObserverCall::Read) => {
            let size = size(Calls::observer_size(&Rules::SHA256, book));
            reading("observer-read", &observed(book), size, lent)
        }
        Call::Submit { entry } => submitting(book, entry, answer),
        Call::Move => proposing(book, answer),
        _ => Vec::new(),
    }
}

/// The entries that a station's settled chain carries, each with the height of its page; none if it is not sound.
pub fn carried(book: &[u8]) -> Vec<(Height, Entry)> {
    let Ok(told) = inspect(book) else { return Vec::new() };
    let pages: Vec<_> = told.heights.iter().map(|height| height.notarized).collect();
    placed(told.finalized, &pages, &told.carried)
}

/// The same of an observer's.
pub fn observed(book: &[u8]) -> Vec<(Height, Entry)> {
    let Ok(told) = inspect_observer(book) else { return Vec::new() };
    let pages: Vec<_> = told.heights.iter().map(|height| height.notarized).collect();
    placed(told.finalized, &pages, &told.carried)
}

/// Entries with the heights of their pages, by the parent and the number of entries of each page.
fn placed(last: Height, pages: &[Option<(Height, u8)>], entries: &[Entry]) -> Vec<(Height, Entry)> {
    let page = |height: Height| pages.get(usize::from(height).wrapping_sub(1)).copied().flatten();
    let below = |height: &Height| page(*height).map(|(parent, _)| parent);
    let mut chain: Vec<Height> = std::iter::successors(Some(last), below).collect();
    chain.reverse();
    let heights = chain.into_iter().flat_map(|height| {
        let count = page(height).map_or(0, |(_, count)| count);
        std::iter::repeat_n(height, count.into())
    });
    heights.zip(entries.iter().copied()).collect()
}

/// The places of an entry that equals an earlier one, each with the first place of that.
fn repeats(carried: &[(Height, Entry)]) -> Vec<(usize, usize)> {
    let place = |(at, (_, entry)): (usize, &(Height, Entry))| {
        let first = carried.iter().position(|(_, earlier)| earlier == entry)?;
        (first < at).then_some((first, at))
    };
    carried.iter().enumerate().filter_map(place).collect()
}

/// Whether two entries differ in one byte.
fn is_near(one: &Entry, two: &Entry) -> bool {
    one.iter().zip(two).filter(|(one, two)| one != two).count() == 1
}

/// Whether two entries differ and have one place in a filter that has no key.
fn collide(carried: &[(Height, Entry)]) -> bool {
    let entries: BTreeSet<Entry> = carried.iter().map(|(_, entry)| *entry).collect();
    let places: BTreeSet<u64> = entries.iter().map(place_in_filter).collect();
    places.len() < entries.len()
}

/// The kinds of a call by what the chain carries.
fn shapes(call: &str, carried: &[(Height, Entry)]) -> Vec<String> {
    let repeats = repeats(carried);
    let height = |at: usize| carried.get(at).map(|(height, _)| *height);
    let zeros = |at: usize| carried.get(at).is_some_and(|(_, entry)| *entry == [0; ENTRY]);
    let near = |(_, one): &(Height, Entry)| carried.iter().any(|(_, two)| is_near(one, two));
    let are = [
        repeats.iter().any(|(first, at)| height(*first) == height(*at)),
        repeats.iter().any(|(first, at)| height(*first) != height(*at)),
        carried.windows(2).any(|two| two[0].1 == two[1].1),
        repeats.iter().any(|(first, _)| zeros(*first)),
        !repeats.is_empty() && repeats.len().saturating_add(1) == carried.len(),
        !repeats.is_empty() && carried.iter().any(near),
        !repeats.is_empty() && collide(carried),
    ];
    SHAPES.into_iter().zip(are).filter(|(_, is)| *is).map(|(shape, _)| name(call, shape)).collect()
}

/// The kinds of a read of a register of this size into a buffer of this length.
fn reading(call: &str, carried: &[(Height, Entry)], size: usize, lent: usize) -> Vec<String> {
    let mut kinds = shapes(call, carried);
    let raw = carried.len().saturating_mul(ENTRY);
    if size < raw {
        let place = match lent {
            _ if lent == size => LENGTHS[0],
            _ if lent < size => LENGTHS[1],
            _ if lent < raw => LENGTHS[2],
            _ => LENGTHS[3],
        };
        kinds.push(name(call, place));
    }
    kinds
}

/// The entries that repeat an earlier one.
fn repeated(carried: &[(Height, Entry)]) -> Vec<Entry> {
    let entry = |(_, at): (usize, usize)| carried.get(at).map(|(_, entry)| *entry);
    repeats(carried).into_iter().filter_map(entry).collect()
}

/// The kinds of a submit.
fn submitting(book: &[u8], entry: &[u8], answer: Answer) -> Vec<String> {
    let repeated = repeated(&carried(book));
    let kinds = [
        answer == Answer::Deny(13) && repeated.iter().any(|one| one == entry),
        answer == Answer::Done && pending(book).iter().any(|one| repeated.contains(one)),
    ];
    OTHERS.iter().zip(kinds).filter(|(_, is)| *is).map(|(name, _)| name.to_string()).collect()
}

/// The kinds of a move.
fn proposing(book: &[u8], answer: Answer) -> Vec<String> {
    if !matches!(answer, Answer::Moved(Move::Offer { .. })) {
        return Vec::new();
    }
    let pending = pending(book);
    let twice = (1..pending.len()).any(|at| pending[..at].contains(&pending[at]));
    let kinds = [!repeats(&carried(book)).is_empty(), twice];
    let names = OTHERS.iter().skip(2);
    names.zip(kinds).filter(|(_, is)| *is).map(|(name, _)| name.to_string()).collect()
}

/// The pending entries of a sound book.
fn pending(book: &[u8]) -> Vec<Entry> {
    let places = book.get(types::Layout::new(0).pending()).unwrap_or(&[]).as_chunks::<ENTRY>().0;
    let count = book.get(types::field::PENDING).copied().unwrap_or(0);
    places.iter().take(count.into()).copied().collect()
}

#[cfg(test)]
mod tests {
    use super::*;
    use exchange::colliding;
    use types::{Block, Book, Entries, Frame};

    /// A book in which a page with these entries, and one on it with these, are settled.
    fn book(one: &[Entry], two: &[Entry]) -> Result<Vec<u8>, u8> {
        let mut book = Book::open(Rules::SHA256, 4, 2, &[1; 4], &[0, 1, 2])?;
        let first = Block { height: 1, entries: Entries::first_of(one), ..Block::default() };
        let digest = reference::sha256::digest(&first.bytes());
        let second = Block { height: 2, parent: 1, digest, entries: Entries::first_of(two) };
        for block in [first, second] {
            book.deliver(&Frame::BlockCertificate { mask: 7, block }.bytes())?;
        }
        book.deliver(&Frame::FinalizeCertificate { mask: 7, height: 2 }.bytes())?;
        book.make_move()?;
        Ok(book.bytes().to_vec())
    }

    #[test]
    fn each_shape_and_length_is_told() -> Result<(), u8> {
        let [a, b] = [[1; ENTRY], [2; ENTRY]];
        let near = std::array::from_fn(|at| if at == 9 { 7 } else { 1 });
        let mut told: BTreeSet<String> = BTreeSet::new();
        let mut none = kinds(&Call::Size, &book(&[a], &[b, near])?, 0, Answer::Size(48));
        none.extend(kinds(&Call::Read, &book(&[a], &[b])?, 32, Answer::Part(32)));
        assert_eq!(none, Vec::<String>::new());
        let both = book(&[a, b, a, [0; ENTRY]], &[[0; ENTRY], near])?;
        for lent in [63, 64, 65, 96] {
            told.extend(kinds(&Call::Read, &both, lent, Answer::Part(0)));
        }
        told.extend(kinds(&Call::Read, &book(&[a, a], &[a])?, 16, Answer::Part(16)));
        let [one, two] = [0, 1].map(colliding);
        told.extend(kinds(&Call::Read, &book(&[one], &[two, one])?, 32, Answer::Part(32)));
        let wanted = names().into_iter().filter(|name| name.starts_with("repeats: read"));
        assert_eq!(told, wanted.collect());
        Ok(())
    }

    #[test]
    fn submits_and_proposals_are_told() -> Result<(), u8> {
        let [a, b] = [[1; ENTRY], [2; ENTRY]];
        let mut book = book(&[a, b], &[a])?;
        let submit = Call::Submit { entry: a.to_vec() };
        assert_eq!(kinds(&submit, &book, 0, Answer::Deny(13)), OTHERS[..1]);
        book[types::field::PENDING] = 2;
        book[types::Layout::new(3).pending()][..32].copy_from_slice(&[a, a].concat());
        assert_eq!(kinds(&submit, &book, 0, Answer::Done), OTHERS[1..2]);
        let offer = Answer::Moved(Move::Offer { height: 3 });
        assert_eq!(kinds(&Call::Move, &book, 448, offer), OTHERS[2..]);
        Ok(())
    }
}
