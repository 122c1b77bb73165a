//! The list of repeats: entries that a chain carries more than once, which stations and observers read once.

use super::observers::{blank, finalise, observe, page, WATCH};
use super::parts::*;
use super::repeats_pool;
use crate::{colliding, Call, ObserverCall, Recorder};
use reference::Rules;
use types::{Block, Book, Calls, Frame, Height, ObserverBook, ENTRY, MOST_SHORT_HEIGHTS};

/// The station's book of the list; the observer's is [`WATCH`].
pub const BOOK: &str = "book";

/// The buffer that registers are read into.
const REGISTER: &str = "register";

/// An entry.
pub type Entry = [u8; ENTRY];

/// Records the list.
pub fn run<C: Calls>(to: &mut Recorder<C>) {
    to.remark("Entries that a chain carries more than once: size and read of a station and of an observer.");
    to.give(REPLY, vec![0xaa; 448]);
    one_page(to);
    over_pages(to);
    places(to);
    near_entries(to);
    collisions(to);
    zeros(to);
    other_pages(to);
    growing(to);
    repeats_pool::run(to);
    longest(to);
}

/// One of few entries: they differ in the second byte.
pub fn filing(number: u8) -> Entry {
    let mut entry = [0; ENTRY];
    entry.iter_mut().zip([1, number]).for_each(|(to, from)| *to = from);
    entry
}

/// Entries by their numbers.
pub fn filings(numbers: &[u8]) -> Vec<Entry> {
    numbers.iter().map(|number| filing(*number)).collect()
}

/// The pages of heights 1, 2 and so on, each on the one before.
pub fn pages(carried: &[Vec<Entry>]) -> Vec<Block> {
    let mut pages: Vec<Block> = Vec::new();
    for (height, entries) in (1..).zip(carried) {
        pages.push(match pages.last() {
            Some(below) => child(height, below, entries),
            None => first(height, entries),
        });
    }
    pages
}

/// A station and an observer that got the same certificates and have settled what they could.
fn both<C: Calls>(to: &mut Recorder<C>, heights: Height, frames: &[Frame]) {
    let station = Book::open(Rules::SHA256, 4, 2, &[1; 4], &vec![0; heights.into()]);
    let observer = ObserverBook::open(Rules::SHA256, 4, heights, &[1; 4]);
    let (Ok(mut station), Ok(mut observer)) = (station, observer) else { return };
    for frame in frames {
        _ = station.deliver(&frame.bytes());
        _ = observer.deliver(&frame.bytes());
    }
    _ = station.make_move();
    _ = observer.make_move();
    to.give(BOOK, station.bytes().to_vec());
    to.give(WATCH, observer.bytes().to_vec());
}

/// Both get more certificates, then each moves once.
fn more<C: Calls>(to: &mut Recorder<C>, frames: &[Frame]) {
    deliver(to, BOOK, frames);
    observe(to, WATCH, frames);
    to.make_move(BOOK, REPLY);
    to.observer(WATCH, ObserverCall::Move);
}

/// Both say the size of their registers and are read into buffers of these lengths.
fn ask<C: Calls>(to: &mut Recorder<C>, lengths: &[usize]) {
    to.make(Call::Size, BOOK, "");
    to.observer(WATCH, ObserverCall::Size);
    for length in lengths {
        for (call, book) in [(Call::Read, BOOK), (Call::Observer(ObserverCall::Read), WATCH)] {
            to.give(REGISTER, vec![0xbb; *length]);
            to.make(call, book, REGISTER);
        }
    }
}

/// The certificates of pages, and that which settles the last of them.
fn certificates(pages: &[Block]) -> Vec<Frame> {
    let last = pages.last().map(|block| finalise(7, block.height));
    pages.iter().map(|block| page(7, block)).chain(last).collect()
}

/// Pages with these entries are settled, and the register is read into a buffer of the raw size.
fn settled<C: Calls>(to: &mut Recorder<C>, carried: &[Vec<Entry>]) {
    let pages = pages(carried);
    both(to, pages.last().map_or(0, |page| page.height), &certificates(&pages));
    ask(to, &[carried.iter().map(Vec::len).sum::<usize>().saturating_mul(ENTRY)]);
}

fn one_page<C: Calls>(to: &mut Recorder<C>) {
    to.part("Four entries in one page, the third equal to the first: three are read, each at its first place");
    settled(to, &[filings(&[1, 2, 1, 3])]);
    to.remark(
        "A buffer must hold the shortened register and no more; bytes past it keep their values",
    );
    ask(to, &[0, 47, 48, 49, 64, 65]);
    to.part("Two equal entries side by side; a full page of eight equal entries");
    settled(to, &[filings(&[2, 1, 1])]);
    settled(to, &[filings(&[1; 8])]);
    ask(to, &[15, 16]);
}

fn over_pages<C: Calls>(to: &mut Recorder<C>) {
    to.part(
        "A page repeats entries of the page before it: the first places count, and not the last",
    );
    settled(to, &[filings(&[1, 2]), filings(&[2, 3, 1])]);
    settled(to, &[filings(&[3, 2, 1]), filings(&[1, 2, 3])]);
    to.part("A page repeats an entry of an earlier page than its parent");
    settled(to, &[filings(&[1]), filings(&[2]), filings(&[1])]);
    to.remark("With a page of no entries between, and over a blank height");
    settled(to, &[filings(&[1, 2]), vec![], filings(&[2, 1, 3])]);
    let one = first(1, &filings(&[1, 2]));
    let three = child(3, &one, &filings(&[2, 3]));
    both(to, 3, &[page(7, &one), blank(7, 2), page(7, &three), finalise(7, 3)]);
    ask(to, &[48]);
    to.part("A page repeats an entry of its parent and one of its own; the next one repeats what it repeats");
    settled(to, &[filings(&[1]), filings(&[1, 2, 2, 3]), filings(&[2, 1, 3, 4])]);
}

fn places<C: Calls>(to: &mut Recorder<C>) {
    to.part("Every page of a chain carries the same entries, each time in another order");
    let turned = |by: u8| filings(&[0, 1, 2, 3].map(|at: u8| at.saturating_add(by) % 4));
    settled(to, &[0, 1, 2, 3, 1].map(turned));
}

fn near_entries<C: Calls>(to: &mut Recorder<C>) {
    to.part("Entries that differ from one before them in one byte, the first, the last or any, are no repeats");
    let base = [3; ENTRY];
    let other = |at: usize| {
        let mut entry = base;
        entry.iter_mut().skip(at).take(1).for_each(|byte| *byte ^= 1);
        entry
    };
    let [low, high] = [0..8, 8..16].map(|places| places.map(other).collect::<Vec<_>>());
    settled(to, &[vec![base, other(0), other(15), base]]);
    settled(to, &[vec![base], low, high, vec![other(15), base, other(0)]]);
    to.part("Nor are entries whose bytes stand in another order, or whose differences cancel out");
    let (mut turned, mut even) = ([0; ENTRY], [0; ENTRY]);
    let one = filing(2);
    turned.iter_mut().zip(one.iter().rev()).for_each(|(to, from)| *to = *from);
    even.iter_mut().zip([3, 0]).for_each(|(to, from)| *to = from);
    settled(to, &[vec![one, turned, even, filing(2)]]);
}

fn collisions<C: Calls>(to: &mut Recorder<C>) {
    to.part("Entries that the filter of the proved replica puts at one place are no repeats, until they come again");
    let entries: Vec<Entry> = (0..5).map(colliding).collect();
    let again = entries.iter().rev().copied().chain([colliding(5)]).collect();
    settled(to, &[entries, again]);
}

fn zeros<C: Calls>(to: &mut Recorder<C>) {
    to.part("An entry of zeros is counted once like any other, be it the first of a page, the last, or all of them");
    let zero = [0; ENTRY];
    settled(to, &[vec![filing(1), zero]]);
    settled(to, &[vec![zero, filing(1), zero], vec![filing(2), zero]]);
    settled(to, &[vec![zero; 8]]);
}

fn other_pages<C: Calls>(to: &mut Recorder<C>) {
    to.part("An entry that only a page beside the chain carries is no repeat: a page that the chain goes over");
    let beside = first(1, &filings(&[1, 2]));
    let two = first(2, &filings(&[2, 1, 2]));
    both(to, 2, &[page(7, &beside), blank(7, 1), page(7, &two), finalise(7, 2)]);
    ask(to, &[48]);
    to.remark("A page that does not stand, between two of the chain");
    let one = first(1, &filings(&[1]));
    let stray = child(2, &beside, &filings(&[2, 3]));
    let three = child(3, &one, &filings(&[3, 1, 2]));
    both(to, 3, &[page(7, &one), blank(7, 2), page(7, &stray), page(7, &three), finalise(7, 3)]);
    ask(to, &[64]);
}

fn growing<C: Calls>(to: &mut Recorder<C>) {
    to.part("Heights settle one by one: each register begins the next, and a page of repeats alone adds nothing");
    let pages = pages(&[filings(&[1, 2]), filings(&[2, 1]), filings(&[2, 3])]);
    let frames: Vec<_> = pages.iter().map(|block| page(7, block)).collect();
    to.open(BOOK, 4, 2, &[0; 3]);
    to.open_observer(WATCH, 4, 3);
    more(to, &frames);
    for height in 1..=3 {
        more(to, &[finalise(7, height)]);
        ask(to, &[48]);
    }
}

/// The pages of a long chain: each has five entries of its own, and repeats a near one, a far one and the first.
fn longest_pages() -> Vec<Block> {
    let entries = |height: u8| {
        let [far, near] = [height / 3, height.saturating_sub(1)].map(|height| height.max(1));
        let places = [(height, 0), (far, 1), (height, 1), (height, 2)];
        let others = [(near, 4), (height, 3), (1, 0), (height, 4)];
        let all = places.into_iter().chain(others);
        all.map(|(height, at)| own_of(height, at)).collect()
    };
    pages(&(1..=63).map(entries).collect::<Vec<_>>())
}

/// An entry of the long chain: one of five that a page has of its own.
fn own_of(height: u8, at: u8) -> Entry {
    let mut entry = [0; ENTRY];
    entry.iter_mut().zip([at % 4, height, at / 4]).for_each(|(to, from)| *to = from);
    entry
}

fn longest<C: Calls>(to: &mut Recorder<C>) {
    to.part("A long chain: 63 full pages, in each three repeats, of an entry near, far and the very first");
    both(to, MOST_SHORT_HEIGHTS, &certificates(&longest_pages()));
    ask(to, &[5039, 5040]);
    for entry in [own_of(63, 4), own_of(1, 0), own_of(64, 0)] {
        submit(to, BOOK, entry);
    }
}
