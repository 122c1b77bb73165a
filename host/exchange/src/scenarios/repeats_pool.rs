//! What is submitted and what is proposed where a chain carries entries more than once.

use super::observers::{finalise, page};
use super::parts::*;
use super::repeats::{filing, filings, pages, Entry, BOOK};
use crate::{Call, Recorder};
use types::{field, Calls, Height, Layout, ENTRY, MOST_PENDING};

/// Records these parts of the list.
pub fn run<C: Calls>(to: &mut Recorder<C>) {
    submitting(to);
    dropping(to);
    proposing(to);
    twice_in_the_pool(to);
}

/// Pages 1 and 2 of a station's book are certified, and a certificate settles one of them.
fn two_pages<C: Calls>(to: &mut Recorder<C>, leaders: &[u8], settled: Height) {
    to.open(BOOK, 4, 2, leaders);
    for block in pages(&[filings(&[1, 1, 2]), filings(&[2, 3, 1])]) {
        deliver(to, BOOK, &[page(7, &block)]);
    }
    deliver(to, BOOK, &[finalise(7, settled)]);
}

/// Puts entries into the places for pending ones, as no run does.
fn pool<C: Calls>(to: &mut Recorder<C>, heights: Height, entries: &[Entry]) {
    let mut book = to.bytes(BOOK).to_vec();
    let start = Layout::new(heights).pending().start;
    let places = book.iter_mut().skip(start);
    places.zip(entries.as_flattened()).for_each(|(to, from)| *to = *from);
    let count = u8::try_from(entries.len()).unwrap_or(u8::MAX);
    book.iter_mut().skip(field::PENDING).take(1).for_each(|byte| *byte = count);
    to.give(BOOK, book);
}

fn submitting<C: Calls>(to: &mut Recorder<C>) {
    to.part("An entry that the chain carries twice and the register counts once is 13; another is taken");
    two_pages(to, &[0, 1], 2);
    to.make_move(BOOK, REPLY);
    for number in [1, 2, 3, 4] {
        submit(to, BOOK, filing(number));
    }
    to.part("Where the page that repeats it is not settled, an entry is 13 if the register holds it, and else taken");
    two_pages(to, &[0, 1], 1);
    to.make_move(BOOK, REPLY);
    for number in [1, 2, 3] {
        submit(to, BOOK, filing(number));
    }
    to.make(Call::Size, BOOK, "");
}

fn dropping<C: Calls>(to: &mut Recorder<C>) {
    to.part("32 are pending, none of them in the register, whose chain repeats some: 12");
    two_pages(to, &[0, 1], 2);
    let mut pending: Vec<Entry> = (100..100 + MOST_PENDING).map(filing).collect();
    pool(to, 2, &pending);
    submit(to, BOOK, filing(4));
    to.make_move(BOOK, REPLY);
    submit(to, BOOK, filing(4));
    to.remark("Three of them are one that its chain carries three times: they are dropped, and the new one is taken");
    for at in [0, 5, 31] {
        pending.iter_mut().skip(at).take(1).for_each(|entry| *entry = filing(1));
    }
    pool(to, 2, &pending);
    submit(to, BOOK, filing(4));
}

fn proposing<C: Calls>(to: &mut Recorder<C>) {
    to.part("A proposal leaves out what its parent chain carries, once or twice, be it settled in part or whole");
    for settled in [1, 2] {
        two_pages(to, &[0, 1, 2], settled);
        pool(to, 3, &filings(&[1, 4, 2, 3, 5]));
        moves(to, BOOK);
    }
}

fn twice_in_the_pool<C: Calls>(to: &mut Recorder<C>) {
    to.part("A pool with an entry twice, which no run makes: the proposal carries both, the register counts one");
    to.open(BOOK, 1, 0, &[0]);
    pool(to, 1, &filings(&[2, 1, 2, 2]));
    moves_with_own_frames(to, BOOK);
    to.make(Call::Size, BOOK, "");
    to.give("register", vec![0xbb; 4 * ENTRY]);
    to.make(Call::Read, BOOK, "register");
    to.remark("More than eight places with one entry: eight of them make a page");
    to.open(BOOK, 1, 0, &[0]);
    pool(to, 1, &filings(&[7, 7, 7, 7, 7, 7, 7, 7, 7, 8]));
    moves_with_own_frames(to, BOOK);
    to.make(Call::Size, BOOK, "");
}
