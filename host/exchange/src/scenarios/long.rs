//! The list of long books: moves at 255, 256 and 257, what is settled there, and the last height of 1,000.

use super::observer_chains::settle;
use super::observers::{blank, finalise, observe, page, WATCH};
use super::parts::*;
use crate::{Call, ObserverCall, Recorder};
use types::{field, put_head_height, Block, Calls, Frame, Height};

/// A station's book.
const BOOK: &str = "book";

/// The buffer that registers are read into.
const REGISTER: &str = "register";

/// Records the list.
pub fn run<C: Calls>(to: &mut Recorder<C>) {
    to.remark("Moves, certificates and registers at heights of two bytes, in books of 300 and of 1,000 heights.");
    to.give(REPLY, vec![0xaa; 448]);
    moves_of_two_bytes(to);
    settled_by_both_bytes(to);
    last_of_thousand(to);
}

/// A new station's book, whose current height is this one; the station leads every height.
fn entered<C: Calls>(to: &mut Recorder<C>, heights: Height, current: Height) {
    to.open(BOOK, 4, 0, &vec![0; heights.into()]);
    let mut book = to.bytes(BOOK).to_vec();
    put_head_height(&mut book, field::CURRENT, current);
    to.give(BOOK, book);
}

/// Blank certificates of some heights as a packet.
fn blanks<C: Calls>(to: &mut Recorder<C>, heights: std::ops::RangeInclusive<Height>) {
    let frames: Vec<_> = heights.map(|height| blank(7, height).bytes()).collect();
    to.packet(BOOK, &frames);
}

/// Pages at 255, 256 and 257, each on the one before; 255 has blanks below it.
fn pages() -> [Block; 3] {
    let low = first(255, &[numbered(1), numbered(2)]);
    let middle = child(256, &low, &[numbered(3)]);
    let high = child(257, &middle, &[numbered(4)]);
    [low, middle, high]
}

fn moves_of_two_bytes<C: Calls>(to: &mut Recorder<C>) {
    to.part("All below 255 is blank, c is 255: moves at 255, 256 and 257, a signal at 257, a proposal at each");
    entered(to, 300, 255);
    blanks(to, 1..=254);
    signal(to, BOOK, 1);
    let [low, middle, high] = pages();
    moves(to, BOOK);
    deliver(to, BOOK, &[page(7, &low), Frame::Proposal { signer: 0, block: middle.clone() }]);
    moves(to, BOOK);
    deliver(to, BOOK, &[vote(0, &middle), vote(1, &middle), vote(2, &middle)]);
    moves(to, BOOK);
    deliver(to, BOOK, &[finalise(7, 255), finalise(14, 256), page(11, &high)]);
    signal(to, BOOK, 1);
    signal(to, BOOK, 256);
    signal(to, BOOK, 257);
    moves(to, BOOK);
    to.remark("What is pending is carried by the proposal, what the chain holds is not; fetch at 256 and 257");
    submit(to, BOOK, numbered(2));
    submit(to, BOOK, numbered(4));
    for (kind, height) in [(5, 256), (5, 257), (7, 256), (7, 257), (6, 256), (6, 1)] {
        to.make(Call::Fetch { kind, height }, BOOK, REPLY);
    }
    to.give(REGISTER, vec![0xbb; 80]);
    to.make(Call::Read, BOOK, REGISTER);
}

fn settled_by_both_bytes<C: Calls>(to: &mut Recorder<C>) {
    to.part("g by both bytes: 1 is settled, 257 and 256 are not, which agree with 1 and 0 in the low byte");
    let block = first(1, &[]);
    to.open(BOOK, 4, 0, &[0; 300]);
    deliver(to, BOOK, &[page(7, &block), finalise(7, 1)]);
    let sound = to.bytes(BOOK).to_vec();
    to.open_observer(WATCH, 4, 300);
    observe(to, WATCH, &[page(7, &block), finalise(7, 1)]);
    let observed = to.bytes(WATCH).to_vec();
    for height in [0, 1, 257, 256, 513, 512] {
        for (name, book) in [(BOOK, &sound), (WATCH, &observed)] {
            let mut book = book.clone();
            put_head_height(&mut book, field::FINALIZED, height);
            to.give(name, book);
        }
        to.make(Call::Size, BOOK, "");
        to.observer(WATCH, ObserverCall::Size);
    }
}

fn last_of_thousand<C: Calls>(to: &mut Recorder<C>) {
    to.part("1,000 heights: page 1000 on page 1 over blanks, which settles, is passed and is read; c is 1,001");
    let one = first(1, &[numbered(1), numbered(2)]);
    let last = child(1000, &one, &(3..=10).map(numbered).collect::<Vec<_>>());
    entered(to, 1000, 999);
    deliver(to, BOOK, &[page(7, &one), finalise(7, 1000), page(7, &last)]);
    moves(to, BOOK);
    blanks(to, 2..=999);
    moves(to, BOOK);
    to.make(Call::Size, BOOK, "");
    to.give(REGISTER, vec![0xbb; 160]);
    to.make(Call::Read, BOOK, REGISTER);
    signal(to, BOOK, 1000);
    signal(to, BOOK, 1001);
    to.part("An observer of 1,000 heights: page 999 stands on nothing, page 1000 on it");
    to.open_observer(WATCH, 4, 1000);
    let below = first(999, &[numbered(1)]);
    let last = child(1000, &below, &[numbered(2)]);
    observe(to, WATCH, &[page(7, &below), page(7, &last), finalise(7, 1000), finalise(7, 1001)]);
    settle(to, WATCH);
    to.observer(WATCH, ObserverCall::Size);
}
