//! What an observer settles and reads: chains in every order, heights that are not linked, and a station beside it.

use super::observers::{blank, finalise, observe, page, WATCH};
use super::parts::*;
use crate::{Answer, Call, ObserverCall, Recorder};
use types::{Block, Calls, Frame, Move};
use types::{ObserverArea, ObserverLayout, ENTRY, MOST_REPLICAS, MOST_SHORT_HEIGHTS};

/// The buffer that registers are read into.
const REGISTER: &str = "register";

/// The book of the station beside the observer.
const BESIDE: &str = "beside";

/// Records these parts of the list.
pub fn run<C: Calls>(to: &mut Recorder<C>) {
    every_order(to);
    jumps(to);
    not_linked(to);
    two_ways(to);
    reading(to);
    side_by_side(to);
    largest(to);
}

/// Moves until idle.
pub fn settle<C: Calls>(to: &mut Recorder<C>, book: &str) {
    while let Some(Answer::Moved(made)) = to.observer(book, ObserverCall::Move) {
        if made == Move::Idle {
            break;
        }
    }
}

/// Reads an observer's register into a new buffer of so many bytes.
fn read<C: Calls>(to: &mut Recorder<C>, book: &str, length: usize) {
    to.give(REGISTER, vec![0xbb; length]);
    to.make(Call::Observer(ObserverCall::Read), book, REGISTER);
}

/// A page of height 1, and one of height 3 on it, which repeats its entry.
fn two_pages() -> (Block, Block) {
    let one = first(1, &[[1; ENTRY]]);
    let three = child(3, &one, &[[2; ENTRY], [1; ENTRY]]);
    (one, three)
}

fn every_order<C: Calls>(to: &mut Recorder<C>) {
    to.part("Page 1, blank 2, page 3 and its finalises in every order: height 3 settles with the last of them");
    let (one, three) = two_pages();
    let frames = [page(7, &one), blank(7, 2), page(7, &three), finalise(7, 3)];
    for order in ORDERS {
        to.open_observer(WATCH, 4, 3);
        for at in order {
            observe(to, WATCH, frames.get(at).map_or(&[], std::slice::from_ref));
            to.observer(WATCH, ObserverCall::Move);
        }
        to.observer(WATCH, ObserverCall::Size);
    }
}

/// Orders of four in which each is the last one once, and each pair stands both ways round.
const ORDERS: [[usize; 4]; 4] = [[0, 1, 2, 3], [3, 2, 1, 0], [2, 3, 0, 1], [1, 0, 3, 2]];

fn jumps<C: Calls>(to: &mut Recorder<C>) {
    to.part("Move 2 goes to the largest settled height at once, then idle; what settles below it later is no move");
    let (one, three) = two_pages();
    to.open_observer(WATCH, 4, 4);
    observe(to, WATCH, &[page(7, &one), finalise(7, 1), blank(7, 2)]);
    observe(to, WATCH, &[page(7, &three), finalise(7, 3)]);
    settle(to, WATCH);
    observe(to, WATCH, &[finalise(11, 1), page(7, &first(2, &[])), finalise(7, 2)]);
    settle(to, WATCH);
    to.remark("The register stays as it was until the next move, and grows with it");
    observe(to, WATCH, &[page(13, &child(4, &three, &[[3; ENTRY]]))]);
    to.observer(WATCH, ObserverCall::Move);
    observe(to, WATCH, &[finalise(13, 4)]);
    to.observer(WATCH, ObserverCall::Size);
    settle(to, WATCH);
    to.observer(WATCH, ObserverCall::Size);
}

fn not_linked<C: Calls>(to: &mut Recorder<C>) {
    to.part("Finalises settle nothing while the height is not linked: no page, a blank alone, no page below");
    let (one, three) = two_pages();
    to.open_observer(WATCH, 4, 3);
    observe(to, WATCH, &[finalise(7, 3)]);
    settle(to, WATCH);
    observe(to, WATCH, &[blank(7, 3)]);
    settle(to, WATCH);
    observe(to, WATCH, &[page(7, &three), blank(7, 2), blank(7, 1)]);
    settle(to, WATCH);
    to.part("A height between that is not blank; a back digest of another page; a page on one that is not linked");
    to.open_observer(WATCH, 4, 3);
    observe(to, WATCH, &[page(7, &one), page(7, &three), finalise(7, 3)]);
    settle(to, WATCH);
    let (other, two) = (first(1, &[[0; ENTRY]]), first(2, &[]));
    for frames in [
        [page(7, &other), blank(7, 2), page(7, &three)],
        [blank(7, 1), page(7, &child(2, &one, &[])), page(7, &child(3, &child(2, &one, &[]), &[]))],
        [page(7, &two), page(7, &child(3, &two, &[])), page(7, &one)],
    ] {
        to.open_observer(WATCH, 4, 3);
        observe(to, WATCH, &frames);
        observe(to, WATCH, &[finalise(15, 3)]);
        settle(to, WATCH);
        to.observer(WATCH, ObserverCall::Size);
    }
}

fn two_ways<C: Calls>(to: &mut Recorder<C>) {
    to.part("A height both linked and blank: a page over it and a page on it settle both, and read what they stand on");
    let (one, _) = two_pages();
    for block in [first(2, &[[2; ENTRY]]), child(2, &one, &[[2; ENTRY]])] {
        to.open_observer(WATCH, 4, 2);
        observe(to, WATCH, &[page(7, &one), blank(7, 1), page(7, &block), finalise(7, 2)]);
        settle(to, WATCH);
        read(to, WATCH, 48);
    }
}

fn reading<C: Calls>(to: &mut Recorder<C>) {
    to.part("Read: a buffer that is too short gets nothing, a longer one keeps its bytes past the register");
    let (one, three) = two_pages();
    to.open_observer(WATCH, 4, 3);
    observe(to, WATCH, &[page(7, &one), blank(7, 2), page(7, &three), finalise(7, 3)]);
    settle(to, WATCH);
    [0, 16, 31, 32, 33, 80].into_iter().for_each(|length| read(to, WATCH, length));
}

fn side_by_side<C: Calls>(to: &mut Recorder<C>) {
    to.part("A station and an observer, both new, get the same certificates in the same order: they read the same");
    let (one, three) = two_pages();
    let other = first(1, &[[0; ENTRY]]);
    let four = child(4, &three, &[[3; ENTRY]]);
    to.open(BESIDE, 4, 1, &[0, 1, 2, 3]);
    to.open_observer(WATCH, 4, 4);
    let parts = [
        vec![page(7, &three), finalise(13, 3), page(3, &one), finalise(7, 9), blank(16, 2)],
        vec![page(14, &one), page(7, &other), blank(7, 2), blank(11, 2), page(7, &one)],
        vec![page(7, &four), finalise(3, 4), finalise(14, 4)],
    ];
    for frames in parts {
        deliver(to, BESIDE, &frames);
        observe(to, WATCH, &frames);
        moves(to, BESIDE);
        settle(to, WATCH);
        to.give(REGISTER, vec![0xbb; 80]);
        to.make(Call::Read, BESIDE, REGISTER);
        read(to, WATCH, 80);
    }
}

fn largest<C: Calls>(to: &mut Recorder<C>) {
    to.part("63 heights, 16 stations, all blank below the last, whose page stands on none");
    let all = u16::MAX;
    to.open_observer(WATCH, MOST_REPLICAS.into(), MOST_SHORT_HEIGHTS);
    let mut book = to.bytes(WATCH).to_vec();
    for height in 1..MOST_SHORT_HEIGHTS {
        let row = ObserverLayout::new(MOST_SHORT_HEIGHTS).area(height, ObserverArea::Row);
        book.iter_mut().skip(row.start.saturating_add(4)).take(2).for_each(|byte| *byte = 0xff);
    }
    to.give(WATCH, book);
    let entries: Vec<_> = (1..=8).map(numbered).collect();
    observe(
        to,
        WATCH,
        &[page(all, &first(MOST_SHORT_HEIGHTS, &entries)), finalise(0x7ff, MOST_SHORT_HEIGHTS)],
    );
    observe(to, WATCH, &[Frame::DummyCertificate { mask: all, height: 64 }]);
    settle(to, WATCH);
    read(to, WATCH, 128);
}
