//! The list of heights above 63: heads of edition 3, then openings, frames and arguments with heights of two bytes.

use super::heads;
use super::observer_chains::settle;
use super::observers::{blank, finalise, observe, page, WATCH};
use super::parts::*;
use crate::{equal_weights, Call, ObserverCall, Recorder};
use types::{
    book_length, observer_book_length, put_edition, Block, Calls, Frame, Height, FIRST_EDITION,
    MOST_HEIGHTS, SECOND_EDITION,
};

/// A station's book.
const BOOK: &str = "book";

/// The heights about which a byte or a bound ends.
const EDGES: [Height; 5] = [64, 255, 256, 257, MOST_HEIGHTS];

/// Records the list.
pub fn run<C: Calls>(to: &mut Recorder<C>) {
    to.remark(
        "Heights of two bytes, up to 1,000; books of edition 3, whose heads have room for them.",
    );
    to.give(REPLY, vec![0xaa; 448]);
    heads::run(to);
    opening(to);
    each_kind(to);
    short_books(to);
    frame_and_page(to);
    back_heights(to);
    low_bytes(to);
    arguments(to);
    observers(to);
}

fn opening<C: Calls>(to: &mut Recorder<C>) {
    to.part("Open: 64, 255, 256, 257 and 1,000 heights, of both kinds of book; then 0, 1,001 and numbers past 65,535");
    for heights in EDGES {
        to.open(BOOK, 4, 2, &vec![0; heights.into()]);
        to.open_observer(WATCH, 4, heights);
    }
    to.give(BOOK, vec![0x5a; book_length(1)]);
    to.give(WATCH, vec![0x5a; observer_book_length(1)]);
    for heights in [0, 1001, 65_537, 1 << 32 | 1] {
        let (n, own, weights) = (4, 2, equal_weights(4));
        let leaders = vec![0; if heights == 1001 { 1001 } else { 1 }];
        to.make(Call::Open { n, own, heights, weights: weights.clone(), leaders }, BOOK, "");
        to.observer(WATCH, ObserverCall::Open { n, heights, weights });
    }
    to.remark("A roll that has as many leaders as the low byte says, and one leader of the last height out of range");
    let (n, own, weights) = (4, 2, equal_weights(4));
    let open = |heights, leaders| Call::Open { n, own, heights, weights: weights.clone(), leaders };
    to.give(BOOK, vec![0x5a; book_length(257)]);
    to.make(open(257, vec![0]), BOOK, "");
    to.make(open(1, vec![0; 257]), BOOK, "");
    to.make(open(257, [vec![0; 256], vec![4]].concat()), BOOK, "");
    to.make(open(257, [vec![0; 256], vec![3]].concat()), BOOK, "");
}

/// A frame of each kind at a height; the block has no parent.
fn kinds(height: Height) -> [Frame; 7] {
    let block = first(height, &[]);
    [
        Frame::Proposal { signer: 0, block: block.clone() },
        vote(0, &block),
        Frame::DummyVote { signer: 0, height },
        Frame::Finalize { signer: 0, height },
        page(7, &block),
        blank(7, height),
        finalise(7, height),
    ]
}

fn each_kind<C: Calls>(to: &mut Recorder<C>) {
    to.part("A frame of each kind at 255, 256 and 257 over 256 heights; then at 64, 1,000 and 1,001 over 1,000");
    to.open(BOOK, 4, 2, &[0; 256]);
    [255, 256, 257].into_iter().for_each(|height| deliver(to, BOOK, &kinds(height)));
    to.open(BOOK, 4, 2, &[0; 1000]);
    [64, 1000, 1001].into_iter().for_each(|height| deliver(to, BOOK, &kinds(height)));
}

fn short_books<C: Calls>(to: &mut Recorder<C>) {
    to.part("Over 63 heights in editions 1, 2 and 3: 64, 256 and 257 are 6, not 4, and none is height 0 or 1");
    for edition in [FIRST_EDITION, SECOND_EDITION, types::EDITION] {
        to.open(BOOK, 4, 2, &[0; 63]);
        let mut book = to.bytes(BOOK).to_vec();
        put_edition(&mut book, edition);
        to.give(BOOK, book);
        let [proposal, _, vote, _, certificate, ..] = kinds(64);
        deliver(to, BOOK, &[proposal, vote, certificate]);
        let [proposal, ..] = kinds(257);
        deliver(to, BOOK, &[proposal, blank(7, 256), blank(7, 257), blank(7, 0), blank(7, 63)]);
    }
}

/// Delivers a frame with some bytes set.
fn edited<C: Calls>(to: &mut Recorder<C>, frame: &Frame, edits: &[(usize, u8)]) {
    let mut bytes = frame.bytes();
    for (at, byte) in edits {
        bytes.iter_mut().skip(*at).take(1).for_each(|place| *place = *byte);
    }
    to.deliver(BOOK, &bytes);
}

fn frame_and_page<C: Calls>(to: &mut Recorder<C>) {
    to.part("Frame and page of kinds 1 and 5 agree in the low byte of their height alone, or in the high one: 4");
    to.open(BOOK, 4, 2, &[0; 600]);
    let [proposal, _, _, _, certificate, ..] = kinds(257);
    for frame in [proposal, certificate] {
        let edits = [(3, 0), (49, 0), (3, 2), (49, 2), (2, 2), (48, 2)];
        edits.into_iter().for_each(|edit| edited(to, &frame, &[edit]));
        to.remark("Both are 1, and both are 513; then both are 257");
        for high in [0, 2, 1] {
            edited(to, &frame, &[(3, high), (49, high)]);
        }
    }
}

fn back_heights<C: Calls>(to: &mut Recorder<C>) {
    to.part("j by both bytes: 256 is not 0, so that its digest may be any; j is below the height");
    to.open(BOOK, 4, 2, &[0; 600]);
    let certified = |height, parent, byte: u8| {
        page(7, &Block { parent, digest: [byte; 32], ..first(height, &[]) })
    };
    let wrong =
        [(1, 256, 0), (256, 256, 1), (257, 257, 1), (257, 0, 1), (512, 512, 0), (300, 556, 9)];
    wrong.into_iter().for_each(|(h, j, byte)| deliver(to, BOOK, &[certified(h, j, byte)]));
    let right =
        [(257, 256, 1), (258, 256, 0), (512, 256, 3), (513, 512, 2), (259, 200, 4), (260, 3, 0)];
    right.into_iter().for_each(|(h, j, byte)| deliver(to, BOOK, &[certified(h, j, byte)]));
}

fn low_bytes<C: Calls>(to: &mut Recorder<C>) {
    to.part("Heights 1 and 257 are two heights: a vote, a page and a second page of each");
    to.open(BOOK, 4, 2, &[0; 300]);
    let other = |height| first(height, &[entry("swap A1 B2")]);
    let proposal = |block: &Block| Frame::Proposal { signer: 0, block: block.clone() };
    for height in [1, 257] {
        let (one, two) = (first(height, &[]), other(height));
        deliver(to, BOOK, &[vote(1, &one), vote(1, &two), proposal(&one), page(7, &two)]);
    }
    to.remark("The second page of 257 is 8, that of the current height fires its timer");
    deliver(to, BOOK, &[proposal(&other(257)), proposal(&other(1))]);
    for (kind, height) in [(5, 1), (5, 257), (5, 256), (6, 257)] {
        to.make(Call::Fetch { kind, height }, BOOK, REPLY);
    }
}

fn arguments<C: Calls>(to: &mut Recorder<C>) {
    to.part("Signal and fetch take any number: what is 1 or 257 in its low bytes is 6");
    for heights in [1, 300] {
        to.open(BOOK, 4, 2, &vec![0; heights]);
        deliver(to, BOOK, &[blank(7, 1)]);
        for height in [257, 513, 65_537, 65_793, 1 << 32 | 1, 1 << 48 | 257, u64::MAX] {
            signal(to, BOOK, height);
            to.make(Call::Fetch { kind: 6, height }, BOOK, REPLY);
        }
        to.make(Call::Fetch { kind: 65_542, height: 1 }, BOOK, REPLY);
        to.make(Call::Fetch { kind: 6, height: 1 }, BOOK, REPLY);
        signal(to, BOOK, 1);
    }
}

fn observers<C: Calls>(to: &mut Recorder<C>) {
    to.part("An observer: heights by both bytes, over 63 heights in each edition and over 300");
    for edition in [FIRST_EDITION, SECOND_EDITION, types::EDITION] {
        to.open_observer(WATCH, 4, 63);
        let mut book = to.bytes(WATCH).to_vec();
        put_edition(&mut book, edition);
        to.give(WATCH, book);
        observe(to, WATCH, &[blank(7, 257), page(7, &first(64, &[])), blank(7, 1)]);
    }
    to.open_observer(WATCH, 4, 300);
    let [proposal, _, vote, ..] = kinds(257);
    observe(to, WATCH, &[proposal, vote, blank(7, 301), blank(7, 513), blank(7, 257)]);
    let (one, two) = (first(1, &[]), first(257, &[]));
    observe(to, WATCH, &[page(7, &one), page(7, &two), finalise(7, 257), finalise(7, 1)]);
    settle(to, WATCH);
    to.observer(WATCH, ObserverCall::Size);
}
