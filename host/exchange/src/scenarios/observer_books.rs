//! Observers' books that no run makes: free bytes set, and each rule of soundness broken alone.

use super::observer_chains::settle;
use super::observers::{blank, finalise, observe, page, WATCH};
use super::parts::*;
use crate::{Call, ObserverCall, Recorder};
use types::{field, Calls, Height, ObserverArea, ObserverLayout};

/// Records these parts of the list.
pub fn run<C: Calls>(to: &mut Recorder<C>) {
    let small = one_page(to);
    head(to, &small);
    rows(to, &small);
    pages(to, &small);
    let linked = two_pages(to);
    free_bytes(to, &linked);
    settled(to, &linked);
    no_books(to, &small);
}

/// A byte and what it becomes.
type Edit = (usize, u8);

/// Where an area of a height begins, in a book of three.
fn start(height: Height, area: ObserverArea) -> usize {
    ObserverLayout::new(3).area(height, area).start
}

/// The book with some bytes set, which is then asked for its size.
fn ask<C: Calls>(to: &mut Recorder<C>, sound: &[u8], edits: &[Edit]) {
    let mut book = sound.to_vec();
    for (at, byte) in edits {
        book.iter_mut().skip(*at).take(1).for_each(|place| *place = *byte);
    }
    to.give(WATCH, book);
    to.observer(WATCH, ObserverCall::Size);
}

/// Edits of a part that begins at a byte, each asked for by itself.
fn ask_each<C: Calls>(to: &mut Recorder<C>, sound: &[u8], start: usize, edits: &[Edit]) {
    for (at, byte) in edits {
        ask(to, sound, &[(start.saturating_add(*at), *byte)]);
    }
}

/// A sound book of one height with a page.
fn one_page<C: Calls>(to: &mut Recorder<C>) -> Vec<u8> {
    to.part("An observer's book: sound, with one height and its page");
    to.open_observer(WATCH, 4, 1);
    observe(to, WATCH, &[page(7, &first(1, &[]))]);
    to.observer(WATCH, ObserverCall::Size);
    to.bytes(WATCH).to_vec()
}

fn head<C: Calls>(to: &mut Recorder<C>, sound: &[u8]) {
    to.part("Each edit breaks a rule of the head: n, H, edition; own number, flags, c, pending count not zero; a zero");
    let row = ObserverLayout::new(1).area(1, ObserverArea::Row).start;
    for n in [0, 17, 255] {
        ask(to, sound, &[(row, 0), (row.saturating_add(2), 0), (field::N, n)]);
    }
    let numbers = [
        (field::HEIGHTS.long, 0),
        (field::HEIGHTS.long, 2),
        (field::EDITION, 0),
        (field::EDITION, 255),
    ];
    let zeros = [
        (field::OWN, 1),
        (field::OWN, 255),
        (field::FLAGS, 1),
        (field::FLAGS, 16),
        (field::CURRENT.long, 1),
        (field::CURRENT.long, 2),
        (field::PENDING, 1),
        (field::PENDING, 33),
        (46, 1),
        (UNUSED, 128),
    ];
    ask_each(to, sound, 0, &numbers);
    ask_each(to, sound, 0, &zeros);
}

fn rows<C: Calls>(to: &mut Recorder<C>, sound: &[u8]) {
    to.part(
        "Each edit breaks a rule of a row: a state of 1, 3 or more, the zero behind it, a bit from n up, \
         no quorum",
    );
    let row = ObserverLayout::new(1).area(1, ObserverArea::Row).start;
    ask_each(to, sound, row, &[(0, 1), (0, 3), (0, 4), (0, 255), (1, 1), (1, 128)]);
    ask_each(to, sound, row, &[(2, 23), (3, 1), (4, 16), (5, 128), (6, 16), (7, 1)]);
    ask_each(to, sound, row, &[(2, 3), (2, 0)]);
    to.remark("More signers of the page, and masks that are no quorum, are sound");
    ask_each(to, sound, row, &[(2, 15), (4, 1), (6, 8)]);
    to.remark("With no page: the state alone, the zero, a bit from n up; a certificate mask without a page is free");
    let none = [(row, 0), (row.saturating_add(2), 0)];
    for edit in [(0, 1), (0, 2), (1, 1), (2, 16), (3, 128), (2, 1), (2, 15)] {
        let edit = (row.saturating_add(edit.0), edit.1);
        ask(to, sound, &none.iter().copied().chain([edit]).collect::<Vec<Edit>>());
    }
}

fn pages<C: Calls>(to: &mut Recorder<C>, sound: &[u8]) {
    to.part("Each edit breaks the form of a notarised page: height, back height, count, zeros, back digest");
    let page = ObserverLayout::new(1).area(1, ObserverArea::Notarized).start;
    ask_each(to, sound, page, &[(0, 0), (0, 2), (1, 1), (2, 1), (3, 1), (4, 9), (5, 1), (15, 1)]);
    ask_each(to, sound, page, &[(16, 1), (47, 1), (48, 1), (175, 1)]);
    to.remark("An entry of zeros is an entry: a count of 1 and of 8 is sound");
    ask_each(to, sound, page, &[(4, 1), (4, 8)]);
}

/// A sound book with pages at 1 and 3, a blank at 2, and settled height 1.
fn two_pages<C: Calls>(to: &mut Recorder<C>) -> Vec<u8> {
    to.part("An observer's book of three heights: page 1 is settled, 2 is blank, page 3 is linked");
    to.open_observer(WATCH, 4, 3);
    let one = first(1, &[]);
    let three = child(3, &one, &[entry("swap A1 B3")]);
    observe(to, WATCH, &[page(7, &one), blank(11, 2), page(13, &three), finalise(14, 1)]);
    settle(to, WATCH);
    to.bytes(WATCH).to_vec()
}

fn free_bytes<C: Calls>(to: &mut Recorder<C>, sound: &[u8]) {
    to.part("Page and certificate mask of a height with no page are free; a page certificate writes over both");
    let (row, area) = (start(2, ObserverArea::Row), start(2, ObserverArea::Notarized));
    let filled = (area..area.saturating_add(types::BLOCK)).map(|at| (at, 0x73));
    ask(to, sound, &filled.chain([(row.saturating_add(2), 9)]).collect::<Vec<Edit>>());
    observe(to, WATCH, &[blank(7, 2), finalise(7, 2), page(7, &first(2, &[])), finalise(7, 3)]);
    settle(to, WATCH);
    to.observer(WATCH, ObserverCall::Size);
    to.remark("g may be 0 where a height is settled; a move finds it again");
    ask(to, sound, &[(field::FINALIZED.long, 0)]);
    settle(to, WATCH);
}

fn settled<C: Calls>(to: &mut Recorder<C>, sound: &[u8]) {
    to.part("g must be settled: not a blank height, not one without finalises, not one above H");
    let [one, two, three] = [1, 2, 3].map(|height| start(height, ObserverArea::Row));
    ask_each(
        to,
        sound,
        0,
        &[(field::FINALIZED.long, 2), (field::FINALIZED.long, 3), (field::FINALIZED.long, 4)],
    );
    ask(to, sound, &[(one.saturating_add(6), 12)]);
    to.remark("With finalises 3 is settled; not so where 2 is not blank, the back digest is another, page 1 is none");
    let last = [(field::FINALIZED.long, 3), (three.saturating_add(6), 7)];
    let digest = start(3, ObserverArea::Notarized).saturating_add(20);
    let spoilt = sound.get(digest).copied().unwrap_or(0) ^ 1;
    ask(to, sound, &last);
    for edit in [(two.saturating_add(4), 3), (digest, spoilt), (one, 0)] {
        ask(to, sound, &[last[0], last[1], edit]);
    }
}

fn no_books<C: Calls>(to: &mut Recorder<C>, sound: &[u8]) {
    to.part(
        "Bytes that are no book: too few, one more, and a length that is that of other heights",
    );
    for length in [0, 1, 63, 64, 247, 249, 432] {
        let mut book = sound.to_vec();
        book.resize(length, 0);
        to.give(WATCH, book);
        to.observer(WATCH, ObserverCall::Move);
    }
    to.make(Call::Observer(ObserverCall::Read), WATCH, REPLY);
    observe(to, WATCH, &[blank(7, 1)]);
}
