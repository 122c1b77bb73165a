//! The list of strange books: sound ones that no run makes, and books damaged in one byte; then those of observers.

use super::observer_books;
use super::parts::*;
use crate::{Call, Recorder};
use types::{field, Area, Calls, Frame, Layout};

/// The one book of the list.
const BOOK: &str = "book";

/// Pending entries of this byte alone: no call puts them there, so they may begin with any byte.
const ANY_SIXTEEN_BYTES: u8 = 0x71;

/// Records the list.
pub fn run<C: Calls>(to: &mut Recorder<C>) {
    to.remark("Books that no run makes: every free byte set, flags in odd combinations, damage in one byte.");
    to.give(REPLY, vec![0xaa; 448]);
    to.give("register", vec![0xbb; 48]);
    free_bytes(to);
    past_the_end(to);
    full_pending(to);
    second_page(to);
    damage(to);
    observer_books::run(to);
}

/// The opened book with some bytes set.
fn edited<C: Calls>(to: &mut Recorder<C>, edits: &[(usize, u8)]) {
    let mut book = to.bytes(BOOK).to_vec();
    for (at, byte) in edits {
        book.iter_mut().skip(*at).take(1).for_each(|place| *place = *byte);
    }
    to.give(BOOK, book);
}

/// Fills an area of the book with one byte.
fn filled<C: Calls>(to: &mut Recorder<C>, area: std::ops::Range<usize>, byte: u8) {
    let edits: Vec<_> = area.map(|at| (at, byte)).collect();
    edited(to, &edits);
}

fn free_bytes<C: Calls>(to: &mut Recorder<C>) {
    to.part("All free areas filled; voted, proposed and a certificate mask, but no page");
    to.open(BOOK, 4, 1, &[0, 1]);
    let layout = Layout::new(2);
    filled(to, layout.pending(), ANY_SIXTEEN_BYTES);
    for height in [1, 2] {
        filled(to, layout.area(height, Area::Held), 0x72);
        filled(to, layout.area(height, Area::Notarized), 0x73);
        filled(to, layout.area(height, Area::Votes), 0x74);
    }
    let row = layout.area(1, Area::Row).start;
    edited(to, &[(field::FLAGS, 14), (field::PENDING, 3), (row.saturating_add(2), 15)]);
    let one = first(1, &[entry("swap A1 B2")]);
    deliver(to, BOOK, &[vote(0, &one), Frame::Proposal { signer: 0, block: one.clone() }]);
    moves(to, BOOK);
    deliver(to, BOOK, &[vote(1, &one), vote(3, &one)]);
    moves(to, BOOK);
    submit(to, BOOK, entry("lot 7 to C3"));
    to.make(Call::Read, BOOK, "register");
}

fn past_the_end<C: Calls>(to: &mut Recorder<C>) {
    to.part("All heights passed and all flags set, or flag 1 alone: only move 2 is left");
    for flags in [1, 15] {
        edited(to, &[(field::FLAGS, flags), (field::CURRENT.long, 3)]);
        moves(to, BOOK);
    }
    deliver(to, BOOK, &[Frame::FinalizeCertificate { mask: 13, height: 1 }]);
    moves(to, BOOK);
    to.make(Call::Read, BOOK, "register");
    submit(to, BOOK, entry("swap A1 B2"));
    submit(to, BOOK, entry("lot 8 to C4"));
    signal(to, BOOK, 3);
    signal(to, BOOK, 2);
}

fn full_pending<C: Calls>(to: &mut Recorder<C>) {
    to.part("32 equal pending entries, all in the register: dropped by the next submit");
    filled(to, Layout::new(2).pending(), 0x20);
    let place = entry("swap A1 B2");
    let edits = (64..576).zip(place.into_iter().cycle());
    let edits: Vec<_> = edits.chain([(field::PENDING, 32)]).collect();
    edited(to, &edits);
    submit(to, BOOK, entry("lot 9 to C5"));
    to.make(Call::Size, BOOK, "");
}

fn second_page<C: Calls>(to: &mut Recorder<C>) {
    to.part("Flags without flag 1, and a second page of the leader: it joins them, and no blank vote is cast again");
    let sound = to.bytes(BOOK).to_vec();
    to.open(BOOK, 4, 1, &[0, 1]);
    let pages = ["swap A1 B2", "swap A1 B3"].map(|words| first(1, &[entry(words)]));
    let pages = pages.map(|block| Frame::Proposal { signer: 0, block });
    deliver(to, BOOK, &pages[..1]);
    let held = to.bytes(BOOK).to_vec();
    for flags in [2, 4, 8, 14] {
        to.give(BOOK, held.clone());
        edited(to, &[(field::FLAGS, flags)]);
        deliver(to, BOOK, &pages[1..]);
        moves(to, BOOK);
    }
    to.give(BOOK, sound);
}

fn damage<C: Calls>(to: &mut Recorder<C>) {
    to.part("One byte damaged: n, own, H, flags, c, g, pending, edition, a zero, a leader, a state, a mask");
    let sound = to.bytes(BOOK).to_vec();
    let edits = [
        (field::N, 0),
        (field::N, 17),
        (field::OWN, 4),
        (field::HEIGHTS.long, 3),
        (field::FLAGS, 16),
        (field::CURRENT.long, 0),
        (field::CURRENT.long, 4),
        (field::FINALIZED.long, 2),
        (field::PENDING, 33),
        (field::EDITION, 255),
        (UNUSED, 1),
        (576, 4),
        (577, 4),
        (578, 16),
        (581, 1),
        (586, 1),
        (784, 9),
    ];
    for edit in edits {
        to.give(BOOK, sound.clone());
        edited(to, &[edit]);
        to.make(Call::Size, BOOK, "");
    }
    for length in [0, 1, 576, 1456] {
        to.give(BOOK, vec![1; length]);
        to.make(Call::Read, BOOK, "register");
        to.make(Call::Move, BOOK, REPLY);
    }
}
