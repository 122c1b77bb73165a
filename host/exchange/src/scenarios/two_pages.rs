//! A part of the list of corners: a leader who says two things, at heights and in books of every sort.

use super::parts::*;
use crate::Recorder;
use types::{Block, Calls, Frame, ENTRY};

/// The one book of the list, opened anew in each part.
const BOOK: &str = "book";

/// Records these parts.
pub fn run<C: Calls>(to: &mut Recorder<C>) {
    held_and_notarized(to);
    unlike_above(to);
    second_votes(to);
    one_field_apart(to);
    notarized_in_the_air(to);
    own_page(to);
    in_packets(to);
}

/// A page of height 1 that differs from those with other words.
fn page(words: &str) -> Block {
    first(1, &[entry(words)])
}

/// The proposals of station 0.
fn proposals<const COUNT: usize>(blocks: [&Block; COUNT]) -> [Frame; COUNT] {
    blocks.map(|block| Frame::Proposal { signer: 0, block: block.clone() })
}

fn held_and_notarized<C: Calls>(to: &mut Recorder<C>) {
    to.part("Another page of c is notarised: the first proposal is held, and no timer fires");
    to.open(BOOK, 4, 2, &[0, 0]);
    let (one, two) = (page("swap A1 B2"), page("swap A1 B3"));
    deliver(to, BOOK, &[Frame::BlockCertificate { mask: 7, block: one.clone() }]);
    deliver(to, BOOK, &proposals([&two, &two]));
    let before = to.bytes(BOOK).to_vec();
    moves(to, BOOK);
    to.remark("The second page is the one unlike the held page, though it is the notarised one: the timer fires");
    to.give(BOOK, before);
    deliver(to, BOOK, &proposals([&one]));
    moves(to, BOOK);
}

fn unlike_above<C: Calls>(to: &mut Recorder<C>) {
    to.part("Held and notarised page differ above c: nothing fires, neither there nor when the height is entered");
    to.open(BOOK, 4, 2, &[1, 0]);
    let (one, two) = (first(2, &[]), first(2, &[entry("swap A1 B2")]));
    deliver(to, BOOK, &proposals([&two]));
    deliver(to, BOOK, &[Frame::BlockCertificate { mask: 7, block: one.clone() }]);
    deliver(to, BOOK, &proposals([&one]));
    deliver(to, BOOK, &[Frame::DummyCertificate { mask: 7, height: 1 }]);
    moves(to, BOOK);
}

fn second_votes<C: Calls>(to: &mut Recorder<C>) {
    to.part("Votes for two pages of c, the leader's own too, fire nothing: the second is 8");
    to.open(BOOK, 4, 2, &[0]);
    let pages = ["swap A1 B2", "swap A1 B3"].map(page);
    deliver(to, BOOK, &proposals([&pages[0]]));
    for signer in [0, 1] {
        deliver(to, BOOK, &[vote(signer, &pages[0]), vote(signer, &pages[1])]);
    }
    moves(to, BOOK);
}

fn one_field_apart<C: Calls>(to: &mut Recorder<C>) {
    to.part("Two pages of c that differ in one field alone: count, back height, back digest, an entry's last byte");
    let one = Block { parent: 1, ..first(2, &[[0; ENTRY]]) };
    let mut last_byte = [0; ENTRY];
    last_byte[15] = 1;
    let others = [
        Block { entries: [].into(), ..one.clone() },
        Block { parent: 0, ..one.clone() },
        Block { digest: [8; 32], ..one.clone() },
        Block { entries: [last_byte].into(), ..one.clone() },
    ];
    to.open(BOOK, 4, 2, &[0, 0]);
    deliver(to, BOOK, &[Frame::DummyCertificate { mask: 7, height: 1 }]);
    deliver(to, BOOK, &proposals([&one]));
    moves(to, BOOK);
    let before = to.bytes(BOOK).to_vec();
    for other in &others {
        to.give(BOOK, before.clone());
        deliver(to, BOOK, &proposals([other]));
    }
}

fn notarized_in_the_air<C: Calls>(to: &mut Recorder<C>) {
    to.part(
        "The page of c is notarised and does not stand: a second page fires the timer all the same",
    );
    to.open(BOOK, 4, 2, &[1, 0]);
    deliver(to, BOOK, &[Frame::DummyCertificate { mask: 7, height: 1 }]);
    moves(to, BOOK);
    let one = child(2, &page("swap A1 B2"), &[]);
    deliver(to, BOOK, &[Frame::BlockCertificate { mask: 7, block: one.clone() }]);
    deliver(to, BOOK, &proposals([&one, &first(2, &[])]));
    moves(to, BOOK);
}

fn own_page<C: Calls>(to: &mut Recorder<C>) {
    to.part("A leader's own book gets a page that it did not offer, by its own signature: the timer fires there too");
    to.open(BOOK, 4, 0, &[0]);
    let offer = moves(to, BOOK);
    offer.iter().for_each(|frame| _ = to.deliver(BOOK, frame));
    deliver(to, BOOK, &proposals([&page("swap A1 B2")]));
    moves(to, BOOK);
}

fn in_packets<C: Calls>(to: &mut Recorder<C>) {
    to.part("Two pages of c in one packet are two fresh frames, and the blank vote follows");
    to.open(BOOK, 4, 2, &[0, 0]);
    let pages = ["swap A1 B2", "swap A1 B3", "swap A1 B4"].map(page);
    let [one, two, three] = &pages;
    to.packet(BOOK, &proposals([one, two]).map(|frame| frame.bytes()));
    moves(to, BOOK);
    to.remark("The second and a third page are known now; above c the second is refused");
    let above = [first(2, &[]), first(2, &[entry("swap A1 B2")])];
    let again = proposals([two, three, one]).into_iter().chain(proposals([&above[0], &above[1]]));
    to.packet(BOOK, &again.map(|frame| frame.bytes()).collect::<Vec<_>>());
    to.remark("The same page twice in a packet fires nothing; a vote for the other page is a vote like any other");
    to.open(BOOK, 4, 2, &[0, 0]);
    let mut frames = proposals([one, one]).to_vec();
    frames.extend([vote(3, one), vote(3, two), vote(1, two)]);
    to.packet(BOOK, &frames.iter().map(Frame::bytes).collect::<Vec<_>>());
    moves(to, BOOK);
}
