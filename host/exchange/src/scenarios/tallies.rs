//! The list of tallies: which of the kept votes are for a page.

use super::parts::*;
use crate::{Call, Recorder};
use types::{Area, Block, Calls, Frame, Layout};

/// The one book of the list, opened anew in each part.
const BOOK: &str = "book";

/// Records the list.
pub fn run<C: Calls>(to: &mut Recorder<C>) {
    to.remark("Kept votes that are for the held page's digest, and some that nearly are.");
    to.give(REPLY, vec![0xaa; 448]);
    near_votes(to);
    bytes_without_a_vote(to);
    some_of_sixteen(to);
}

/// A digest with some bits of some bytes turned over.
fn turned(mut digest: [u8; 32], turns: &[(usize, u8)]) -> [u8; 32] {
    for (at, bits) in turns {
        digest.iter_mut().skip(*at).take(1).for_each(|byte| *byte ^= bits);
    }
    digest
}

/// A vote of height 1 for any digest.
fn vote_for(signer: u8, digest: [u8; 32]) -> Frame {
    Frame::BlockVote { signer, height: 1, digest }
}

/// The page certificate of height 1.
fn fetch<C: Calls>(to: &mut Recorder<C>) {
    to.make(Call::Fetch { kind: 5, height: 1 }, BOOK, REPLY);
}

fn near_votes<C: Calls>(to: &mut Recorder<C>) {
    to.part("A vote that differs from the page's digest in one bit is not for it, be it in the first byte or the last");
    let block = first(1, &[entry("swap A1 B2")]);
    for at in [0, 31] {
        near_vote(to, &block, &[(at, 1)]);
    }
    to.part("Nor is one whose differences cancel out, or sum to 256: in two bytes, or in all by the same bit");
    let all: Vec<_> = (0..32).map(|at| (at, 8)).collect();
    for turns in [&[(0, 1), (31, 1)][..], &[(3, 0x80), (4, 0x80)], &[(7, 0xff), (8, 1)], &all] {
        near_vote(to, &block, turns);
    }
}

/// Two votes for the page, one near it, then the third that makes a quorum: the near one is in no certificate.
fn near_vote<C: Calls>(to: &mut Recorder<C>, block: &Block, turns: &[(usize, u8)]) {
    to.open(BOOK, 4, 2, &[0]);
    deliver(to, BOOK, &[Frame::Proposal { signer: 0, block: block.clone() }]);
    deliver(to, BOOK, &[vote(0, block), vote(1, block), vote_for(3, turned(digest(block), turns))]);
    fetch(to);
    deliver(to, BOOK, &[vote(2, block)]);
    fetch(to);
}

fn bytes_without_a_vote<C: Calls>(to: &mut Recorder<C>) {
    to.part("The page's digest in the place of a station that has not voted counts for nothing until it votes");
    let block = first(1, &[entry("swap A1 B2")]);
    to.open(BOOK, 4, 2, &[0]);
    let votes = Layout::new(1).area(1, Area::Votes);
    let mut book = to.bytes(BOOK).to_vec();
    let places = book.iter_mut().skip(votes.start).take(votes.len());
    places.zip(digest(&block).into_iter().cycle()).for_each(|(to, from)| *to = from);
    to.give(BOOK, book);
    deliver(to, BOOK, &[Frame::Proposal { signer: 0, block: block.clone() }]);
    for signer in [3, 0, 1] {
        deliver(to, BOOK, &[vote(signer, &block)]);
        fetch(to);
    }
}

/// Sixteen votes come before their proposal; those of a list differ from the page's digest, each in its own way.
fn sixteen<C: Calls>(to: &mut Recorder<C>, near: &[(u8, (usize, u8))]) {
    let block = first(1, &[entry("swap A1 B2")]);
    to.open(BOOK, 16, 2, &[0]);
    for signer in 0..16 {
        let turns: Vec<_> = near.iter().filter(|one| one.0 == signer).map(|one| one.1).collect();
        deliver(to, BOOK, &[vote_for(signer, turned(digest(&block), &turns))]);
    }
    deliver(to, BOOK, &[Frame::Proposal { signer: 0, block }]);
    fetch(to);
}

fn some_of_sixteen<C: Calls>(to: &mut Recorder<C>) {
    to.part("Sixteen votes come before their proposal, some for another digest: one more for the page is a quorum");
    for others in [&[0, 3, 6, 9, 12, 15][..], &[0, 3, 9, 12, 15]] {
        let near: Vec<_> = others.iter().map(|signer| (*signer, (31, 0x80))).collect();
        sixteen(to, &near);
    }
    to.part("Ten of sixteen are for the page, six are one bit off, in each byte and at each place in turn: no quorum");
    let turns: Vec<_> = (0..36).map(|at| (at % 32, 1 << (at % 8))).collect();
    for six in turns.chunks(6) {
        let near: Vec<_> = (10..16).zip(six.iter().copied()).collect();
        sixteen(to, &near);
    }
}
