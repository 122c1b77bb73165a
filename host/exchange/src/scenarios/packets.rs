//! A part of the list of corners: packets of frames, each of which meets the book that those before it left.

use super::parts::*;
use crate::{Call, Recorder};
use types::{Calls, Frame, FRAME, MOST_REPLICAS, MOST_SHORT_HEIGHTS};

/// The one book of the list.
const BOOK: &str = "book";

/// A frame that every book refuses with 4: of a kind that there is not.
const MALFORMED: [u8; FRAME] = {
    let mut frame = [0; FRAME];
    frame[0] = 8;
    frame
};

/// Records these parts.
pub fn run<C: Calls>(to: &mut Recorder<C>) {
    refused_frames(to);
    frames_that_meet(to);
    completed_page(to);
    every_kind(to);
    large_counts(to);
}

/// A blank vote at height 1.
fn blank(signer: u8) -> [u8; FRAME] {
    Frame::DummyVote { signer, height: 1 }.bytes()
}

fn refused_frames<C: Calls>(to: &mut Recorder<C>) {
    to.part("A refused frame of a packet is counted and the rest goes on: the first, one amid good ones, the last");
    to.open(BOOK, 4, 2, &[0]);
    to.packet(BOOK, &[MALFORMED, blank(0)]);
    to.packet(BOOK, &[blank(1), blank(4), blank(3)]);
    let no_quorum = Frame::FinalizeCertificate { mask: 3, height: 1 }.bytes();
    to.packet(BOOK, &[Frame::Finalize { signer: 1, height: 1 }.bytes(), no_quorum]);
    to.remark("None but refused ones; they are no refusal of the packet");
    to.packet(BOOK, &[MALFORMED, no_quorum, blank(9)]);
    to.remark("The votes of the first two packets are a quorum");
    moves(to, BOOK);
}

fn frames_that_meet<C: Calls>(to: &mut Recorder<C>) {
    to.part("Each frame of a packet meets the book that those before it left: of two digests the second is refused");
    to.open(BOOK, 4, 2, &[0, 1]);
    let (one, two) = (first(1, &[entry("swap A1 B2")]), first(1, &[]));
    let votes = [vote(1, &one), vote(1, &two), vote(1, &one)];
    to.packet(BOOK, &votes.map(|vote| vote.bytes()));
    to.remark("A frame twice is fresh, then known");
    to.packet(BOOK, &[blank(3), blank(3)]);
    to.remark(
        "Of two certified pages, and of two proposals of one leader above c, the second is refused",
    );
    let certificates = [two, one].map(|block| Frame::BlockCertificate { mask: 7, block }.bytes());
    to.packet(BOOK, &certificates);
    let pages = [first(2, &[]), first(2, &[entry("swap A1 B2")])];
    to.packet(BOOK, &pages.map(|block| Frame::Proposal { signer: 1, block }.bytes()));
    moves(to, BOOK);
}

fn completed_page<C: Calls>(to: &mut Recorder<C>) {
    to.part("A packet with a page's votes and then its proposal notarises the page; only Move passes the height");
    to.open(BOOK, 4, 2, &[0]);
    let block = first(1, &[entry("swap A1 B2")]);
    let mut frames: Vec<Frame> = [3, 0, 1].map(|signer| vote(signer, &block)).to_vec();
    let finalizes = [0, 1, 3].map(|signer| Frame::Finalize { signer, height: 1 });
    frames.push(Frame::Proposal { signer: 0, block: block.clone() });
    frames.push(Frame::BlockCertificate { mask: 15, block });
    frames.extend(finalizes);
    let frames: Vec<_> = frames.iter().map(Frame::bytes).collect();
    to.packet(BOOK, &frames);
    to.make(Call::Fetch { kind: 5, height: 1 }, BOOK, REPLY);
    moves(to, BOOK);
    to.remark("The same packet again, when all heights are passed: all known");
    to.packet(BOOK, &frames);
}

fn every_kind<C: Calls>(to: &mut Recorder<C>) {
    to.part("A frame of each kind in one packet, and the packet again");
    to.open(BOOK, 4, 2, &[0, 1]);
    let block = first(2, &[]);
    let frames = [
        Frame::FinalizeCertificate { mask: 11, height: 2 },
        Frame::DummyCertificate { mask: 7, height: 1 },
        Frame::BlockCertificate { mask: 13, block: block.clone() },
        Frame::Finalize { signer: 2, height: 1 },
        Frame::DummyVote { signer: 3, height: 2 },
        vote(0, &block),
        Frame::Proposal { signer: 1, block },
    ];
    let frames = frames.map(|frame| frame.bytes());
    to.packet(BOOK, &frames);
    to.packet(BOOK, &frames);
    moves(to, BOOK);
}

fn large_counts<C: Calls>(to: &mut Recorder<C>) {
    to.part("Counts do not fit a byte: 256 known frames, 290 refused ones, and 272 fresh ones of the largest book");
    to.open(BOOK, 4, 2, &[0]);
    to.packet(BOOK, &[blank(0)]);
    to.packet(BOOK, &[blank(0); 256]);
    to.packet(BOOK, &[MALFORMED; 290]);
    to.open(BOOK, 16, 15, &[15; MOST_SHORT_HEIGHTS as usize]);
    let heights = MOST_SHORT_HEIGHTS.saturating_sub(16)..=MOST_SHORT_HEIGHTS;
    let votes = heights.flat_map(|height| {
        (0..MOST_REPLICAS).map(move |signer| Frame::Finalize { signer, height }.bytes())
    });
    to.packet(BOOK, &votes.collect::<Vec<_>>());
}
