//! The list of observers: their refusals with neighbours and orders, what certificates leave, calls of the other kind.

use super::observer_chains;
use super::parts::*;
use crate::{equal_weights, Call, ObserverCall, Recorder};
use types::{
    Block, Calls, Frame, Height, Weights, MOST_HEIGHTS, MOST_REPLICAS, MOST_SHORT_HEIGHTS,
};

/// The book of most lines: an observer of 4 stations.
pub const WATCH: &str = "watch";

/// Records the list.
pub fn run<C: Calls>(to: &mut Recorder<C>) {
    to.remark("Observers: a book without a vote, which takes certificates alone.");
    opening(to);
    forms(to);
    no_certificates(to);
    ranges(to);
    orders(to);
    joined(to);
    other_page(to);
    quorums(to);
    observer_chains::run(to);
    other_kind(to);
}

/// Delivers frames one after another to an observer's book.
pub fn observe<C: Calls>(to: &mut Recorder<C>, book: &str, frames: &[Frame]) {
    frames.iter().for_each(|frame| observe_bytes(to, book, &frame.bytes()));
}

/// Delivers bytes to an observer's book.
fn observe_bytes<C: Calls>(to: &mut Recorder<C>, book: &str, frame: &[u8]) {
    to.observer(book, ObserverCall::Deliver { frame: frame.to_vec() });
}

/// A blank certificate.
pub fn blank(mask: u16, height: Height) -> Frame {
    Frame::DummyCertificate { mask, height }
}

/// A finalise certificate.
pub fn finalise(mask: u16, height: Height) -> Frame {
    Frame::FinalizeCertificate { mask, height }
}

/// A page certificate.
pub fn page(mask: u16, block: &Block) -> Frame {
    Frame::BlockCertificate { mask, block: block.clone() }
}

fn opening<C: Calls>(to: &mut Recorder<C>) {
    to.part("Open: n or H out of range is 2, also where the length does not fit; a length that does not fit is 1");
    to.give(WATCH, vec![0x5a; 247]);
    let past = u64::from(MOST_HEIGHTS).saturating_add(1);
    let open = |n, heights| ObserverCall::Open { n, heights, weights: equal_weights(n % 256) };
    for (n, heights) in [(0, 1), (17, 1), (4, 0), (4, past)] {
        to.observer(WATCH, open(n, heights));
    }
    to.remark("A number is not cut to a byte, nor to two");
    for (n, heights) in [(260, 1), (4, 65_537), (u64::MAX, 1), (4, u64::MAX)] {
        to.observer(WATCH, open(n, heights));
    }
    to.observer(WATCH, open(4, 1));
    for length in [249, 432, 1456, 0] {
        to.give(WATCH, vec![0x5a; length]);
        to.observer(WATCH, open(4, 1));
    }
    to.remark("A new book: idle, and nothing to read");
    to.open_observer(WATCH, 4, 1);
    to.observer(WATCH, ObserverCall::Move);
    to.observer(WATCH, ObserverCall::Size);
    to.give(REPLY, vec![0xaa; 448]);
    to.make(Call::Observer(ObserverCall::Read), WATCH, REPLY);
    to.open_observer(WATCH, MOST_REPLICAS.into(), MOST_SHORT_HEIGHTS);
    to.observer(WATCH, ObserverCall::Size);
}

fn forms<C: Calls>(to: &mut Recorder<C>) {
    to.part("Frames of a wrong form are 4, of whatever kind they say they are");
    to.open_observer(WATCH, 4, 1);
    let good = blank(7, 1).bytes();
    for length in [0, 223, 225] {
        let frame: Vec<u8> = good.iter().copied().chain([0]).take(length).collect();
        observe_bytes(to, WATCH, &frame);
    }
    to.remark("Kinds 0 and 8; a signer, a zero, a digest and a page in a blank certificate");
    for (at, byte) in [(0, 0), (0, 8), (0, 255), (1, 1), (6, 1), (16, 1), (47, 1), (48, 1)] {
        observe_bytes(to, WATCH, &edited(good, &[(at, byte)]));
    }
    to.remark("A blank vote with a mask, a finalise with a digest, a page vote with a page");
    let vote = |kind| edited([0; 224], &[(0, kind), (2, 1)]);
    for (kind, at) in [(3, 4), (4, 16), (2, 48)] {
        observe_bytes(to, WATCH, &edited(vote(kind), &[(at, 1)]));
    }
    to.remark("Pages that are not well formed, in a proposal and in a certificate");
    let block = first(1, &[]);
    let frames =
        [Frame::Proposal { signer: 0, block: block.clone() }.bytes(), page(7, &block).bytes()];
    for frame in frames {
        for edit in [(48, 2), (50, 1), (52, 9), (53, 1), (64, 1), (223, 1)] {
            observe_bytes(to, WATCH, &edited(frame, &[edit]));
        }
    }
}

/// A frame with some bytes set.
fn edited(mut frame: [u8; 224], edits: &[(usize, u8)]) -> [u8; 224] {
    for (at, byte) in edits {
        frame.iter_mut().skip(*at).take(1).for_each(|place| *place = *byte);
    }
    frame
}

fn no_certificates<C: Calls>(to: &mut Recorder<C>) {
    to.part("Proposals, votes and finalises are 16: of the height, of height 0, of one above H, of a station above n");
    let block = first(1, &[]);
    let far = Block { parent: 1, ..first(2, &[]) };
    let frames = [
        Frame::Proposal { signer: 0, block: block.clone() },
        Frame::Proposal { signer: 99, block: block.clone() },
        Frame::Proposal { signer: 0, block: far },
        vote(0, &block),
        vote(99, &block),
        Frame::BlockVote { signer: 0, height: 0, digest: [0; 32] },
        Frame::BlockVote { signer: 0, height: 2, digest: [7; 32] },
        Frame::Finalize { signer: 0, height: 1 },
        Frame::Finalize { signer: 3, height: 0 },
        Frame::Finalize { signer: 4, height: 99 },
    ];
    observe(to, WATCH, &frames);
    for (signer, height) in [(0, 1), (0, 0), (0, 2), (0, 99), (4, 1), (99, 1), (99, 99)] {
        observe(to, WATCH, &[Frame::DummyVote { signer, height }]);
    }
    to.remark("No byte changed by all these; the votes of three stations do not count");
    observe(to, WATCH, &[1, 2].map(|signer| Frame::DummyVote { signer, height: 1 }));
    to.observer(WATCH, ObserverCall::Size);
}

fn ranges<C: Calls>(to: &mut Recorder<C>) {
    to.part("Certificates: heights outside the book are 6, bits from n up 5, no quorum 9");
    let far = Block { parent: 1, ..first(2, &[]) };
    observe(to, WATCH, &[blank(7, 0), blank(7, 2), finalise(7, 255), page(7, &far)]);
    observe(to, WATCH, &[blank(16, 1), finalise(23, 1), page(0x8007, &first(1, &[]))]);
    observe(to, WATCH, &[blank(0, 1), finalise(3, 1), page(9, &first(1, &[])), blank(8, 1)]);
}

fn orders<C: Calls>(to: &mut Recorder<C>) {
    to.part("6 before 5 and 9, 5 before 9, 9 before 10, and 1 before all of them");
    let (one, two) = (first(1, &[]), first(1, &[[1; types::ENTRY]]));
    observe(to, WATCH, &[blank(16, 2), finalise(0, 2), blank(48, 1), finalise(16, 1)]);
    observe(to, WATCH, &[page(7, &one), page(3, &two), page(16, &two), page(7, &two)]);
    let mut damaged = to.bytes(WATCH).to_vec();
    damaged.iter_mut().skip(UNUSED).take(1).for_each(|byte| *byte = 1);
    to.give(WATCH, damaged);
    observe_bytes(to, WATCH, &[]);
    observe(to, WATCH, &[Frame::DummyVote { signer: 0, height: 1 }, blank(16, 2), page(7, &two)]);
    to.observer(WATCH, ObserverCall::Move);
    to.observer(WATCH, ObserverCall::Size);
    to.make(Call::Observer(ObserverCall::Read), WATCH, REPLY);
}

fn joined<C: Calls>(to: &mut Recorder<C>) {
    to.part("Masks are joined: fresh while a signer is new, known when none is; each height and each kind by itself");
    to.open_observer(WATCH, 4, 2);
    for mask in [7, 7, 14, 11, 15] {
        observe(to, WATCH, &[blank(mask, 1), finalise(mask, 2)]);
    }
    observe(to, WATCH, &[finalise(13, 1), blank(13, 2), finalise(13, 1)]);
    to.observer(WATCH, ObserverCall::Move);
}

fn other_page<C: Calls>(to: &mut Recorder<C>) {
    to.part("A page certificate sets page and mask once: the same page is known whoever signed it, another one is 10");
    to.open_observer(WATCH, 4, 2);
    let (one, two) = (first(1, &[[1; types::ENTRY]]), first(1, &[[2; types::ENTRY]]));
    observe(to, WATCH, &[page(11, &one), page(11, &one), page(15, &one), page(11, &two)]);
    to.remark("Apart in the count alone; and beside it a blank of the same height");
    let (none, zeros) = (first(2, &[]), first(2, &[[0; types::ENTRY]]));
    observe(to, WATCH, &[page(7, &none), page(7, &zeros), blank(7, 2), page(7, &none)]);
}

fn quorums<C: Calls>(to: &mut Recorder<C>) {
    to.part("For n from 1 to 16: one signer fewer than a quorum is 9, a quorum is taken");
    for n in 1..=MOST_REPLICAS {
        to.open_observer(WATCH, n.into(), 1);
        let quorum = Weights::equal(n).needed();
        for count in [quorum.saturating_sub(1), quorum] {
            observe(to, WATCH, &[blank(first_replicas(count), 1)]);
        }
    }
}

fn other_kind<C: Calls>(to: &mut Recorder<C>) {
    to.part("A station's calls find an observer's book not sound, and read it as empty");
    to.open_observer(WATCH, 4, 1);
    let certificate = blank(7, 1).bytes().to_vec();
    deliver(to, WATCH, &[Frame::DummyVote { signer: 0, height: 1 }, blank(7, 1)]);
    to.packet(WATCH, &[certificate]);
    to.make(Call::Move, WATCH, REPLY);
    signal(to, WATCH, 1);
    submit(to, WATCH, entry("entry"));
    to.make(Call::Size, WATCH, "");
    to.make(Call::Read, WATCH, REPLY);
    to.make(Call::Fetch { kind: 6, height: 1 }, WATCH, REPLY);
    let (n, heights, weights) = (4, 1, equal_weights(4));
    let open = ObserverCall::Open { n, heights, weights: weights.clone() };
    to.make(Call::Open { n, own: 0, heights, weights, leaders: vec![0] }, WATCH, "");
    to.part("An observer's calls find a station's book not sound, and read it as empty");
    to.open("book", 4, 2, &[0]);
    observe(to, "book", &[blank(7, 1), Frame::DummyVote { signer: 0, height: 1 }]);
    to.observer("book", ObserverCall::Move);
    to.observer("book", ObserverCall::Size);
    to.make(Call::Observer(ObserverCall::Read), "book", REPLY);
    to.observer("book", open);
    to.make(Call::Size, "book", "");
}
