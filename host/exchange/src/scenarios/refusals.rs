//! The list of refusals: each number of the table, with its example and its neighbours.

use super::observers::{blank, observe, WATCH};
use super::parts::*;
use crate::{equal_weights, Call, Recorder};
use types::{Block, Calls, Frame, MOST_HEIGHTS};

/// The book of most lines: replica 2 of 4, one height, led by 0.
const BOOK: &str = "book";

/// Records the list.
pub fn run<C: Calls>(to: &mut Recorder<C>) {
    to.remark("Every refusal of the table: the numbers as they come, one part for each call.");
    opening(to);
    short_buffers(to);
    frames(to);
    conflicts(to);
    certificates(to);
    fetching(to);
    entries(to);
    packets(to);
    signals(to);
    observer(to);
}

/// Open: 2, then 1.
fn opening<C: Calls>(to: &mut Recorder<C>) {
    to.part("Open: arguments out of range are 2, a length that does not fit is 1");
    to.give(BOOK, vec![0x5a; 1455]);
    let open = |n, own, heights, leaders: &[u8]| {
        let leaders = leaders.to_vec();
        let weights = equal_weights(n % 256);
        Call::Open { n, own, heights, weights, leaders }
    };
    let past = u64::from(MOST_HEIGHTS).saturating_add(1);
    for (n, own, heights) in [(4, 4, 1), (0, 0, 1), (17, 0, 1), (4, 0, 0), (4, 0, past), (4, 0, 2)]
    {
        to.make(open(n, own, heights, &[0]), BOOK, "");
    }
    to.make(open(4, 2, 1, &[4]), BOOK, "");
    to.make(open(u64::MAX, 2, 1, &[0]), BOOK, "");
    to.remark(
        "A number is not cut to a byte or two; 1,001 heights with a roll of 1,001 are too many",
    );
    for (n, own, heights) in [(260, 2, 1), (4, 258, 1), (4, 2, 257), (4, 2, 65_537)] {
        to.make(open(n, own, heights, &[0]), BOOK, "");
    }
    to.make(open(4, 2, past, &[0; MOST_HEIGHTS as usize + 1]), BOOK, "");
    to.make(open(4, 2, 1, &[0]), BOOK, "");
    to.make(Call::Size, BOOK, "");
    to.open(BOOK, 4, 2, &[0]);
    to.make(Call::Size, BOOK, "");
}

/// Move and fetch: 3.
fn short_buffers<C: Calls>(to: &mut Recorder<C>) {
    to.part("Replies that are too short are 3");
    to.give(REPLY, vec![0xaa; 447]);
    to.make(Call::Move, BOOK, REPLY);
    to.give(REPLY, vec![0xaa; 223]);
    to.make(Call::Fetch { kind: 6, height: 1 }, BOOK, REPLY);
    to.give(REPLY, vec![0xaa; 448]);
    to.make(Call::Move, BOOK, REPLY);
}

/// Deliver: 4, 6, 5, 7, 9.
fn frames<C: Calls>(to: &mut Recorder<C>) {
    to.part("Frames of a wrong form are 4");
    let dummy_vote = Frame::DummyVote { signer: 0, height: 1 }.bytes();
    to.deliver(BOOK, &[]);
    to.deliver(BOOK, dummy_vote.get(..223).unwrap_or(&[]));
    to.deliver(BOOK, &[&dummy_vote[..], &[0]].concat());
    for (at, byte) in [(0, 8), (0, 0), (6, 1), (4, 1), (16, 1), (223, 1)] {
        let mut frame = dummy_vote;
        frame.iter_mut().skip(at).take(1).for_each(|place| *place = byte);
        to.deliver(BOOK, &frame);
    }
    let odd = Block { digest: [1; 32], ..first(1, &[]) };
    deliver(to, BOOK, &[proposal(0, first(0, &[])), proposal(0, odd.clone())]);
    deliver(to, BOOK, &[Frame::BlockCertificate { mask: 7, block: odd }]);
    to.part(
        "Heights outside the book are 6, signers 5, a proposer who does not lead 7, no quorum 9",
    );
    let far = Block { parent: 1, ..first(2, &[]) };
    let out_of_place = [
        Frame::DummyVote { signer: 0, height: 0 },
        Frame::DummyVote { signer: 9, height: 2 },
        proposal(0, far),
        Frame::DummyCertificate { mask: 16, height: 1 },
        Frame::Finalize { signer: 4, height: 1 },
        proposal(1, first(1, &[])),
        Frame::DummyCertificate { mask: 3, height: 1 },
        Frame::FinalizeCertificate { mask: 0, height: 1 },
    ];
    deliver(to, BOOK, &out_of_place);
}

/// Deliver: 8.
fn conflicts<C: Calls>(to: &mut Recorder<C>) {
    to.part("A second proposal above the current height and a second page vote are 8; the same again is known");
    to.open(AHEAD, 4, 2, &[0, 0]);
    let (one, two) = (first(2, &[[1; 16]]), first(2, &[[2; 16]]));
    for block in [&one, &one, &two] {
        deliver(to, AHEAD, &[proposal(0, block.clone()), vote(3, block)]);
    }
    at_other_heights(to);
    at_the_current_height(to);
}

/// No refusal: the second proposal of the current height fires the timer.
fn at_the_current_height<C: Calls>(to: &mut Recorder<C>) {
    to.part("At the current height a second proposal is fresh and fires the timer; a second page vote is 8 there too");
    let pages = [1, 2, 3].map(|byte| first(1, &[[byte; 16]]));
    let [one, two, three] = &pages;
    for block in [one, one, two] {
        deliver(to, BOOK, &[proposal(0, block.clone()), vote(3, block)]);
    }
    to.remark("The second again, a third and the first are known, and a signal is 14");
    deliver(to, BOOK, &[two, three, one].map(|block| proposal(0, block.clone())));
    signal(to, BOOK, 1);
    to.remark("After a signal the second proposal is known");
    to.open("timed", 4, 2, &[0]);
    signal(to, "timed", 1);
    deliver(to, "timed", &[one, two].map(|block| proposal(0, block.clone())));
}

/// Deliver: 8, on the book that holds a proposal of height 2 while it passes both heights.
fn at_other_heights<C: Calls>(to: &mut Recorder<C>) {
    to.part("What was refused above the current height is forgotten: the height begins with no timer fired");
    let two = |byte: u8| proposal(0, first(2, &[[byte; 16]]));
    deliver(to, AHEAD, &[Frame::DummyCertificate { mask: 7, height: 1 }]);
    moves(to, AHEAD);
    to.remark("Below the current height the second proposal is 8");
    deliver(to, AHEAD, &[1, 2].map(|byte| proposal(0, first(1, &[[byte; 16]]))));
    to.remark("At it the first again is known, and the second is fresh once it comes again");
    deliver(to, AHEAD, &[two(1), two(2)]);
    to.remark(
        "Above the last height no height is the current one: 8 at each, and the first is known",
    );
    deliver(to, AHEAD, &[Frame::DummyCertificate { mask: 7, height: 2 }]);
    moves(to, AHEAD);
    deliver(to, AHEAD, &[two(2), proposal(0, first(1, &[[2; 16]])), two(1)]);
}

/// Deliver: 10.
fn certificates<C: Calls>(to: &mut Recorder<C>) {
    to.part("Another certified page is 10");
    let (one, two) = (first(1, &[[1; 16]]), first(1, &[[2; 16]]));
    for (mask, block) in [(7, &two), (11, &two), (7, &one)] {
        deliver(to, BOOK, &[Frame::BlockCertificate { mask, block: block.clone() }]);
    }
}

/// Fetch: 4, 6, 11.
fn fetching<C: Calls>(to: &mut Recorder<C>) {
    to.part(
        "Fetch: a kind that is no certificate is 4, a height outside 6, what the book has not 11",
    );
    for (kind, height) in [(4, 0), (8, 1), (5, 0), (5, 2), (5, u64::MAX), (5, 1), (6, 1), (7, 1)] {
        to.make(Call::Fetch { kind, height }, BOOK, REPLY);
    }
    to.remark("Kind and height are not cut to a byte");
    for (kind, height) in [(261, 1), (5, 257)] {
        to.make(Call::Fetch { kind, height }, BOOK, REPLY);
    }
}

/// Submit: 4, 13, 12.
fn entries<C: Calls>(to: &mut Recorder<C>) {
    to.part("Entries: a wrong length is 4, a repeated one 13, a 33rd 12");
    for length in [0, 15, 17] {
        to.make(Call::Submit { entry: vec![1; length] }, BOOK, "");
    }
    for number in 1..=33 {
        submit(to, BOOK, numbered(number));
    }
    submit(to, BOOK, numbered(7));
}

/// Packet: 15.
fn packets<C: Calls>(to: &mut Recorder<C>) {
    to.part("Packets: a length that is not a multiple of 224 is 15; no frames at all are a packet");
    to.open(BOOK, 4, 2, &[0]);
    let votes = [0, 1, 3].map(|signer| Frame::DummyVote { signer, height: 1 }.bytes());
    let bytes = votes.as_flattened();
    for length in [1, 223, 225, 447, 449, 671, 0, 224, 448, 672] {
        let packet = bytes.get(..length).unwrap_or(&[]).to_vec();
        to.make(Call::Packet { packet }, BOOK, "");
    }
}

/// Signal: 6, 14.
fn signals<C: Calls>(to: &mut Recorder<C>) {
    to.part("Signals: a height outside is 6, one that is not current or fired already 14");
    to.open(BOOK, 4, 2, &[0, 1]);
    for height in [0, 3, 257, u64::MAX, 2, 1, 1] {
        signal(to, BOOK, height);
    }
    to.part("A book with a byte changed that must be zero is 1 for every call, and reads as empty");
    let mut damaged = to.bytes(BOOK).to_vec();
    damaged.iter_mut().skip(UNUSED).take(1).for_each(|byte| *byte = 1);
    to.give(BOOK, damaged);
    let digest = digest(&first(1, &[]));
    let vote = Frame::BlockVote { signer: 0, height: 1, digest };
    deliver(to, BOOK, std::slice::from_ref(&vote));
    to.packet(BOOK, &[vote.bytes()]);
    to.make(Call::Move, BOOK, REPLY);
    signal(to, BOOK, 1);
    submit(to, BOOK, entry("entry"));
    to.make(Call::Size, BOOK, "");
    to.make(Call::Read, BOOK, REPLY);
    to.make(Call::Fetch { kind: 5, height: 1 }, BOOK, REPLY);
}

/// Observer's deliver: 16. The list `observers` has all others.
fn observer<C: Calls>(to: &mut Recorder<C>) {
    to.part("An observer takes certificates alone: a proposal, votes and a finalise are 16, as a station's are not");
    to.open_observer(WATCH, 4, 1);
    let block = first(1, &[]);
    observe(to, WATCH, &[proposal(0, block.clone()), vote(0, &block)]);
    observe(to, WATCH, &[Frame::DummyVote { signer: 0, height: 1 }]);
    observe(to, WATCH, &[Frame::Finalize { signer: 0, height: 1 }, blank(7, 1)]);
}

/// A proposal.
fn proposal(signer: u8, block: Block) -> Frame {
    Frame::Proposal { signer, block }
}
