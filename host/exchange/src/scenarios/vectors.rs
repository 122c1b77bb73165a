//! Calls under any digest, to compare definitions with: one replica alone, a timer and dummies, votes that clash, and
//! an observer.

use super::observers::observe;
use super::parts::{deliver, first, signal, submit, REPLY};
use crate::{record_in_full, Call, List, ObserverCall, Recorder};
use reference::{Digest, Rules};
use types::{Block, Frame, Move, ENTRY, FRAME};

/// The one book, opened anew in each part.
const BOOK: &str = "book";

/// The calls with all bytes, one part of the list for each of the four.
pub fn vectors(digest: Digest) -> List {
    let rules = Rules::new(digest);
    let mut to = Recorder::new(rules);
    alone(&mut to);
    timer_and_dummies(&mut to);
    votes_and_conflicts(&mut to, digest);
    observing(&mut to, digest);
    let list = to.into_list();
    record_in_full(&list, &rules).unwrap_or(list)
}

/// An entry that differs from those with another tag: bytes that grow by 16.
fn tagged(tag: u8) -> [u8; ENTRY] {
    std::array::from_fn(|at| tag.wrapping_add(u8::try_from(at).unwrap_or(0).wrapping_mul(16)))
}

/// Makes a call that is lent a new buffer of this length.
fn lend(to: &mut Recorder<Rules>, call: Call, length: usize) {
    to.give(REPLY, vec![0xaa; length]);
    to.make(call, BOOK, REPLY);
}

/// Makes a move with a new reply; returns the frames, or none when idle.
fn turn(to: &mut Recorder<Rules>) -> Option<Vec<Vec<u8>>> {
    to.give(REPLY, vec![0xaa; 2 * FRAME]);
    let (made, frames) = to.make_move(BOOK, REPLY);
    made.filter(|made| *made != Move::Idle).map(|_| frames)
}

/// Moves until idle; what is written comes back as a delivery.
fn moves_with_own_frames(to: &mut Recorder<Rules>) {
    while let Some(frames) = turn(to) {
        frames.iter().for_each(|frame| _ = to.deliver(BOOK, frame));
    }
}

fn alone(to: &mut Recorder<Rules>) {
    to.part("alone n=1 H=1");
    to.open(BOOK, 1, 0, &[0]);
    [1, 2].into_iter().for_each(|tag| _ = submit(to, BOOK, tagged(tag)));
    moves_with_own_frames(to);
    to.make(Call::Size, BOOK, "");
    [0, 31, 32, 40].into_iter().for_each(|length| lend(to, Call::Read, length));
    [1, 3].into_iter().for_each(|tag| _ = submit(to, BOOK, tagged(tag)));
    for kind in 5..=7 {
        lend(to, Call::Fetch { kind, height: 1 }, FRAME);
    }
    signal(to, BOOK, 1);
}

fn timer_and_dummies(to: &mut Recorder<Rules>) {
    to.part("timer and dummies n=4 H=2");
    to.open(BOOK, 4, 3, &[0, 3]);
    turn(to);
    signal(to, BOOK, 1);
    signal(to, BOOK, 1);
    turn(to);
    turn(to);
    deliver(to, BOOK, &[0, 1, 2].map(|signer| Frame::DummyVote { signer, height: 1 }));
    lend(to, Call::Fetch { kind: 6, height: 1 }, FRAME);
    moves_with_own_frames(to);
    deliver(to, BOOK, &[Frame::DummyCertificate { mask: 11, height: 2 }]);
    lend(to, Call::Move, 500);
    turn(to);
    deliver(to, BOOK, &[Frame::FinalizeCertificate { mask: 7, height: 1 }]);
    turn(to);
    signal(to, BOOK, 2);
    signal(to, BOOK, 3);
}

fn votes_and_conflicts(to: &mut Recorder<Rules>, digest: Digest) {
    to.part("votes and conflicts n=4 H=2");
    to.open(BOOK, 4, 2, &[0, 1]);
    let (one, two) = (first(1, &[tagged(1)]), first(1, &[tagged(2)]));
    let of = |block: &Block| digest(&block.bytes());
    for (signer, block) in [(3, &one), (3, &two), (1, &one), (0, &two)] {
        deliver(to, BOOK, &[Frame::BlockVote { signer, height: 1, digest: of(block) }]);
    }
    for block in [&one, &one, &two] {
        deliver(to, BOOK, &[Frame::Proposal { signer: 0, block: block.clone() }]);
    }
    moves_with_own_frames(to);
    for block in [&one, &two] {
        deliver(to, BOOK, &[Frame::BlockCertificate { mask: 15, block: block.clone() }]);
    }
    let on = |parent: &Block, entries| Block { height: 2, parent: 1, digest: of(parent), entries };
    deliver(to, BOOK, &[Frame::BlockCertificate { mask: 7, block: on(&two, [].into()) }]);
    let block = on(&one, [tagged(3), tagged(1)].into());
    deliver(to, BOOK, &[Frame::Proposal { signer: 1, block }]);
    moves_with_own_frames(to);
    for (mask, height) in [(7, 2), (13, 1)] {
        deliver(to, BOOK, &[Frame::FinalizeCertificate { mask, height }]);
    }
    turn(to);
    turn(to);
    lend(to, Call::Read, 64);
}

fn observing(to: &mut Recorder<Rules>, digest: Digest) {
    to.part("observing n=4 H=3");
    to.open_observer(BOOK, 4, 3);
    let one = first(1, &[tagged(1)]);
    let digest = digest(&one.bytes());
    let three = Block { height: 3, parent: 1, digest, entries: [tagged(2), tagged(1)].into() };
    let frames = [
        Frame::DummyVote { signer: 0, height: 1 },
        Frame::FinalizeCertificate { mask: 13, height: 3 },
        Frame::BlockCertificate { mask: 7, block: three },
        Frame::DummyCertificate { mask: 11, height: 2 },
        Frame::BlockCertificate { mask: 14, block: first(1, &[tagged(1)]) },
        Frame::BlockCertificate { mask: 7, block: first(1, &[tagged(3)]) },
    ];
    for frame in frames {
        observe(to, BOOK, &[frame]);
        to.observer(BOOK, ObserverCall::Move);
    }
    to.observer(BOOK, ObserverCall::Size);
    for length in [31, 32, 34] {
        lend(to, Call::Observer(ObserverCall::Read), length);
    }
}
