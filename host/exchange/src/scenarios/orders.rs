//! The list of orders: calls that are wrong in two ways, and books that break one rule of soundness each.

use super::parts::*;
use crate::{equal_weights, Call, Recorder};
use types::{field, Area, Calls, Frame, Layout};

/// The one book of the list.
const BOOK: &str = "book";

/// Where a page has the high bytes of its heights.
const HIGH_BYTES: [usize; 2] = [1, 3];

/// Records the list.
pub fn run<C: Calls>(to: &mut Recorder<C>) {
    to.remark("Which refusal comes first where two apply, and the rules of soundness one by one.");
    frames(to);
    fetches(to);
    other_calls(to);
    packets(to);
    soundness(to);
}

fn frames<C: Calls>(to: &mut Recorder<C>) {
    to.part("Deliver: 4 before 6 before 5 before 7 before 9 before 8");
    to.open(BOOK, 4, 2, &[0]);
    let far = types::Block { parent: 1, ..first(2, &[]) };
    let wrong = [
        Frame::Proposal { signer: 9, block: first(0, &[]) },
        Frame::Proposal { signer: 9, block: far },
        Frame::DummyVote { signer: 4, height: 2 },
        Frame::FinalizeCertificate { mask: 0, height: 2 },
        Frame::DummyCertificate { mask: 16, height: 2 },
        Frame::Proposal { signer: 4, block: first(1, &[]) },
        Frame::DummyCertificate { mask: 16, height: 1 },
        Frame::DummyCertificate { mask: 24, height: 1 },
    ];
    deliver(to, BOOK, &wrong);
    deliver(to, BOOK, &[Frame::Proposal { signer: 0, block: first(1, &[]) }]);
    to.open(AHEAD, 4, 2, &[0, 0]);
    deliver(to, AHEAD, &[Frame::Proposal { signer: 0, block: first(2, &[]) }]);
    deliver(to, AHEAD, &[Frame::Proposal { signer: 1, block: first(2, &[entry("other")]) }]);
    to.remark("At the current height 5 and 7 come before a second proposal fires the timer");
    for signer in [4, 255, 1, 0] {
        deliver(to, BOOK, &[Frame::Proposal { signer, block: first(1, &[entry("other")]) }]);
    }
    to.remark("An entry past the count, and 9 before 10 for a certificate");
    let mut frame = Frame::Proposal { signer: 0, block: first(1, &[entry("more")]) }.bytes();
    frame.iter_mut().skip(52).take(1).for_each(|count| *count = 0);
    to.deliver(BOOK, &frame);
    let block = first(1, &[]);
    deliver(to, BOOK, &[Frame::BlockCertificate { mask: 7, block }]);
    let block = first(1, &[entry("other")]);
    deliver(to, BOOK, &[Frame::BlockCertificate { mask: 3, block }]);
}

fn fetches<C: Calls>(to: &mut Recorder<C>) {
    to.part("Fetch: 4 before 6 before 3 before 11");
    to.give("short", vec![0xaa; 223]);
    for (kind, height) in [(4, 0), (4, 1), (5, 0), (6, 2), (6, 1), (5, 1)] {
        to.make(Call::Fetch { kind, height }, BOOK, "short");
    }
}

fn other_calls<C: Calls>(to: &mut Recorder<C>) {
    to.part("Open: 2 before 1. Submit: 4, then 13 before 12. Move: 1 before 3");
    let leaders = vec![0, 0];
    for own in [4, 2] {
        let (weights, leaders) = (equal_weights(4), leaders.clone());
        to.make(Call::Open { n: 4, own, heights: 2, weights, leaders }, BOOK, "");
    }
    for number in 1..=32 {
        submit(to, BOOK, numbered(number));
    }
    to.make(Call::Submit { entry: vec![0; 15] }, BOOK, "");
    submit(to, BOOK, numbered(32));
    submit(to, BOOK, numbered(33));
    to.give("cut", vec![0; 1455]);
    to.make(Call::Move, "cut", "short");
    to.make(Call::Move, BOOK, "short");
    to.remark("Every call looks at the book first: 1 before 4 and 6");
    to.deliver("cut", &[]);
    signal(to, "cut", 0);
    to.make(Call::Submit { entry: vec![0; 15] }, "cut", "");
    to.make(Call::Fetch { kind: 4, height: 0 }, "cut", "short");
}

fn packets<C: Calls>(to: &mut Recorder<C>) {
    to.part("Packet: 1 before 15, also for no frames at all");
    let good = Frame::DummyVote { signer: 0, height: 1 }.bytes();
    let of = |length: usize| {
        let packet = good.iter().cycle().take(length).copied().collect();
        Call::Packet { packet }
    };
    to.open(BOOK, 4, 2, &[0]);
    let sound = to.bytes(BOOK).to_vec();
    let mut damaged = sound.clone();
    damaged.iter_mut().skip(UNUSED).take(1).for_each(|byte| *byte = 1);
    to.give(BOOK, damaged);
    [225, 1, 0, 224].into_iter().for_each(|length| _ = to.make(of(length), BOOK, ""));
    [225, 0].into_iter().for_each(|length| _ = to.make(of(length), "cut", ""));
    to.part("Packet: 15 before any frame: a good one in front of a stray byte is not kept, nor is a bad one looked at");
    to.give(BOOK, sound);
    to.make(of(225), BOOK, "");
    to.make(Call::Packet { packet: vec![8; 225] }, BOOK, "");
    to.make(of(224), BOOK, "");
}

fn soundness<C: Calls>(to: &mut Recorder<C>) {
    to.part("Each edit of a sound book breaks one rule: a state, masks, quorum, pages, a height that is not settled");
    to.open(BOOK, 4, 2, &[0]);
    let block = first(1, &[]);
    deliver(to, BOOK, &[Frame::Proposal { signer: 0, block: block.clone() }]);
    deliver(to, BOOK, &[Frame::BlockCertificate { mask: 7, block }]);
    to.make(Call::Size, BOOK, "");
    let sound = to.bytes(BOOK).to_vec();
    let layout = Layout::new(1);
    let [row, held, notarized] =
        [Area::Row, Area::Held, Area::Notarized].map(|area| layout.area(1, area).start);
    let rows =
        [(0, 4), (1, 7), (2, 3), (2, 23), (4, 16), (6, 16), (8, 16), (9, 1), (10, 1), (15, 1)];
    let pages = [(0, 2), (2, 1), (4, 9), (5, 1), (15, 1), (16, 1), (48, 1), (175, 1)];
    let pages = pages.into_iter().chain(HIGH_BYTES.map(|at| (at, 1)));
    let edits = rows.map(|(at, byte)| (row.saturating_add(at), byte)).into_iter();
    let edits = edits.chain(pages.clone().map(|(at, byte)| (held.saturating_add(at), byte)));
    let edits = edits.chain(pages.map(|(at, byte)| (notarized.saturating_add(at), byte)));
    for (at, byte) in edits.chain([(field::FINALIZED.long, 1), (row.saturating_add(1), 4)]) {
        let mut book = sound.clone();
        book.iter_mut().skip(at).take(1).for_each(|place| *place = byte);
        to.give(BOOK, book);
        to.make(Call::Size, BOOK, "");
    }
}
