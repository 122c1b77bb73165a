//! The list of weights: what Open takes, and quorums by weight wherever one is asked.

use super::observers::{blank, finalise, observe, page, WATCH};
use super::parts::*;
use crate::{equal_weights, Call, ObserverCall, Recorder};
use types::{weight_bytes, Calls, Frame};

/// The book of most lines.
const BOOK: &str = "book";

/// Weights, a mask that is a quorum by the smallest margin, and one that is none by the smallest, or by its number of
/// stations would be one.
const EDGES: [(&[u16], u16, u16); 6] = [
    (&[1, 1, 1], 0b011, 0b001),
    (&[6, 2, 2, 2], 0b0011, 0b1110),
    (&[8, 1, 1, 2], 0b0001, 0b1110),
    (&[7, 1, 1, 1, 1], 0b00011, 0b00001),
    (&[10, 10, 10, 1, 1], 0b11011, 0b01011),
    (&[1000, 499, 1], 0b001, 0b110),
];

/// Records the list.
pub fn run<C: Calls>(to: &mut Recorder<C>) {
    to.remark("Stations of unequal weight: 3 times the weight of a quorum is at least 2 times the total weight.");
    to.give(REPLY, vec![0xaa; 448]);
    opening(to);
    observer_opening(to);
    certificates(to);
    tallies(to);
    blanks(to);
    settling(to);
    orders(to);
    same_weights(to);
    alone(to);
}

/// Bytes of weights for four stations that Open refuses: each neighbour of the range, high bytes, other lengths.
fn refused_weights() -> Vec<Vec<u8>> {
    let weights: [[u16; 4]; 6] = [
        [0, 1, 1, 1],
        [1, 1, 1, 0],
        [1001, 1, 1, 1],
        [1, 1, 1, 1001],
        [1, 1256, 1, 1],
        [1, 1, 0xffff, 1],
    ];
    let mut all: Vec<Vec<u8>> = weights.iter().map(|weights| weight_bytes(weights)).collect();
    let ones = equal_weights(16);
    let lengths = [0, 1, 6, 7, 9, 10, 32];
    all.extend(lengths.into_iter().filter_map(|length| ones.get(..length)).map(<[u8]>::to_vec));
    all.push([equal_weights(4), vec![0; 24]].concat());
    all
}

/// Bytes of weights for four stations that it takes: the ends of the range, and one that only its high byte has.
fn taken_weights() -> Vec<Vec<u8>> {
    let weights = [[1, 1, 1, 1], [1000, 1000, 1000, 1000], [1, 256, 999, 2]];
    weights.iter().map(|weights| weight_bytes(weights)).collect()
}

fn opening<C: Calls>(to: &mut Recorder<C>) {
    to.part("Open: a weight of 0 or above 1,000, or not n of them, is 2");
    let open = |n, weights| Call::Open { n, own: 0, heights: 1, weights, leaders: vec![0] };
    to.give(BOOK, vec![0x5a; 1456]);
    refused_weights().into_iter().for_each(|weights| _ = to.make(open(4, weights), BOOK, ""));
    to.remark("As many weights as n do not make n right; nor do those of 4 stations another n");
    for n in [0, 17, 260] {
        to.make(open(n, equal_weights(n)), BOOK, "");
    }
    for n in [3, 5, 1, 16, 260, u64::MAX] {
        to.make(open(n, equal_weights(4)), BOOK, "");
    }
    to.remark(
        "2 before 1: wrong weights and a length that does not fit; right ones and that length",
    );
    to.give(BOOK, vec![0x5a; 1455]);
    let wrong = [vec![], weight_bytes(&[1, 1, 1, 0]), equal_weights(3), equal_weights(4)];
    wrong.into_iter().for_each(|weights| _ = to.make(open(4, weights), BOOK, ""));
    to.remark("Weights in range are taken");
    for weights in taken_weights() {
        to.give(BOOK, vec![0x5a; 1456]);
        to.make(open(4, weights), BOOK, "");
    }
    to.open_weighed(BOOK, &[1000; 16], 15, &[15]);
    to.open_weighed(BOOK, &[7], 0, &[0]);
    to.make(Call::Size, BOOK, "");
}

fn observer_opening<C: Calls>(to: &mut Recorder<C>) {
    to.part("An observer's open: the same");
    let open = |n, weights| ObserverCall::Open { n, heights: 1, weights };
    to.give(WATCH, vec![0x5a; 248]);
    refused_weights().into_iter().for_each(|weights| _ = to.observer(WATCH, open(4, weights)));
    for n in [0, 17, 260] {
        to.observer(WATCH, open(n, equal_weights(n)));
    }
    for n in [3, 5, 260, u64::MAX] {
        to.observer(WATCH, open(n, equal_weights(4)));
    }
    to.give(WATCH, vec![0x5a; 249]);
    let wrong = [vec![], weight_bytes(&[1, 1, 1, 0]), equal_weights(3), equal_weights(4)];
    wrong.into_iter().for_each(|weights| _ = to.observer(WATCH, open(4, weights)));
    for weights in taken_weights() {
        to.give(WATCH, vec![0x5a; 248]);
        to.observer(WATCH, open(4, weights));
    }
    to.open_weighed_observer(WATCH, &[1000; 16], 1);
    to.observer(WATCH, ObserverCall::Size);
}

fn certificates<C: Calls>(to: &mut Recorder<C>) {
    to.part("Certificates of each kind, to a station and to an observer: 9 below two thirds of the weight, else taken");
    for (weights, enough, few) in EDGES {
        to.open_weighed(BOOK, weights, 0, &[0]);
        to.open_weighed_observer(WATCH, weights, 1);
        for mask in [few, enough] {
            let frames = [page(mask, &first(1, &[])), blank(mask, 1), finalise(mask, 1)];
            deliver(to, BOOK, &frames);
            observe(to, WATCH, &frames);
        }
    }
    to.remark("Sixteen of 1,000: eleven are a quorum, ten not");
    to.open_weighed(BOOK, &[1000; 16], 15, &[0]);
    deliver(
        to,
        BOOK,
        &[blank(0x03ff, 1), blank(0x07ff, 1), finalise(0xffc0, 1), finalise(0xffe0, 1)],
    );
}

/// The stations of a mask.
fn members(mask: u16) -> impl Iterator<Item = u8> {
    (0..16).filter(move |&signer| mask.checked_shr(signer.into()).is_some_and(|rest| rest % 2 == 1))
}

fn tallies<C: Calls>(to: &mut Recorder<C>) {
    to.part("Votes for the held page: it is notarised with the vote that makes two thirds of the weight");
    let block = first(1, &[entry("swap A1 B2")]);
    let proposal = Frame::Proposal { signer: 0, block: block.clone() };
    for (weights, enough, few) in EDGES {
        for mask in [few, enough] {
            to.open_weighed(BOOK, weights, 0, &[0]);
            deliver(to, BOOK, std::slice::from_ref(&proposal));
            members(mask).for_each(|signer| deliver(to, BOOK, &[vote(signer, &block)]));
        }
    }
    to.remark("Votes before their proposal: four small stations are no quorum; the large one's vote for it is");
    to.open_weighed(BOOK, &[9, 1, 1, 1], 0, &[0]);
    [1, 2, 3].into_iter().for_each(|signer| deliver(to, BOOK, &[vote(signer, &block)]));
    deliver(to, BOOK, &[proposal.clone(), vote(0, &block)]);
    to.remark("The large one votes for another page: all others together are none");
    to.open_weighed(BOOK, &[9, 1, 1, 1], 0, &[0]);
    deliver(to, BOOK, &[vote(0, &first(1, &[])), proposal]);
    [1, 2, 3].into_iter().for_each(|signer| deliver(to, BOOK, &[vote(signer, &block)]));
}

fn blanks<C: Calls>(to: &mut Recorder<C>) {
    to.part("Blank votes: the height is blank, passes and gives its certificate by weight");
    for (weights, enough, few) in EDGES {
        for mask in [few, enough] {
            to.open_weighed(BOOK, weights, 1, &[0]);
            members(mask)
                .for_each(|signer| deliver(to, BOOK, &[Frame::DummyVote { signer, height: 1 }]));
            to.make(Call::Fetch { kind: 6, height: 1 }, BOOK, REPLY);
            moves(to, BOOK);
        }
    }
}

fn settling<C: Calls>(to: &mut Recorder<C>) {
    to.part("Finalises: the height settles and gives its certificate by weight; an observer's by certificates");
    let block = first(1, &[entry("swap A1 B2")]);
    for (weights, enough, few) in EDGES {
        to.open_weighed(BOOK, weights, 1, &[0]);
        deliver(to, BOOK, &[page(enough, &block)]);
        let (before, missing) = (few, enough & !few);
        for mask in [before, missing] {
            members(mask)
                .for_each(|signer| deliver(to, BOOK, &[Frame::Finalize { signer, height: 1 }]));
            to.make(Call::Fetch { kind: 7, height: 1 }, BOOK, REPLY);
            to.make(Call::Move, BOOK, REPLY);
        }
        to.open_weighed_observer(WATCH, weights, 1);
        observe(to, WATCH, &[page(enough, &block), finalise(few, 1)]);
        to.observer(WATCH, ObserverCall::Move);
        observe(to, WATCH, &[finalise(enough, 1)]);
        to.observer(WATCH, ObserverCall::Move);
    }
}

fn orders<C: Calls>(to: &mut Recorder<C>) {
    to.part("An absent station is 5 before the mask is weighed; no quorum is 9 before 10, though it be one by number");
    let (one, other) = (first(1, &[]), first(1, &[entry("other")]));
    to.open_weighed(BOOK, &[9, 1, 1, 1], 0, &[0]);
    to.open_weighed_observer(WATCH, &[9, 1, 1, 1], 1);
    let frames = [
        blank(0b10001, 1),
        blank(0b10000, 1),
        blank(0x8000, 1),
        page(1, &one),
        page(14, &other),
        page(14, &one),
        page(9, &other),
        page(9, &one),
    ];
    deliver(to, BOOK, &frames);
    observe(to, WATCH, &frames);
    to.remark("A packet counts them so");
    to.packet(BOOK, &frames.map(|frame| frame.bytes()));
}

fn same_weights<C: Calls>(to: &mut Recorder<C>) {
    to.part("One certificate over two books: 1, 2 and 3 are a quorum of equal weights, and none where 0 weighs nine");
    for weights in [[1, 1, 1, 1], [9, 1, 1, 1]] {
        to.open_weighed(BOOK, &weights, 0, &[1]);
        to.open_weighed_observer(WATCH, &weights, 1);
        deliver(to, BOOK, &[blank(14, 1)]);
        observe(to, WATCH, &[blank(14, 1)]);
    }
}

fn alone<C: Calls>(to: &mut Recorder<C>) {
    to.part("A station that is a quorum alone passes and settles by its own frames; the others wait for it");
    to.open_weighed(BOOK, &[9, 1, 1, 1], 0, &[0, 0]);
    [1, 2].into_iter().for_each(|number| _ = submit(to, BOOK, numbered(number)));
    moves_with_own_frames(to, BOOK);
    to.give("register", vec![0xbb; 48]);
    to.make(Call::Read, BOOK, "register");
    to.open_weighed(BOOK, &[9, 1, 1, 1], 2, &[2, 0]);
    moves_with_own_frames(to, BOOK);
    deliver(to, BOOK, &[1, 3].map(|signer| vote(signer, &first(1, &[]))));
    moves(to, BOOK);
    deliver(to, BOOK, &[vote(0, &first(1, &[]))]);
    moves(to, BOOK);
}
