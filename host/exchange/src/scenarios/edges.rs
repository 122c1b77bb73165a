//! The end of the list of corners: fields that a frame does not use, lengths one byte off, a book of 63 heights.

use super::parts::*;
use crate::{equal_weights, Call, Recorder};
use types::{Calls, Frame, MOST_SHORT_HEIGHTS};

/// The one book of the list.
const BOOK: &str = "book";

/// Records these parts.
pub fn run<C: Calls>(to: &mut Recorder<C>) {
    single_bytes(to);
    high_bytes(to);
    one_byte_more(to);
    most_stations(to);
}

/// A frame of each kind.
fn kinds() -> [Frame; 7] {
    let block = first(1, &[]);
    [
        Frame::Proposal { signer: 0, block: block.clone() },
        vote(0, &block),
        Frame::DummyVote { signer: 0, height: 1 },
        Frame::Finalize { signer: 0, height: 1 },
        Frame::BlockCertificate { mask: 7, block },
        Frame::DummyCertificate { mask: 7, height: 1 },
        Frame::FinalizeCertificate { mask: 7, height: 1 },
    ]
}

fn single_bytes<C: Calls>(to: &mut Recorder<C>) {
    to.part("A byte that a frame does not use is 4: for each kind one of every such field");
    to.open(BOOK, 4, 2, &[0]);
    let unused: [&[usize]; 7] = [
        &[6, 5, 15, 47],
        &[6, 5, 15, 223],
        &[6, 5, 15, 47, 223],
        &[6, 5, 15, 47, 223],
        &[1, 6, 15, 47],
        &[1, 6, 15, 47, 223],
        &[1, 6, 15, 47, 223],
    ];
    for (frame, fields) in kinds().iter().zip(unused) {
        fields.iter().for_each(|at| with_one(to, frame, *at));
    }
}

/// The high bytes of heights: byte 3 of a frame, bytes 1 and 3 of its page.
fn high_bytes<C: Calls>(to: &mut Recorder<C>) {
    to.part("The high byte of a height is 6 in a frame of each kind; in kinds 1 and 5 it is 4 unless the page has it");
    for frame in &kinds() {
        with_one(to, frame, 3);
        if matches!(frame, Frame::Proposal { .. } | Frame::BlockCertificate { .. }) {
            [49, 51].into_iter().for_each(|at| with_one(to, frame, at));
            with_ones(to, frame, &[3, 49]);
        }
    }
}

/// Delivers a frame with one byte set.
fn with_one<C: Calls>(to: &mut Recorder<C>, frame: &Frame, at: usize) {
    with_ones(to, frame, &[at]);
}

/// Delivers a frame with some bytes set.
fn with_ones<C: Calls>(to: &mut Recorder<C>, frame: &Frame, places: &[usize]) {
    let mut bytes = frame.bytes();
    let set = bytes.iter_mut().enumerate().filter(|(at, _)| places.contains(at));
    set.for_each(|(_, byte)| *byte = 1);
    to.deliver(BOOK, &bytes);
}

fn one_byte_more<C: Calls>(to: &mut Recorder<C>) {
    to.part(
        "A sound book with one more byte is not sound, and no length but the exact one is opened",
    );
    let mut longer = to.bytes(BOOK).to_vec();
    longer.push(0);
    to.give(BOOK, longer);
    to.make(Call::Size, BOOK, "");
    let weights = equal_weights(4);
    to.make(Call::Open { n: 4, own: 2, heights: 1, weights, leaders: vec![0] }, BOOK, "");
}

fn most_stations<C: Calls>(to: &mut Recorder<C>) {
    to.part("16 stations, 63 heights; station 15 has the last bit of a mask");
    let height = MOST_SHORT_HEIGHTS;
    to.open(BOOK, 16, 15, &[15; MOST_SHORT_HEIGHTS as usize]);
    let (one, last) = (first(1, &[]), first(height, &[]));
    let of_station_15 = [
        Frame::Proposal { signer: 15, block: last.clone() },
        vote(15, &last),
        Frame::DummyVote { signer: 15, height },
        Frame::Finalize { signer: 15, height },
    ];
    deliver(to, BOOK, &of_station_15);
    let of_the_last_eleven = [
        Frame::BlockCertificate { mask: 0xffe0, block: one },
        Frame::DummyCertificate { mask: 0xffe0, height: 2 },
        Frame::FinalizeCertificate { mask: 0xffe0, height: 1 },
    ];
    deliver(to, BOOK, &of_the_last_eleven);
    moves(to, BOOK);
    to.remark("A reply of 224 bytes is enough for fetch");
    to.give("frame", vec![0xaa; types::FRAME]);
    for (kind, height) in [(5, 1), (6, 2), (7, 1)] {
        to.make(Call::Fetch { kind, height }, BOOK, "frame");
    }
}
