//! Random packets: frames of all sorts one behind the other, some of them repeated or contradicting one another.

use crate::frames::{any_frame, any_frame_bytes, any_height, area, byte, likely_block};
use crate::Random;
use reference::{sha256, Rules};
use types::{field, Area, Calls, Frame, BLOCK, FRAME};

/// Packets of more frames have counts that do not fit a byte.
pub const BYTE: usize = 255;

/// Where a frame has the last byte of its digest, the count of its page, and a byte of the page's first entry.
const DIGEST: usize = FRAME - BLOCK - 1;
const COUNT: usize = FRAME - BLOCK + 4;
const FIRST_ENTRY: usize = FRAME - BLOCK + 48 + 1;

/// The frames of a packet, in order.
type Frames = Vec<[u8; FRAME]>;

/// A packet, mostly of whole frames.
pub fn any_packet(random: &mut Random, book: &[u8]) -> Vec<u8> {
    let frames = match random.below(24) {
        0 => Vec::new(),
        1 => many(random, book),
        2..=4 => round(random, book),
        5..=7 => again(mixture(random, book)),
        _ => mixture(random, book),
    };
    let mut packet = frames.concat();
    if random.one_in(6) {
        cut(random, &mut packet);
    }
    packet
}

/// Some frames, each made for the book that those before it leave; one in three is any one, and may be refused.
fn mixture(random: &mut Random, book: &[u8]) -> Frames {
    let mut book = book.to_vec();
    let mut frames = Frames::new();
    for _ in 0..random.below(12).saturating_add(1) {
        let frame = match (random.below(6), random.pick(&frames).copied()) {
            (0, Some(before)) => before,
            (1, Some(before)) => contradiction(before),
            (2 | 3, _) => whole(any_frame_bytes(random, &book)),
            _ => any_frame(random, &book).bytes(),
        };
        _ = Calls::deliver(&Rules::SHA256, &mut book, &frame);
        frames.push(frame);
    }
    frames
}

/// The frames twice over: the second time those that were fresh are known.
fn again(frames: Frames) -> Frames {
    frames.repeat(2)
}

/// One frame so often that the counts do not fit a byte.
fn many(random: &mut Random, book: &[u8]) -> Frames {
    let count = BYTE.saturating_add(random.index(4)).saturating_add(1);
    vec![any_frame(random, book).bytes(); count]
}

/// A proposal and the votes of all replicas for it, in any order: the last that is needed notarizes the page.
fn round(random: &mut Random, book: &[u8]) -> Frames {
    let height = any_height(random, book);
    let block = likely_block(random, book, height);
    let (signer, digest) = (byte(area(book, height, Area::Row), 0), sha256::digest(&block.bytes()));
    let vote = |signer| Frame::BlockVote { signer, height, digest }.bytes();
    let mut frames: Frames = (0..byte(book, field::N)).map(vote).collect();
    frames.push(Frame::Proposal { signer, block }.bytes());
    for last in (1..frames.len()).rev() {
        frames.swap(last, random.index(last.saturating_add(1)));
    }
    frames
}

/// The same statement of another page or digest; of a kind that has neither, a byte that must be zero is set.
fn contradiction(mut frame: [u8; FRAME]) -> [u8; FRAME] {
    match (frame[0], frame[COUNT]) {
        (1 | 5, 0) => frame[COUNT] = 1,
        (1 | 5, _) => frame[FIRST_ENTRY] ^= 128,
        _ => frame[DIGEST] ^= 1,
    }
    frame
}

/// The bytes of a frame, cut or filled up with zeros.
fn whole(bytes: Vec<u8>) -> [u8; FRAME] {
    let mut frame = [0; FRAME];
    frame.iter_mut().zip(bytes).for_each(|(to, from)| *to = from);
    frame
}

/// Makes the length no multiple of a frame's, often by one byte.
fn cut(random: &mut Random, packet: &mut Vec<u8>) {
    let length = packet.len();
    match random.below(3) {
        0 => packet.truncate(length.saturating_sub(1)),
        1 => packet.push(random.byte()),
        _ => packet.resize(length.saturating_add(random.index(FRAME)), 0),
    }
}
