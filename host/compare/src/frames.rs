//! Random frames for a book: mostly ones that it takes, some that it must refuse.

use crate::weights::near_quorum;
use crate::Random;
use exchange::colliding;
use reference::sha256;
use std::sync::LazyLock;
use types::{
    field, head_height, height_at, put_height, Area, Block, Entries, Frame, Height, Layout,
};
use types::{
    Weights, BLOCK, BLOCK_HEIGHT, ENTRY, FRAME, FRAME_HEIGHT, MOST_HEIGHTS, MOST_REPLICAS,
};

/// Where the block in a frame has its height.
const PAGE_HEIGHT: usize = FRAME - BLOCK + BLOCK_HEIGHT;

/// Where a frame and the block in it have the high bytes of their heights.
pub const HIGH_BYTES: [usize; 3] = [FRAME_HEIGHT + 1, PAGE_HEIGHT + 1, PAGE_HEIGHT + 3];

/// The byte of a book at an offset; 0 past the end.
pub fn byte(book: &[u8], at: usize) -> u8 {
    book.get(at).copied().unwrap_or(0)
}

/// An area of a height in a book of any bytes.
pub fn area(book: &[u8], height: Height, area: Area) -> &[u8] {
    let range = Layout::new(head_height(book, field::HEIGHTS)).area(height, area);
    book.get(range).unwrap_or(&[])
}

/// One of few entries, so that repeats are common, now and then one that differs from such a one in one byte. Its
/// first byte is 0 to 3: request 2.13 takes no other.
pub fn any_entry(random: &mut Random) -> [u8; ENTRY] {
    let tags = if random.one_in(4) { 2 } else { 40 };
    let mut entry = [random.byte_below(tags); ENTRY];
    entry[0] %= 4;
    if random.one_in(12) {
        entry[random.index(ENTRY)] ^= 1;
    }
    entry
}

/// A few of the entries that differ and have one place in the filter of the proved replica.
static COLLIDING: LazyLock<[[u8; ENTRY]; 6]> = LazyLock::new(|| std::array::from_fn(colliding));

/// The entries of a block, now and then one entry as often as it has places, or entries that collide.
pub fn any_entries(random: &mut Random) -> Vec<[u8; ENTRY]> {
    let (count, sort) = (random.index(9), random.below(10));
    let first = any_entry(random);
    let other = |random: &mut Random| random.pick(&*COLLIDING).copied().unwrap_or(first);
    match sort {
        0 | 1 => vec![first; count],
        2 => (0..count).map(|_| other(random)).collect(),
        _ => (0..count).map(|_| any_entry(random)).collect(),
    }
}

/// A mask: any, all, all but one, or one that weighs about two thirds; seldom with a bit that names nobody.
pub fn any_mask(random: &mut Random, weights: &Weights) -> u16 {
    let n = u8::try_from(weights.each().len()).unwrap_or(MOST_REPLICAS);
    let [low, high, ..] = random.next_bits().to_be_bytes();
    let any = u16::from_le_bytes([low, high]);
    let all = u16::MAX.checked_shr(16_u32.saturating_sub(n.into())).unwrap_or(0);
    match random.below(16) {
        0 => any,
        1..=3 => any & all,
        4 | 5 => all & !1_u16.checked_shl(random.byte_below(n).into()).unwrap_or(0),
        6..=9 => near_quorum(random, weights),
        _ => all,
    }
}

/// A height: mostly near the current one, seldom outside the book.
pub fn any_height(random: &mut Random, book: &[u8]) -> Height {
    let [last, current] = [field::HEIGHTS, field::CURRENT].map(|at| head_height(book, at));
    let near = current.saturating_add(random.height_below(4)).saturating_sub(1);
    match random.below(24) {
        0 => {
            let outside = [0, last.wrapping_add(1), MOST_HEIGHTS + 1, Height::MAX];
            *random.pick(&[&outside[..], &[current ^ 256, 256, 257]].concat()).unwrap_or(&0)
        }
        1..=5 => random.height_below(last).saturating_add(1),
        _ => near.clamp(1, last.max(1)),
    }
}

/// A block for a height, mostly on the nearest notarized block below it.
pub fn any_block(random: &mut Random, book: &[u8], height: Height) -> Block {
    let notarized =
        |height: &Height| area(book, *height, Area::Row).get(1).is_some_and(|state| state & 2 != 0);
    let parent = match random.below(6) {
        0 => random.height_below(height),
        _ => (1..height).rev().find(notarized).unwrap_or(0),
    };
    let digest = match parent {
        0 => [0; 32],
        _ if random.one_in(24) => [random.byte(); 32],
        _ => sha256::digest(area(book, parent, Area::Notarized)),
    };
    Block { height, parent, digest, entries: Entries::first_of(&any_entries(random)) }
}

/// A block for a height: the held one, the notarized one or another.
pub fn likely_block(random: &mut Random, book: &[u8], height: Height) -> Block {
    let state = area(book, height, Area::Row).get(1).copied().unwrap_or(0);
    let known = match random.below(4) {
        0 | 1 if state & 1 != 0 => area(book, height, Area::Held).first_chunk::<BLOCK>(),
        0..=2 if state & 2 != 0 => area(book, height, Area::Notarized).first_chunk::<BLOCK>(),
        _ => None,
    };
    known.map_or_else(|| any_block(random, book, height), Block::parts)
}

/// A frame of any kind.
pub fn any_frame(random: &mut Random, book: &[u8]) -> Frame {
    let n = byte(book, field::N);
    let height = any_height(random, book);
    let signer = if random.one_in(24) { random.byte() } else { random.byte_below(n) };
    let mask = any_mask(random, &Weights::of(book));
    let block = likely_block(random, book, height);
    let leader = byte(area(book, height, Area::Row), 0);
    match random.below(16) {
        0..=2 if random.one_in(16) => Frame::Proposal { signer, block },
        0..=2 => Frame::Proposal { signer: leader, block },
        3..=6 => {
            let digest = sha256::digest(&block.bytes());
            Frame::BlockVote { signer, height, digest }
        }
        7..=9 => Frame::DummyVote { signer, height },
        10 | 11 => Frame::Finalize { signer, height },
        12 | 13 => Frame::BlockCertificate { mask, block },
        14 => Frame::DummyCertificate { mask, height },
        _ => Frame::FinalizeCertificate { mask, height },
    }
}

/// A frame in which several things may be wrong at once, so that the order of refusals shows.
fn odd_frame(random: &mut Random, book: &[u8]) -> [u8; FRAME] {
    let (n, last) = (byte(book, field::N), head_height(book, field::HEIGHTS));
    let mut frame = any_frame(random, book).bytes();
    let (signed, height) = (frame[0] < 5, height_at(&frame, FRAME_HEIGHT));
    if random.one_in(2) {
        let other = *random.pick(&[0, 1, last, last.wrapping_add(1)]).unwrap_or(&0);
        put_height(&mut frame, FRAME_HEIGHT, other);
        if height_at(&frame, PAGE_HEIGHT) == height && !random.one_in(4) {
            put_height(&mut frame, PAGE_HEIGHT, other);
        }
    }
    if random.one_in(4) {
        let high = *random.pick(&HIGH_BYTES).unwrap_or(&0);
        frame[high] ^= 1;
    }
    if signed && random.one_in(2) {
        frame[1] = *random.pick(&[0, n.wrapping_sub(1), n, 16, 255]).unwrap_or(&0);
    }
    if !signed && random.one_in(2) {
        let above = 1_u16.checked_shl(n.into()).unwrap_or(0);
        let mask = *random.pick(&[0, 1, above, above | 1, u16::MAX]).unwrap_or(&0);
        frame[4..6].copy_from_slice(&mask.to_le_bytes());
    }
    frame
}

/// The bytes of a frame, now and then with a byte changed or of another length.
pub fn any_frame_bytes(random: &mut Random, book: &[u8]) -> Vec<u8> {
    if random.one_in(10) {
        return odd_frame(random, book).to_vec();
    }
    let mut frame = any_frame(random, book).bytes().to_vec();
    if random.one_in(12) {
        let at = if random.one_in(2) { random.index(FRAME) } else { random.index(6) };
        frame[at] = random.byte() >> random.below(8);
    }
    if random.one_in(32) {
        let length = [0, 1, 223, 225, 448, random.index(300)];
        frame.resize(*random.pick(&length).unwrap_or(&0), 0);
    }
    frame
}
