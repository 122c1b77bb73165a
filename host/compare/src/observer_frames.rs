//! Random frames for an observer's book: mostly certificates that it takes, some that it must refuse.

use crate::frames::{any_entries, any_frame_bytes, any_mask, byte, HIGH_BYTES};
use crate::Random;
use reference::{is_quorum, sha256};
use types::{field, head_height, mask_at, put_height, Block, Entries, Frame, Height, Weights};
use types::{ObserverArea, ObserverLayout, BLOCK, BLOCK_HEIGHT, FRAME, FRAME_HEIGHT};

/// Where the block in a frame has its height.
const PAGE_HEIGHT: usize = FRAME - BLOCK + BLOCK_HEIGHT;

/// An area of a height in an observer's book of any bytes.
pub fn observed(book: &[u8], height: Height, area: ObserverArea) -> &[u8] {
    let range = ObserverLayout::new(head_height(book, field::HEIGHTS)).area(height, area);
    book.get(range).unwrap_or(&[])
}

/// The bytes of the notarized block of a height, if it has one.
fn notarized(book: &[u8], height: Height) -> Option<&[u8; BLOCK]> {
    let state = byte(observed(book, height, ObserverArea::Row), 0);
    observed(book, height, ObserverArea::Notarized).first_chunk().filter(|_| state == 2)
}

/// The first height of which neither a block nor the dummy block is certified; the last if each is.
fn frontier(book: &[u8]) -> Height {
    let last = head_height(book, field::HEIGHTS);
    let weights = Weights::of(book);
    let dummy =
        |height| is_quorum(mask_at(observed(book, height, ObserverArea::Row), 4), weights.each());
    let open = |height: &Height| notarized(book, *height).is_none() && !dummy(*height);
    (1..=last).find(open).unwrap_or(last)
}

/// A height: mostly near the first open one, seldom outside the book.
fn any_observed_height(random: &mut Random, book: &[u8]) -> Height {
    let last = head_height(book, field::HEIGHTS);
    let near = frontier(book).saturating_add(random.height_below(4)).saturating_sub(2);
    match random.below(24) {
        0 => *random.pick(&[0, last.wrapping_add(1), 256, 257, Height::MAX]).unwrap_or(&0),
        1..=7 => random.height_below(last).saturating_add(1),
        _ => near.clamp(1, last.max(1)),
    }
}

/// A block for a height, mostly on the nearest notarized block below it.
pub fn any_observed_block(random: &mut Random, book: &[u8], height: Height) -> Block {
    let parent = match random.below(6) {
        0 => random.height_below(height),
        _ => (1..height).rev().find(|below| notarized(book, *below).is_some()).unwrap_or(0),
    };
    let digest = match parent {
        0 => [0; 32],
        _ if random.one_in(24) => [random.byte(); 32],
        _ => sha256::digest(observed(book, parent, ObserverArea::Notarized)),
    };
    Block { height, parent, digest, entries: Entries::first_of(&any_entries(random)) }
}

/// A certificate; of a page the notarized one now and then, or one that differs from it.
pub fn any_certificate(random: &mut Random, book: &[u8]) -> Frame {
    let height = any_observed_height(random, book);
    let mask = any_mask(random, &Weights::of(book));
    let known = notarized(book, height).filter(|_| random.one_in(2)).map(Block::parts);
    match random.below(6) {
        0..=2 => {
            let block = known.unwrap_or_else(|| any_observed_block(random, book, height));
            Frame::BlockCertificate { mask, block }
        }
        3 => Frame::DummyCertificate { mask, height },
        _ => Frame::FinalizeCertificate { mask, height },
    }
}

/// A frame of a single signer, of any height and signer.
fn any_statement(random: &mut Random, book: &[u8]) -> Frame {
    let height = any_observed_height(random, book);
    let n = byte(book, field::N);
    let signer = if random.one_in(4) { random.byte() } else { random.byte_below(n) };
    let block = any_observed_block(random, book, height);
    match random.below(4) {
        0 => Frame::Proposal { signer, block },
        1 => Frame::BlockVote { signer, height, digest: sha256::digest(&block.bytes()) },
        2 => Frame::DummyVote { signer, height },
        _ => Frame::Finalize { signer, height },
    }
}

/// A frame in which several things may be wrong at once, so that the order of refusals shows.
fn odd_frame(random: &mut Random, book: &[u8]) -> [u8; FRAME] {
    let (n, last) = (byte(book, field::N), head_height(book, field::HEIGHTS));
    let statement = random.one_in(3);
    let frame = match statement {
        true => any_statement(random, book),
        false => any_certificate(random, book),
    };
    let mut frame = frame.bytes();
    let with_page = [1, 5].contains(&frame[0]);
    if random.one_in(2) {
        let other = *random.pick(&[0, 1, last, last.wrapping_add(1)]).unwrap_or(&0);
        put_height(&mut frame, FRAME_HEIGHT, other);
        if with_page && !random.one_in(4) {
            put_height(&mut frame, PAGE_HEIGHT, other);
        }
    }
    if !statement && random.one_in(2) {
        let above = 1_u16.checked_shl(n.into()).unwrap_or(0);
        let mask = *random.pick(&[0, 1, above, above | 1, u16::MAX]).unwrap_or(&0);
        frame[4..6].copy_from_slice(&mask.to_le_bytes());
    }
    if random.one_in(4) {
        let high = *random.pick(&HIGH_BYTES).unwrap_or(&0);
        frame[high] ^= 1;
    }
    if random.one_in(4) {
        frame[random.index(6)] = *random.pick(&[0, 1, 4, 5, 8]).unwrap_or(&0);
    }
    frame
}

/// The bytes of a frame for an observer, now and then with a byte changed or of another length.
pub fn any_observed_bytes(random: &mut Random, book: &[u8]) -> Vec<u8> {
    match random.below(24) {
        0..=2 => return odd_frame(random, book).to_vec(),
        3 => return any_frame_bytes(random, book),
        _ => {}
    }
    let mut frame = match random.one_in(8) {
        true => any_statement(random, book),
        false => any_certificate(random, book),
    }
    .bytes()
    .to_vec();
    if random.one_in(12) {
        let at = if random.one_in(2) { random.index(FRAME) } else { random.index(6) };
        frame[at] = random.byte() >> random.below(8);
    }
    if random.one_in(32) {
        let length = [0, 1, 223, 225, 448, random.index(300)];
        frame.resize(*random.pick(&length).unwrap_or(&0), 0);
    }
    frame
}
