//! The form of frames: every field that a kind does not use, and the form of blocks.

use crate::common::*;
use reference::Delivered;

/// One good frame of each kind for a book of four, with its unused bytes.
fn good_frames() -> Vec<(FrameBytes, Vec<usize>)> {
    let block = block(2, 1, [9; 32], &[entry(1), entry(2)]);
    let (signer, mask, digest, area) = ([1], [4, 5], 16..48, 48..224);
    let other = || 6..16;
    let block_zeros = || (53..64).chain(128..224);
    let bare =
        |rest: Vec<usize>| other().chain(digest.clone()).chain(area.clone()).chain(rest).collect();
    let loaded =
        |rest: Vec<usize>| other().chain(digest.clone()).chain(block_zeros()).chain(rest).collect();
    vec![
        (proposal(1, &block), loaded(mask.to_vec())),
        (block_vote(3, 2, [0x77; 32]), other().chain(area.clone()).chain(mask).collect()),
        (dummy_vote(3, 2), bare(mask.to_vec())),
        (finalize(3, 2), bare(mask.to_vec())),
        (block_certificate(14, &block), loaded(signer.to_vec())),
        (dummy_certificate(14, 2), bare(signer.to_vec())),
        (finalize_certificate(14, 2), bare(signer.to_vec())),
    ]
}

/// Delivers a frame with each of some bytes set to 1, which must be refused with 4.
fn refused_with_one(frame: &FrameBytes, places: impl IntoIterator<Item = usize>) {
    let start = new_book(4, 2, &[0, 1]);
    for at in places {
        let (mut damaged, mut book) = (*frame, start.clone());
        damaged[at] = 1;
        let answer = RULES.deliver(&mut book, &damaged);
        assert_eq!(answer, Err(4), "kind {} byte {at}", frame[0]);
        assert_eq!(book, start);
    }
}

#[test]
fn unused_bytes_are_zero() {
    for (frame, unused) in good_frames() {
        let mut book = new_book(4, 2, &[0, 1]);
        assert_eq!(RULES.deliver(&mut book, &frame), Ok(Delivered::Fresh));
        refused_with_one(&frame, unused);
    }
}

/// With one high byte set a frame's height is not its block's, and the parent is above the block.
#[test]
fn one_high_byte_alone_is_another_height() {
    for (frame, _) in good_frames() {
        let mut high = frame;
        high[HIGH_BYTE] = 1;
        let mut book = new_book(4, 2, &[0, 1]);
        if [1, 5].contains(&frame[0]) {
            refused_with_one(&frame, HIGH_BYTES.map(|at| 48 + at).into_iter().chain([HIGH_BYTE]));
            high[48 + HIGH_BYTES[0]] = 1;
        }
        assert_eq!(RULES.deliver(&mut book, &high), Err(6), "kind {}", frame[0]);
    }
}

/// Delivers a block both ways, as proposal and certified.
#[track_caller]
fn assert_block(block: &Block, height: Height, expected: Result<Delivered, u8>) {
    let start = new_book(4, 2, &[0, 0, 0]);
    for mut frame in [proposal(0, block), block_certificate(7, block)] {
        put_height(&mut frame[2..4], height);
        assert_eq!(RULES.deliver(&mut start.clone(), &frame), expected);
    }
}

#[test]
fn forms_of_blocks() {
    let fresh = Ok(Delivered::Fresh);
    assert_block(&block(2, 1, [1; 32], &[]), 2, fresh);
    assert_block(&block(2, 1, ZERO, &[]), 2, fresh);
    assert_block(&block(2, 0, ZERO, &[[0; 16]; 8]), 2, fresh);
    assert_block(&block(2, 0, [1; 32], &[]), 2, Err(4));
    assert_block(&block(2, 2, [1; 32], &[]), 2, Err(4));
    assert_block(&block(2, 3, [1; 32], &[]), 2, Err(4));
    assert_block(&block(2, 1, [1; 32], &[]), 3, Err(4));
    assert_block(&block(2, 1, [1; 32], &[]), 1, Err(4));
    assert_block(&block(2, 1, [1; 32], &[]), 0, Err(4));
    assert_block(&block(4, 3, [1; 32], &[]), 4, Err(6));
    assert_block(&block(255, 254, [1; 32], &[entry(1)]), 255, Err(6));
    assert_block(&block(255, 255, [1; 32], &[entry(1)]), 255, Err(4));
    assert_block(&[0; 176], 1, Err(4));
}

#[test]
fn counts_of_blocks() {
    let full = block(1, 0, ZERO, &[1, 2, 3, 4, 5, 6, 7, 8].map(entry));
    for count in 0..=255 {
        let mut block = full;
        block[4] = count;
        let expected = if count == 8 { Ok(Delivered::Fresh) } else { Err(4) };
        assert_block(&block, 1, expected);
    }
    let mut high = full;
    high[5] = 1;
    assert_block(&high, 1, Err(4));
}

#[test]
fn numbers_have_their_low_byte_first() {
    let mut book = new_book(16, 2, &[0]);
    let mut frame = dummy_certificate(0, 1);
    (frame[4], frame[5]) = (0xff, 0x07);
    deliver_all(&mut book, &[frame]);
    assert_eq!(book[row(1) + 4..row(1) + 6], [0xff, 0x07]);
}
