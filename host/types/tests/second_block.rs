//! A second block of a leader, told by looking at a book and a frame of any bytes.

use types::{book_length, field, held_block, is_second_block, put_head_height};
use types::{Area, Block, Frame, Height, Layout, ENTRY, FRAME};

/// A block of a height with one entry of this byte alone.
fn block(height: Height, byte: u8) -> Block {
    Block { height, entries: [[byte; ENTRY]].into(), ..Block::default() }
}

fn proposal(height: Height, byte: u8) -> [u8; FRAME] {
    Frame::Proposal { signer: 0, block: block(height, byte) }.bytes()
}

/// A book of two heights in which block 1 of height 2 is held.
fn book() -> Vec<u8> {
    let mut book = vec![0; book_length(2)];
    put_head_height(&mut book, field::HEIGHTS, 2);
    let layout = Layout::new(2);
    book[layout.area(2, Area::Row).start + 1] = 1;
    book[layout.area(2, Area::Held)].copy_from_slice(&block(2, 1).bytes());
    book
}

#[test]
fn another_block_than_the_held_one_is_told() {
    assert!(is_second_block(&book(), &proposal(2, 2)));
    assert!(!is_second_block(&book(), &proposal(2, 1)));
    assert_eq!(held_block(&book(), 2), Some(&block(2, 1).bytes()));
}

#[test]
fn where_none_is_held_there_is_no_second() {
    assert!(!is_second_block(&book(), &proposal(1, 2)));
    let mut free = book();
    free[Layout::new(2).area(2, Area::Row).start + 1] = 2;
    assert!(!is_second_block(&free, &proposal(2, 2)));
}

#[test]
fn other_frames_and_other_bytes_are_none() {
    let certificate = Frame::BlockCertificate { mask: 7, block: block(2, 2) }.bytes();
    assert!(!is_second_block(&book(), &certificate));
    let longer = [&proposal(2, 2)[..], &[0]].concat();
    for frame in [&[][..], &longer[..FRAME - 1], &longer] {
        assert!(!is_second_block(&book(), frame));
    }
    for height in [0, 3, 258, Height::MAX] {
        assert!(!is_second_block(&book(), &proposal(height, 2)));
        assert_eq!(held_block(&book(), height), None);
    }
    assert!(!is_second_block(&[], &proposal(2, 2)));
}
