//! Books and frames for the tests, put together byte by byte without the library's own writers.

pub mod observer;
pub mod random;
pub mod random_book;

pub use reference::Height;
use reference::{book_length, Move, Rules};

/// The calls.
pub const RULES: Rules = Rules::SHA256;

pub type Block = [u8; 176];
pub type FrameBytes = [u8; 224];
pub const ZERO: [u8; 32] = [0; 32];

/// Where the head of edition 3 has the low bytes of H, the current and the finalized height; the high one follows.
pub const HEIGHTS: usize = 40;
pub const CURRENT: usize = 42;
pub const FINALIZED: usize = 44;

/// Where editions 1 and 2 have these three.
pub const SHORT: [usize; 3] = [2, 4, 5];

/// Where every edition has its flags and its number.
pub const FLAGS: usize = 3;
pub const EDITION: usize = 7;

/// Where the parts of a book begin.
pub const PENDING: usize = 64;
pub const CONTENTS: usize = 576;

/// The bytes of a weight of 1 for each of n replicas, of a few hundred at most.
pub fn ones(n: u64) -> Vec<u8> {
    [1, 0].repeat(n.min(300) as usize)
}

/// The bytes of weights, the low one first.
pub fn weight_bytes(weights: &[u16]) -> Vec<u8> {
    weights.iter().flat_map(|weight| [*weight as u8, (weight >> 8) as u8]).collect()
}

/// The weights of a sound book as read.
pub fn weights_of(book: &[u8]) -> Vec<u16> {
    let at = |replica: usize| u16::from_le_bytes([book[8 + 2 * replica], book[9 + 2 * replica]]);
    let weight = |replica| if book[EDITION] == 1 { 1 } else { at(replica) };
    (0..book[0].into()).map(weight).collect()
}

/// A book of edition 3 in edition 2, a replica's or an observer's; it must have at most 63 heights.
pub fn second_edition(book: &[u8]) -> Vec<u8> {
    let mut second = book.to_vec();
    let long = [HEIGHTS, CURRENT, FINALIZED];
    assert_eq!((book[EDITION], long.map(|at| book[at + 1])), (3, [0; 3]));
    SHORT.iter().zip(long).for_each(|(to, from)| second[*to] = book[from]);
    second[EDITION] = 2;
    second[40..64].fill(0);
    second
}

/// The same book in edition 1; its replicas must all weigh 1.
pub fn first_edition(book: &[u8]) -> Vec<u8> {
    let mut first = if book[EDITION] == 3 { second_edition(book) } else { book.to_vec() };
    assert_eq!((first[EDITION], weights_of(book)), (2, vec![1; book[0].into()]));
    first[EDITION] = 1;
    first[8..40].fill(0);
    first
}

/// Where a book of any edition has the low byte of one of the three heights of its head.
pub fn place_of(book: &[u8], long: usize) -> usize {
    let short = SHORT[[HEIGHTS, CURRENT, FINALIZED].iter().position(|at| *at == long).unwrap()];
    if book[EDITION] == 3 {
        long
    } else {
        short
    }
}

/// The number of heights of a book of any edition.
pub fn heights_of(book: &[u8]) -> usize {
    let high = if book[EDITION] == 3 { book[HEIGHTS + 1] } else { 0 };
    usize::from(book[place_of(book, HEIGHTS)]) + 256 * usize::from(high)
}

/// A new book of replicas of these weights.
pub fn weighed_book(weights: &[u16], own: u64, leaders: &[u8]) -> Vec<u8> {
    let mut book = vec![0xee; book_length(leaders.len() as Height)];
    let (n, heights) = (weights.len() as u64, leaders.len() as u64);
    RULES.open(&mut book, n, own, heights, &weight_bytes(weights), leaders).unwrap();
    book
}

/// A new book.
pub fn new_book(n: u64, own: u64, leaders: &[u8]) -> Vec<u8> {
    weighed_book(&vec![1; n as usize], own, leaders)
}

/// Where a block has the high bytes of its heights.
pub const HIGH_BYTES: [usize; 2] = [1, 3];

/// Where a frame has the high byte of its height.
pub const HIGH_BYTE: usize = 3;

/// A byte of a frame that no kind uses, now or later.
pub const UNUSED: usize = 15;

/// Where the contents row of a height begins.
pub fn row(height: usize) -> usize {
    CONTENTS + 16 * (height - 1)
}

/// Where the body of a height begins; its notarized block is 176 and its votes 352 further on.
pub fn body(book: &[u8], height: usize) -> usize {
    CONTENTS + 16 * heights_of(book) + 864 * (height - 1)
}

/// An entry that differs from those with another tag. Its first byte is 0 to 3: request 2.13 takes no other.
pub fn entry(tag: u8) -> [u8; 16] {
    std::array::from_fn(|at| if at == 0 { tag % 4 } else { tag ^ (at as u8 * 16) })
}

/// Puts a height into its two bytes of a frame or a block.
pub fn put_height(bytes: &mut [u8], height: Height) {
    bytes.copy_from_slice(&[height as u8, (height >> 8) as u8]);
}

/// The height in two bytes of a frame or a block.
pub fn height_in(bytes: &[u8]) -> Height {
    Height::from(bytes[0]) + 256 * Height::from(bytes[1])
}

/// A block of these parts.
pub fn block(height: Height, parent: Height, digest: [u8; 32], entries: &[[u8; 16]]) -> Block {
    let mut block = [0; 176];
    put_height(&mut block[0..2], height);
    put_height(&mut block[2..4], parent);
    block[4] = entries.len() as u8;
    block[16..48].copy_from_slice(&digest);
    for (at, entry) in entries.iter().enumerate() {
        block[48 + 16 * at..64 + 16 * at].copy_from_slice(entry);
    }
    block
}

/// A block on another block, with a digest that fits.
pub fn block_on(height: Height, below: &Block, entries: &[[u8; 16]]) -> Block {
    block(height, height_in(&below[..2]), digest(below), entries)
}

/// The digest of a block.
pub fn digest(block: &Block) -> [u8; 32] {
    reference::sha256::digest(block)
}

/// A frame of these parts.
pub fn frame(kind: u8, signer: u8, height: Height, mask: u16) -> FrameBytes {
    let mut frame = [0; 224];
    (frame[0], frame[1]) = (kind, signer);
    put_height(&mut frame[2..4], height);
    frame[4] = mask as u8;
    frame[5] = (mask >> 8) as u8;
    frame
}

pub fn proposal(signer: u8, block: &Block) -> FrameBytes {
    with_block(frame(1, signer, height_in(&block[..2]), 0), block)
}

pub fn block_vote(signer: u8, height: Height, digest: [u8; 32]) -> FrameBytes {
    let mut frame = frame(2, signer, height, 0);
    frame[16..48].copy_from_slice(&digest);
    frame
}

pub fn vote_for(signer: u8, block: &Block) -> FrameBytes {
    block_vote(signer, height_in(&block[..2]), digest(block))
}

pub fn dummy_vote(signer: u8, height: Height) -> FrameBytes {
    frame(3, signer, height, 0)
}

pub fn finalize(signer: u8, height: Height) -> FrameBytes {
    frame(4, signer, height, 0)
}

pub fn block_certificate(mask: u16, block: &Block) -> FrameBytes {
    with_block(frame(5, 0, height_in(&block[..2]), mask), block)
}

pub fn dummy_certificate(mask: u16, height: Height) -> FrameBytes {
    frame(6, 0, height, mask)
}

pub fn finalize_certificate(mask: u16, height: Height) -> FrameBytes {
    frame(7, 0, height, mask)
}

fn with_block(mut frame: FrameBytes, block: &Block) -> FrameBytes {
    frame[48..].copy_from_slice(block);
    frame
}

/// Delivers frames that must all be fresh.
pub fn deliver_all(book: &mut [u8], frames: &[FrameBytes]) {
    for frame in frames {
        assert_eq!(RULES.deliver(book, frame), Ok(reference::Delivered::Fresh));
    }
}

/// One move with a long enough reply of marked bytes.
pub fn one_move(book: &mut [u8]) -> (Move, [u8; 448]) {
    let mut reply = [0xaa; 448];
    let made = RULES.make_move(book, &mut reply).unwrap();
    (made, reply)
}

/// Moves until idle, with the number of moves bounded by what a book allows.
pub fn moves(book: &mut [u8]) -> Vec<Move> {
    let made = std::iter::repeat_with(|| one_move(book).0);
    made.take_while(|&made| made != Move::Idle).take(1000).collect()
}

/// Whether the book is sound, by the call that has no other refusal.
pub fn is_sound(book: &[u8]) -> bool {
    match RULES.size(book) {
        Ok(_) => true,
        Err(number) => {
            assert_eq!(number, 1);
            false
        }
    }
}

/// The log of a book as bytes.
pub fn log_of(book: &[u8]) -> Vec<u8> {
    let mut buffer = vec![0; 128_000];
    RULES.read(book, &mut buffer).to_vec()
}
