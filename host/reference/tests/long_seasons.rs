//! Seasons of 1,000 heights: the register is whole, no call digests a block twice, and little stack is enough.

use crate::common::observer::*;
use crate::common::*;
use reference::{book_length, Move, Rules};
use std::cell::Cell;

/// The entries of a height's block: none is another's.
fn entries(height: Height) -> [[u8; 16]; 8] {
    let [low, high] = height.to_le_bytes();
    std::array::from_fn(|at| [0, low, high, at as u8, 1, 1, 1, 1, 1, 1, 1, 1, 1, 1, 1, 1])
}

/// A chain of full blocks from height 1 to the last, each on the one below.
fn straight(heights: Height) -> Vec<Block> {
    let first = block(1, 0, ZERO, &entries(1));
    let grow = |below: &Block| {
        let height = height_in(&below[..2]) + 1;
        (height <= heights).then(|| block_on(height, below, &entries(height)))
    };
    std::iter::successors(Some(first), grow).collect()
}

/// Blocks that all sit on the first one.
fn all_on_the_first(heights: Height) -> Vec<Block> {
    let first = block(1, 0, ZERO, &entries(1));
    let others = (2..=heights).map(|height| block_on(height, &first, &entries(height)));
    std::iter::once(first).chain(others).collect()
}

/// A replica's book with these blocks certified, dummies at all heights if wanted, and these heights finalized.
fn book_with(blocks: &[Block], dummies: bool, finalized: &[Height]) -> Vec<u8> {
    let heights = blocks.len() as Height;
    let mut book = new_book(4, 2, &vec![2; blocks.len()]);
    let pages = blocks.iter().map(|page| block_certificate(7, page));
    let blanks = (1..=heights).filter(|_| dummies).map(|height| dummy_certificate(7, height));
    let finals = finalized.iter().map(|height| finalize_certificate(7, *height));
    let frames: Vec<_> = pages.chain(blanks).chain(finals).collect();
    let counts = RULES.packet(&mut book, &frames.concat()).unwrap();
    assert_eq!(counts.fresh, frames.len() as u64);
    book
}

#[test]
fn a_season_of_1000_heights_is_read_whole() {
    let blocks = straight(1000);
    let mut book = book_with(&blocks, false, &[1000]);
    assert_eq!(book.len(), 880_576);
    assert_eq!(one_move(&mut book).0, Move::Final { height: 1000 });
    assert_eq!(RULES.size(&book), Ok(128_000));
    let log = (1..=1000).flat_map(entries).collect::<Vec<_>>().concat();
    assert_eq!(log_of(&book), log);
    put_height(&mut book[CURRENT..CURRENT + 2], 999);
    let made = [(); 3].map(|()| one_move(&mut book).0);
    assert_eq!(made.map(|made| (made.number(), made.height())), [(3, 999), (3, 1000), (0, 0)]);
    assert_eq!(height_in(&book[CURRENT..]), 1001);
    assert_eq!(RULES.submit(&mut book, &entries(1000)[7]), Err(13));
    let mut observer = new_observer(4, 1000);
    let frames = blocks.iter().map(|page| block_certificate(7, page));
    observe_all(&mut observer, &frames.chain([finalize_certificate(7, 1000)]).collect::<Vec<_>>());
    assert_eq!(observer_moves(&mut observer), [Move::Final { height: 1000 }]);
    assert_eq!(observed_log(&observer), log);
}

thread_local! {
    /// How many digests were made.
    static DIGESTS: Cell<usize> = const { Cell::new(0) };
}

/// SHA-256, counted.
fn counted(bytes: &[u8]) -> [u8; 32] {
    DIGESTS.set(DIGESTS.get() + 1);
    reference::sha256::digest(bytes)
}

/// How many digests a call makes.
fn digests(call: impl FnOnce(Rules)) -> usize {
    DIGESTS.set(0);
    call(Rules::new(counted));
    DIGESTS.get()
}

/// Whatever the blocks name, a call digests each of them at most once, and one more for a frame.
#[test]
fn each_block_is_digested_at_most_once_a_call() {
    let heights = 60;
    let all: Vec<Height> = (1..=heights).collect();
    let straight = straight(heights);
    let mut lower = straight.clone();
    lower[0] = block(1, 0, ZERO, &[]);
    let fan = all_on_the_first(heights);
    let settled = |mut book: Vec<u8>| {
        moves(&mut book);
        book
    };
    for (name, book) in [
        ("a straight chain", book_with(&straight, false, &all)),
        ("the same, settled and passed", settled(book_with(&straight, false, &all))),
        ("nothing linked", book_with(&lower, false, &all)),
        ("nothing settled", book_with(&straight, true, &[])),
        ("all on the first, blanks everywhere", book_with(&fan, true, &all)),
        ("the same, settled and passed", settled(book_with(&fan, true, &all))),
    ] {
        let moved = digests(|rules| _ = rules.make_move(&mut book.clone(), &mut [0; 448]).unwrap());
        let sized = digests(|rules| _ = rules.size(&book).unwrap());
        let submitted = digests(|rules| rules.submit(&mut book.clone(), &entry(1)).unwrap());
        let frame = dummy_vote(0, heights);
        let taken = digests(|rules| _ = rules.deliver(&mut book.clone(), &frame).unwrap());
        for count in [moved, sized, submitted, taken] {
            assert!(count <= usize::from(heights) + 1, "{name}: {count}");
        }
    }
}

/// Every call on the longest chain, on a thread of 512 KB.
#[test]
fn half_a_megabyte_of_stack_is_enough() {
    let long = || {
        let mut book = book_with(&straight(1000), true, &[1000]);
        assert_eq!(one_move(&mut book).0, Move::Final { height: 1000 });
        assert_eq!(RULES.size(&book), Ok(128_000));
        assert_eq!(log_of(&book).len(), 128_000);
        assert_eq!(RULES.submit(&mut book, &entry(1)), Ok(()));
        put_height(&mut book[CURRENT..CURRENT + 2], 1000);
        assert_eq!(one_move(&mut book).0.number(), 3);
        assert_eq!(RULES.signal(&mut book, 1000), Err(14));
        assert!(reference::inspect::inspect(&book).is_ok());
    };
    std::thread::Builder::new().stack_size(512 << 10).spawn(long).unwrap().join().unwrap();
    assert_eq!(book_length(1000), 880_576);
}
