//! Heights with a high byte: in frames, in blocks, as arguments and in answers.

use crate::common::observer::*;
use crate::common::*;
use reference::Delivered::Fresh;
use reference::{rehearsal, Move};

/// A new book of so many heights, all led by station 0.
fn book_of(heights: usize) -> Vec<u8> {
    new_book(4, 2, &vec![0; heights])
}

/// The frame with one byte replaced.
fn with(mut frame: FrameBytes, at: usize, byte: u8) -> FrameBytes {
    frame[at] = byte;
    frame
}

/// One frame of each kind without a block.
fn plain_frames(height: Height) -> [FrameBytes; 5] {
    [
        block_vote(1, height, [9; 32]),
        dummy_vote(1, height),
        finalize(1, height),
        dummy_certificate(7, height),
        finalize_certificate(7, height),
    ]
}

/// Byte 3 makes the height 257: over a short book of each edition 6, over a longer one that height and no other.
#[test]
fn the_high_byte_of_a_frame_counts_in_every_edition() {
    let short = book_of(63);
    for book in [first_edition(&short), second_edition(&short), short, book_of(256)] {
        for frame in plain_frames(1) {
            let mut book = book.clone();
            assert_eq!(RULES.deliver(&mut book, &with(frame, 3, 1)), Err(6));
            assert_eq!(RULES.deliver(&mut book, &frame), Ok(Fresh));
        }
    }
    for frame in plain_frames(1) {
        let (start, mut book) = (book_of(257), book_of(257));
        deliver_all(&mut book, &[with(frame, 3, 1)]);
        assert_eq!(book[row(1)..row(257)], start[row(1)..row(257)]);
        assert_ne!(book[row(257)..row(257) + 16], start[row(257)..row(257) + 16]);
    }
}

#[test]
fn observers_read_both_bytes_too() {
    for (heights, answer) in [(63, Err(6)), (256, Err(6)), (257, Ok(Fresh))] {
        let certificate = with(dummy_certificate(7, 1), 3, 1);
        let mut book = new_observer(4, heights);
        assert_eq!(RULES.observer_deliver(&mut book, &certificate), answer);
        assert_eq!(RULES.observer_deliver(&mut book, &with(dummy_vote(1, 1), 3, 1)), Err(16));
    }
    let short = new_observer(4, 63);
    for mut book in [first_edition(&short), second_edition(&short)] {
        let page = block_certificate(7, &block(64, 0, ZERO, &[]));
        assert_eq!(RULES.observer_deliver(&mut book, &page), Err(6));
    }
}

/// In kinds 1 and 5 frame and block agree in both bytes; if they agree in the low one alone, the form is wrong.
#[test]
fn frame_and_block_agree_in_both_bytes() {
    for heights in [63, 300] {
        let one =
            [proposal(0, &block(1, 0, ZERO, &[])), block_certificate(7, &block(1, 0, ZERO, &[]))];
        for frame in one {
            let answers = |frame: FrameBytes| RULES.deliver(&mut book_of(heights), &frame);
            assert_eq!(answers(frame), Ok(Fresh));
            assert_eq!(answers(with(frame, 3, 1)), Err(4));
            assert_eq!(answers(with(frame, 49, 1)), Err(4));
            let both = answers(with(with(frame, 3, 1), 49, 1));
            assert_eq!(both, if heights == 300 { Ok(Fresh) } else { Err(6) });
        }
    }
    for mut book in [book_of(63), first_edition(&book_of(63))] {
        let page = block(64, 63, [1; 32], &[]);
        assert_eq!(RULES.deliver(&mut book, &proposal(0, &page)), Err(6));
        assert_eq!(RULES.deliver(&mut book, &block_certificate(7, &page)), Err(6));
    }
}

/// Height 256 is no height 0, and 0 none that there is.
#[test]
fn height_256_is_a_height() {
    for height in [256, 512] {
        for frame in plain_frames(height) {
            assert_eq!(RULES.deliver(&mut book_of(63), &frame), Err(6));
            assert_eq!(RULES.deliver(&mut book_of(600), &frame), Ok(Fresh));
        }
        let page = block(height, 0, ZERO, &[entry(1)]);
        assert_eq!(RULES.deliver(&mut book_of(600), &proposal(0, &page)), Ok(Fresh));
    }
    assert_eq!(RULES.deliver(&mut book_of(600), &dummy_vote(1, 0)), Err(6));
    assert_eq!(RULES.deliver(&mut book_of(600), &proposal(0, &block(0, 0, ZERO, &[]))), Err(4));
}

/// A parent at 256 is none at 0: the digest may be any, and the block stands on that parent alone.
#[test]
fn parent_256_is_a_parent() {
    let answer = |page: &Block| RULES.deliver(&mut book_of(600), &proposal(0, page));
    assert_eq!(answer(&block(257, 256, [1; 32], &[])), Ok(Fresh));
    assert_eq!(answer(&block(257, 256, ZERO, &[])), Ok(Fresh));
    assert_eq!(answer(&block(257, 0, [1; 32], &[])), Err(4));
    assert_eq!(answer(&block(1, 256, ZERO, &[])), Err(4));
    assert_eq!(answer(&block(256, 256, [1; 32], &[])), Err(4));
    assert_eq!(answer(&block(257, 257, [1; 32], &[])), Err(4));
    assert_eq!(answer(&block(512, 511, [1; 32], &[])), Ok(Fresh));
    assert_eq!(answer(&block(513, 0x0202, [1; 32], &[])), Err(4));
    let mut book = book_of(300);
    let page = block(256, 0, ZERO, &[entry(1)]);
    let on_256 = block_on(257, &page, &[entry(2)]);
    let dummies = (1..256).map(|height| dummy_certificate(7, height));
    let rest = [block_certificate(7, &on_256), finalize_certificate(7, 257)];
    let frames: Vec<_> = dummies.chain(rest).collect();
    RULES.packet(&mut book, &frames.concat()).unwrap();
    assert_eq!(RULES.make_move(&mut book.clone(), &mut [0; 448]).map(|made| made.number()), Ok(3));
    deliver_all(&mut book, &[block_certificate(7, &page)]);
    assert_eq!(one_move(&mut book).0, Move::Final { height: 257 });
    assert_eq!(log_of(&book), [entry(1), entry(2)].concat());
}

/// A number of which some low bytes are a height of the book is no height of it.
#[test]
fn arguments_are_never_cut() {
    for heights in [1, 63, 300] {
        let mut book = book_of(heights);
        deliver_all(&mut book, &[dummy_certificate(7, 1)]);
        for far in [1 << 16, 1 << 32, 1 << 48, 0x7fff << 48] {
            assert_eq!(RULES.signal(&mut book, far | 1), Err(6), "{far}");
            assert_eq!(RULES.fetch(&book, 6, far | 1, &mut [0; 224]), Err(6), "{far}");
            assert_eq!(RULES.fetch(&book, far | 6, 1, &mut [0; 224]), Err(4), "{far}");
        }
        let (signal, fetch) = if heights < 257 { (Err(6), Err(6)) } else { (Err(14), Err(11)) };
        assert_eq!(RULES.signal(&mut book, 257), signal);
        assert_eq!(RULES.fetch(&book, 6, 257, &mut [0; 224]), fetch);
        assert_eq!(RULES.signal(&mut book, 1), Ok(()));
    }
}

/// The book with the current height moved to this one.
fn entered(heights: usize, height: Height) -> Vec<u8> {
    let mut book = book_of(heights);
    put_height(&mut book[CURRENT..CURRENT + 2], height);
    book
}

/// Each move says its height in full, and writes it in full.
#[test]
fn moves_have_heights_of_two_bytes() {
    let mut book = entered(300, 257);
    assert_eq!(RULES.signal(&mut book, 1), Err(14));
    assert_eq!(RULES.signal(&mut book, 257), Ok(()));
    let (made, reply) = one_move(&mut book);
    assert_eq!((made, &reply[..4]), (Move::Dummy { height: 257 }, &[3, 2, 1, 1][..]));
    let dummies: Vec<_> = (1..=257).map(|height| dummy_certificate(7, height)).collect();
    RULES.packet(&mut book, &dummies.concat()).unwrap();
    let (made, reply) = one_move(&mut book);
    assert_eq!((made.number(), made.height(), &reply[..4]), (3, 257, &[6, 0, 1, 1][..]));
    assert_eq!(book[CURRENT..CURRENT + 2], [2, 1]);
    let mut fetched = [0; 224];
    assert_eq!(RULES.fetch(&book, 6, 257, &mut fetched), Ok(()));
    assert_eq!(fetched[..], reply[..224]);
    let mut leader = new_book(4, 0, &[0; 300]);
    put_height(&mut leader[CURRENT..CURRENT + 2], 300);
    let dummies: Vec<_> = (1..=299).map(|height| dummy_certificate(7, height)).collect();
    RULES.packet(&mut leader, &dummies.concat()).unwrap();
    let (made, reply) = one_move(&mut leader);
    assert_eq!(made, Move::Offer { height: 300 });
    assert_eq!((&reply[..4], &reply[48..53]), (&[1, 0, 44, 1][..], &[44, 1, 0, 0, 0][..]));
    deliver_all(&mut leader, &[reply[..224].try_into().unwrap()]);
    assert_eq!(one_move(&mut leader).0, Move::Vote { height: 300 });
}

/// Pages at heights that agree in the low byte are told apart where one refers to the other.
#[test]
fn a_second_page_of_another_height_is_none_of_the_current_one() {
    let mut book = entered(300, 257);
    let pages = [block(1, 0, ZERO, &[entry(1)]), block(257, 0, ZERO, &[entry(2)])];
    deliver_all(&mut book, &pages.map(|page| proposal(0, &page)));
    let other = [block(1, 0, ZERO, &[entry(3)]), block(257, 0, ZERO, &[entry(4)])];
    let [low, high] = other.map(|page| RULES.deliver(&mut book, &proposal(0, &page)));
    assert_eq!((low, high, book[FLAGS]), (Err(8), Ok(Fresh), 1));
}

/// The rehearsal has three heights: byte 3 is a height that is not there, and in kinds 1 and 5 a wrong form unless the
/// block has it too.
#[test]
fn the_rehearsal_denies_by_6() {
    let page = block(1, 0, ZERO, &[]);
    let frames = [
        with(dummy_vote(0, 1), 3, 1),
        with(proposal(0, &page), 3, 1),
        with(with(proposal(0, &page), 3, 1), 49, 1),
        with(block_certificate(7, &page), 3, 2),
        with(with(block_certificate(7, &page), 3, 2), 49, 2),
        with(proposal(0, &page), 49, 1),
        with(proposal(0, &page), 51, 1),
        dummy_vote(0, 1),
    ];
    let mut output = Vec::new();
    rehearsal::rehearse(&frames.concat()[..], &mut output).unwrap();
    let lines = String::from_utf8(output).unwrap();
    let expected = "deny 6\ndeny 4\ndeny 6\ndeny 4\ndeny 6\ndeny 4\ndeny 4\ntake 3 1 0\n";
    assert_eq!(lines, expected);
}
