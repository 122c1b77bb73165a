//! Entries that a chain carries more than once: the log of stations and of observers has each at its first place.

use crate::common::observer::*;
use crate::common::*;
use reference::Move;

/// The pages of heights 1, 2 and so on, each on the one before, with these entries.
fn pages(entries: &[&[[u8; 16]]]) -> Vec<Block> {
    let mut pages: Vec<Block> = Vec::new();
    for (height, entries) in (1..).zip(entries) {
        pages.push(match pages.last() {
            Some(below) => block_on(height, below, entries),
            None => block(height, 0, ZERO, entries),
        });
    }
    pages
}

/// The certificates of pages, and those that settle the last one.
fn certificates(pages: &[Block]) -> Vec<FrameBytes> {
    let last = pages.last().map_or(0, |page| height_in(&page[..2]));
    let mut frames: Vec<_> = pages.iter().map(|page| block_certificate(7, page)).collect();
    frames.push(finalize_certificate(7, last));
    frames
}

/// A station's book and an observer's in which these certificates have settled something.
fn settled(heights: Height, frames: &[FrameBytes]) -> (Vec<u8>, Vec<u8>) {
    let mut station = new_book(4, 2, &vec![0; heights.into()]);
    let mut observer = new_observer(4, heights);
    deliver_all(&mut station, frames);
    observe_all(&mut observer, frames);
    assert!(matches!(one_move(&mut station).0, Move::Final { .. }));
    assert_eq!(observer_moves(&mut observer).len(), 1);
    (station, observer)
}

/// Both read these entries, and their size is that of them.
#[track_caller]
fn assert_log(books: &(Vec<u8>, Vec<u8>), expected: &[[u8; 16]]) {
    let (station, observer) = books;
    assert_eq!(log_of(station), expected.concat());
    assert_eq!(observed_log(observer), expected.concat());
    assert_eq!(RULES.size(station), Ok(expected.len() * 16));
    assert_eq!(RULES.observer_size(observer), Ok(expected.len() * 16));
}

/// The log of a chain whose pages have these entries.
#[track_caller]
fn assert_shortened(carried: &[&[[u8; 16]]], expected: &[[u8; 16]]) {
    let frames = certificates(&pages(carried));
    assert_log(&settled(carried.len() as Height, &frames), expected);
}

#[test]
fn within_one_page_and_over_two() {
    let [a, b, c] = [1, 2, 3].map(entry);
    assert_shortened(&[&[a, b, a, c]], &[a, b, c]);
    assert_shortened(&[&[a, a, b]], &[a, b]);
    assert_shortened(&[&[a, b], &[b, c, a]], &[a, b, c]);
    assert_shortened(&[&[a], &[b], &[a]], &[a, b]);
    assert_shortened(&[&[a], &[b], &[a, b, a, c, c]], &[a, b, c]);
    assert_shortened(&[&[a, b], &[], &[b, a]], &[a, b]);
}

#[test]
fn the_first_place_counts_and_not_the_last() {
    let [a, b, c] = [1, 2, 3].map(entry);
    assert_shortened(&[&[c, b, a], &[a, b, c]], &[c, b, a]);
    assert_shortened(&[&[a, b], &[a, c]], &[a, b, c]);
}

#[test]
fn all_entries_equal() {
    let one = [entry(9); 8];
    assert_shortened(&[&one], &[entry(9)]);
    assert_shortened(&[&one, &one, &one], &[entry(9)]);
}

#[test]
fn an_entry_of_zeros_is_like_any_other() {
    let (zero, one) = ([0; 16], entry(1));
    assert_shortened(&[&[zero, one]], &[zero, one]);
    assert_shortened(&[&[one, zero, zero]], &[one, zero]);
    assert_shortened(&[&[zero], &[one, zero]], &[zero, one]);
    assert_shortened(&[&[], &[zero; 8]], &[zero]);
}

#[test]
fn one_bit_makes_another_entry() {
    for bit in 0..128 {
        let mut other = entry(1);
        other[bit / 8] ^= 1 << (bit % 8);
        assert_shortened(&[&[entry(1), other, entry(1), other]], &[entry(1), other]);
        assert_shortened(&[&[entry(1)], &[other, entry(1)]], &[entry(1), other]);
    }
}

#[test]
fn over_a_blank_height() {
    let [a, b, c] = [1, 2, 3].map(entry);
    let first = block(1, 0, ZERO, &[a, b]);
    let third = block_on(3, &first, &[b, c, a]);
    let mut frames = certificates(&[first, third]);
    frames.push(dummy_certificate(7, 2));
    assert_log(&settled(3, &frames), &[a, b, c]);
}

#[test]
fn a_page_beside_the_chain_makes_no_repeat() {
    let [a, b] = [1, 2].map(entry);
    let (beside, first) = (block(1, 0, ZERO, &[a, b]), block(2, 0, ZERO, &[b, a, b]));
    let mut frames = certificates(&[beside, first]);
    frames.push(dummy_certificate(7, 1));
    assert_log(&settled(2, &frames), &[b, a]);
}

#[test]
fn read_needs_room_for_the_shortened_log_alone() {
    let [a, b] = [1, 2].map(entry);
    let (station, observer) = settled(2, &certificates(&pages(&[&[a, b, a], &[b, b]])));
    for (length, part) in [(0, 0), (16, 0), (31, 0), (32, 32), (33, 32), (79, 32), (80, 32)] {
        for is_station in [true, false] {
            let mut buffer = vec![0xaa; length];
            let read = match is_station {
                true => RULES.read(&station, &mut buffer),
                false => RULES.observer_read(&observer, &mut buffer),
            };
            assert_eq!(read, &[a, b].concat()[..part], "{length}");
            assert!(buffer[part..].iter().all(|&byte| byte == 0xaa), "{length}");
        }
    }
}

#[test]
fn pages_keep_their_repeats() {
    let [a, b] = [1, 2].map(entry);
    let pages = pages(&[&[a, a], &[b, a]]);
    let (station, observer) = settled(2, &certificates(&pages));
    for (height, page) in (1..).zip(&pages) {
        let mut reply = [0; 224];
        assert_eq!(RULES.fetch(&station, 5, height, &mut reply), Ok(()));
        assert_eq!(reply[48..], *page);
        let at = observer_page(&observer, height as usize);
        assert_eq!(observer[at..at + 176], *page);
    }
}

#[test]
fn submit_goes_by_what_is_in_the_log() {
    let [a, b, c] = [1, 2, 3].map(entry);
    let (mut book, _) = settled(2, &certificates(&pages(&[&[a, a, b], &[b, a]])));
    for entry in [a, b] {
        assert_eq!(RULES.submit(&mut book, &entry), Err(13));
    }
    (0..32).for_each(|at| book[PENDING + 16 * at..][..16].copy_from_slice(&entry(100 + at as u8)));
    book[6] = 32;
    assert_eq!(RULES.submit(&mut book, &c), Err(12));
    for at in [0, 5, 31] {
        book[PENDING + 16 * at..][..16].copy_from_slice(&a);
    }
    RULES.submit(&mut book, &c).unwrap();
    assert_eq!((book[6], &book[PENDING..][..16]), (30, &entry(101)[..]));
    assert_eq!(book[PENDING + 29 * 16..][..16], c);
    assert!(book[PENDING + 30 * 16..CONTENTS].iter().all(|&byte| byte == 0));
}

/// The entries of the proposal that a book with these pages and pending entries makes at height 3.
fn proposed(carried: &[&[[u8; 16]]; 2], settled_height: Height, pending: &[[u8; 16]]) -> Vec<u8> {
    let mut book = new_book(4, 2, &[0, 0, 2]);
    let pages = pages(carried);
    let mut frames: Vec<_> = pages.iter().map(|page| block_certificate(7, page)).collect();
    frames.push(finalize_certificate(7, settled_height));
    deliver_all(&mut book, &frames);
    book[6] = pending.len() as u8;
    book[PENDING..][..16 * pending.len()].copy_from_slice(&pending.concat());
    let made: [Move; 3] = std::array::from_fn(|_| one_move(&mut book).0);
    assert_eq!(made[0], Move::Final { height: settled_height });
    assert_eq!(made.map(|made| made.height()), [settled_height, 1, 2]);
    let (made, reply) = one_move(&mut book);
    assert_eq!(made, Move::Offer { height: 3 });
    reply[96..96 + 16 * usize::from(reply[52])].to_vec()
}

#[test]
fn a_proposal_leaves_out_what_its_chain_carries_and_keeps_its_own_repeats() {
    let [a, b, c, d] = [1, 2, 3, 4].map(entry);
    let carried: [&[[u8; 16]]; 2] = [&[a, b, a], &[b, c]];
    for settled_height in [1, 2] {
        assert_eq!(proposed(&carried, settled_height, &[a, d, b, c]), d);
        assert_eq!(proposed(&carried, settled_height, &[d, a, d, c, d]), [d, d, d].concat());
    }
    assert_eq!(proposed(&carried, 1, &[d; 32]), [d; 8].concat());
}

#[test]
fn a_pool_with_an_entry_twice_is_read_once() {
    let [a, d] = [1, 4].map(entry);
    let mut book = new_book(1, 0, &[0, 0]);
    book[6] = 3;
    book[PENDING..][..48].copy_from_slice(&[d, a, d].concat());
    assert!(is_sound(&book));
    let mut made = Move::Final { height: 0 };
    while made != Move::Idle {
        let reply;
        (made, reply) = one_move(&mut book);
        let frames = reply.as_chunks::<224>().0;
        frames.iter().take(made.frames()).for_each(|frame| _ = RULES.deliver(&mut book, frame));
    }
    let carried = body(&book, 1) + 176 + 48;
    assert_eq!((book[FINALIZED], book[carried - 44]), (2, 3));
    assert_eq!(book[carried..carried + 48], [d, a, d].concat());
    assert_eq!((RULES.size(&book), log_of(&book)), (Ok(32), [d, a].concat()));
}

#[test]
fn every_log_begins_those_that_follow() {
    let mut random = random::Random::new(5);
    for _ in 0..200 {
        let carried: Vec<Vec<[u8; 16]>> = (0..6)
            .map(|_| (0..random.below(9)).map(|_| entry(random.below(12) as u8)).collect())
            .collect();
        let carried: Vec<&[[u8; 16]]> = carried.iter().map(Vec::as_slice).collect();
        let logs: Vec<Vec<u8>> = (1..=carried.len())
            .map(|height| {
                let pages = pages(&carried[..height]);
                log_of(&settled(height as Height, &certificates(&pages)).0)
            })
            .collect();
        assert!(logs.windows(2).all(|two| two[1].starts_with(&two[0])));
    }
}
