//! Submit, register size and read, and the fetched certificates.

use crate::common::*;
use reference::Move;

/// Entries 1 and 2 at height 1, none at 2, entries 3 and 1 at height 3; all of it finalized.
fn logged_book() -> Vec<u8> {
    let mut book = new_book(4, 2, &[0, 1, 0]);
    let first = block(1, 0, ZERO, &[entry(1), entry(2)]);
    let third = block_on(3, &first, &[entry(3), entry(1)]);
    deliver_all(&mut book, &[block_certificate(7, &first), block_certificate(11, &third)]);
    deliver_all(&mut book, &[dummy_certificate(13, 2), finalize_certificate(14, 3)]);
    book
}

#[test]
fn the_log_is_the_chain_at_the_finalized_height() {
    let mut book = logged_book();
    assert_eq!((RULES.size(&book), log_of(&book)), (Ok(0), vec![]));
    assert_eq!(one_move(&mut book).0, Move::Final { height: 3 });
    assert_eq!(RULES.size(&book), Ok(48));
    assert_eq!(log_of(&book), [1, 2, 3].map(entry).concat());
}

#[test]
fn read_returns_the_front_or_nothing() {
    let mut book = logged_book();
    one_move(&mut book);
    let mut buffer = [0xaa; 70];
    assert_eq!(RULES.read(&book, &mut buffer), [1, 2, 3].map(entry).concat());
    assert_eq!(buffer[48..], [0xaa; 22]);
    let mut exact = [0xaa; 48];
    assert_eq!(RULES.read(&book, &mut exact).len(), 48);
    let mut short = [0xaa; 47];
    assert_eq!(RULES.read(&book, &mut short), []);
    assert_eq!(short, [0xaa; 47]);
    book[7] = 255;
    let mut buffer = [0xaa; 70];
    assert_eq!(RULES.read(&book, &mut buffer), []);
    assert_eq!(buffer, [0xaa; 70]);
}

#[test]
fn an_empty_log_is_read_into_nothing() {
    assert_eq!(RULES.read(&new_book(4, 2, &[0]), &mut []), []);
}

#[test]
fn submit_appends_and_drops_what_is_logged() {
    let mut book = logged_book();
    for tag in [5, 1, 6, 3, 7] {
        RULES.submit(&mut book, &entry(tag)).unwrap();
    }
    assert_eq!(book[6], 5);
    assert_eq!(book[PENDING..PENDING + 80], [5, 1, 6, 3, 7].map(entry).concat());
    one_move(&mut book);
    book[PENDING + 80..CONTENTS].fill(0x5a);
    assert_eq!(RULES.submit(&mut book, &entry(2)), Err(13));
    assert_eq!(RULES.submit(&mut book, &entry(1)), Err(13));
    assert_eq!((book[6], book[PENDING + 80]), (5, 0x5a));
    RULES.submit(&mut book, &entry(8)).unwrap();
    assert_eq!(book[6], 4);
    assert_eq!(book[PENDING..PENDING + 64], [5, 6, 7, 8].map(entry).concat());
    assert!(book[PENDING + 64..CONTENTS].iter().all(|&byte| byte == 0));
}

#[test]
fn a_full_list_makes_room_when_one_is_logged() {
    let mut book = logged_book();
    (100..132).for_each(|tag| RULES.submit(&mut book, &entry(tag)).unwrap());
    assert_eq!((book[6], RULES.submit(&mut book, &entry(99))), (32, Err(12)));
    book[PENDING..PENDING + 16].copy_from_slice(&entry(2));
    assert_eq!(RULES.submit(&mut book, &entry(99)), Err(12));
    one_move(&mut book);
    assert_eq!(RULES.submit(&mut book, &entry(99)), Ok(()));
    assert_eq!((book[6], &book[PENDING..PENDING + 16]), (32, &entry(101)[..]));
    assert_eq!(book[CONTENTS - 16..CONTENTS], entry(99));
}

#[test]
fn an_entry_of_zeros_is_an_entry() {
    let mut book = new_book(4, 2, &[0]);
    assert_eq!(RULES.submit(&mut book, &[0; 16]), Ok(()));
    assert_eq!((book[6], RULES.submit(&mut book, &[0; 16])), (1, Err(13)));
}

#[test]
fn fetch_writes_what_the_book_holds() {
    let book = logged_book();
    let first = block(1, 0, ZERO, &[entry(1), entry(2)]);
    let cases = [
        (5, 1, block_certificate(7, &first)),
        (6, 2, dummy_certificate(13, 2)),
        (7, 3, finalize_certificate(14, 3)),
    ];
    for (kind, height, expected) in cases {
        let mut reply = [0xaa; 230];
        assert_eq!(RULES.fetch(&book, kind, height, &mut reply), Ok(()));
        assert_eq!(reply[..224], expected);
        assert_eq!(reply[224..], [0xaa; 6]);
    }
}

#[test]
fn fetch_gives_a_block_that_is_not_linked() {
    let mut book = new_book(4, 2, &[0, 1]);
    let loose = block(2, 1, [3; 32], &[]);
    deliver_all(&mut book, &[block_certificate(7, &loose)]);
    let mut reply = [0; 224];
    assert_eq!(RULES.fetch(&book, 5, 2, &mut reply), Ok(()));
    assert_eq!(reply, block_certificate(7, &loose));
}

/// An entry of its own for each height and place.
fn other_entry(height: u8, at: u8) -> [u8; 16] {
    let mut entry = entry(height);
    entry[15] = at;
    entry
}

#[test]
fn the_longest_log() {
    let mut book = new_book(1, 0, &[0; 63]);
    let entries = |height: u8| std::array::from_fn::<_, 8, _>(|at| other_entry(height, at as u8));
    let mut last = block(1, 0, ZERO, &entries(1));
    deliver_all(&mut book, &[block_certificate(1, &last)]);
    for (height, tag) in (2..=63).zip(2..) {
        last = block_on(height, &last, &entries(tag));
        deliver_all(&mut book, &[block_certificate(1, &last)]);
    }
    deliver_all(&mut book, &[finalize(0, 63)]);
    assert_eq!(one_move(&mut book).0, Move::Final { height: 63 });
    assert_eq!(RULES.size(&book), Ok(63 * 8 * 16));
    assert_eq!(log_of(&book), (1..=63).flat_map(entries).collect::<Vec<_>>().concat());
    assert_eq!(moves(&mut book).len(), 63);
    assert_eq!(book[CURRENT], 64);
}
