//! Any bytes and any numbers on an observer: no call panics, a refused one changes nothing, sound books stay so.

use crate::common::observer::*;
use crate::common::random::Random;
use crate::common::*;
use reference::{observer_book_length, Delivered, Move};

/// A number that sits on a limit, or any other.
fn any_number(random: &mut Random) -> u64 {
    let near = [0, 1, 4, 16, 17, 63, 64, 256, 257, 1000, 1001, 65_537, u64::MAX];
    match random.below(3) {
        0 => random.next(),
        _ => near[random.below(near.len())],
    }
}

/// A certificate for a book of so many replicas and heights, now and then with some bytes changed.
fn any_frame(random: &mut Random, n: u8, heights: Height) -> Vec<u8> {
    let height = random.below(usize::from(heights) + 2) as Height;
    let all = ((1_u32 << n) - 1) as u16;
    let mask = if random.one_in(3) { all & random.next() as u16 } else { all };
    let block = match height > 1 && random.one_in(2) {
        true => block_on(height, &block(1, 0, ZERO, &[entry(1)]), &[entry(2)]),
        false => block(height, 0, ZERO, &[entry(1)]),
    };
    let mut frame = match random.below(5) {
        0 => block_certificate(mask, &block),
        1 => dummy_certificate(mask, height),
        2 => finalize_certificate(mask, height),
        3 => vote_for(random.byte(), &block),
        _ => block_certificate(all, &block),
    }
    .to_vec();
    if random.one_in(4) {
        let at = random.below(224);
        frame[at] = random.byte() >> random.below(8);
    }
    if random.one_in(30) {
        frame.resize(random.below(500), 0);
    }
    frame
}

/// Makes calls at random and checks what holds for each of them; how many were not refused.
fn try_calls(random: &mut Random, book: &mut [u8], calls: usize) -> usize {
    let mut taken = 0;
    for _ in 0..calls {
        let (before, was_sound) = (book.to_vec(), is_sound_observer(book));
        let (n, heights) = match was_sound {
            true => (book[0], heights_of(book) as Height),
            false => (4, 3),
        };
        let answer = match random.below(8) {
            0 => {
                let (n, heights) = (any_number(random), any_number(random));
                RULES.observer_open(book, n, heights, &ones(n)).map(|()| true)
            }
            1..=4 => {
                let frame = any_frame(random, n, heights);
                RULES.observer_deliver(book, &frame).map(|answer| answer == Delivered::Fresh)
            }
            5 | 6 => RULES.observer_move(book).map(|made| made != Move::Idle),
            _ => RULES.observer_size(book).map(|_| false),
        };
        assert!(was_sound || answer != Ok(false), "only open takes a book that is not sound");
        if answer != Ok(true) {
            assert_eq!(book, before);
        }
        assert!(answer.is_err() || is_sound_observer(book));
        taken += usize::from(answer.is_ok());
    }
    taken
}

#[test]
fn random_bytes_as_books() {
    let mut random = Random::new(31);
    for _ in 0..3000 {
        let length = match random.below(3) {
            0 => random.below(1200),
            _ => observer_book_length(random.below(5) as Height),
        };
        let mut book = random.bytes(length);
        if length > 63 && random.one_in(2) {
            let heights = (length.saturating_sub(64) / 184).max(1);
            book[..64].copy_from_slice(&new_observer(4, heights as Height)[..64]);
        }
        try_calls(&mut random, &mut book, 6);
        let mut buffer = vec![0xaa; random.below(200)];
        let part = RULES.observer_read(&book, &mut buffer).len();
        assert!(buffer[part..].iter().all(|&byte| byte == 0xaa));
    }
}

#[test]
fn books_with_a_few_bytes_changed() {
    let mut random = Random::new(32);
    let mut taken = 0;
    for _ in 0..800 {
        let (n, heights) = (1 + random.below(16) as u8, 1 + random.below(6) as Height);
        let mut book = new_observer(n.into(), heights);
        for _ in 0..random.below(12) {
            let frame = any_frame(&mut random, n, heights);
            _ = RULES.observer_deliver(&mut book, &frame);
        }
        for _ in 0..random.below(3) {
            let bound = if random.one_in(2) { 64 } else { book.len() };
            let at = random.below(bound);
            book[at] = random.byte() >> random.below(8);
        }
        taken += try_calls(&mut random, &mut book, 15);
    }
    assert!(taken > 2000, "{taken}");
}

/// What a delivery changes is the row and the page of its height; a move, the finalized height.
#[test]
fn nothing_else_changes() {
    let mut random = Random::new(33);
    let mut fresh = 0;
    for _ in 0..400 {
        let mut book = new_observer(4, 5);
        for _ in 0..20 {
            let (frame, before) = (any_frame(&mut random, 4, 5), book.clone());
            if RULES.observer_deliver(&mut book, &frame) == Ok(Delivered::Fresh) {
                fresh += 1;
                let height = usize::from(height_in(&frame[2..4]));
                let (row, page) = (observer_row(height), observer_page(&book, height));
                let concerned =
                    |at: usize| (row..row + 8).contains(&at) || (page..page + 176).contains(&at);
                assert!((0..book.len()).all(|at| concerned(at) || book[at] == before[at]));
            }
            let before = book.clone();
            RULES.observer_move(&mut book).unwrap();
            assert!((0..book.len()).all(|at| at == FINALIZED || book[at] == before[at]));
        }
    }
    assert!(fresh > 2000, "{fresh}");
}
