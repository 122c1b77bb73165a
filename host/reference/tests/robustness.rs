//! Any bytes and any numbers: no call panics, a refused one changes nothing, sound books stay so.

use crate::common::random::Random;
use crate::common::random_book::{random_block, random_book, random_entry, random_mask};
use crate::common::*;
use reference::sha256::digest;

/// Numbers that sit on limits, and others.
fn any_number(random: &mut Random) -> u64 {
    let near = [0, 1, 2, 4, 5, 6, 7, 8, 15, 16, 17, 63, 64, 255, 256, 257, u64::MAX];
    match random.below(3) {
        0 => random.next(),
        1 => near[random.below(near.len())],
        _ => random.below(9) as u64,
    }
}

/// A frame that a book of this kind may well take, or one with a few bytes changed.
fn any_frame(random: &mut Random, book: &[u8]) -> Vec<u8> {
    let [n, heights] = [0, HEIGHTS].map(|at| book.get(at).copied().unwrap_or(0));
    let (n, heights) = (n.clamp(1, 16), heights.clamp(1, 7));
    let (signer, height) =
        (random.below(n.into()) as u8, 1 + random.below(heights.into()) as Height);
    let fits = is_sound(book);
    let block = match fits {
        true => random_block(book, random, height, digest),
        false => block(height, 0, ZERO, &[]),
    };
    let leader = if fits { book[row(height.into())] } else { signer };
    let mut frame = match random.below(7) {
        0 => proposal(leader, &block),
        1 => vote_for(signer, &block),
        2 => dummy_vote(signer, height),
        3 => finalize(signer, height),
        4 => block_certificate(random_mask(random, n), &block),
        5 => dummy_certificate(random_mask(random, n), height),
        _ => finalize_certificate(random_mask(random, n), height),
    }
    .to_vec();
    if random.one_in(3) {
        let bound = if random.one_in(2) { 6 } else { 224 };
        let at = random.below(bound);
        frame[at] = random.byte() >> random.below(8);
    }
    if random.one_in(30) {
        frame.resize(random.below(500), 0);
    }
    frame
}

/// The kinds of call with their buffers; returns whether the call was refused.
fn any_call(random: &mut Random, book: &mut [u8], reply: &mut [u8]) -> bool {
    match random.below(9) {
        0 => {
            let heights = any_number(random);
            let length = if random.one_in(2) { heights % 70 } else { 3 };
            let leaders = random.bytes(length as usize);
            let (n, own) = (any_number(random), any_number(random));
            let weights = if random.one_in(4) { random.bytes(length as usize) } else { ones(n) };
            RULES.open(book, n, own, heights, &weights, &leaders).is_err()
        }
        1 | 2 => {
            let frame = any_frame(random, book);
            RULES.deliver(book, &frame).is_err()
        }
        3 | 4 => RULES.make_move(book, reply).is_err(),
        5 => {
            let current = book.get(CURRENT).map_or(0, |&current| u64::from(current));
            let height = if random.one_in(2) { any_number(random) } else { current };
            RULES.signal(book, height).is_err()
        }
        6 => {
            let entry =
                if random.one_in(9) { random.bytes(17) } else { random_entry(random).to_vec() };
            RULES.submit(book, &entry).is_err()
        }
        7 => {
            let count = random.below(4);
            let frames: Vec<_> = (0..count).map(|_| any_frame(random, book)).collect();
            RULES.packet(book, &frames.concat()).is_err()
        }
        _ => RULES.fetch(book, any_number(random), any_number(random), reply).is_err(),
    }
}

/// Calls at random; checks what holds for every call.
fn try_calls(random: &mut Random, book: &mut [u8], calls: usize) -> usize {
    let mut taken = 0;
    for _ in 0..calls {
        let length = [0, 223, 224, 447, 448, 600][random.below(6)];
        let mut reply = vec![0xaa; length];
        let (before, was_sound) = (book.to_vec(), is_sound(book));
        let refused = any_call(random, book, &mut reply);
        let opened = before.get(EDITION) != book.get(EDITION);
        if refused {
            assert_eq!(book, before);
            assert!(reply.iter().all(|&byte| byte == 0xaa));
        } else {
            assert!(is_sound(book));
            assert!(!opened || book[EDITION] == 3);
            taken += 1;
        }
        assert!(reply.iter().skip(448).all(|&byte| byte == 0xaa));
        assert!(!was_sound || is_sound(book));
    }
    taken
}

#[test]
fn random_bytes_as_books() {
    let mut random = Random::new(3);
    for _ in 0..3000 {
        let length = match random.below(3) {
            0 => random.below(3000),
            _ => reference::book_length(random.below(5) as Height),
        };
        let mut book = random.bytes(length);
        if length > 63 && random.one_in(2) {
            let heights = length.saturating_sub(576) / 880;
            let new = new_book(4, 1, &vec![0; heights.max(1)]);
            book[..64].copy_from_slice(&new[..64]);
        }
        try_calls(&mut random, &mut book, 8);
    }
}

#[test]
fn books_with_a_few_bytes_changed() {
    let mut random = Random::new(4);
    let mut taken = 0;
    for _ in 0..1500 {
        let mut book = random_book(&mut random, digest);
        for _ in 0..random.below(4) {
            let bound = if random.one_in(2) { 64 } else { book.len() };
            let at = random.below(bound);
            book[at] = random.byte() >> random.below(8);
        }
        taken += try_calls(&mut random, &mut book, 20);
    }
    assert!(taken > 3000, "{taken}");
}

#[test]
fn random_bytes_as_frames() {
    let mut random = Random::new(5);
    for _ in 0..5000 {
        let mut book = random_book(&mut random, digest);
        let before = book.clone();
        let mut frame = random.bytes(224);
        frame[0] %= 9;
        if random.one_in(2) {
            frame[3..].fill(0);
        }
        if RULES.deliver(&mut book, &frame).is_err() {
            assert_eq!(book, before);
        }
    }
}

/// Whatever a move or fetch writes is not refused for its form by any book of the same n, H, roll and weights.
#[test]
fn written_frames_are_read() {
    let mut random = Random::new(6);
    let mut count = 0;
    for _ in 0..2000 {
        let mut book = random_book(&mut random, digest);
        let leaders: Vec<u8> = (1..=heights_of(&book)).map(|height| book[row(height)]).collect();
        let mut other = weighed_book(&weights_of(&book), 0, &leaders);
        for _ in 0..6 {
            let mut reply = [0; 448];
            RULES.make_move(&mut book, &mut reply).unwrap();
            for frame in reply.chunks(224).filter(|frame| frame[0] != 0) {
                let answer = RULES.deliver(&mut other, frame);
                assert!(matches!(answer, Ok(_) | Err(8 | 10)), "{answer:?}");
                count += 1;
            }
        }
    }
    assert!(count > 2000, "{count}");
}

#[test]
fn read_never_writes_past_the_log() {
    let mut random = Random::new(7);
    for _ in 0..2000 {
        let mut book = random_book(&mut random, digest);
        moves(&mut book);
        let size = RULES.size(&book).unwrap();
        let mut buffer = vec![0xaa; random.below(2 * size + 20)];
        let length = RULES.read(&book, &mut buffer).len();
        assert_eq!(length, if buffer.len() < size { 0 } else { size });
        assert!(buffer[length..].iter().all(|&byte| byte == 0xaa));
    }
}
