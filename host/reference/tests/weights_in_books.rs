//! Weights and editions in the head: what makes a book unsound, and that no call changes an edition.

use crate::common::observer::*;
use crate::common::random::Random;
use crate::common::random_book::random_book;
use crate::common::*;
use reference::Delivered::Fresh;
use reference::Move;

/// A kind of book: how it is opened for weights and whether it is sound.
type Kind = (fn(&[u16]) -> Vec<u8>, fn(&[u8]) -> bool);

const KINDS: [Kind; 2] = [
    (|weights| weighed_book(weights, 0, &[0]), is_sound),
    (|weights| weighed_observer(weights, 1), is_sound_observer),
];

/// The book with one byte replaced.
fn with(book: &[u8], at: usize, byte: u8) -> Vec<u8> {
    let mut book = book.to_vec();
    book[at] = byte;
    book
}

/// The book with another weight of a replica.
fn reweighed(book: &[u8], replica: usize, weight: u16) -> Vec<u8> {
    let [low, high] = weight.to_le_bytes();
    with(&with(book, 8 + 2 * replica, low), 9 + 2 * replica, high)
}

#[test]
fn weights_of_present_replicas_are_1_to_1000() {
    for (open, sound) in KINDS {
        for n in [1, 4, 16] {
            let book = open(&vec![7; n]);
            for replica in 0..n {
                for weight in [1, 2, 255, 256, 512, 999, 1000] {
                    assert!(sound(&reweighed(&book, replica, weight)), "{replica} {weight}");
                }
                for weight in [0, 1001, 1024, 0x0400, 0xff01, 0xffff] {
                    assert!(!sound(&reweighed(&book, replica, weight)), "{replica} {weight}");
                }
            }
        }
    }
}

/// In editions 2 and 3: the bytes of absent replicas, one by one.
#[test]
fn bytes_past_the_weights_are_zero() {
    for (open, sound) in KINDS {
        for (n, second) in (1..=16).flat_map(|n| [(n, false), (n, true)]) {
            let book = open(&vec![1; n]);
            let book = if second { second_edition(&book) } else { book };
            for at in 8 + 2 * n..40 {
                for byte in [1, 0x80, 0xff] {
                    assert!(!sound(&with(&book, at, byte)), "{n} {at}");
                }
            }
        }
    }
}

/// In edition 1: every byte from 8 to 63, also a weight of 1 where a replica is.
#[test]
fn edition_1_has_no_weights() {
    for (open, sound) in KINDS {
        for n in [1, 4, 16] {
            let book = first_edition(&open(&vec![1; n]));
            assert!(sound(&book));
            for at in 8..64 {
                for byte in [1, 2, 0x80] {
                    assert!(!sound(&with(&book, at, byte)), "{n} {at}");
                }
            }
            let mut weighed = book.clone();
            weighed[8..8 + 2 * n].copy_from_slice(&ones(n as u64));
            assert!(!sound(&weighed));
        }
    }
}

/// Another n without another weight: one more has no weight, one fewer leaves a weight of an absent one.
#[test]
fn there_are_n_weights_in_a_book() {
    for (open, sound) in KINDS {
        let book = open(&[3; 5]);
        for n in 0..=17 {
            assert_eq!(sound(&with(&book, 0, n)), n == 5, "{n}");
        }
    }
}

/// The same call on a book in each of the three editions: the answers are alike, and so are the books but for what the
/// head has by edition.
fn alike<T: PartialEq + std::fmt::Debug>(
    books: &mut [Vec<u8>; 3],
    call: impl Fn(&mut Vec<u8>) -> T,
) -> T {
    let [one, two, three] = books.each_mut().map(&call);
    assert_eq!((&one, &one), (&two, &three));
    assert_eq!([first_edition(&books[2]), second_edition(&books[2])], books[..2]);
    one
}

/// A new book in each edition.
fn editions(book: Vec<u8>) -> [Vec<u8>; 3] {
    [first_edition(&book), second_edition(&book), book]
}

/// Every call, on the book of station 2 of 4.
#[test]
fn the_same_book_in_each_edition_answers_alike() {
    let block = block(1, 0, ZERO, &[entry(1)]);
    let mut books = editions(new_book(4, 2, &[0, 2]));
    let frames = [
        proposal(0, &block),
        vote_for(0, &block),
        vote_for(1, &block),
        dummy_certificate(3, 1),
        dummy_certificate(7, 2),
        dummy_vote(9, 1),
        vote_for(3, &block),
        finalize_certificate(13, 1),
        finalize(0, 2),
    ];
    let answers = frames.map(|frame| alike(&mut books, |book| RULES.deliver(book, &frame)).err());
    assert_eq!(answers, [None, None, None, Some(9), None, Some(5), None, None, None]);
    let packet = [dummy_vote(0, 2), finalize(1, 2)].concat();
    alike(&mut books, |book| RULES.packet(book, &packet)).unwrap();
    alike(&mut books, |book| RULES.submit(book, &entry(9))).unwrap();
    alike(&mut books, |book| RULES.signal(book, 1)).unwrap();
    let made = [(); 5].map(|()| alike(&mut books, |book| one_move(book)).0.number());
    assert_eq!(made, [1, 2, 3, 3, 0]);
    assert_eq!(alike(&mut books, |book| (log_of(book), RULES.size(book))).1, Ok(16));
    for (kind, height, answer) in [(5, 1, Ok(())), (6, 2, Ok(())), (7, 2, Err(11)), (5, 3, Err(6))]
    {
        let fetched = alike(&mut books, |book| {
            let mut reply = [0; 224];
            (RULES.fetch(book, kind, height, &mut reply), reply)
        });
        assert_eq!(fetched.0, answer);
    }
}

#[test]
fn observers_books_of_each_edition_answer_alike() {
    let block = block(1, 0, ZERO, &[entry(1), entry(1), entry(2)]);
    let mut books = editions(new_observer(4, 2));
    let frames = [
        (block_certificate(3, &block), Err(9)),
        (block_certificate(14, &block), Ok(Fresh)),
        (finalize_certificate(7, 1), Ok(Fresh)),
        (dummy_certificate(11, 2), Ok(Fresh)),
        (dummy_vote(0, 1), Err(16)),
    ];
    for (frame, answer) in frames {
        assert_eq!(alike(&mut books, |book| RULES.observer_deliver(book, &frame)), answer);
    }
    assert_eq!(alike(&mut books, |book| observer_moves(book)), [Move::Final { height: 1 }]);
    let log = alike(&mut books, |book| (observed_log(book), RULES.observer_size(book)));
    assert_eq!(log, ([entry(1), entry(2)].concat(), Ok(32)));
}

/// Books that no run makes, with weights of 1 in each edition: moves are the same to the byte.
#[test]
fn random_books_of_each_edition_move_alike() {
    let mut random = Random::new(26);
    let mut count = 0;
    for _ in 0..1500 {
        let third = random_book(&mut random, digest_of);
        if third[EDITION] != 3 || weights_of(&third).iter().any(|&weight| weight != 1) {
            continue;
        }
        let mut books = editions(third);
        (0..8).for_each(|_| _ = alike(&mut books, |book| one_move(book)));
        count += 1;
    }
    assert!(count > 100, "{count}");
}

fn digest_of(block: &[u8]) -> [u8; 32] {
    reference::sha256::digest(block)
}

/// The bytes of the weights stay as they are, whatever is called.
#[test]
fn weights_stay() {
    let weights = [1000, 1, 256, 3];
    let block = block(1, 0, ZERO, &[entry(5)]);
    let mut book = weighed_book(&weights, 0, &[0]);
    let mut observer = weighed_observer(&weights, 1);
    deliver_all(&mut book, &[proposal(0, &block), vote_for(0, &block)]);
    deliver_all(&mut book, &[finalize(0, 1), dummy_vote(1, 1)]);
    RULES.submit(&mut book, &entry(1)).unwrap();
    RULES.signal(&mut book, 1).unwrap();
    assert_eq!(moves(&mut book).len(), 3);
    observe_all(&mut observer, &[block_certificate(1, &block), finalize_certificate(1, 1)]);
    assert_eq!(observer_moves(&mut observer).len(), 1);
    for book in [book, observer] {
        assert_eq!((book[EDITION], weights_of(&book)), (3, weights.to_vec()));
        assert!(book[16..40].iter().all(|&byte| byte == 0));
    }
}
