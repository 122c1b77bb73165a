//! Open takes weights: which it refuses, and what it writes.

use crate::common::*;
use reference::{book_length, observer_book_length};

/// Opening for station 0 of n and one height with these bytes of weights, over marked bytes; the book afterwards.
fn opened(n: u64, weights: &[u8]) -> (Result<(), u8>, Vec<u8>) {
    let mut book = vec![0xee; book_length(1)];
    (RULES.open(&mut book, n, 0, 1, weights, &[0]), book)
}

/// The same for an observer.
fn observed(n: u64, weights: &[u8]) -> (Result<(), u8>, Vec<u8>) {
    let mut book = vec![0xee; observer_book_length(1)];
    (RULES.observer_open(&mut book, n, 1, weights), book)
}

/// Both kinds refuse these weights with 2 and leave the bytes as they were.
#[track_caller]
fn refused(n: u64, weights: &[u8]) {
    for (answer, book) in [opened(n, weights), observed(n, weights)] {
        assert_eq!(answer, Err(2), "{n} {weights:?}");
        assert!(book.iter().all(|&byte| byte == 0xee));
    }
}

/// Both kinds take these weights, and the head has them from byte 8 on, with zeros up to byte 40.
#[track_caller]
fn taken(weights: &[u16]) {
    let (n, bytes) = (weights.len() as u64, weight_bytes(weights));
    for (answer, book) in [opened(n, &bytes), observed(n, &bytes)] {
        assert_eq!((answer, book[0], book[EDITION]), (Ok(()), n as u8, 3));
        assert_eq!(book[8..8 + bytes.len()], bytes);
        assert!(book[8 + bytes.len()..40].iter().all(|&byte| byte == 0));
        assert_eq!(weights_of(&book), weights);
    }
}

#[test]
fn a_weight_is_1_to_1000() {
    for replica in 0..4 {
        for weight in [0, 1001, 1256, 0x8001, 0xffff] {
            let mut weights = [1; 4];
            weights[replica] = weight;
            refused(4, &weight_bytes(&weights));
        }
        for weight in [1, 2, 255, 256, 999, 1000] {
            let mut weights = [1; 4];
            weights[replica] = weight;
            taken(&weights);
        }
    }
    taken(&[1000; 16]);
    taken(&[1]);
    taken(&[1000]);
}

/// The high byte counts: 232 in the low byte is in range by itself.
#[test]
fn both_bytes_of_a_weight_count() {
    refused(1, &[232, 4]);
    refused(1, &[0, 4]);
    taken(&[0x0100]);
    taken(&[0x03e8]);
    refused(1, &[0, 0]);
}

#[test]
fn there_are_n_of_them() {
    for n in 1..=16 {
        for length in [0, 1, 2 * n - 2, 2 * n - 1, 2 * n + 1, 2 * n + 2, 32, 34] {
            if length != 2 * n {
                let bytes: Vec<u8> = [1, 0].into_iter().cycle().take(length).collect();
                refused(n as u64, &bytes);
            }
        }
        taken(&vec![1; n]);
    }
    refused(4, &[weight_bytes(&[1; 4]), vec![0; 24]].concat());
    refused(3, &weight_bytes(&[1, 1, 1, 0]));
}

/// The weights of sixteen and of many replicas do not make an n that is out of range a right one.
#[test]
fn n_is_in_range_all_the_same() {
    refused(0, &[]);
    refused(17, &ones(17));
    refused(256, &ones(256));
    refused(1 << 63, &[]);
    refused(u64::MAX, &ones(4));
    refused(260, &ones(4));
}

#[test]
fn two_comes_before_1() {
    for weights in [[1, 1, 1, 0], [1, 1, 1, 1001]] {
        let weights = weight_bytes(&weights);
        assert_eq!(RULES.open(&mut [0; 7], 4, 3, 1, &weights, &[0]), Err(2));
        assert_eq!(RULES.observer_open(&mut [0; 7], 4, 1, &weights), Err(2));
    }
    assert_eq!(RULES.open(&mut [0; 7], 4, 3, 1, &ones(4), &[0]), Err(1));
    assert_eq!(RULES.observer_open(&mut [0; 7], 4, 1, &ones(4)), Err(1));
    assert_eq!(RULES.open(&mut [0; 1456], 4, 3, 1, &ones(3), &[0]), Err(2));
    assert_eq!(RULES.open(&mut [0; 1456], 4, 3, 1, &ones(4), &[]), Err(2));
}

/// Weights of 1 are written as well.
#[test]
fn a_new_book_to_the_byte() {
    let book = new_book(4, 2, &[3, 1]);
    let mut expected = vec![0; book_length(2)];
    expected[..16].copy_from_slice(&[4, 2, 0, 0, 0, 0, 0, 3, 1, 0, 1, 0, 1, 0, 1, 0]);
    expected[40..46].copy_from_slice(&[2, 0, 1, 0, 0, 0]);
    (expected[row(1)], expected[row(2)]) = (3, 1);
    assert_eq!(book, expected);
    let book = weighed_book(&[1000, 2, 258], 1, &[2]);
    assert_eq!(book[..16], [3, 1, 0, 0, 0, 0, 0, 3, 0xe8, 3, 2, 0, 2, 1, 0, 0]);
}
