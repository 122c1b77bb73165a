//! The rehearsal's given input and its eight lines, and what it does with odd input.

use crate::common::*;
use reference::rehearsal::rehearse;

fn lines(input: &[u8]) -> String {
    let mut output = Vec::new();
    rehearse(input, &mut output).unwrap();
    String::from_utf8(output).unwrap()
}

fn given_input() -> Vec<u8> {
    let certificate = dummy_certificate(7, 2);
    [dummy_vote(0, 1), dummy_vote(1, 1), dummy_vote(2, 1), certificate, certificate].concat()
}

#[test]
fn the_given_run() {
    let expected = "take 3 1 0\ntake 3 1 1\ntake 3 1 2\npass 1 6 4\n\
        take 6 2 0\npass 2 6 4\noffer 3\nsame 6 2 0\n";
    assert_eq!(lines(&given_input()), expected);
}

#[test]
fn no_input_no_lines() {
    assert_eq!(lines(&[]), "");
}

#[test]
fn a_short_last_frame_is_denied() {
    let mut input = dummy_vote(3, 1).to_vec();
    input.push(3);
    assert_eq!(lines(&input), "take 3 1 3\ndeny 4\n");
}

#[test]
fn votes_and_finals_have_lines() {
    let first = block(1, 0, ZERO, &[]);
    let frames = [proposal(0, &first), block_certificate(11, &first), finalize_certificate(11, 1)];
    let expected = "take 1 1 0\nvote 1\ntake 5 1 0\npass 1 5 4\ntake 7 1 0\nfinal 1\n";
    assert_eq!(lines(&frames.concat()), expected);
}
