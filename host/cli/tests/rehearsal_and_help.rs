//! The rehearsal, the help texts and unknown commands.

mod common;

use common::{fine, refused};
use types::Frame;

/// The frames of the example in document 01.
fn frames() -> Vec<u8> {
    let votes = [0, 1, 2].map(|signer| Frame::DummyVote { signer, height: 1 }.bytes());
    let certificate = Frame::DummyCertificate { mask: 7, height: 2 }.bytes();
    [votes.concat(), certificate.to_vec(), certificate.to_vec()].concat()
}

#[test]
fn the_rehearsal_of_the_document() {
    let expected = "take 3 1 0\ntake 3 1 1\ntake 3 1 2\npass 1 6 4\ntake 6 2 0\npass 2 6 4\noffer 3\nsame 6 2 0\n";
    assert_eq!(String::from_utf8(fine("rehearsal", &frames())).unwrap(), expected);
    assert!(fine("rehearsal", &[]).is_empty());
}

#[test]
fn the_rehearsal_is_that_of_the_reference() {
    for length in [0, 1, 223, 224, 225, 900, 2000] {
        let mut input = frames();
        input.extend((0..length).map(|at| if at % 224 == 0 { 3 } else { u8::from(at % 225 < 3) }));
        let mut expected = Vec::new();
        reference::rehearsal::rehearse(input.as_slice(), &mut expected).unwrap();
        assert_eq!(fine("rehearsal", &input), expected, "{length}");
    }
}

/// The commands that have a help text.
const COMMANDS: &str =
    "frame show diff open call observer read check status replay record try answer rehearsal";

#[test]
fn every_command_has_a_help_text() {
    let common = String::from_utf8(fine("help", &[])).unwrap();
    assert_eq!(fine("--help", &[]), common.as_bytes());
    for name in COMMANDS.split(' ') {
        assert!(common.contains(&format!("\n  {name} ")), "{name}");
        let text = fine(&format!("help {name}"), &[]);
        assert_eq!(fine(&format!("{name} --help"), &[]), text);
        assert!(text.starts_with(format!("mavunilai {name}").as_bytes()), "{name}");
    }
}

#[test]
fn no_line_of_a_help_text_has_more_than_90_columns() {
    for name in COMMANDS.split(' ').chain([""]) {
        let text = String::from_utf8(fine(&format!("help {name}"), &[])).unwrap();
        assert_eq!(text.lines().find(|line| line.chars().count() > 90), None, "{name}");
    }
}

#[test]
fn words_that_are_no_text_get_a_sentence() {
    use std::os::unix::ffi::OsStrExt;
    let word = std::ffi::OsStr::from_bytes(&[0xff]);
    let ended = std::process::Command::new(env!("CARGO_BIN_EXE_mavunilai")).arg(word).output();
    let ended = ended.unwrap();
    assert_eq!(ended.status.code(), Some(2));
    assert_eq!(String::from_utf8(ended.stderr).unwrap(), "mavunilai: \"\\xFF\" is no text\n");
}

#[test]
fn other_words_get_a_sentence() {
    refused("", &[], "a command is missing");
    refused("dance", &[], "'dance' is no command");
    refused("help dance", &[], "'dance' is no command");
    refused("help call move", &[], "the name of one command");
    refused("--version now", &[], "--version alone");
    refused("rehearsal now", &[], "standard input");
}
