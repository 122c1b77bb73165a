//! The command `compare`: its help, its words, and what it says without a second implementation.

use std::process::{Command, Output};

/// Runs the command with these words.
fn run(words: &[&str]) -> Output {
    Command::new(env!("CARGO_BIN_EXE_compare")).args(words).output().unwrap()
}

/// The status and the complaint.
fn refused(words: &[&str]) -> (Option<i32>, String) {
    let ended = run(words);
    (ended.status.code(), String::from_utf8(ended.stderr).unwrap())
}

#[test]
fn help_tells_what_is_compared() {
    let ended = run(&["--help"]);
    assert!(ended.status.success());
    let text = String::from_utf8(ended.stdout).unwrap();
    assert!(text.contains("Two implementations are compared only with the cargo feature `proved`"));
}

#[test]
fn bad_words_get_a_sentence() {
    for words in
        [&["--count"][..], &["--count", "many"], &["--seed", "-1"], &["100"], &["--sead", "1"]]
    {
        let (status, complaint) = refused(words);
        assert_eq!((status, complaint.lines().count()), (Some(2), 1), "{words:?}: {complaint}");
    }
}

#[test]
#[cfg(not(feature = "proved"))]
fn one_implementation_is_not_enough() {
    let (status, complaint) = refused(&["--count", "10"]);
    assert_eq!(status, Some(2));
    assert!(complaint.contains("the reference alone"), "{complaint}");
}

#[test]
#[cfg(feature = "proved")]
fn a_short_comparison_prints_its_seed() {
    let ended = run(&["--count", "1000", "--seed", "42"]);
    assert!(ended.status.success());
    assert!(String::from_utf8(ended.stdout).unwrap().starts_with("seed 42\n"));
}
