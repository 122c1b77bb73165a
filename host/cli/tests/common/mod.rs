//! Running the command in tests.
#![allow(dead_code)] // each test program uses a part of this

use std::io::Write;
use std::path::PathBuf;
use std::process::{Command, Stdio};

/// What the command came to.
pub struct Ended {
    pub status: i32,
    pub output: Vec<u8>,
    pub complaint: String,
}

impl Ended {
    /// The output as text.
    pub fn text(&self) -> String {
        String::from_utf8(self.output.clone()).unwrap()
    }
}

/// Runs the command with words, separated by blanks, and an input.
pub fn run(words: &str, input: &[u8]) -> Ended {
    let words: Vec<&str> = words.split_whitespace().collect();
    run_words(&words, input)
}

/// Runs the command with these words and an input.
pub fn run_words(words: &[&str], input: &[u8]) -> Ended {
    let mut child = Command::new(env!("CARGO_BIN_EXE_mavunilai"))
        .args(words)
        .stdin(Stdio::piped())
        .stdout(Stdio::piped())
        .stderr(Stdio::piped())
        .spawn()
        .unwrap();
    // A command that does not read its input may have ended by now.
    _ = child.stdin.take().unwrap().write_all(input);
    let ended = child.wait_with_output().unwrap();
    let complaint = String::from_utf8(ended.stderr).unwrap();
    Ended { status: ended.status.code().unwrap(), output: ended.stdout, complaint }
}

/// The output of a command that must be fine.
pub fn fine(words: &str, input: &[u8]) -> Vec<u8> {
    let ended = run(words, input);
    assert_eq!((ended.status, ended.complaint.as_str()), (0, ""), "{words}");
    ended.output
}

/// A command that must be refused with a sentence, status 2 and no output.
pub fn refused(words: &str, input: &[u8], part: &str) {
    ends_with(2, words, input, part);
}

/// A call that the replica must refuse: a sentence, status 3 and no output.
pub fn denied(words: &str, input: &[u8], part: &str) {
    ends_with(3, words, input, part);
}

/// A command that must end with this status, a sentence and no output.
fn ends_with(status: i32, words: &str, input: &[u8], part: &str) {
    let ended = run(words, input);
    assert_eq!((ended.status, ended.output.len()), (status, 0), "{words}");
    let sentence = ended.complaint.trim_end();
    assert!(sentence.starts_with("mavunilai: ") && sentence.lines().count() == 1, "{sentence}");
    assert!(sentence.contains(part), "{words}: {sentence}");
}

/// A file of the folder `exchange/`.
pub fn list(name: &str) -> String {
    let root = PathBuf::from(env!("CARGO_MANIFEST_DIR")).join("../..");
    root.join("exchange").join(name).to_str().unwrap().to_string()
}

/// A folder for this test alone.
pub fn folder(name: &str) -> PathBuf {
    let folder = PathBuf::from(env!("CARGO_TARGET_TMPDIR")).join(name);
    std::fs::create_dir_all(&folder).unwrap();
    folder
}
