//! Files of the host folder, and the C compiler.
#![allow(dead_code)] // each test takes what it needs

use std::fs::File;
use std::path::{Path, PathBuf};
use std::process::{Command, Output};

/// The languages that the header is for, as the compiler is told.
pub const LANGUAGES: [[&str; 2]; 4] =
    [["c", "-std=c99"], ["c", "-std=c11"], ["c++", "-std=c++11"], ["c++", "-std=c++17"]];

/// A file of the host folder.
pub fn host(file: &str) -> PathBuf {
    Path::new(env!("CARGO_MANIFEST_DIR")).join("..").join(file)
}

/// A file for this test run to write.
pub fn scratch(file: &str) -> PathBuf {
    Path::new(env!("CARGO_TARGET_TMPDIR")).join(file)
}

/// Runs the C compiler with warnings as errors; none, with a note, where there is none. The gate sees that there is.
pub fn compiler(language: [&str; 2], words: &[&str]) -> Option<Output> {
    let [language, standard] = language;
    let command = &mut Command::new("cc");
    command.args(["-Wall", "-Wextra", "-Wpedantic", "-Werror", standard, "-I"]);
    match command.arg(host("include")).args(["-x", language]).args(words).output() {
        Ok(output) => Some(output),
        Err(problem) => {
            eprintln!("not tried, no C compiler: {problem}");
            None
        }
    }
}

/// Whether the compiler takes this; true where there is none.
pub fn compiles(language: [&str; 2], words: &[&str]) -> bool {
    compiler(language, words).is_none_or(|output| {
        eprint!("{}", String::from_utf8_lossy(&output.stderr));
        output.status.success()
    })
}

/// What a program of these files prints and whether it ends well; none where there is no compiler.
pub fn prints(language: [&str; 2], program: &str, files: &[&str]) -> Option<(String, bool)> {
    prints_of(language, program, files, &[])
}

/// The same of an input.
pub fn prints_of(
    language: [&str; 2],
    program: &str,
    files: &[&str],
    input: &[u8],
) -> Option<(String, bool)> {
    let program = scratch(&format!("{program}{}", language.concat()));
    let words = [files, &["-o", program.to_str().unwrap()]].concat();
    let output = compiler(language, &words)?;
    assert!(output.status.success(), "{}", String::from_utf8_lossy(&output.stderr));
    let from = program.with_extension("input");
    std::fs::write(&from, input).unwrap();
    let ended = Command::new(program).stdin(File::open(from).unwrap()).output().unwrap();
    Some((String::from_utf8(ended.stdout).unwrap(), ended.status.success()))
}
