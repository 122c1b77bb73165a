//! The list that the program `calls` is run on: what it must print is what the reference records, and what the list
//! says of itself holds.

use exchange::{record, replay, Line, List, Stage};
use reference::{sha256, Rules};
use std::collections::BTreeMap;
use std::path::PathBuf;

/// A file beside the program's sources.
fn file(name: &str) -> String {
    let root = PathBuf::from(env!("CARGO_MANIFEST_DIR")).join("../..");
    std::fs::read_to_string(root.join("crates/calls").join(name)).unwrap()
}

/// What the program must print.
fn printed() -> List {
    List::parse(&file("stdout")).unwrap_or_else(|problem| panic!("{problem}"))
}

/// The bytes of the buffers that a call names.
fn buffers(stage: &Stage, book: &str, buffer: &str) -> Vec<[u8; 32]> {
    let names = [book, buffer].into_iter().filter(|name| !name.is_empty());
    names.map(|name| sha256::digest(stage.bytes(name).unwrap())).collect()
}

#[test]
fn the_program_must_print_what_the_reference_records() {
    let asked = List::parse(&file("stdin")).unwrap_or_else(|problem| panic!("{problem}"));
    let recorded = record(&asked, &Rules::SHA256).unwrap_or_else(|problem| panic!("{problem}"));
    let anew = "write it anew: mavunilai record crates/calls/stdin > crates/calls/stdout";
    assert!(recorded.to_string() == file("stdout"), "{anew}");
    assert_eq!(asked.to_string(), file("stdin"), "the program prints each line as it stands");
}

#[test]
fn each_row_answers_what_its_remark_says() {
    let mut rows = 0;
    let mut said: Option<String> = None;
    for line in printed().lines {
        match line {
            Line::Remark(text) => {
                assert_eq!(said, None, "a row's remark stands right before its call");
                said = text.split_once(" -> ").map(|(_, answer)| answer.to_string());
            }
            Line::Call { call, expected, .. } => {
                if let Some(said) = said.take() {
                    assert_eq!(said, expected.unwrap().answer.to_string(), "{call:?}");
                    rows += 1;
                }
            }
            Line::Give { .. } => {
                assert_eq!(said, None, "a row's remark stands right before its call")
            }
        }
    }
    assert!(rows > 300, "{rows} rows");
}

#[test]
fn a_call_that_is_refused_changes_no_byte() {
    let mut stage = Stage::default();
    for line in printed().lines {
        match line {
            Line::Remark(_) => {}
            Line::Give { name, bytes } => stage.give(&name, bytes),
            Line::Call { call, book, buffer, expected } => {
                let (before, expected) = (buffers(&stage, &book, &buffer), expected.unwrap());
                if expected.answer.to_string().starts_with("deny") {
                    assert_eq!(expected.digests, before, "{call:?} on {book}");
                }
                stage.make(&Rules::SHA256, &call, &book, &buffer).unwrap();
            }
        }
    }
}

#[test]
fn all_refusals_moves_and_passes_occur() {
    let tally = replay(&printed(), &Rules::SHA256).unwrap().tally;
    assert_eq!(tally.missing(), Vec::<String>::new(), "{tally}");
}

#[test]
fn of_two_registers_of_the_season_one_begins_the_other() {
    let mut stage = Stage::default();
    let mut registers: BTreeMap<String, Vec<Vec<u8>>> = BTreeMap::new();
    for line in printed().lines {
        match line {
            Line::Remark(_) => {}
            Line::Give { name, bytes } => stage.give(&name, bytes),
            Line::Call { call, book, buffer, .. } => {
                let made = stage.make(&Rules::SHA256, &call, &book, &buffer).unwrap();
                if buffer == "register" {
                    let part = made.answer.to_string().replace("part ", "").parse().unwrap();
                    let register = stage.bytes(&buffer).unwrap()[..part].to_vec();
                    registers.entry(book).or_default().push(register);
                }
            }
        }
    }
    let all: Vec<&Vec<u8>> = registers.values().flatten().collect();
    assert_eq!(
        (registers.len(), all.len()),
        (5, 25),
        "four stations, read after each of six stages, and an observer at the end"
    );
    let agree = |one: &Vec<u8>, other: &Vec<u8>| one.starts_with(other) || other.starts_with(one);
    assert!(all.iter().all(|one| all.iter().all(|other| agree(one, other))));
    let last = b"\x01swap plots 1,14\x02seed lot barley\x01undo plots 1,14";
    assert!(registers.values().all(|read| read.last().unwrap() == last));
}
