//! `--json` against docs/JSON.md: the fields of each object, their order and their types, both ways.

mod common;
#[path = "common/json_reader.rs"]
mod json_reader;

use common::{fine, folder, list, run};
use json_reader::Value;
use std::collections::{BTreeMap, BTreeSet};
use types::{Block, Frame, FRAME};

/// The fields of an object as the page has them: name and type, in order.
type Table = Vec<(String, String)>;

/// The tables of the page, by the heading above each.
fn page() -> BTreeMap<String, Table> {
    let path = concat!(env!("CARGO_MANIFEST_DIR"), "/../../docs/JSON.md");
    let (mut tables, mut heading) = (BTreeMap::<String, Table>::new(), String::new());
    for line in std::fs::read_to_string(path).unwrap().lines() {
        if let Some(name) = line.strip_prefix("## ") {
            heading = name.to_string();
        }
        let cells: Vec<&str> = line.split('|').map(str::trim).collect();
        let field = cells.get(1).and_then(|cell| cell.strip_prefix('`')?.strip_suffix('`'));
        if let (Some(name), false) = (field.filter(|name| !name.contains(' ')), heading.is_empty())
        {
            let table = tables.entry(heading.clone()).or_default();
            table.push((name.to_string(), cells[2].to_string()));
        }
    }
    tables
}

/// Holds objects against the page, and notes which fields were seen.
struct Reader {
    tables: BTreeMap<String, Table>,
    seen: BTreeSet<(String, String)>,
    /// The words of answers.
    words: BTreeSet<String>,
}

impl Reader {
    /// Reads each line as an object of this name.
    fn read(&mut self, name: &str, printed: &[u8]) {
        let text = std::str::from_utf8(printed).unwrap();
        assert!(text.ends_with('\n') && !text.contains("\n\n"), "{text}");
        for line in text.lines() {
            self.object(name, &json_reader::parse(line));
        }
    }

    /// An object has fields of its table alone, in their order.
    fn object(&mut self, name: &str, value: &Value) {
        let Value::Object(fields) = value else { panic!("{name}: {value:?}") };
        let table = self.tables.get(name).unwrap_or_else(|| panic!("no table of {name}")).clone();
        let mut rest = table.iter();
        for (field, value) in fields {
            let found = rest.find(|(told, _)| told == field);
            let (_, of) =
                found.unwrap_or_else(|| panic!("{name}: {field} is not told, or not there"));
            self.seen.insert((name.to_string(), field.clone()));
            if let ("answer", "answer", Value::Text(word)) = (name, field.as_str(), value) {
                self.words.insert(word.clone());
            }
            self.value(of, value);
        }
    }

    /// A value has the type of its column.
    fn value(&mut self, of: &str, value: &Value) {
        match (of.strip_prefix("list of "), of, value) {
            (Some(of), _, Value::List(values)) => {
                values.iter().for_each(|value| self.value(of, value));
            }
            (None, "number", Value::Number(_)) | (None, "text", Value::Text(_)) => {}
            (None, "true or false", Value::Yes(_)) => {}
            (None, name, Value::Object(_)) => self.object(name, value),
            _ => panic!("{value:?} is no {of}"),
        }
    }
}

/// The path of a new book with two heights that station 0 leads.
fn book(name: &str, n: u8, own: u8) -> String {
    let path = folder("json").join(name).to_str().unwrap().to_string();
    _ = std::fs::remove_file(format!("{path}.said"));
    fine(&format!("open {path} --n {n} --own {own} --roll 0,0 --force"), &[]);
    path
}

/// A page of height 1 with an entry of one letter.
fn page_of(letter: u8) -> Block {
    Block { height: 1, entries: [[letter; 16]].into(), ..Block::default() }
}

/// A frame of each kind.
fn frames() -> Vec<u8> {
    let (block, height, mask, signer) = (page_of(b'a'), 1, 11, 0);
    let frames = [
        Frame::Proposal { signer, block: block.clone() },
        Frame::BlockVote { signer, height, digest: [1; 32] },
        Frame::DummyVote { signer, height },
        Frame::Finalize { signer, height },
        Frame::BlockCertificate { mask, block },
        Frame::DummyCertificate { mask, height },
        Frame::FinalizeCertificate { mask, height },
    ];
    frames.iter().flat_map(Frame::bytes).collect()
}

/// All calls of a station alone, and a station of four whose frames are refused.
fn read_answers(reader: &mut Reader) {
    let (alone, four, blank) = (book("alone", 1, 0), book("four", 4, 2), book("blank", 4, 1));
    let mut answers = |words: &str, input: &[u8]| {
        let printed = run(&format!("{words} --json"), input).output;
        assert!(!printed.is_empty(), "{words}");
        reader.read("answer", &printed);
    };
    answers(&format!("call {alone} submit 00737761702041313220746f20423430"), &[]);
    answers(&format!("call {alone} run"), &[]);
    for call in ["size", "read", "fetch 5 1", "fetch 6 1", "move", "signal 3", "signal 1"] {
        answers(&format!("call {alone} {call}"), &[]);
    }
    answers(&format!("call {blank} signal 1"), &[]);
    answers(&format!("call {blank} move"), &[]);
    answers(&format!("call {four} packet - --each"), &frames());
    answers(&format!("call {four} deliver -"), &frames());
    answers(&format!("call {four} deliver -"), &frames()[..FRAME]);
    answers(&format!("call {four} signal 1"), &[]);
    std::process::Command::new(env!("CARGO_BIN_EXE_mavunilai"))
        .args(["call", &four, "move"])
        .stdout(std::fs::File::options().write(true).open("/dev/full").unwrap())
        .output()
        .unwrap();
    answers(&format!("call {four} move"), &[]);
    let watch = folder("json").join("watch").to_str().unwrap().to_string();
    fine(&format!("observer {watch} open --n 4 --heights 2 --force"), &[]);
    answers(&format!("observer {watch} deliver -"), &frames());
    for call in ["move", "move", "size", "read"] {
        answers(&format!("observer {watch} {call}"), &[]);
    }
    reader.read("filed", &fine(&format!("observer {watch} follow --since 1 --json"), &[]));
}

/// Rows of books of each kind, one of them locked and with frames that wait.
fn read_standings(reader: &mut Reader, kept: &str) {
    let waits = book("waits", 4, 2);
    fine(&format!("call {waits} signal 1"), &[]);
    std::process::Command::new(env!("CARGO_BIN_EXE_mavunilai"))
        .args(["call", &waits, "move"])
        .stdout(std::fs::File::options().write(true).open("/dev/full").unwrap())
        .output()
        .unwrap();
    let spoilt = folder("json").join("spoilt ß\"");
    std::fs::write(&spoilt, [0; 9]).unwrap();
    let books = [&waits, &format!("{kept}/watch"), "nowhere", spoilt.to_str().unwrap()];
    let words = [&["status", "--json"][..], &books[..]].concat();
    reader.read("standing", &common::run_words(&words, &[]).output);
    let held = store::FileBook::open(reference::Rules::SHA256, &waits).unwrap();
    reader.read("standing", &run(&format!("status {waits} --json"), &[]).output);
    drop(held);
}

#[test]
fn the_page_has_every_field_and_no_other() {
    let mut reader = Reader { tables: page(), seen: BTreeSet::new(), words: BTreeSet::new() };
    let kept = folder("json").join("season").to_str().unwrap().to_string();
    fine(&format!("replay {} --keep {kept}", list("season.txt")), &[]);
    reader.read("frame", &fine("show frame - --json", &frames()));
    reader.read("book", &fine(&format!("show book {kept}/book2 --json"), &[]));
    let books = fine(&format!("show books {kept}/book0 {kept}/watch --json"), &[]);
    reader.read("book", &books);
    reader.read("register", &fine(&format!("read {kept}/book1 --json"), &[]));
    read_answers(&mut reader);
    read_standings(&mut reader, &kept);
    let told = reader.tables.iter().flat_map(|(name, table)| {
        table.iter().map(move |(field, _)| (name.clone(), field.clone()))
    });
    let never: Vec<_> = told.filter(|field| !reader.seen.contains(field)).collect();
    assert_eq!(never, [], "on the page, and never printed");
    assert_eq!(reader.words, words());
}

/// The words that the page says an answer may have.
fn words() -> BTreeSet<String> {
    let path = concat!(env!("CARGO_MANIFEST_DIR"), "/../../docs/JSON.md");
    let page = std::fs::read_to_string(path).unwrap();
    let section = page.split("\n## answer\n").nth(1).unwrap().split('|').next().unwrap();
    section.split('`').skip(1).step_by(2).map(str::to_string).collect()
}

#[test]
fn a_refused_call_is_an_answer_too() {
    let book = book("refused", 4, 2);
    for (call, number, printed) in [
        ("signal 2", 14, r#"{"answer":"deny","refusal":14,"meaning":"the signal is not for"#),
        ("fetch 5 1", 11, r#"{"answer":"deny","refusal":11,"meaning":"the book holds no such"#),
    ] {
        let ended = run(&format!("call {book} {call} --json"), &[]);
        assert!(ended.text().starts_with(printed), "{}", ended.text());
        let sentence = format!("mavunilai: refused with {number}: ");
        assert!(ended.status == 3 && ended.complaint.starts_with(&sentence), "{}", ended.complaint);
    }
    let vote = Frame::DummyVote { signer: 9, height: 1 }.bytes();
    let ended = run(&format!("call {book} deliver - --json"), &vote);
    assert_eq!((ended.status, ended.text().lines().count()), (3, 1));
    common::refused(&format!("call {book} certificates --json"), &[], "certificates has no --json");
}
