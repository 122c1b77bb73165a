//! `replay` and `record`: the lists of the folder, differences, and bad lists.

mod common;

use common::{fine, folder, list, refused, run, run_words};
use exchange::scenarios::NAMES;

#[test]
fn every_list_of_the_folder_replays() {
    for name in NAMES {
        let file = list(&format!("{name}.txt"));
        let text = String::from_utf8(fine(&format!("replay {file}"), &[])).unwrap();
        assert!(text.ends_with("all as expected\n"), "{text}");
        let input = std::fs::read(&file).unwrap();
        assert!(run("replay -", &input).text().starts_with("-: "));
    }
}

#[test]
fn counts_are_printed() {
    let text =
        String::from_utf8(fine(&format!("replay {} --counts", list("refusals.txt")), &[])).unwrap();
    for number in 1..=types::LAST_REFUSAL {
        let ending = format!("  refusal {number}");
        let line = text.lines().find(|line| line.ends_with(&ending)).unwrap();
        assert!(!line.trim_start().starts_with("0 "), "{line}");
    }
}

#[test]
fn buffers_are_kept() {
    let kept = folder("kept");
    let kept = kept.to_str().unwrap();
    fine(&format!("replay {} --keep {kept}", list("season.txt")), &[]);
    for station in 0..4 {
        let text = fine(&format!("show book {kept}/book{station}"), &[]);
        let text = String::from_utf8(text).unwrap();
        assert!(text.starts_with(&format!(
            "Book of station {station} of 4, edition 3: 5 heights, settled height 4"
        )));
    }
}

#[test]
fn a_difference_has_status_1() {
    let text = std::fs::read_to_string(list("rehearsal.txt")).unwrap();
    let other = text.replacen("= fresh ", "= known ", 1);
    let ended = run("replay -", other.as_bytes());
    assert_eq!(ended.status, 1);
    assert!(
        ended.complaint.contains("line 6: the answer is 'fresh', expected is 'known'"),
        "{}",
        ended.complaint
    );
}

#[test]
fn recording_fills_in_and_repeats() {
    let calls = "mavunilai exchange 2\ngive book 00*1456\ngive reply -\nopen book 4 2 1 0100010001000100 00\nmove book reply\n";
    let recorded = fine("record -", calls.as_bytes());
    let text = String::from_utf8(recorded.clone()).unwrap();
    assert!(
        text.contains("open book 4 2 1 0100010001000100 00 = done ")
            && text.contains("move book reply = deny 3 ")
    );
    assert_eq!(fine("record -", &recorded), recorded);
    fine("replay -", &recorded);
}

#[test]
fn ready_lists_are_those_of_the_folder() {
    let written = folder("written");
    fine(&format!("record --folder {}", written.to_str().unwrap()), &[]);
    for name in NAMES {
        let file = format!("{name}.txt");
        let expected = std::fs::read(list(&file)).unwrap();
        assert!(fine(&format!("record --scenario {name}"), &[]) == expected, "{name}");
        assert!(std::fs::read(written.join(&file)).unwrap() == expected, "{name}");
    }
}

#[test]
fn help_names_every_ready_list() {
    let text = String::from_utf8(fine("help record", &[])).unwrap();
    let words: Vec<&str> = text.split(|letter: char| !letter.is_ascii_lowercase()).collect();
    NAMES.iter().for_each(|name| assert!(words.contains(name), "{name}"));
}

#[test]
fn bad_input_gets_a_sentence() {
    refused("replay", &[], "a list is missing");
    refused("replay /no/such/list", &[], "cannot be read");
    refused("replay -", b"hello", "begins with the line");
    refused(
        "replay -",
        b"mavunilai exchange 2\nmovve book reply\n",
        "line 2: 'movve book reply' is no call",
    );
    let unknown = b"mavunilai exchange 2\nsize book\n";
    refused("replay -", unknown, "line 2: no line before gives 'book'");
    refused("replay -", &[0xff, 0xfe], "is no text");
    refused("record", &[], "one file, or --scenario");
    refused("record --scenario winter", &[], "no scenario");
    refused(
        "record -",
        b"mavunilai exchange 2\nsize book\n",
        "line 2: no line before gives 'book'",
    );
    refused("record --folder /no/such/folder", &[], "cannot be written");
    let ended = run_words(&["replay", ""], &[]);
    assert_eq!(ended.status, 2);
}
