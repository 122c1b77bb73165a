//! `replay` where a list is not met: the case, the call, the fields that differ; `--stop-at` and `--keep`.

mod common;

use common::{fine, folder, list, refused, run, Ended};

/// A timer fires at station 2 of 4, and it moves.
const CALLS: &str = "\
mavunilai exchange 2

# The timer fires
give book 5a*1456
give reply aa*448
open book 4 2 1 0100010001000100 00
signal book 1
move book reply
";

/// A recorded list with one text in the place of another.
fn replayed(options: &str, from: &str, to: &str) -> Ended {
    let text = String::from_utf8(fine(&format!("record - {options}"), CALLS.as_bytes())).unwrap();
    assert_eq!(text.matches(from).count(), 1, "{text}");
    run("replay -", text.replace(from, to).as_bytes())
}

#[test]
fn fields_are_told_where_the_list_has_bytes() {
    let ended = replayed("--full", "== dummy 1 04020003", "== dummy 1 04020001");
    assert_eq!(ended.status, 1);
    let expected = "\
mavunilai: -, line 8: the bytes of the book are not the expected ones (case \"The timer fires\")
the call: move book reply
books: 1 field of expected and here differ
  flags of the current height (byte 3): expected 1 (timer fired), here 3 (timer fired, blank vote cast)
replies: the same
";
    assert_eq!(ended.complaint, expected);
    let ended = replayed("--full", "030201+00*221+aa*224", "030200+00*221+aa*224");
    assert!(
        ended.complaint.contains("  first frame, height (byte 2): expected 0, here 1\n"),
        "{}",
        ended.complaint
    );
}

#[test]
fn with_digests_alone_what_the_call_changed_is_told() {
    let digest = |line: &str| {
        let text = String::from_utf8(fine("record -", CALLS.as_bytes())).unwrap();
        let line = text.lines().find(|found| found.starts_with(line)).unwrap();
        line.split(' ').next_back().unwrap().to_string()
    };
    let ended = replayed("", &digest("signal"), &"0".repeat(64));
    let expected = "\
mavunilai: -, line 7: the bytes of the book are not the expected ones (case \"The timer fires\")
the call: signal book 1
the list has digests alone, so that the expected bytes are not known (`record --full` writes them); \
what the call changed:
books: 1 field of before and here differ
  flags of the current height (byte 3): before 0, here 1 (timer fired)
";
    assert_eq!(ended.complaint, expected);
    let ended = replayed("", &digest("signal"), &digest("open"));
    let told = "the call: signal book 1\nbooks: 1 field of expected and here differ\n";
    assert!(ended.complaint.contains(told), "{}", ended.complaint);
}

#[test]
fn a_wrong_answer_is_told_with_its_frame() {
    let text = std::fs::read_to_string(list("rehearsal.txt")).unwrap();
    let ended = run("replay -", text.replacen("= fresh ", "= known ", 1).as_bytes());
    assert_eq!(ended.status, 1);
    let expected = "\
mavunilai: -, line 6: the answer is 'fresh', expected is 'known' \
(case \"The rehearsal: replica 2 of 4, three heights, own frames not fed back.\")
the call: deliver book 030001+00*221
its frame: blank vote (kind 3), signer 0, height 1
books: the same
";
    assert_eq!(ended.complaint, expected);
}

#[test]
fn a_list_is_left_behind_a_line_and_its_buffers_are_kept() {
    let kept = folder("stopped").to_str().unwrap().to_string();
    let file = list("rehearsal.txt");
    let told =
        String::from_utf8(fine(&format!("replay {file} --stop-at 6 --keep {kept}"), &[])).unwrap();
    assert!(told.ends_with(" up to line 6, all as expected\n"), "{told}");
    let shown = String::from_utf8(fine(&format!("show book {kept}/book"), &[])).unwrap();
    assert!(
        shown.contains("It is not blank: its blank votes weigh 1 of 4, 3 needed.\n"),
        "{shown}"
    );
    refused(&format!("replay {file} --stop-at 0"), &[], "has lines 1 to");
    refused(&format!("replay {file} --stop-at 9999"), &[], "--stop-at 9999");
    refused(
        &format!("replay {file} {file} --keep {kept}"),
        &[],
        "--keep and --stop-at are for one list",
    );
}

#[test]
fn buffers_are_kept_where_a_list_is_not_met() {
    let kept = folder("unmet");
    let text = std::fs::read_to_string(list("rehearsal.txt")).unwrap();
    let words = format!("replay - --keep {}", kept.to_str().unwrap());
    let ended = run(&words, text.replacen("= fresh ", "= known ", 1).as_bytes());
    assert_eq!(ended.status, 1);
    assert_eq!(std::fs::read(kept.join("book")).unwrap()[580], 1);
}
