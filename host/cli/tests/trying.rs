//! `try`: a right program, wrong ones, and all that a program may do but answer.

mod common;

use common::{fine, folder, refused, run, run_words, Ended};

/// The command itself, which answers calls.
const COMMAND: &str = env!("CARGO_BIN_EXE_mavunilai");

/// Tries a line of the shell, in which M is the command itself.
fn tried(options: &str, line: &str) -> Ended {
    let line = line.replace('M', COMMAND);
    let mut words = vec!["try"];
    words.extend(options.split_whitespace());
    words.extend(["--", "sh", "-c", &line]);
    run_words(&words, &[])
}

/// The name of the replica at hand.
const NAME: &str =
    if cfg!(feature = "proved") { "the proved replica" } else { "the reference replica" };

#[test]
fn the_command_answers_as_it_does_itself() {
    let ended = run_words(&["try", "--count", "6000", "--", COMMAND, "answer"], &[]);
    assert_eq!((ended.status, ended.complaint.as_str()), (0, ""));
    let told = ended.text();
    assert!(told.starts_with(&format!("{COMMAND}: 6000 calls as on {NAME} (seed 1: ")), "{told}");
    assert!(told.contains(" whole networks, ") && !told.contains(" 0 with dishonest"), "{told}");
}

#[test]
fn a_replica_without_observers_is_asked_for_stations_calls_alone() {
    // A program that takes every call of an observer for the size of a station's register.
    let without = "sed -u 's/^observer-[a-z]* \\([^ ]*\\).*/size \\1/' | M answer";
    let ended = tried("--count 1000 --stations", without);
    assert_eq!((ended.status, ended.complaint.as_str()), (0, ""));
    let ended = tried("--count 1000", without);
    assert_eq!(ended.status, 1);
    assert!(ended.complaint.contains("\nthe call: observer-"), "{}", ended.complaint);
}

/// The last network is often cut when there are calls enough; it counts neither as whole nor as one with dishonest
/// stations.
#[test]
fn a_network_that_is_cut_is_not_counted() {
    let ended = tried("--count 2000 --stations", "M answer");
    assert_eq!((ended.status, ended.complaint.as_str()), (0, ""));
    let told = ended.text();
    assert!(told.ends_with(" 0 whole networks, 0 with dishonest stations)\n"), "{told}");
}

#[test]
fn a_wrong_answer_is_told_with_the_call_and_can_be_replayed() {
    let ended = tried("--seed 3 --count 300", "M answer | sed -u 's/^known /fresh /'");
    assert_eq!(ended.status, 1);
    let expected = format!(
        "\
mavunilai: sh, call 34 (case \"seed 3, part 1, a new book\"): it differs from {NAME}
the call: deliver book 040101+00*221
its frame: finalise (kind 4), signer 1, height 1
answers: ours 'known', theirs 'fresh'
books: the same
"
    );
    assert_eq!(ended.complaint, expected);
    let shown = ended.text();
    let mut lines = shown.lines();
    assert_eq!(lines.next(), Some("mavunilai exchange 2"));
    assert_eq!(lines.next(), Some("# seed 3, part 1, a new book"));
    assert!(shown.contains("\ndeliver book 040101+00*221 == known 0"), "{shown}");
    let replayed = run("replay -", shown.as_bytes());
    assert_eq!(replayed.text(), format!("-: 1 call on {NAME}, all as expected\n"));
}

#[test]
fn a_packet_is_told_with_its_frames() {
    let swapped = "s/^counts \\([0-9]*\\) \\([0-9]*\\)/counts \\2 \\1/";
    let ended = tried("--count 300", &format!("M answer | sed -u '{swapped}'"));
    assert_eq!(ended.status, 1);
    let told = ended.complaint;
    assert!(
        told.contains("\nthe call: packet book 01") && told.contains("\nits packet: 6 frames\n")
    );
    assert!(
        told.contains("\n  1: proposal (kind 1), ") && told.contains("\n  6: page vote (kind 2), ")
    );
    let answers = "\nanswers: ours 'counts 0 1 5', theirs 'counts 1 0 5'\nbooks: the same\n";
    assert!(told.ends_with(answers), "{told}");
}

#[test]
fn a_wrong_byte_is_told_by_its_field() {
    // What `signal` leaves has flag 8 in the place of flag 1.
    let ended = tried("--count 2000", "M answer | sed -u 's/^\\(done ......\\)01/\\108/'");
    assert_eq!(ended.status, 1);
    let told = "\
answers: ours 'done', theirs 'done' (the same)
books: 1 field of ours and theirs differ
  flags of the current height (byte 3): ours 1 (timer fired), theirs 8 (proposed)
";
    assert!(ended.complaint.ends_with(told), "{}", ended.complaint);
    let ended = tried("--count 2000", "M answer | sed -u '/^offer/s/ 01\\([^ ]*\\)$/ 02\\1/'");
    let told = "\
books: the same
replies: 1 field of ours and theirs differ
  first frame, kind (byte 0): ours 1, theirs 2
";
    assert!(ended.complaint.ends_with(told), "{}", ended.complaint);
}

#[test]
fn the_example_in_python_is_caught_at_what_it_leaves_out() {
    let root = std::path::PathBuf::from(env!("CARGO_MANIFEST_DIR")).join("../example/theirs.py");
    let words = ["try", "--seed", "2", "--", "python3", root.to_str().unwrap()];
    let ended = run_words(&words, &[]);
    assert_eq!(ended.status, 1);
    assert!(ended.complaint.contains("it differs from"), "{}", ended.complaint);
    assert!(ended.complaint.contains("answers: ours '"), "{}", ended.complaint);
    assert!(!ended.complaint.contains("the call: open"), "{}", ended.complaint);
}

#[test]
fn what_a_program_may_do_but_answer() {
    let first = "mavunilai: sh, call 1 (case \"seed 1, part 1, a sound book that no run makes\"): ";
    for (line, told) in [
        ("exit 3", "it ended and gave no answer (exit status: 3)"),
        ("kill -9 $$", "it ended and gave no answer (signal: 9 (SIGKILL))"),
        ("exec sleep 20", "it gave no answer within 1 second"),
        ("exec >&-; cat >/dev/null", "it closed its output and gave no answer"),
        ("echo hello; cat >/dev/null", "hello"),
        ("echo; cat >/dev/null", "'"),
        ("printf '\\377\\n'; cat >/dev/null", "it printed a line that is no text"),
        ("cat /dev/zero", "it printed a line of 8388608 bytes or more"),
        ("M answer | sed -u 's/$/00/'", "its book has 4097 bytes, and it was lent one of 4096"),
        ("M answer | sed -u 's/ [^ ]*$//'", "is no answer followed by the bytes of 1 buffer"),
        ("M answer | sed -u 's/ [^ ]*$/ 0g/'", "'0g' is not pairs of hexadecimal digits"),
    ] {
        let seconds = if line.contains("sleep") { 1 } else { 60 };
        let ended = tried(&format!("--seconds {seconds} --count 20"), line);
        let sentence = ended.complaint.lines().next().unwrap_or("");
        assert_eq!(ended.status, 1, "{line}: {sentence}");
        assert!(sentence.starts_with(first) && sentence.contains(told), "{line}: {sentence}");
        assert!(
            ended.complaint.contains("\nthe call: deliver book 030004+00*13+42+00*207\n"),
            "{line}: {}",
            ended.complaint
        );
        assert!(ended.text().starts_with("mavunilai exchange 2\n"), "{line}");
    }
}

#[test]
fn a_line_that_no_call_asked_for_is_told() {
    let ended = tried("--count 1", "M answer; echo more");
    assert_eq!(ended.status, 1);
    assert_eq!(
        ended.complaint,
        "mavunilai: sh: it printed a line that no call asked for: 'more'\n"
    );
}

#[test]
fn bad_words_get_a_sentence() {
    refused("try", &[], "options, then -- and a program with its words");
    refused("try --count 3", &[], "options, then -- and a program");
    refused("try --count 3 --", &[], "options, then -- and a program");
    refused("try now -- x", &[], "options, then -- and a program");
    refused("try -- /no/such/program", &[], "/no/such/program cannot be started");
    refused("try --count 0 -- x", &[], "--count 0: one at least");
    refused("try --count many -- x", &[], "--count many: no number");
    refused("try --speed 1 -- x", &[], "'--speed' is not known here");
    refused("answer now", &[], "the calls come from standard input");
    refused("answer", b"dance\n", "line 1: 'dance' is no call with its arguments");
    refused("answer", &[0xff, b'\n'], "line 1: this is no text");
}

#[test]
fn words_behind_the_dashes_are_the_programs() {
    let ended = run_words(&["try", "--count", "5", "--", COMMAND, "--help"], &[]);
    assert_eq!(ended.status, 1);
    assert!(ended.complaint.contains("'mavunilai COMMAND ..'"), "{}", ended.complaint);
}

#[test]
fn the_lines_of_the_page() {
    let asked = "signal 0402010001000001+00*1448 1\nmove 0402010101000001+00*1448 aa*448\n";
    let expected =
        "done 0402010101000001+00*1448\ndummy 1 0402010301000001+00*1448 030201+00*221+aa*224\n";
    assert_eq!(String::from_utf8(fine("answer", asked.as_bytes())).unwrap(), expected);
}

#[test]
fn random_lists_are_recorded_and_replay() {
    let file = folder("random").join("list.txt");
    let path = file.to_str().unwrap();
    let written = fine("record --random 4 --count 300", &[]);
    assert_eq!(fine("record --random=4 --count=300", &[]), written);
    std::fs::write(&file, &written).unwrap();
    let expected = format!("{path}: 300 calls on {NAME}, all as expected\n");
    assert_eq!(String::from_utf8(fine(&format!("replay {path}"), &[])).unwrap(), expected);
    let full = fine("record --random 4 --count 300 --full", &[]);
    assert_eq!(String::from_utf8(full.clone()).unwrap().matches(" == ").count(), 300);
    std::fs::write(&file, &full).unwrap();
    assert_eq!(String::from_utf8(fine(&format!("replay {path}"), &[])).unwrap(), expected);
    refused("record --count 3 --scenario moves", &[], "--count is for --random");
    refused("record --random x", &[], "--random x: no number");
    refused("record --random 1 --scenario moves", &[], "one file, or --scenario");
    refused("record --folder . --full", &[], "has no --full");
}
