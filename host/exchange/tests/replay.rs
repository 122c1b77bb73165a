//! Replaying finds every kind of difference, and bad lists get a sentence with the line.

use exchange::{record, record_in_full, replay, replay_until, List, Problem, HEADING};
use reference::Rules;

/// A list of these lines.
fn list(lines: &str) -> Result<List, Problem> {
    List::parse(&format!("{HEADING}\n{lines}"))
}

/// A short list with all expectations.
fn sample() -> String {
    let calls = "give book 5a*1456\ngive reply aa*448\nopen book 4 2 1 0100010001000100 00\n\
                 signal book 1\nmove book reply\nsize book";
    record(&list(calls).unwrap(), &Rules::SHA256).unwrap().to_string()
}

/// The problem that replaying a text ends with.
fn problem(text: &str) -> Option<String> {
    match List::parse(text) {
        Ok(list) => replay(&list, &Rules::SHA256).err().map(|failure| failure.to_string()),
        Err(problem) => Some(problem.to_string()),
    }
}

/// The same list with bytes in full.
fn full_sample() -> String {
    record_in_full(&List::parse(&sample()).unwrap(), &Rules::SHA256).unwrap().to_string()
}

#[test]
fn a_recorded_list_replays() {
    assert_eq!(problem(&sample()), None);
    assert!(sample().contains("move book reply = dummy 1 "));
}

#[test]
fn another_answer_is_found() {
    let text = sample().replace("= dummy 1 ", "= vote 1 ");
    let expected = "line 6: the answer is 'dummy 1', expected is 'vote 1'";
    assert_eq!(problem(&text).as_deref(), Some(expected));
}

#[test]
fn other_bytes_are_found() {
    let text = sample().replace("aa*448", "aa*449");
    assert_eq!(
        problem(&text).as_deref(),
        Some("line 6: the bytes of the reply or buffer are not the expected ones")
    );
    let text = sample().replace("signal book 1 = done", "submit book 00*16 = done");
    assert_eq!(
        problem(&text).as_deref(),
        Some("line 5: the bytes of the book are not the expected ones")
    );
}

#[test]
fn a_list_in_full_has_bytes_and_replays() {
    let text = full_sample();
    assert_eq!(problem(&text), None);
    assert!(
        text.contains(
            "\nsignal book 1 == done 040200010000000301000100010001+00*25+010001+00*1413\n"
        ),
        "{text}"
    );
    assert!(text.contains(" == dummy 1 04020003") && text.contains(" 030201+00*221+aa*224\n"));
    let list = List::parse(&text).unwrap();
    assert_eq!(list.to_string(), text);
    assert_eq!(record(&list, &Rules::SHA256), Ok(list));
}

#[test]
fn other_bytes_in_full_are_found_with_both_books() {
    let text = full_sample().replacen("== done 04020001", "== done 04020000", 1);
    let list = List::parse(&text).unwrap();
    let failure = replay(&list, &Rules::SHA256).unwrap_err();
    assert_eq!(failure.to_string(), "line 5: the bytes of the book are not the expected ones");
    let unmet = failure.unmet.unwrap();
    let expected = &unmet.expected.bytes.unwrap()[0];
    let book = unmet.stage.bytes("book").unwrap();
    assert_eq!((unmet.before[0][3], book[3], expected[3]), (0, 1, 0));
    assert_eq!(unmet.before[0], *expected);
}

#[test]
fn a_case_is_the_remark_behind_an_empty_line_or_the_heading() {
    let lines = "# All\ngive book 00*576\n\n# First\n# more words\nsize book\n# no case\nsize book\n\nsize book";
    let list = list(lines).unwrap();
    let names = |range: std::ops::RangeInclusive<usize>| range.map(|line| list.case(line));
    assert_eq!(list.case(1), None);
    assert!(names(2..=4).all(|name| name == Some("All")));
    assert!(names(5..=11).all(|name| name == Some("First")));
    let wrong = lines.replacen("size book", &format!("size book = size 1 {}", "0".repeat(64)), 1);
    assert_eq!(
        problem(&format!("{HEADING}\n{wrong}")).as_deref(),
        Some("line 7: the answer is 'deny 1', expected is 'size 1' (case \"First\")")
    );
}

#[test]
fn replaying_stops_behind_a_line() {
    let list = List::parse(&sample()).unwrap();
    let calls = |last| replay_until(&list, &Rules::SHA256, last).unwrap().tally.calls();
    assert_eq!([1, 3, 4, 5, 7, 8].map(calls), [0, 0, 1, 2, 4, 4]);
}

#[test]
fn every_digit_of_the_digests_counts() {
    let sample = sample();
    let digits = sample.match_indices(|c: char| c.is_ascii_hexdigit()).map(|(at, _)| at);
    let in_digest = |at: &usize| {
        let word = sample[..*at].rfind(char::is_whitespace).map_or(0, |start| start + 1);
        sample[word..].split_whitespace().next().is_some_and(|word| word.len() == 64)
    };
    let places: Vec<usize> = digits.filter(in_digest).collect();
    assert_eq!(places.len(), 5 * 64);
    for at in places {
        let other = if &sample[at..=at] == "0" { "1" } else { "0" };
        let text = format!("{}{other}{}", &sample[..at], &sample[at + 1..]);
        assert!(problem(&text).is_some(), "{at}");
    }
}

/// Lines that no list has.
const BAD: [&str; 25] = [
    "opne book 4 2 1 0100 00",
    "open book 4 2 1",
    "open book 4 2 1 00",
    "open book 4 2 x 0100 00",
    "open book 4 2 1 010 00",
    "observer-open book 4 1",
    "observer-open book 4 1 x",
    "signal book -1",
    "signal book 18446744073709551616",
    "deliver book 0",
    "packet book",
    "packet book 0",
    "packet book 00 00",
    "move book book",
    "move book",
    "give book",
    "size book =",
    "size book = size 0",
    "size book = size 0 00",
    "size book = done = done",
    "size book == size 0",
    "size book == size 0 0",
    "size book == size 0 00 = size 0 00",
    "size missing",
    "move book missing",
];

#[test]
fn bad_lists_get_a_sentence() {
    assert!(problem("").is_some());
    assert!(problem("mavunilai exchange 3\n").is_some());
    let zeros = "0".repeat(64);
    let with_two = format!("size book = size 0 {zeros} {zeros}");
    let without_third = format!("packet book - = counts 0 0 {zeros}");
    for line in BAD.into_iter().chain([with_two.as_str(), &without_third]) {
        let text = format!("{HEADING}\ngive book 00*576\n{line}\n");
        let found = problem(&text);
        assert!(
            found.as_ref().is_some_and(|found| found.starts_with("line 3: ")),
            "{line} {found:?}"
        );
    }
}

/// A list from before stations had weights says so in its heading, and is told what changed.
#[test]
fn an_older_list_is_told_what_changed() {
    let older = problem("mavunilai exchange 1\ngive book 00*1456\nopen book 4 2 1 00\n").unwrap();
    let newer = format!("line 1: a list begins with the line '{HEADING}'");
    assert!(older.starts_with(&newer) && older.contains("weights behind H"), "{older}");
    assert_eq!(problem("mavunilai exchange 3\n"), Some(newer.clone()));
    assert_eq!(problem(""), Some(newer));
}
