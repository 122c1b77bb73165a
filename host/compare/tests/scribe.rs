//! A comparison written down: a list with a named case for each part, which replays.

use compare::{walk, Pair, Scribe};
use exchange::{replay, Line, List};
use reference::Rules;

/// The list of so many calls from a seed.
fn list(seed: u64, count: u64, full: bool) -> List {
    let mut pair = Pair::limited(Rules::SHA256, Scribe::new(Rules::SHA256, full), count);
    walk(&mut pair, seed, count).unwrap();
    pair.second().list().clone()
}

/// The names of the cases.
fn cases(list: &List) -> Vec<&str> {
    let name = |line: &'_ Line| matches!(line, Line::Remark(text) if !text.is_empty());
    let lines = (2..).zip(&list.lines).filter(|(_, line)| name(line));
    lines.filter_map(|(at, _)| list.case(at)).collect()
}

#[test]
fn a_written_list_replays_from_its_text() {
    for full in [false, true] {
        let written = list(5, 1000, full);
        let read = List::parse(&written.to_string()).unwrap();
        assert_eq!(read, written);
        assert_eq!(replay(&read, &Rules::SHA256).unwrap().tally.calls(), 1000);
    }
}

#[test]
fn networks_with_dishonest_stations_are_among_the_cases() {
    let list = list(1, 8000, false);
    let names = cases(&list);
    assert_eq!(names.first().copied(), list.case(3));
    assert!(names[0].starts_with("seed 1, part 1, "), "{names:?}");
    let dishonest =
        |name: &&str| name.contains(", a network of ") && !name.contains(" 0 of them dishonest");
    assert!(names.iter().any(dishonest), "{names:?}");
    for what in ["a new book", "a sound book that no run makes", "a sound book, damaged"] {
        assert!(names.iter().any(|name| name.ends_with(what)), "{what}");
    }
}
