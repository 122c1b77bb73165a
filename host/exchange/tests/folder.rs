//! The folder `exchange/`: its files are what the reference records, they replay, and together they cover all.

use crate::played::{file, list, played};
use exchange::{record, replay, scenarios, Answer, Call, Line, List, ObserverCall, Tally};
use reference::Rules;
use std::cmp::Ordering;
use types::Delivered::{Fresh, Known};
use types::{field, head_height, height_at, is_second_block, Counts, FRAME, FRAME_HEIGHT};

#[test]
fn files_are_as_recorded() {
    for name in scenarios::NAMES {
        let recorded = scenarios::record(name, Rules::SHA256).unwrap();
        let text = std::fs::read_to_string(file(name)).unwrap_or_default();
        assert!(recorded.to_string() == text, "{name}: record the folder anew");
    }
}

#[test]
fn folder_has_no_other_files() {
    let folder = file("").parent().unwrap().to_path_buf();
    for entry in std::fs::read_dir(folder).unwrap() {
        let path = entry.unwrap().path();
        let stem = path.file_stem().unwrap().to_str().unwrap().to_string();
        assert!(scenarios::NAMES.contains(&stem.as_str()), "{path:?}");
    }
}

#[test]
fn all_refusals_moves_and_passes_occur() {
    let mut tally = Tally::default();
    for name in scenarios::NAMES {
        tally.add(&replay(&list(name), &Rules::SHA256).unwrap().tally);
    }
    assert_eq!(tally.missing(), Vec::<String>::new(), "{tally}");
}

/// All packets of the folder, with what they must answer.
fn packets() -> Vec<(Vec<u8>, Answer)> {
    let lines = scenarios::NAMES.into_iter().flat_map(|name| list(name).lines);
    let packet = |line: Line| match line {
        Line::Call { call: Call::Packet { packet }, expected, .. } => {
            Some((packet, expected?.answer))
        }
        _ => None,
    };
    lines.filter_map(packet).collect()
}

#[test]
fn packets_of_every_kind_occur() {
    let packets = packets();
    let refused = |number, wanted: fn(usize) -> bool| {
        let is = |(packet, answer): &(Vec<u8>, Answer)| {
            *answer == Answer::Deny(number) && wanted(packet.len())
        };
        packets.iter().any(is)
    };
    assert!(refused(1, |length| length == 0) && refused(1, |length| length % FRAME != 0));
    assert!(refused(1, |length| length == FRAME));
    for wanted in [|length| length == FRAME - 1, |length| length == FRAME + 1, |length| length == 1]
    {
        assert!(refused(15, wanted));
    }
    let counts: Vec<Counts> = packets
        .iter()
        .filter_map(|(packet, answer)| match answer {
            Answer::Counted(counts) => {
                let sum = counts.fresh + counts.known + counts.refused;
                assert_eq!(sum * FRAME as u64, packet.len() as u64);
                Some(*counts)
            }
            _ => None,
        })
        .collect();
    let counted = |wanted: fn(&Counts) -> bool| assert!(counts.iter().any(wanted));
    counted(|counts| *counts == Counts::default());
    counted(|counts| counts.fresh > 255);
    counted(|counts| counts.known > 255);
    counted(|counts| counts.refused > 255);
    counted(|counts| counts.fresh > 0 && counts.known > 0 && counts.refused > 0);
    counted(|counts| counts.fresh + counts.known == 0 && counts.refused > 1);
}

/// The second pages that a list delivers singly: the book, where the height lies beside the current one, whether all
/// heights are passed, and the answer.
fn second_pages(list: &List) -> Vec<(String, Ordering, bool, Answer)> {
    let mut found = Vec::new();
    for made in played(list) {
        if let Call::Deliver { frame } = made.call {
            let book = &made.book;
            let [current, last] = [field::CURRENT, field::HEIGHTS].map(|at| head_height(book, at));
            let place = height_at(&frame, FRAME_HEIGHT).cmp(&current);
            if is_second_block(book, &frame) {
                found.push((made.name, place, current > last, made.answer));
            }
        }
    }
    found
}

#[test]
fn second_pages_of_every_kind_occur() {
    use Ordering::{Equal, Greater, Less};
    let found: Vec<_> =
        scenarios::NAMES.into_iter().flat_map(|name| second_pages(&list(name))).collect();
    let [fresh, known] = [Fresh, Known].map(Answer::Delivered);
    for wanted in [
        (Equal, false, fresh),
        (Equal, false, known),
        (Less, false, Answer::Deny(8)),
        (Less, true, Answer::Deny(8)),
        (Greater, false, Answer::Deny(8)),
    ] {
        let is = |(_, place, all_passed, answer): &(String, _, _, _)| {
            (*place, *all_passed, *answer) == wanted
        };
        assert!(found.iter().any(is), "{wanted:?}");
    }
}

#[test]
fn two_pages_end_the_wait_of_the_season_with_no_signal() {
    let list = list("season");
    let fresh = second_pages(&list).into_iter().filter(|(.., answer)| *answer != Answer::Deny(8));
    let heard: Vec<_> = fresh.map(|(book, place, _, answer)| (book, place, answer)).collect();
    let both = |book: &str| (book.to_string(), Ordering::Equal, Answer::Delivered(Fresh));
    assert_eq!(heard, [both("book0"), both("book1")]);
    let signals: Vec<_> = list
        .lines
        .iter()
        .filter_map(|line| match line {
            Line::Call { call: Call::Signal { height }, book, expected, .. } => {
                Some((book.as_str(), *height, expected.as_ref()?.answer))
            }
            _ => None,
        })
        .collect();
    assert_eq!(signals, [("book2", 2, Answer::Done), ("book0", 3, Answer::Deny(14))]);
}

#[test]
fn refusals_alone_cover_every_number() {
    let tally = replay(&list("refusals"), &Rules::SHA256).unwrap().tally;
    assert!(tally.missing().iter().all(|name| !name.starts_with("refusal")), "{tally}");
}

#[test]
fn text_comes_back() {
    for name in scenarios::NAMES {
        let list = list(name);
        assert_eq!(List::parse(&list.to_string()), Ok(list.clone()));
        assert_eq!(record(&list, &Rules::SHA256), Ok(list));
    }
}

#[test]
fn files_are_small() {
    for name in scenarios::NAMES {
        assert!(std::fs::metadata(file(name)).unwrap().len() < 68 * 1024, "{name}");
    }
}

/// The answers of a list on one book, in order.
fn answers(list: &List, wanted: &str) -> Vec<Answer> {
    let answer = |line: &Line| match line {
        Line::Call { book, expected: Some(expected), .. } if book == wanted => {
            Some(expected.answer)
        }
        _ => None,
    };
    list.lines.iter().filter_map(answer).collect()
}

/// The moves of a list on one book, in words, without idle.
fn moves(list: &List, book: &str) -> Vec<String> {
    let words = answers(list, book).into_iter().filter_map(|answer| match answer {
        Answer::Moved(made) => Some(made.to_string()),
        _ => None,
    });
    words.filter(|words| words != "idle").collect()
}

#[test]
fn the_season_goes_as_told() {
    let list = list("season");
    let expected = [
        "offer 1,vote 1,pass 1 5 4,final 1,vote 2,pass 2 5 4,vote 3,dummy 3,pass 3 6 0,vote 4,pass 4 5 4,\
         offer 5,final 4",
        "vote 1,pass 1 5 4,offer 2,final 1,vote 2,pass 2 5 4,vote 3,dummy 3,pass 3 6 0,pass 4 5 4,final 4",
        "vote 1,pass 1 5 4,final 1,vote 2,dummy 2,pass 2 5 0,vote 3,pass 3 6 4,offer 4,vote 4,pass 4 5 4,final 4",
        "final 1,pass 1 5 4,pass 2 5 4,offer 3,pass 3 6 4,vote 4,final 4,pass 4 5 4",
    ];
    for (replica, expected) in expected.iter().enumerate() {
        let book = format!("book{replica}");
        assert_eq!(moves(&list, &book).join(","), *expected, "{book}");
        let denied = answers(&list, &book).contains(&Answer::Deny(8));
        assert_eq!(denied, [0, 2].contains(&replica), "{book}");
        assert_eq!(answers(&list, &book).last(), Some(&Answer::Part(64)), "{book}");
    }
}

#[test]
fn the_registers_of_four_stations_and_an_observer_are_the_same() {
    let reads = [Call::Read, Call::Observer(ObserverCall::Read)];
    let mut registers = list("season").lines.into_iter().filter_map(|line| match line {
        Line::Call { call, expected, .. } if reads.contains(&call) => {
            expected?.digests.get(1).copied()
        }
        _ => None,
    });
    let first = registers.next().unwrap();
    let mut buffer = [0xbb; 80];
    let words =
        ["\0swap A12 to B40", "\0seed lot 7 to 3", "\0undo A12 to B40", "\0plot C7 fallow "];
    buffer[..64].copy_from_slice(words.concat().as_bytes());
    assert_eq!(first, reference::sha256::digest(&buffer));
    assert_eq!(registers.filter(|other| *other == first).count(), 4);
}
