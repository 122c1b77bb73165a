//! The lists of the folder on observers: every refusal, answer and kind of frame occurs; the observer of the season.

use crate::played::{list, played};
use exchange::{scenarios, Answer, Call, Line, List, ObserverCall};
use std::collections::BTreeSet;
use types::Delivered::{Fresh, Known};
use types::{field, head_height, height_at, is_observers, Move, FRAME_HEIGHT};

/// Each call of a list with the book before it and what it answers.
fn calls(list: &List) -> Vec<(Call, String, Vec<u8>, Answer)> {
    played(list).into_iter().map(|made| (made.call, made.name, made.book, made.answer)).collect()
}

/// The answers of one call of an observer, in the list of observers.
fn answers(is: fn(&ObserverCall) -> bool) -> Vec<Answer> {
    let all = calls(&list("observers")).into_iter();
    all.filter(|(call, ..)| matches!(call, Call::Observer(call) if is(call)))
        .map(|(.., answer)| answer)
        .collect()
}

#[test]
fn every_refusal_of_every_call_occurs_and_no_other() {
    let refusals = |answers: Vec<Answer>| -> BTreeSet<u8> {
        let number = |answer| if let Answer::Deny(number) = answer { Some(number) } else { None };
        answers.into_iter().filter_map(number).collect()
    };
    let open = answers(|call| matches!(call, ObserverCall::Open { .. }));
    let deliver = answers(|call| matches!(call, ObserverCall::Deliver { .. }));
    let moves = answers(|call| *call == ObserverCall::Move);
    let sizes = answers(|call| *call == ObserverCall::Size);
    assert!(open.contains(&Answer::Done) && sizes.contains(&Answer::Size(48)));
    assert!(moves.contains(&Answer::Moved(Move::Final { height: 3 })));
    assert!(moves.contains(&Answer::Moved(Move::Idle)));
    assert_eq!(refusals(open), [1, 2].into());
    assert_eq!(refusals(deliver), [1, 4, 5, 6, 9, 10, 16].into());
    assert_eq!([moves, sizes].map(refusals), [[1].into(), [1].into()]);
    let reads = answers(|call| *call == ObserverCall::Read);
    assert!([0, 16, 48].iter().all(|part| reads.contains(&Answer::Part(*part))));
}

#[test]
fn frames_of_every_kind_occur_with_every_answer() {
    let mut seen = BTreeSet::new();
    for (call, _, book, answer) in calls(&list("observers")) {
        let Call::Observer(ObserverCall::Deliver { frame }) = call else { continue };
        let [kind, signer, ..] = frame[..] else { continue };
        let height = height_at(&frame, FRAME_HEIGHT);
        let last = head_height(&book, field::HEIGHTS);
        let outside = (height == 0 || height > last, signer >= book[0]);
        seen.insert((kind, outside, answer.to_string()));
    }
    for kind in 5..=7 {
        for answer in [Answer::Delivered(Fresh), Answer::Delivered(Known)] {
            assert!(seen.contains(&(kind, (false, false), answer.to_string())), "{kind} {answer}");
        }
    }
    for kind in 1..=4 {
        for outside in [(false, false), (true, false)] {
            assert!(seen.contains(&(kind, outside, "deny 16".to_string())), "{kind} {outside:?}");
        }
        assert!(seen.iter().all(|(of, _, answer)| *of != kind
            || ["deny 1", "deny 4", "deny 16"].contains(&answer.as_str())));
    }
    assert!(seen.contains(&(3, (false, true), "deny 16".to_string())));
    assert!(seen.contains(&(1, (false, false), "deny 4".to_string())));
}

#[test]
fn a_call_of_the_other_kind_is_refused_with_1() {
    let (mut stations, mut observers) = (BTreeSet::new(), BTreeSet::new());
    for (call, _, book, answer) in calls(&list("observers")) {
        let name = call.words("", "").split(' ').next().unwrap().to_string();
        let refused = [Answer::Deny(1), Answer::Part(0)].contains(&answer);
        match (&call, is_observers(&book)) {
            (Call::Observer(_), false) if book.len() == types::book_length(1) => {
                assert!(refused, "{name}");
                observers.insert(name);
            }
            (Call::Observer(_), _) | (_, false) => {}
            _ => {
                assert!(refused, "{name}");
                stations.insert(name);
            }
        }
    }
    let all = ["deliver", "fetch", "move", "open", "packet", "read", "signal", "size", "submit"];
    assert!(stations.iter().eq(all.iter()), "{stations:?}");
    assert_eq!(observers.len(), 5, "{observers:?}");
}

#[test]
fn the_observer_of_the_season_is_given_certificates_and_follows() {
    let all = calls(&list("season"));
    let watched = || all.iter().filter(|(call, ..)| matches!(call, Call::Observer(_)));
    assert!(watched().all(|(_, book, ..)| book == "watch"));
    let moved: Vec<String> = watched()
        .filter_map(|(.., answer)| match answer {
            Answer::Moved(made) if *made != Move::Idle => Some(made.to_string()),
            _ => None,
        })
        .collect();
    assert_eq!(moved, ["final 1", "final 4"]);
    let refused = watched().filter(|(.., answer)| matches!(answer, Answer::Deny(_)));
    assert!(refused.map(|(.., answer)| *answer).eq([Answer::Deny(16), Answer::Deny(16)]));
    assert_eq!(watched().next_back().unwrap().3, Answer::Part(64));
}

/// The lists with books of more than 63 heights.
const LONG: [&str; 2] = ["heights", "long"];

/// The program `calls`, which plays a list on the proved code, has room for so many buffers of such names and lengths;
/// lists with longer books are not for it.
#[test]
fn lists_fit_the_program_that_plays_them() {
    for name in scenarios::NAMES.into_iter().filter(|name| !LONG.contains(name)) {
        let mut names = BTreeSet::new();
        for line in list(name).lines {
            if let Line::Give { name, bytes } = line {
                assert!(name.len() <= 8 && bytes.len() <= 65_536, "{name}");
                names.insert(name);
            }
        }
        assert!(names.len() <= 16, "{name}: {names:?}");
    }
}
