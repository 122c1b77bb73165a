//! A second that gives no answer, or another one: where the comparison stops, and what it holds.

use compare::{walk, Pair, Second};
use exchange::{Answer, Call};
use reference::Rules;

/// Answers as the reference does up to a call, which it spoils or does not answer.
struct Spoils {
    call: u64,
    silent: bool,
}

impl Second for Spoils {
    fn make(&mut self, call: &Call, book: &mut [u8], buffer: &mut [u8]) -> Result<Answer, String> {
        self.call -= 1;
        let answer = call.make(&Rules::SHA256, book, buffer);
        match (self.call, self.silent) {
            (0, true) => Err("it says nothing".to_string()),
            (0, false) => {
                book[3] ^= 1;
                Ok(answer)
            }
            _ => Ok(answer),
        }
    }
}

/// Where the comparison stops.
fn stop(call: u64, silent: bool) -> Box<compare::Stop> {
    walk(&mut Pair::new(Rules::SHA256, Spoils { call, silent }), 1, 5000).unwrap_err()
}

#[test]
fn the_call_and_both_outcomes_are_held() {
    let found = stop(70, false);
    assert_eq!((found.call, found.sentence.as_str()), (70, "the books differ"));
    assert!(found.case.starts_with("seed 1, part "), "{}", found.case);
    let difference = found.difference.unwrap();
    let two = difference.two.unwrap();
    assert_eq!((difference.one.answer, difference.one.book[3] ^ 1), (two.answer, two.book[3]));
    assert_eq!(difference.one.book[4..], two.book[4..]);
    let replayed = exchange::replay(&difference.list, &Rules::SHA256).unwrap().stage;
    assert_eq!(replayed.bytes("book"), Some(difference.one.book.as_slice()));
}

#[test]
fn a_second_that_does_not_answer_stops_it() {
    let found = stop(3, true);
    assert_eq!((found.call, found.sentence.as_str()), (3, "it says nothing"));
    assert!(found.difference.unwrap().two.is_none());
}
