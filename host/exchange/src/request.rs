//! The lines of `mavunilai try`: a call with the bytes of its buffers, and what a program answers to it.
//!
//! A call stands there as in a list, with the bytes of each buffer in the place of its name. The answer is what a list
//! has behind `==`: the answer, the bytes of the book after the call, and those of the second buffer if one is lent.

use crate::{bytes, line, Answer, Call, Expected};

/// A call with the bytes that it works on; the second buffer is empty if none is lent.
#[derive(Clone, Debug, PartialEq, Eq)]
pub struct Request {
    /// The call.
    pub call: Call,
    /// The book before the call.
    pub book: Vec<u8>,
    /// The reply or reading buffer before the call.
    pub buffer: Vec<u8>,
}

/// The line that asks for a call, without its end.
pub fn print(call: &Call, book: &[u8], buffer: &[u8]) -> String {
    call.words(&bytes::print(book), &bytes::print(buffer))
}

/// The call that a line asks for, or a sentence about what is wrong with it.
pub fn parse(text: &str) -> Result<Request, String> {
    let words: Vec<&str> = text.split_whitespace().collect();
    let (call, book, buffer) = Call::parse(&words)?;
    let book = bytes::parse(&book)?;
    let buffer = if call.lends() { bytes::parse(&buffer)? } else { Vec::new() };
    Ok(Request { call, book, buffer })
}

/// The line that answers a call, without its end.
pub fn print_answer(call: &Call, answer: Answer, book: &[u8], buffer: &[u8]) -> String {
    match call.lends() {
        true => format!("{answer} {} {}", bytes::print(book), bytes::print(buffer)),
        false => format!("{answer} {}", bytes::print(book)),
    }
}

/// What a line answers to a call, or a sentence about what is wrong with it.
pub fn parse_answer(call: &Call, text: &str) -> Result<Expected, String> {
    let words: Vec<&str> = text.split_whitespace().collect();
    line::expected(&words, call, true)
}

#[cfg(test)]
#[allow(clippy::indexing_slicing, clippy::arithmetic_side_effects)] // a test may panic
#[allow(clippy::unwrap_used, clippy::panic)]
mod tests {
    use super::*;
    use crate::ObserverCall;
    use types::{Counts, Move};

    #[test]
    fn a_call_and_its_answer_come_back() {
        let calls = [
            Call::Open { n: 4, own: 2, heights: 1, weights: vec![1, 0], leaders: vec![] },
            Call::Deliver { frame: vec![3; 224] },
            Call::Packet { packet: vec![] },
            Call::Packet { packet: vec![3; 448] },
            Call::Move,
            Call::Read,
            Call::Fetch { kind: 5, height: u64::MAX },
            Call::Observer(ObserverCall::Open { n: 4, heights: u64::MAX, weights: vec![] }),
            Call::Observer(ObserverCall::Deliver { frame: vec![6; 224] }),
            Call::Observer(ObserverCall::Move),
            Call::Observer(ObserverCall::Size),
            Call::Observer(ObserverCall::Read),
        ];
        for call in calls {
            let (book, buffer) = (vec![0; 32], if call.lends() { vec![1, 2] } else { vec![] });
            let line = print(&call, &book, &buffer);
            assert_eq!(parse(&line), Ok(Request { call: call.clone(), book, buffer }), "{line}");
        }
        let answer = Answer::Moved(Move::Idle);
        let line = print_answer(&Call::Move, answer, &[7; 9], &[]);
        assert_eq!(line, "idle 07*9 -");
        let expected = Expected::in_full(answer, vec![vec![7; 9], vec![]]);
        assert_eq!(parse_answer(&Call::Move, &line), Ok(expected));
    }

    #[test]
    fn the_counts_of_a_packet_come_back() {
        let call = Call::Packet { packet: vec![] };
        let answer = Answer::Counted(Counts { fresh: 300, known: 0, refused: u64::MAX });
        let line = print_answer(&call, answer, &[7; 9], &[]);
        assert_eq!(line, "counts 300 0 18446744073709551615 07*9");
        assert_eq!(parse_answer(&call, &line), Ok(Expected::in_full(answer, vec![vec![7; 9]])));
        for line in ["counts 1 2 07*9", "counts 1 2 3 4 07*9", "counts 1 2 -3 07*9"] {
            assert!(parse_answer(&call, line).is_err(), "{line}");
        }
    }

    #[test]
    fn both_buffers_may_hold_the_same_bytes() {
        assert_eq!(parse("move - -").map(|request| request.call), Ok(Call::Move));
    }

    #[test]
    fn other_lines_get_a_sentence() {
        for (line, part) in [
            ("", "is no answer followed by the bytes of 1 buffer"),
            ("hello", "'hello' is no answer followed by the bytes of 1 buffer"),
            ("fresh", "'fresh' is no answer"),
            ("fresh 0", "not pairs of hexadecimal digits"),
            ("fresh 00 00", "is no answer"),
        ] {
            let found = parse_answer(&Call::Deliver { frame: vec![] }, line).unwrap_err();
            assert!(found.contains(part), "{line}: {found}");
        }
        assert!(parse("dance 00").is_err());
        assert!(parse("move 00").is_err());
        for line in ["observer-move 00 00", "observer-open 00 4", "observer-fetch 00 5 1 00"] {
            assert!(parse(line).is_err(), "{line}");
        }
    }
}
