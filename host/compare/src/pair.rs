//! One call made on two replicas, and everything about it compared.

use crate::guarded::Guarded;
use crate::{Difference, Halt, Kinds, Outcome, Second};
use exchange::{Answer, Call, Line, List, Tally};
use types::Calls;

/// Two replicas, the counts of what they were given and answered, and room for copies.
#[derive(Clone, Debug)]
pub struct Pair<A, B> {
    one: A,
    two: B,
    most: u64,
    observers: bool,
    part: String,
    case: String,
    tally: Tally,
    /// How often each kind of input occurred.
    pub kinds: Kinds,
    before: [Vec<u8>; 2],
    other: [Guarded; 2],
}

impl<A: Calls, B: Second> Pair<A, B> {
    /// Two replicas that have not been called yet.
    pub fn new(one: A, two: B) -> Pair<A, B> {
        Pair::limited(one, two, u64::MAX)
    }

    /// The same, and after so many calls it is enough.
    pub fn limited(one: A, two: B, most: u64) -> Pair<A, B> {
        let (part, case, tally, kinds, before, other) = Default::default();
        let observers = true;
        Pair { one, two, most, observers, part, case, tally, kinds, before, other }
    }

    /// The same with no calls of observers, for a replica that has none.
    pub fn without_observers(self) -> Pair<A, B> {
        Pair { observers: false, ..self }
    }

    /// Whether calls of observers are made.
    pub fn has_observers(&self) -> bool {
        self.observers
    }

    /// The counts so far.
    pub fn tally(&self) -> &Tally {
        &self.tally
    }

    /// The second of the two.
    pub fn second(&self) -> &B {
        &self.two
    }

    /// The second of the two, when no more calls are made.
    pub fn into_second(self) -> B {
        self.two
    }

    /// The name of the case that was begun last.
    pub fn case(&self) -> &str {
        &self.case
    }

    /// The next cases belong to this part of the comparison.
    pub fn part(&mut self, name: String) {
        self.part = name;
    }

    /// A case of the part begins.
    pub fn begin(&mut self, what: &str) {
        self.case = format!("{}, {what}", self.part);
        self.two.begin(&self.case);
    }

    /// Makes a call on both; the lent bytes become what the first replica leaves.
    pub fn make(
        &mut self,
        call: &Call,
        book: &mut [u8],
        buffer: &mut [u8],
    ) -> Result<Answer, Halt> {
        if self.tally.calls() >= self.most {
            return Err(Halt::Enough);
        }
        for (keep, bytes) in self.before.iter_mut().zip([&*book, &*buffer]) {
            keep.clear();
            keep.extend_from_slice(bytes);
        }
        let [other_book, other_buffer] = &mut self.other;
        other_book.load(book);
        other_buffer.load(buffer);
        let answer = call.make(&self.one, book, buffer);
        let other = self.two.make(call, other_book.part(), other_buffer.part());
        self.tally.count(&answer);
        let [book_before, buffer_before] = &self.before;
        self.kinds.see(call, book_before, buffer_before.len(), answer);
        let one = || Outcome { answer, book: book.to_vec(), buffer: buffer.to_vec() };
        let sentence = match &other {
            Err(sentence) => sentence.clone(),
            Ok(other) if answer != *other => format!("the answers are '{answer}' and '{other}'"),
            Ok(_) => match self.fault(call, answer, book, buffer) {
                None => return Ok(answer),
                Some(sentence) => sentence.to_string(),
            },
        };
        Err(self.difference(call, sentence, one(), other.ok()))
    }

    /// What is wrong with the bytes after a call, if anything.
    fn fault(
        &mut self,
        call: &Call,
        answer: Answer,
        book: &[u8],
        buffer: &[u8],
    ) -> Option<&'static str> {
        let [other_book, other_buffer] = &mut self.other;
        let [book_before, buffer_before] = &self.before;
        let refused = matches!(answer, Answer::Deny(_));
        let faults = [
            (other_book.part() != book, "the books differ"),
            (other_buffer.part() != buffer, "the replies or buffers differ"),
            (!other_book.is_intact(), "bytes beside the book were written"),
            (!other_buffer.is_intact(), "bytes beside the reply or buffer were written"),
            (
                (refused || !call.writes()) && book != book_before,
                "a call that may not has changed the book",
            ),
            (
                (refused || !call.lends()) && buffer != buffer_before,
                "a refused call has changed the buffer",
            ),
        ];
        faults.into_iter().find(|(wrong, _)| *wrong).map(|(_, sentence)| sentence)
    }

    /// The difference with the list that shows it.
    fn difference(
        &mut self,
        call: &Call,
        sentence: String,
        one: Outcome,
        answer: Option<Answer>,
    ) -> Halt {
        let [book, buffer] = self.before.clone();
        let mut lines = vec![Line::Give { name: "book".to_string(), bytes: book }];
        let mut lent = String::new();
        if call.lends() {
            lent.push_str("buffer");
            lines.push(Line::Give { name: lent.clone(), bytes: buffer });
        }
        let book = "book".to_string();
        lines.push(Line::Call { call: call.clone(), book, buffer: lent, expected: None });
        let list = List { lines };
        let list = exchange::record(&list, &self.one).unwrap_or(list);
        let [book, buffer] = self.other.each_mut().map(|bytes| bytes.part().to_vec());
        let two = answer.map(|answer| Outcome { answer, book, buffer });
        Halt::Differs(Box::new(Difference { sentence, list, call: call.clone(), one, two }))
    }
}
