//! Writes a list while it makes the calls.

use crate::{Answer, Call, Line, List, ObserverCall, Stage};
use types::{weight_bytes, Calls, Height, Move, FRAME};

/// The most stations that [`equal_weights`] has weights for: more than any book.
const MOST_EQUAL: u64 = 1_000;

/// The bytes of a weight of 1 for each of n stations; of at most 1,000 stations, since an n that is out of range may be
/// any number.
pub fn equal_weights(n: u64) -> Vec<u8> {
    let one = |_| 1u16.to_le_bytes();
    (0..n.min(MOST_EQUAL)).flat_map(one).collect()
}

/// Calls on named buffers, kept as a list with their answers and digests.
#[derive(Clone, Debug)]
pub struct Recorder<C> {
    calls: C,
    stage: Stage,
    list: List,
}

impl<C: Calls> Recorder<C> {
    /// A list that nothing stands in yet.
    pub fn new(calls: C) -> Recorder<C> {
        Recorder { calls, stage: Stage::default(), list: List::default() }
    }

    /// The list so far.
    pub fn into_list(self) -> List {
        self.list
    }

    /// Adds a remark.
    pub fn remark(&mut self, text: &str) {
        self.list.lines.push(Line::Remark(text.to_string()));
    }

    /// Adds an empty line and a remark: a part of the list begins.
    pub fn part(&mut self, text: &str) {
        self.remark("");
        self.remark(text);
    }

    /// Gives bytes to a buffer.
    pub fn give(&mut self, name: &str, bytes: Vec<u8>) {
        self.stage.give(name, bytes.clone());
        self.list.lines.push(Line::Give { name: name.to_string(), bytes });
    }

    /// The bytes of a buffer; none for a name that was not given.
    pub fn bytes(&self, name: &str) -> &[u8] {
        self.stage.bytes(name).unwrap_or(&[])
    }

    /// Makes a call on the buffers of these names; nothing if a name was not given.
    pub fn make(&mut self, call: Call, book: &str, buffer: &str) -> Option<Answer> {
        let expected = self.stage.make(&self.calls, &call, book, buffer).ok()?;
        let answer = expected.answer;
        let buffer = if call.lends() { buffer.to_string() } else { String::new() };
        let line = Line::Call { call, book: book.to_string(), buffer, expected: Some(expected) };
        self.list.lines.push(line);
        Some(answer)
    }

    /// Opens a book of the right length over bytes `5a`; all stations weigh 1.
    pub fn open(&mut self, book: &str, n: u64, own: u64, leaders: &[u8]) {
        self.open_with(book, n, own, equal_weights(n), leaders);
    }

    /// Opens a book for stations of these weights, one for each.
    pub fn open_weighed(&mut self, book: &str, weights: &[u16], own: u64, leaders: &[u8]) {
        self.open_with(book, weights.len() as u64, own, weight_bytes(weights), leaders);
    }

    /// Opens a book with the bytes of weights.
    fn open_with(&mut self, book: &str, n: u64, own: u64, weights: Vec<u8>, leaders: &[u8]) {
        let heights = Height::try_from(leaders.len()).unwrap_or(Height::MAX);
        self.give(book, vec![0x5a; types::book_length(heights)]);
        let (heights, leaders) = (leaders.len() as u64, leaders.to_vec());
        self.make(Call::Open { n, own, heights, weights, leaders }, book, "");
    }

    /// Opens an observer's book of the right length over bytes `5a`; all stations weigh 1.
    pub fn open_observer(&mut self, book: &str, n: u64, heights: Height) {
        self.give(book, vec![0x5a; types::observer_book_length(heights)]);
        let (heights, weights) = (heights.into(), equal_weights(n));
        self.observer(book, ObserverCall::Open { n, heights, weights });
    }

    /// Opens an observer's book for stations of these weights, one for each.
    pub fn open_weighed_observer(&mut self, book: &str, weights: &[u16], heights: Height) {
        self.give(book, vec![0x5a; types::observer_book_length(heights)]);
        let (n, weights) = (weights.len() as u64, weight_bytes(weights));
        self.observer(book, ObserverCall::Open { n, heights: heights.into(), weights });
    }

    /// Makes a call of an observer that is lent no second buffer.
    pub fn observer(&mut self, book: &str, call: ObserverCall) -> Option<Answer> {
        self.make(Call::Observer(call), book, "")
    }

    /// Delivers a frame.
    pub fn deliver(&mut self, book: &str, frame: &[u8]) -> Option<Answer> {
        self.make(Call::Deliver { frame: frame.to_vec() }, book, "")
    }

    /// Delivers frames as one packet.
    pub fn packet<F: AsRef<[u8]>>(&mut self, book: &str, frames: &[F]) -> Option<Answer> {
        let packet = frames.iter().flat_map(|frame| frame.as_ref()).copied().collect();
        self.make(Call::Packet { packet }, book, "")
    }

    /// Makes a move and returns it with the frames that it wrote.
    pub fn make_move(&mut self, book: &str, reply: &str) -> (Option<Move>, Vec<Vec<u8>>) {
        match self.make(Call::Move, book, reply) {
            Some(Answer::Moved(made)) => {
                let frames = self.bytes(reply).chunks(FRAME).take(made.frames());
                (Some(made), frames.map(<[u8]>::to_vec).collect())
            }
            _ => (None, Vec::new()),
        }
    }
}
