//! Frames that a command is given: as bytes, as digits, or as a call printed them.

use crate::problem::Problem;
use crate::{files, words};
use exchange::Answer;
use types::FRAME;

/// The frames of a file or of the standard input, and what is wrong with it, which stands behind them.
#[derive(Debug)]
pub struct FrameInput {
    name: String,
    bytes: Vec<u8>,
    wrong: Option<String>,
}

/// Reads a file, or the standard input for `-`. It is text if it begins with a letter, a blank or an end of line: a
/// frame as it is begins with its kind, 1 to 7.
pub fn read(name: &str) -> Result<FrameInput, Problem> {
    let bytes = files::read_some(name, files::MOST_BYTES)?;
    let is_text = |first: &u8| first.is_ascii_graphic() || first.is_ascii_whitespace();
    let (bytes, wrong) = match bytes.first().is_some_and(is_text) {
        true => of_text(&String::from_utf8_lossy(&bytes)),
        false => (bytes, None),
    };
    Ok(FrameInput { name: name.to_string(), bytes, wrong })
}

impl FrameInput {
    /// The whole frames that stand before anything else.
    pub fn whole(&self) -> Vec<Vec<u8>> {
        self.bytes.chunks_exact(FRAME).map(<[u8]>::to_vec).collect()
    }

    /// All bytes, if nothing else is there.
    pub fn all(self) -> Result<Vec<u8>, Problem> {
        match self.wrong {
            None => Ok(self.bytes),
            Some(sentence) => Err(Problem::input(self.name + &sentence)),
        }
    }

    /// What became of the whole frames, with a sentence about the rest that is none. A problem with the frames keeps
    /// its status.
    pub fn and_rest(&self, outcome: Result<(), Problem>) -> Result<(), Problem> {
        let rest = match (&self.wrong, self.bytes.as_chunks::<FRAME>()) {
            (Some(sentence), _) => format!("{}{sentence}", self.name),
            (None, (_, [])) => return outcome,
            (None, (frames, rest)) => {
                let (name, count) = (&self.name, words::count(frames.len(), "frame", "frames"));
                let left = words::count(rest.len(), "byte", "bytes");
                format!("{name} is cut: behind {count} stands a part of one, {left} of {FRAME}")
            }
        };
        match outcome {
            Ok(()) => Err(Problem::input(rest)),
            Err(problem) => {
                let sentence = format!("{}; {rest}", problem.sentence);
                Err(Problem { sentence, ..problem })
            }
        }
    }
}

/// The bytes of the digits in a text, up to a line that is neither digits nor an answer, or to an answer that parts a
/// frame; and a sentence about that line, for behind the name of the file.
fn of_text(text: &str) -> (Vec<u8>, Option<String>) {
    let mut digits = Digits::default();
    for (number, line) in (1_usize..).zip(text.lines()) {
        let line = line.trim();
        let taken = match is_answer(line) {
            true if digits.are_whole() => Ok(()),
            true => Err(format!("'{line}' stands within a frame, of which a part is missing")),
            false => line.split_ascii_whitespace().try_for_each(|word| digits.take(word)),
        };
        if let Err(sentence) = taken {
            return (digits.bytes, Some(format!(", line {number}: {sentence}")));
        }
    }
    let odd =
        digits.odd.map(|_| " is cut: the last digit of its bytes has no second one".to_string());
    (digits.bytes, odd)
}

/// Whether a line is what a call prints beside frames, to the letter. The answers of `size` and `read` are not among
/// them: the digits behind these are no frames.
pub fn is_answer(line: &str) -> bool {
    let words: Vec<&str> = line.split(' ').collect();
    match Answer::parse(&words) {
        Some(Answer::Size(_) | Answer::Part(_)) => false,
        Some(answer) => answer.to_string() == line,
        None => line == "unsent",
    }
}

/// Digits that are taken word by word; plain ones may be parted anywhere.
#[derive(Default)]
struct Digits {
    bytes: Vec<u8>,
    /// A digit that waits for the second one of its pair.
    odd: Option<char>,
}

impl Digits {
    /// Whether they end where a frame does.
    fn are_whole(&self) -> bool {
        self.odd.is_none() && self.bytes.len().is_multiple_of(FRAME)
    }

    /// Takes a word: plain digits, or bytes as a list has them, with `+` and `*`.
    fn take(&mut self, word: &str) -> Result<(), String> {
        let is_plain = word.chars().all(|letter| letter.is_ascii_hexdigit());
        let is_literal = word.chars().all(|l| l.is_ascii_hexdigit() || l == '+' || l == '*');
        if !is_plain && (!is_literal || self.odd.is_some()) {
            let word = exchange::bytes::shorten(word);
            return Err(format!("'{word}' is neither digits of frames nor an answer beside them"));
        }
        let mut text: String = self.odd.take().into_iter().chain(word.chars()).collect();
        self.odd = if is_plain && !text.len().is_multiple_of(2) { text.pop() } else { None };
        if !text.is_empty() {
            self.bytes.extend(exchange::bytes::parse(&text)?);
        }
        match self.bytes.len() > files::MOST_BYTES {
            true => Err(format!("with it there are more than {} bytes", files::MOST_BYTES)),
            false => Ok(()),
        }
    }
}
