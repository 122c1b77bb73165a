//! A station that goes through a script, life after life, and what it has said.

use super::fake::{Fake, Fault};
use super::random::Random;
use super::script::{Input, LEADERS};
use reference::Rules;
use std::path::Path;
use store::{Error, FileBook, Statement};
use types::{Book, Frame, Move, Refusal, FRAME};

/// The path of the book, and of the file that frames are handed to.
pub const BOOK: &str = "folder/book";
const PILE: &str = "folder/pile";

/// How a station makes moves and sends frames.
#[derive(Clone, Copy, Debug, PartialEq, Eq)]
pub enum Way {
    /// Own frames are not delivered to it.
    Bare,
    /// Each move delivers them in the same commit.
    Takes,
    /// So too, and they are handed to a file.
    Hands,
}

/// A station: what it has of the script behind it, and what has left it.
#[derive(Debug)]
pub struct Station {
    pub files: Fake,
    script: Vec<Input>,
    /// How much of the script is behind it.
    pub done: usize,
    way: Way,
    /// Where its book is.
    pub path: &'static str,
    /// Whether others meddle with the name of the book, so that it may be synced by another one.
    pub meddled: bool,
    /// Whether timers fire between two lives, and whether one has.
    pub timer: bool,
    pub late: bool,
    pub said: Vec<[u8; FRAME]>,
    /// The first rule that was broken.
    pub broken: Option<String>,
}

impl Station {
    /// A station with a new book that is synced.
    pub fn new(files: Fake, script: Vec<Input>, way: Way) -> Station {
        let new = Book::open(Rules::SHA256, 4, 2, &[1; 4], &LEADERS).unwrap();
        FileBook::create_in(files.clone(), new, Path::new(BOOK)).unwrap();
        let (said, broken) = (Vec::new(), None);
        let (path, meddled) = (BOOK, false);
        Station {
            files,
            script,
            done: 0,
            way,
            path,
            meddled,
            timer: false,
            late: false,
            said,
            broken,
        }
    }

    /// One life: from the unsent frames to the end of the script, or to an error.
    pub fn live(&mut self) -> Result<Vec<u8>, Error> {
        let mut book = FileBook::open_in(self.files.clone(), Rules::SHA256, Path::new(self.path))?;
        self.send(&mut book)?;
        if self.late {
            let current = book.book().current();
            let signalled = book.signal(current);
            taken(signalled)?;
        }
        while let Some(input) = self.script.get(self.done).cloned() {
            let answer = match input {
                Input::Deliver(frame) => book.deliver(&frame.bytes()).map(|_| ()),
                Input::Packet(frames) => {
                    let packet: Vec<u8> = frames.iter().flat_map(Frame::bytes).collect();
                    book.deliver_packet(&packet).map(|_| ())
                }
                Input::Signal(height) => book.signal(height),
                Input::Submit(entry) => book.submit(&entry),
            };
            taken(answer)?;
            self.move_until_idle(&mut book)?;
            self.done += 1;
        }
        if self.way == Way::Hands && !self.said.is_empty() {
            let pile = self.files.text(Path::new(PILE));
            let kept: Vec<_> = pile.lines().map(frame).collect();
            if self.said.iter().any(|frame| !kept.contains(frame)) {
                self.complain("frames are lost that were handed on".to_string());
            }
        }
        Ok(book.book().bytes().to_vec())
    }

    /// Lives until the script is done, each life with the fault that is asked for; none if the book cannot be used.
    pub fn live_on(
        &mut self,
        random: &mut Random,
        mut next: impl FnMut(&mut Random) -> Option<(usize, Fault)>,
    ) -> Option<Vec<u8>> {
        loop {
            if let Some((steps, fault)) = next(random) {
                self.files.fault(steps, fault);
            }
            let ended = self.live();
            let faulty = self.files.revive(random);
            self.late = self.timer;
            match ended {
                Ok(book) => return Some(book),
                Err(_) if faulty => {}
                Err(error) => {
                    self.complain(format!("the book cannot be used: {error}"));
                    return None;
                }
            }
        }
    }

    /// Moves until idle, and sends what each move wrote.
    fn move_until_idle(&mut self, book: &mut FileBook<Rules, Fake>) -> Result<(), Error> {
        loop {
            let made = match self.way {
                Way::Bare => book.make_move()?,
                Way::Takes | Way::Hands => book.move_and_take()?,
            };
            self.send(book)?;
            if made == Move::Idle {
                return Ok(());
            }
        }
    }

    /// Sends the unsent frames: the book that cast them must be synced by now, and that they leave be recorded.
    fn send(&mut self, book: &mut FileBook<Rules, Fake>) -> Result<(), Error> {
        if book.unsent().is_empty() {
            return Ok(());
        }
        if !self.meddled && !self.files.synced(Path::new(self.path), book.book().bytes()) {
            self.complain("a frame left before the book that cast it was synced".to_string());
        }
        if !book.unsent().iter().all(|frame| self.recorded(frame)) {
            self.complain("a frame left before it was recorded".to_string());
        }
        if self.way == Way::Hands {
            book.hand_to(PILE)?;
            let text = self.files.text(Path::new(PILE));
            text.lines().for_each(|line| self.say(&frame(line)));
            return Ok(());
        }
        for frame in book.unsent() {
            self.say(frame);
        }
        book.sent()
    }

    /// Whether a frame is no statement of this station, or is among what it has said, synced.
    fn recorded(&self, frame: &[u8; FRAME]) -> bool {
        let path = format!("{}.said", self.path);
        let said = self.files.bytes(path.as_ref()).unwrap_or_default();
        let synced = self.files.synced(path.as_ref(), &said);
        let said = String::from_utf8(said).unwrap();
        Statement::of(frame, 2).is_none_or(|(height, statement)| {
            let line = format!("{height} {statement}");
            synced && said.lines().any(|said| said == line)
        })
    }

    /// Says a frame: once is enough, and none may contradict an earlier one.
    fn say(&mut self, frame: &[u8; FRAME]) {
        if self.said.contains(frame) {
            return;
        }
        let one_of = |frame: &[u8; FRAME]| match Frame::parts(frame) {
            Some(Frame::Proposal { block, .. }) => Some((1, block.height)),
            Some(Frame::BlockVote { height, .. }) => Some((2, height)),
            Some(Frame::DummyVote { height, .. } | Frame::Finalize { height, .. }) => {
                Some((3, height))
            }
            _ => None,
        };
        let kind = one_of(frame);
        if kind.is_some() && self.said.iter().any(|said| one_of(said) == kind) {
            self.complain(format!("two things were said: {:?}", Frame::parts(frame)));
        }
        self.said.push(*frame);
    }

    /// Keeps the first complaint.
    fn complain(&mut self, sentence: String) {
        self.broken.get_or_insert(sentence);
    }
}

/// A call that was done or refused; that the book is not sound is neither.
fn taken(answer: Result<(), Error>) -> Result<(), Error> {
    match answer {
        Err(Error::Refused(refusal)) if refusal != Refusal::Unsound => Ok(()),
        Ok(()) => Ok(()),
        Err(error) => Err(error),
    }
}

/// The frame of a line of digits.
fn frame(line: &str) -> [u8; FRAME] {
    assert_eq!(line.len(), 2 * FRAME);
    std::array::from_fn(|at| u8::from_str_radix(&line[2 * at..2 * at + 2], 16).unwrap())
}
