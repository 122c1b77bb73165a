//! A book in a file, open for calls that change it, and where its frames go.

use crate::chosen::REPLICA;
use crate::evidence::Keeper;
use crate::json_answer::{self, denied};
use crate::output::{keeps_frames, print};
use crate::problem::Problem;
use crate::words;
use exchange::Answer;
use store::{Disk, Error, FileBook};
use types::{Answered, Calls, Move, Written, FRAME};

/// An open book; frames go to the file that `--out` names, else to standard output.
pub struct Station<'a, C> {
    book: FileBook<C>,
    file: &'a str,
    out: Option<&'a str>,
    /// Whether answers are printed as objects.
    json: bool,
    /// The frames of an earlier call that went out when the book was opened.
    late: Written,
}

/// Opens the book in a file, and first of all hands on the frames that an earlier call left.
pub fn open<'a>(
    file: &'a str,
    out: Option<&'a str>,
    disk: Disk,
    json: bool,
) -> Result<Station<'a, impl Calls + Clone>, Problem> {
    let book = FileBook::open_in(disk, REPLICA, file.as_ref());
    let book = book.map_err(|error| denied(json, error))?;
    let late = book.unsent().to_vec();
    let mut station = Station { book, file, out, json, late };
    match (station.late.is_empty(), out) {
        (false, _) => station.publish("unsent")?,
        // A file that takes no frames is found out before there are any.
        (true, Some(out)) => station.book.hand_to(out)?,
        (true, None) => {}
    }
    Ok(station)
}

impl<C: Calls + Clone> Station<'_, C> {
    /// Delivers frames one by one. A single one may be refused; of several the others are taken all the same.
    pub fn deliver(&mut self, frames: &[Vec<u8>], keeper: &Keeper) -> Result<(), Problem> {
        keeper.keep(1, &self.book.book().answers(frames.iter().map(Vec::as_slice)))?;
        let answers = self.answers(frames).map_err(|error| denied(self.json, error))?;
        print(&answers.iter().map(|answer| self.line(answer)).collect::<String>())?;
        Problem::of_answers(&answers)
    }

    /// The answers to frames that are delivered one by one; a refusal is an answer if there are several.
    fn answers(&mut self, frames: &[Vec<u8>]) -> Result<Vec<Answer>, Error> {
        let several = frames.len() > 1;
        let answer = |frame: &Vec<u8>| match self.book.deliver(frame) {
            Err(Error::Refused(refusal)) if several => Ok(Answer::Deny(refusal.number())),
            answer => answer.map(Answer::Delivered),
        };
        frames.iter().map(answer).collect()
    }

    /// Delivers frames as one packet, in one commit; those that are refused are counted like the others, and told one
    /// by one if that is asked for.
    pub fn packet(&mut self, packet: &[u8], each: bool, keeper: &Keeper) -> Result<(), Problem> {
        let told = self.packet_answers(packet, each)?;
        keeper.keep(1, &told)?;
        let counts = self.book.deliver_packet(packet).map_err(|error| denied(self.json, error))?;
        let answers: Vec<Answer> = told.iter().map(answer).collect();
        let shown = each.then_some(answers.as_slice());
        print(&match self.json {
            true => json_answer::packet(&Answer::Counted(counts), shown),
            false => {
                let lines = shown.unwrap_or_default().iter().map(|answer| format!("{answer}\n"));
                format!("{counts}\n{}", lines.collect::<String>())
            }
        })?;
        Problem::of_packet(&answers)
    }

    /// What becomes of each frame of a packet; nothing if nobody asks and none can be evidence, which takes a refused
    /// frame or a second page.
    fn packet_answers(&self, packet: &[u8], each: bool) -> Result<Vec<Answered>, Problem> {
        let mut after = self.book.book().clone();
        let counts = after.deliver_packet(packet);
        let refused = counts.map_err(|refusal| denied(self.json, refusal.into()))?.refused;
        let second = || packet.chunks(FRAME).any(|frame| after.is_second_block(frame));
        match each || refused > 0 || second() {
            true => self.book.book().packet_answers(packet).map_err(Problem::refused),
            false => Ok(Vec::new()),
        }
    }

    /// Tells that the timer of a height fired.
    pub fn signal(&mut self, height: u64) -> Result<(), Problem> {
        let signalled = self.book.signal(types::nearest_height(height));
        signalled.map_err(|error| denied(self.json, error))?;
        print(&self.line(&Answer::Done))
    }

    /// Adds a pending entry.
    pub fn submit(&mut self, entry: &[u8; types::ENTRY]) -> Result<(), Problem> {
        self.book.submit(entry).map_err(|error| denied(self.json, error))?;
        print(&self.line(&Answer::Done))
    }

    /// Makes a move.
    pub fn make_move(&mut self) -> Result<(), Problem> {
        self.check_output()?;
        let made = self.book.make_move().map_err(|error| denied(self.json, error))?;
        self.publish(&made.to_string())
    }

    /// Moves until idle; what it writes is delivered to it, late frames too.
    pub fn run(&mut self) -> Result<(), Problem> {
        self.check_output()?;
        for frame in &self.late {
            match self.book.deliver(frame) {
                Ok(_) | Err(Error::Refused(_)) => {}
                Err(error) => return Err(error.into()),
            }
        }
        loop {
            let made = self.book.move_and_take()?;
            self.publish(&made.to_string())?;
            if made == Move::Idle {
                return Ok(());
            }
        }
    }

    /// An error before any move if its frames would be lost.
    fn check_output(&self) -> Result<(), Problem> {
        let none = |problem: Problem| Problem::input(problem.sentence + "; no move was made");
        self.out.map_or_else(keeps_frames, |_| Ok(())).map_err(none)
    }

    /// Prints a heading and hands the unsent frames on; they stay beside the book if that fails.
    fn publish(&mut self, heading: &str) -> Result<(), Problem> {
        let frames = self.book.unsent();
        if frames.is_empty() {
            return print(&self.headed(heading, &[]));
        }
        let handed = match self.out {
            Some(out) => self.book.hand_to(out).map_err(Problem::from),
            None => keeps_frames().and_then(|()| print(&self.headed(heading, frames))),
        };
        if let Err(Problem { status, sentence }) = handed {
            let file = behind_link(self.file);
            let sentence =
                format!("{sentence}; the frames wait in {file}.frames for the next call");
            return Err(Problem { status, sentence });
        }
        self.book.sent()?;
        if self.out.is_some() {
            print(&self.headed(heading, &[]))?;
        }
        Ok(())
    }

    /// The line of an answer.
    fn line(&self, answer: &Answer) -> String {
        self.headed(&answer.to_string(), &[])
    }

    /// A heading and the frames behind it, as lines or as an object.
    fn headed(&self, heading: &str, frames: &[[u8; FRAME]]) -> String {
        match self.json {
            true => json_answer::line(heading, frames),
            false => format!("{heading}\n{}", lines(frames)),
        }
    }
}

/// The file as it is named, or the one that a link of this name leads to.
pub fn behind_link(file: &str) -> String {
    let end = std::fs::read_link(file).and_then(|_| std::fs::canonicalize(file));
    end.map_or_else(|_| file.to_string(), |path| path.display().to_string())
}

/// The answer of a frame in the words of a list.
pub fn answer(told: &Answered) -> Answer {
    match told.answer {
        Ok(delivered) => Answer::Delivered(delivered),
        Err(refusal) => Answer::Deny(refusal.number()),
    }
}

/// Frames as lines of digits.
fn lines(frames: &[[u8; FRAME]]) -> String {
    frames.iter().map(|frame| words::hex(frame) + "\n").collect()
}
