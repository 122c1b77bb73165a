//! `observer BOOK follow`: takes certificates line by line as they come, and prints each entry once it is settled.

use crate::bounded_line::{self, Next};
use crate::chosen::REPLICA;
use crate::evidence::Keeper;
use crate::frame_line::{self, Line};
use crate::output::print;
use crate::problem::Problem;
use crate::register::{self, Filed};
use crate::words::count;
use std::io::{stderr, BufRead, Write};
use store::{Disk, Error, FileObserver};
use types::{Height, Refusal, FRAME};

/// An observer's book that is followed. It is locked for one frame at a time, so that others may feed it too.
pub struct Follower<'a> {
    file: &'a str,
    disk: Disk,
    keeper: Keeper,
    json: bool,
    /// How many entries of the register are printed, or were there before, and the settled height at which it was read.
    told: usize,
    settled: Height,
    /// How many frames came, how many of them were refused, and how many lines were neither frame nor answer.
    frames: usize,
    refused: usize,
    strange: usize,
}

impl<'a> Follower<'a> {
    /// A follower of the book in a file, which prints entries as objects or in words.
    pub fn new(file: &'a str, disk: Disk, keeper: Keeper, json: bool) -> Follower<'a> {
        Follower {
            file,
            disk,
            keeper,
            json,
            told: 0,
            settled: 0,
            frames: 0,
            refused: 0,
            strange: 0,
        }
    }

    /// Prints what is settled from this height on, if one is given, and then what settles with each line of the input.
    pub fn follow(mut self, since: Option<Height>, mut input: impl BufRead) -> Result<(), Problem> {
        let filed = register::filed(&store::read(self.file)?)?;
        let before = |entry: &&Filed| since.is_none_or(|since| entry.height < since);
        self.told = filed.iter().filter(before).count();
        self.settle(None)?;
        for number in 1_usize.. {
            let line = match bounded_line::next(&mut input) {
                Next::End => break,
                Next::Line(text) => frame_line::parse(&text),
                Next::Rubbish => Line::Strange("it is no text".to_string()),
                Next::Long => return Err(Problem::input(format!("line {number} is too long"))),
            };
            match line {
                Line::Nothing => {}
                Line::Frame(frame) => self.settle(Some(&frame))?,
                Line::Strange(why) => {
                    self.strange = self.strange.saturating_add(1);
                    _ = writeln!(stderr(), "mavunilai: line {number} is left out: {why}");
                }
            }
        }
        self.outcome()
    }

    /// Takes a frame, if one came, moves, and prints the entries that are new. What is printed is synced.
    fn settle(&mut self, frame: Option<&[u8; FRAME]>) -> Result<(), Problem> {
        let mut observer = FileObserver::open_in(self.disk, REPLICA, self.file.as_ref())?;
        if let Some(frame) = frame {
            self.frames = self.frames.saturating_add(1);
            self.keeper.keep(self.frames, &observer.book().answers([frame.as_slice()]))?;
            match observer.deliver(frame) {
                Err(Error::Refused(refusal)) if refusal != Refusal::OtherNotarized => {
                    self.refused = self.refused.saturating_add(1);
                    let Problem { sentence, .. } = Problem::refused(refusal);
                    _ = writeln!(stderr(), "mavunilai: frame {}: {sentence}", self.frames);
                }
                answer => _ = answer?,
            }
        }
        observer.make_move()?;
        if observer.book().finalized() == self.settled {
            return Ok(());
        }
        self.settled = observer.book().finalized();
        let filed = register::filed(observer.book().bytes())?;
        drop(observer);
        for entry in filed.iter().skip(self.told) {
            self.told = entry.place;
            match self.json {
                true => print(&format!("{}\n", entry.json()))?,
                false => print(&format!("{}\n", line(entry)))?,
            }
        }
        Ok(())
    }

    /// What the end of the input makes of it all.
    fn outcome(&self) -> Result<(), Problem> {
        match (self.refused, self.strange) {
            (0, 0) => Ok(()),
            (0, strange) => {
                let lines = count(strange, "line was", "lines were");
                Err(Problem::input(format!("{lines} neither a frame nor an answer")))
            }
            (refused, _) => Err(Problem::some_refused(refused, self.frames)),
        }
    }
}

/// An entry on a line: place, height, text.
fn line(entry: &Filed) -> String {
    let text = register::text(&entry.entry);
    format!("{}  {}  {}", entry.place, entry.height, text.trim_end())
}
