//! A partner's program that is asked line by line, and a sentence for each way in which it may fail to answer.

use crate::bounded_line::{self, Next};
use crate::problem::Problem;
use crate::words;
use compare::Second;
use exchange::bytes::shorten;
use exchange::{request, Answer, Call, Expected};
use std::io::{BufReader, Write};
use std::process::{Child, ChildStdin, ChildStdout, Command, Stdio};
use std::sync::mpsc::{channel, sync_channel, Receiver, RecvTimeoutError, Sender};
use std::time::{Duration, Instant};

/// The program while it runs.
pub struct Theirs {
    child: Child,
    asks: Option<Sender<String>>,
    answers: Receiver<Next>,
    limit: Duration,
}

impl Theirs {
    /// Starts the program; an answer may take so long.
    pub fn start(program: &str, words: &[String], limit: Duration) -> Result<Theirs, Problem> {
        let mut command = Command::new(program);
        command.args(words).stdin(Stdio::piped()).stdout(Stdio::piped());
        let wrong = |error| Problem::input(format!("{program} cannot be started: {error}"));
        let mut child = command.spawn().map_err(wrong)?;
        let (input, output) = (child.stdin.take(), child.stdout.take());
        let asks = input.map(write_lines);
        Ok(Theirs { child, asks, answers: read_lines(output), limit })
    }

    /// Asks for a call and waits for the line that answers it.
    fn ask(&mut self, line: String) -> Result<String, String> {
        match self.answers.try_recv() {
            Ok(Next::Line(line)) => return Err(unasked(&line)),
            Ok(other) => return self.line(other),
            Err(_) => {}
        }
        _ = self.asks.as_ref().map(|asks| asks.send(line));
        match self.answers.recv_timeout(self.limit) {
            Ok(next) => self.line(next),
            Err(RecvTimeoutError::Disconnected) => self.line(Next::End),
            Err(RecvTimeoutError::Timeout) => {
                let seconds = words::count(self.limit.as_secs() as usize, "second", "seconds");
                Err(format!("it gave no answer within {seconds}"))
            }
        }
    }

    /// The line that came, or a sentence about what came in its place.
    fn line(&mut self, next: Next) -> Result<String, String> {
        match next {
            Next::Line(line) => Ok(line),
            Next::Rubbish => Err("it printed a line that is no text".to_string()),
            Next::Long => Err(format!("it printed a line of {} bytes or more", bounded_line::MOST)),
            Next::End => Err(self.ending()),
        }
    }

    /// Why the program prints nothing more.
    fn ending(&mut self) -> String {
        match self.wait(Duration::from_secs(1)) {
            None => "it closed its output and gave no answer".to_string(),
            Some(status) => format!("it ended and gave no answer ({status})"),
        }
    }

    /// The status with which the program ends within a time, if it does.
    fn wait(&mut self, time: Duration) -> Option<std::process::ExitStatus> {
        let start = Instant::now();
        loop {
            match self.child.try_wait() {
                Ok(None) if start.elapsed() < time => {
                    std::thread::sleep(Duration::from_millis(5));
                }
                outcome => return outcome.ok().flatten(),
            }
        }
    }

    /// Ends the input, after which the program may print nothing more.
    pub fn finish(mut self) -> Result<(), String> {
        self.asks = None;
        match self.answers.recv_timeout(self.limit) {
            Ok(Next::Line(line)) => Err(unasked(&line)),
            Ok(Next::Rubbish | Next::Long) => Err(unasked("what is no text or too long")),
            _ => Ok(()),
        }
    }
}

/// The sentence about a line that comes too early, or after the last call.
fn unasked(line: &str) -> String {
    format!("it printed a line that no call asked for: '{}'", shorten(line))
}

impl Drop for Theirs {
    /// Ends the program, if it has not ended by itself.
    fn drop(&mut self) {
        self.asks = None;
        if self.wait(Duration::from_millis(50)).is_none() {
            _ = self.child.kill();
            _ = self.child.wait();
        }
    }
}

impl Second for Theirs {
    fn make(&mut self, call: &Call, book: &mut [u8], buffer: &mut [u8]) -> Result<Answer, String> {
        let line = self.ask(request::print(call, book, buffer) + "\n")?;
        let answered = request::parse_answer(call, &line);
        let answered = answered.map_err(|sentence| format!("its answer is no answer: {sentence}"));
        take(answered?, [book, buffer])
    }
}

/// Puts the bytes of an answer where the call would have left them.
fn take(answered: Expected, lent: [&mut [u8]; 2]) -> Result<Answer, String> {
    let names = ["book", "reply or buffer"];
    for ((bytes, lent), name) in answered.bytes.iter().flatten().zip(lent).zip(names) {
        if bytes.len() != lent.len() {
            let (found, right) = (bytes.len(), lent.len());
            return Err(format!("its {name} has {found} bytes, and it was lent one of {right}"));
        }
        lent.copy_from_slice(bytes);
    }
    Ok(answered.answer)
}

/// Writes lines as they are asked for, until the program reads no more.
fn write_lines(mut to: ChildStdin) -> Sender<String> {
    let (sender, lines) = channel::<String>();
    std::thread::spawn(move || lines.iter().try_for_each(|line| to.write_all(line.as_bytes())));
    sender
}

/// Reads lines as they come; only a few wait, however many are printed.
fn read_lines(from: Option<ChildStdout>) -> Receiver<Next> {
    let (sender, lines) = sync_channel(1);
    if let Some(from) = from {
        let mut from = BufReader::new(from);
        std::thread::spawn(move || loop {
            let next = bounded_line::next(&mut from);
            let last = matches!(next, Next::End | Next::Long);
            if sender.send(next).is_err() || last {
                break;
            }
        });
    }
    lines
}
