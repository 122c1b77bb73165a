//! A station's host in Rust, to be copied: the book in a file, timer, sending, own frames, evidence.
//!
//! It does what docs/HOST.md asks of a host, but for two things that are yours: signatures ([`signatures_hold`] and
//! [`Host::send`] are the places) and a network. In the place of a network there are the standard input and output, a
//! message a line, which another program carries to all other stations and from them:
//!
//! ```text
//! frame 448-DIGITS     both ways: a frame
//! hello                both ways: this station has just begun, and lacks what was sent before
//! entry 32-DIGITS      in: an entry for the register, handed to every station
//! settled 32-DIGITS    out: an entry of the register, each once and in order
//! ```
//!
//! The same messages, in C: host/example/host.c. To begin station 0 of 4, which weigh the same, with Δ of half a second:
//!
//! ```text
//! example-host BOOK 4 0 1,1,1,1 0,1,2,3 500 EVIDENCE
//! ```
//!
//! BOOK is made where it is not there; else the station goes on with it, whatever ended it before.

use mavunilai::store::{Error, FileBook};
use mavunilai::{Book, Height, Move, Refusal, ENTRY, FRAME};
use std::fs::{File, OpenOptions};
use std::io::{stdin, stdout, BufRead, Write};
use std::path::Path;
use std::process::ExitCode;
use std::sync::mpsc::{channel, Receiver, RecvTimeoutError};
use std::time::{Duration, Instant};

/// The replica: the proved one where the library is linked.
#[cfg(feature = "proved")]
const REPLICA: mavunilai::Proved = mavunilai::Proved;
#[cfg(feature = "proved")]
type Replica = mavunilai::Proved;

/// The replica: the reference where it is not.
#[cfg(not(feature = "proved"))]
const REPLICA: reference::Rules = reference::Rules::SHA256;
#[cfg(not(feature = "proved"))]
type Replica = reference::Rules;

/// What ends the host: a sentence for people.
type Ended = Box<dyn std::error::Error>;

fn main() -> ExitCode {
    match run(&std::env::args().skip(1).collect::<Vec<_>>()) {
        Ok(()) => ExitCode::SUCCESS,
        Err(sentence) => {
            eprintln!("example-host: {sentence}");
            ExitCode::FAILURE
        }
    }
}

/// Begins the station that the words name, and works until the input ends.
fn run(words: &[String]) -> Result<(), Ended> {
    let [book, n, own, weights, leaders, delta, evidence] = words else {
        let expected = "BOOK N OWN WEIGHT,WEIGHT,.. LEADER,LEADER,.. MILLISECONDS EVIDENCE";
        return Err(format!("expected: {expected}").into());
    };
    let weights = weights.split(',').map(str::parse).collect::<Result<Vec<u16>, _>>()?;
    let leaders = leaders.split(',').map(str::parse).collect::<Result<Vec<u8>, _>>()?;
    let book = open(Path::new(book), n.parse()?, own.parse()?, &weights, &leaders)?;
    let mut host = Host {
        book,
        delta: Duration::from_millis(delta.parse()?),
        timed: 0,
        timer: None,
        told: 0,
        told_height: 0,
        evidence: OpenOptions::new().create(true).append(true).open(evidence)?,
    };
    host.begin()?;
    let lines = lines();
    loop {
        match host.wait(&lines) {
            Ok(line) => host.message(&line)?,
            Err(RecvTimeoutError::Timeout) => host.timer_fired()?,
            Err(RecvTimeoutError::Disconnected) => return Ok(()),
        }
        host.work()?;
    }
}

/// The station's book: the one in the file, or a new one where there is none. It stays locked until the host ends.
fn open(
    path: &Path,
    n: u64,
    own: u64,
    weights: &[u16],
    leaders: &[u8],
) -> Result<FileBook<Replica>, Error> {
    if !path.exists() {
        return FileBook::create(Book::open(REPLICA, n, own, weights, leaders)?, path);
    }
    FileBook::open(REPLICA, path)
}

/// The lines of the standard input, read by a thread of their own so that a timer can be waited for meanwhile.
fn lines() -> Receiver<String> {
    let (sender, receiver) = channel();
    std::thread::spawn(move || {
        // The thread ends with the input, or once nobody listens.
        for line in stdin().lock().lines().map_while(Result::ok) {
            if sender.send(line).is_err() {
                return;
            }
        }
    });
    receiver
}

/// YOURS: whether all signatures of a frame hold that came from another station. Of kinds 1 to 4 its signer's, of
/// kinds 5 to 7 one for each bit of the mask, under the name of this season, as docs/HOST.md says. Keep what you have
/// checked, synced, before the frame is delivered: you send it on with the certificates of your own book. This example
/// has no keys and believes everybody, so it is for trials among friends only.
fn signatures_hold(_frame: &[u8; FRAME]) -> bool {
    true
}

/// A station, with what a host keeps for it beside the book.
struct Host {
    book: FileBook<Replica>,
    /// The longest time that a message takes between two stations that work.
    delta: Duration,
    /// The height that the timer was started for last.
    timed: Height,
    /// When the timer fires; none while it does not run.
    timer: Option<Instant>,
    /// How many entries of the register are told, and the settled height at which it was read.
    told: usize,
    told_height: Height,
    /// Where frames are kept by which others broke the rules.
    evidence: File,
}

impl Host {
    /// What is done first: frames that an earlier life left go out, others hear that we are here, and what their
    /// silence left open is worked at.
    fn begin(&mut self) -> Result<(), Ended> {
        self.send_unsent()?;
        say("hello")?;
        self.work()
    }

    /// The next line; an error of time where the timer fires before.
    fn wait(&self, lines: &Receiver<String>) -> Result<String, RecvTimeoutError> {
        match self.timer {
            Some(timer) => lines.recv_timeout(timer.saturating_duration_since(Instant::now())),
            None => lines.recv().map_err(|_| RecvTimeoutError::Disconnected),
        }
    }

    /// Takes a message. One that is none of ours is said and dropped.
    fn message(&mut self, line: &str) -> Result<(), Ended> {
        match line.split_once(' ') {
            Some(("frame", digits)) => match bytes(digits) {
                Some(frame) if signatures_hold(&frame) => self.deliver(&frame),
                _ => note("a frame without its signatures, or of another length, is dropped"),
            },
            Some(("entry", digits)) => match bytes::<ENTRY>(digits) {
                Some(entry) => self.submit(&entry),
                None => note("an entry of another length is dropped"),
            },
            None if line == "hello" => self.send_certificates(),
            _ => note("a line that is no message is dropped"),
        }
    }

    /// Takes a frame whose signatures hold, and keeps it where it shows that somebody broke the rules.
    fn deliver(&mut self, frame: &[u8; FRAME]) -> Result<(), Ended> {
        let delivered = self.book.deliver(frame);
        match delivered {
            Ok(_) if self.book.book().is_second_block(frame) => self.keep("second page", frame),
            Ok(_) => Ok(()),
            Err(Error::Refused(Refusal::OtherKept)) => self.keep("refused with 8", frame),
            Err(Error::Refused(Refusal::OtherNotarized)) => {
                self.keep("refused with 10", frame)?;
                Err("another page is notarised at that height: stop, and compare".into())
            }
            Err(Error::Refused(refusal)) => note(&format!("a frame is dropped: {refusal}")),
            Err(other) => Err(other.into()),
        }
    }

    /// Keeps a frame as evidence, with what it shows, and syncs it. With signatures, keep those too, and those of the
    /// frame that it contradicts.
    fn keep(&mut self, what: &str, frame: &[u8; FRAME]) -> Result<(), Ended> {
        writeln!(self.evidence, "{what} {}", digits(frame))?;
        self.evidence.sync_all()?;
        note(&format!("kept as evidence: {what}"))
    }

    /// Hands an entry to the station. One that is pending or in the register already is taken.
    fn submit(&mut self, entry: &[u8; ENTRY]) -> Result<(), Ended> {
        match self.book.submit(entry) {
            Ok(()) | Err(Error::Refused(Refusal::EntryKnown)) => Ok(()),
            Err(Error::Refused(refusal)) => note(&format!("an entry is not taken: {refusal}")),
            Err(other) => Err(other.into()),
        }
    }

    /// The timer of the current height has fired. That it comes late is no fault: a leader's second page may have fired
    /// it before.
    fn timer_fired(&mut self) -> Result<(), Ended> {
        self.timer = None;
        match self.book.signal(self.timed) {
            Ok(()) | Err(Error::Refused(Refusal::NotDue)) => Ok(()),
            Err(other) => Err(other.into()),
        }
    }

    /// Moves until idle. Each move is committed together with its frames, and delivered to the own book in the same
    /// commit; then its frames go out. With each pass and each proposal goes all that fetch gives.
    fn work(&mut self) -> Result<(), Ended> {
        loop {
            let made = self.book.move_and_take()?;
            self.send_unsent()?;
            match made {
                Move::Idle => break,
                Move::Pass { .. } | Move::Offer { .. } => self.send_certificates()?,
                _ => {}
            }
        }
        self.start_timer();
        self.tell()
    }

    /// Starts the timer anew if the current height has grown: 3Δ from now. Above the last height there is none.
    fn start_timer(&mut self) {
        let current = self.book.book().current();
        if current != self.timed {
            let runs = current <= self.book.book().heights();
            self.timer = runs.then(|| Instant::now() + 3 * self.delta);
            self.timed = current;
        }
    }

    /// Sends the frames that wait beside the book, and only then lets go of them.
    fn send_unsent(&mut self) -> Result<(), Ended> {
        for frame in self.book.unsent() {
            self.send(frame)?;
        }
        Ok(self.book.sent()?)
    }

    /// Sends all certificates of the book: what takes a station that is behind to our height.
    fn send_certificates(&self) -> Result<(), Ended> {
        self.book.book().certificates().iter().try_for_each(|frame| self.send(frame))
    }

    /// YOURS: sends a frame to all other stations, signed under the season's name if it is of kinds 1 to 4, else with
    /// the signatures that you keep. What is sent must arrive in the end: send again until the other host has it. A
    /// pipe loses nothing, so this example sends once.
    fn send(&self, frame: &[u8; FRAME]) -> Result<(), Ended> {
        say(&format!("frame {}", digits(frame)))
    }

    /// Tells the entries by which the register has grown: they are in it for good. It is read where the settled height
    /// has grown, and not with every frame.
    fn tell(&mut self) -> Result<(), Ended> {
        if self.book.book().finalized() == self.told_height {
            return Ok(());
        }
        self.told_height = self.book.book().finalized();
        let register = self.book.book().log()?;
        for entry in register.iter().skip(self.told) {
            say(&format!("settled {}", digits(entry)))?;
        }
        self.told = register.len();
        Ok(())
    }
}

/// Writes a line to the standard output, out of this process at once.
fn say(line: &str) -> Result<(), Ended> {
    let mut output = stdout().lock();
    writeln!(output, "{line}")?;
    Ok(output.flush()?)
}

/// Says a sentence for people, and goes on.
fn note(sentence: &str) -> Result<(), Ended> {
    _ = writeln!(std::io::stderr(), "example-host: {sentence}");
    Ok(())
}

/// The digits of some bytes.
fn digits(bytes: &[u8]) -> String {
    bytes.iter().map(|byte| format!("{byte:02x}")).collect()
}

/// The bytes of so many pairs of digits; none for another text.
fn bytes<const LENGTH: usize>(digits: &str) -> Option<[u8; LENGTH]> {
    let value = |digit: &u8| char::from(*digit).to_digit(16);
    let pair = |pair: &[u8]| match pair {
        [high, low] => u8::try_from(value(high)? * 16 + value(low)?).ok(),
        _ => None,
    };
    digits.as_bytes().chunks(2).map(pair).collect::<Option<Vec<u8>>>()?.try_into().ok()
}
