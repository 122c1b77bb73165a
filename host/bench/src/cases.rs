//! The cases: every call, on a book of some size and filling; then those of an observer beside it.

use crate::observer_cases::observer_cases;
use crate::run::LONGEST_LOG;
use crate::station::{entry, Fill, Size, Station};
use crate::Case;
use exchange::{equal_weights, Call};
use types::{Frame, Height, FRAME};

/// What all cases of one size and filling begin with.
struct Start {
    size: Size,
    fill: Fill,
}

/// All cases for a size and a filling. An empty book gets what a case needs at height 1, a full one at its last height.
pub fn cases(size: Size, fill: Fill) -> Result<Vec<Case>, String> {
    let start = Start { size, fill };
    let mut cases = vec![start.open()];
    cases.extend(start.deliveries()?);
    cases.extend(start.moves()?);
    cases.extend(start.others()?);
    let stations = [start.with_open_height(None)?, start.closed()?, start.behind()?];
    cases.extend(observer_cases(size, fill, stations.each_ref())?);
    Ok(cases)
}

impl Start {
    /// Open over the bytes of another book.
    fn open(&self) -> Case {
        let Size { n, heights } = self.size;
        let byte = if self.fill == Fill::Empty { 0 } else { 0xff };
        let book = vec![byte; types::book_length(heights)];
        let leaders = vec![0; heights.into()];
        let (n, weights) = (n.into(), equal_weights(n.into()));
        let call = Call::Open { n, own: 0, heights: heights.into(), weights, leaders };
        Case { name: "Open", book, call, lent: 0, answer: "done".to_string() }
    }

    /// The cases of Deliver, by kind of frame.
    fn deliveries(&self) -> Result<Vec<Case>, String> {
        let open = self.with_open_height(None)?;
        let height = open.next();
        let held = open.clone().deliver(&[open.proposal()])?;
        let almost = held.clone().almost_notarized()?;
        let voted = open.clone().deliver(&[open.vote(0)])?;
        let mask = open.everyone();
        let certificate = Frame::BlockCertificate { mask, block: open.block() };
        let certified = open.clone().deliver(std::slice::from_ref(&certificate))?;
        let other = Frame::BlockVote { signer: 0, height, digest: [7; 32] };
        let finalize = Frame::FinalizeCertificate { mask, height };
        let second = open.second_proposal();
        let dummy = Frame::DummyVote { signer: 0, height };
        Ok(vec![
            deliver("Deliver, proposal", &open, &open.proposal(), "fresh"),
            deliver("Deliver, page vote", &held, &open.vote(0), "fresh"),
            deliver("Deliver, page vote that notarises", &almost, &open.vote(0), "fresh"),
            deliver("Deliver, blank vote", &open, &dummy, "fresh"),
            deliver("Deliver, page certificate", &open, &certificate, "fresh"),
            deliver("Deliver, certificate again", &certified, &certificate, "known"),
            deliver("Deliver, finalise certificate", &open, &finalize, "fresh"),
            deliver("Deliver, another digest: 8", &voted, &other, "deny 8"),
            deliver("Deliver, a second page: the timer fires", &held, &second, "fresh"),
            malformed(&self.closed()?),
        ])
    }

    /// The cases of Move, one for each move, and idle.
    fn moves(&self) -> Result<Vec<Case>, String> {
        let open = self.with_open_height(None)?;
        let height = open.next();
        let held = open.clone().deliver(&[open.proposal()])?;
        let passing = held.clone().almost_notarized()?.deliver(&[open.vote(0)])?;
        let leading = self.leading(height)?;
        let idle = self.closed()?;
        let forked = Station::forked(self.size, self.fill)?;
        let fired = open.signal()?;
        let behind = self.behind()?;
        let last = behind.next().saturating_sub(1);
        Ok(vec![
            make_move("Move 1, blank vote", fired, format!("dummy {height}")),
            make_move("Move 2, settles all", behind, format!("final {last}")),
            make_move("Move 3, pass on a page", passing, format!("pass {height} 5 4")),
            make_move("Move 4, proposal of 8 entries", leading, format!("offer {height}")),
            make_move("Move 5, page vote", held, format!("vote {height}")),
            make_move("Move, idle", idle, "idle".to_string()),
            make_move("Move, idle, every page on page 1", forked, "idle".to_string()),
        ])
    }

    /// The cases of the other calls.
    fn others(&self) -> Result<Vec<Case>, String> {
        let open = self.with_open_height(None)?;
        let closed = self.closed()?;
        let entries = usize::from(closed.next().saturating_sub(1)).saturating_mul(8);
        let size = entries.saturating_mul(16);
        let signal = Call::Signal { height: open.next().into() };
        let submit = Call::Submit { entry: entry(0, 99).to_vec() };
        let fetch = Call::Fetch { kind: 5, height: closed.next().saturating_sub(1).max(1).into() };
        let fetched = if self.fill == Fill::Empty { "deny 11" } else { "done" };
        Ok(vec![
            case("Signal", &open, signal, 0, "done".to_string()),
            case("Submit", &closed, submit, 0, "done".to_string()),
            case("Register size", &closed, Call::Size, 0, format!("size {size}")),
            case("Read", &closed, Call::Read, LONGEST_LOG, format!("part {size}")),
            case("Fetch, page certificate", &closed, fetch, FRAME, fetched.to_string()),
        ])
    }

    /// A book with a height to work at, all heights below it settled.
    fn with_open_height(&self, led: Option<Height>) -> Result<Station, String> {
        Station::settled(self.size, self.below(), led)
    }

    /// A book whose replica leads that height and has entries to propose.
    fn leading(&self, height: Height) -> Result<Station, String> {
        let station = self.with_open_height(Some(height))?;
        match self.fill {
            Fill::Empty => station.with_pool(8),
            Fill::Full => Ok(station),
        }
    }

    /// A book where no move applies: new, or with all heights settled and passed.
    fn closed(&self) -> Result<Station, String> {
        let count = if self.fill == Fill::Empty { 0 } else { self.size.heights };
        Station::settled(self.size, count, None)
    }

    /// A book that has all that settles its heights, but has made no move.
    fn behind(&self) -> Result<Station, String> {
        let mut station = Station::open(self.size, None)?;
        for _ in 0..=self.below() {
            station.settle_next()?;
        }
        Ok(station)
    }

    /// The heights below the one to work at.
    fn below(&self) -> Height {
        match self.fill {
            Fill::Empty => 0,
            Fill::Full => self.size.heights.saturating_sub(1),
        }
    }
}

/// A case on the book of a station.
fn case(name: &'static str, on: &Station, call: Call, lent: usize, answer: String) -> Case {
    Case { name, book: on.book.clone(), call, lent, answer }
}

/// A case of Deliver.
fn deliver(name: &'static str, on: &Station, frame: &Frame, answer: &str) -> Case {
    let call = Call::Deliver { frame: frame.bytes().to_vec() };
    case(name, on, call, 0, answer.to_string())
}

/// A frame of a kind that does not exist.
fn malformed(on: &Station) -> Case {
    let call = Call::Deliver { frame: vec![8; FRAME] };
    case("Deliver, kind 8: refused, 4", on, call, 0, "deny 4".to_string())
}

/// A case of Move.
fn make_move(name: &'static str, on: Station, answer: String) -> Case {
    case(name, &on, Call::Move, 2 * FRAME, answer)
}
