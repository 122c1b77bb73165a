//! The cases of an observer: its calls on the book of one that has heard what the measured station has.

use crate::run::LONGEST_LOG;
use crate::station::{Fill, Size, Station};
use crate::Case;
use exchange::{equal_weights, Call, ObserverCall};
use reference::Rules;
use types::{observer_book_length, Book, Frame, Move, ObserverBook, FRAME};

/// All cases of an observer: `open` is a station with a height to work at, `closed` one where no move applies, and
/// `behind` one that has all that settles its heights, but has made no move.
pub fn observer_cases(
    size: Size,
    fill: Fill,
    [open, closed, behind]: [&Station; 3],
) -> Result<Vec<Case>, String> {
    let (mask, height) = (open.everyone(), open.next());
    let page = Frame::BlockCertificate { mask, block: open.block() };
    let finalize = Frame::FinalizeCertificate { mask, height };
    let vote = Frame::DummyVote { signer: 0, height };
    let last = behind.next().saturating_sub(1);
    let entries = usize::from(closed.next().saturating_sub(1)).saturating_mul(8);
    let bytes = entries.saturating_mul(16);
    let [idle, hearing] = [beside(size, closed, true)?, beside(size, open, true)?];
    let late = beside(size, behind, false)?;
    let read = case("Observer, read", &idle, ObserverCall::Read, format!("part {bytes}"));
    Ok(vec![
        opening(size, fill),
        deliver("Observer, page certificate", &hearing, &page, "fresh"),
        deliver("Observer, finalise certificate", &hearing, &finalize, "fresh"),
        deliver("Observer, blank vote: refused, 16", &hearing, &vote, "deny 16"),
        case("Observer, settles all", &late, ObserverCall::Move, format!("final {last}")),
        case("Observer, idle", &idle, ObserverCall::Move, "idle".to_string()),
        case("Observer, register size", &idle, ObserverCall::Size, format!("size {bytes}")),
        Case { lent: LONGEST_LOG, ..read },
    ])
}

/// The book of an observer that was given all certificates of a station's; it has settled what it can, if it moves.
fn beside(size: Size, station: &Station, moves: bool) -> Result<Vec<u8>, String> {
    let refused = |refusal| format!("an observer's book cannot be prepared: {refusal}");
    let told = Book::from_bytes(Rules::SHA256, station.book.clone()).map_err(refused)?;
    let opened =
        ObserverBook::open(Rules::SHA256, size.n.into(), size.heights, &vec![1; size.n.into()]);
    let mut book = opened.map_err(refused)?;
    for frame in told.certificates() {
        book.deliver(&frame).map_err(refused)?;
    }
    while moves && book.make_move().map_err(refused)? != Move::Idle {}
    Ok(book.bytes().to_vec())
}

/// Open over the bytes of another book.
fn opening(size: Size, fill: Fill) -> Case {
    let byte = if fill == Fill::Empty { 0 } else { 0xff };
    let book = vec![byte; observer_book_length(size.heights)];
    let (n, weights) = (size.n.into(), equal_weights(size.n.into()));
    let open = ObserverCall::Open { n, heights: size.heights.into(), weights };
    case("Observer, open", &book, open, "done".to_string())
}

/// A case that is lent no second buffer.
fn case(name: &'static str, book: &[u8], call: ObserverCall, answer: String) -> Case {
    Case { name, book: book.to_vec(), call: Call::Observer(call), lent: 0, answer }
}

/// A case of Deliver.
fn deliver(name: &'static str, book: &[u8], frame: &Frame, answer: &str) -> Case {
    let bytes: [u8; FRAME] = frame.bytes();
    case(name, book, ObserverCall::Deliver { frame: bytes.to_vec() }, answer.to_string())
}
