//! The comparison finds faults: each replica here has one, and a few thousand calls show it.

#[macro_use]
mod as_reference;

use compare::run;
use reference::Rules;
use types::{field, Calls, Counts, Delivered, Move, FRAME};

/// What a faulty replica does wrong.
#[derive(Clone, Copy, Debug, PartialEq, Eq)]
enum Fault {
    None,
    FinalizesAfterTimer,
    LeavesSecondFrame,
    WritesPastReply,
    NeverOffers,
    NeverMoves,
    IdlesAboveHeightOne,
    DropsOnRefusal,
    KnowsEverything,
    TouchesFreeByte,
    TakesSecondVote,
    ReadsConstant,
    ReadsShort,
    CountsOneMore,
    FetchSpoilsTail,
    SignalTwice,
    OpenLeavesJunk,
    OwnLog,
    PacketEndsAtRefusal,
    PacketTakesUneven,
    PacketByFirstBook,
    PacketCutsCounts,
    PacketForgetsRefused,
}

/// The reference with a fault.
#[derive(Clone, Copy)]
struct Faulty(Fault);

const RULES: Rules = Rules::SHA256;

impl Faulty {
    /// Whether this is the fault.
    fn is(&self, fault: Fault) -> bool {
        self.0 == fault
    }
}

impl Calls for Faulty {
    as_reference! { submit observer_open observer_deliver observer_size observer_read }

    fn open(
        &self,
        book: &mut [u8],
        n: u64,
        own: u64,
        heights: u64,
        weights: &[u8],
        leaders: &[u8],
    ) -> Result<(), u8> {
        let last = book.last().copied();
        let answer = Calls::open(&RULES, book, n, own, heights, weights, leaders);
        if let (true, Some(byte), Some(last)) =
            (self.is(Fault::OpenLeavesJunk), book.last_mut(), last)
        {
            *byte = last;
        }
        answer
    }

    fn deliver(&self, book: &mut [u8], frame: &[u8]) -> Result<Delivered, u8> {
        let answer = Calls::deliver(&RULES, book, frame);
        match (self.0, answer) {
            (Fault::KnowsEverything, Ok(_)) => Ok(Delivered::Known),
            (Fault::TakesSecondVote, Err(8)) => Ok(Delivered::Known),
            (Fault::DropsOnRefusal, Err(8)) => {
                book[field::FLAGS] ^= 8;
                answer
            }
            (Fault::TouchesFreeByte, Ok(Delivered::Fresh)) => {
                *book.last_mut().unwrap() ^= 1;
                answer
            }
            _ => answer,
        }
    }

    fn packet(&self, book: &mut [u8], packet: &[u8]) -> Result<Counts, u8> {
        let (frames, stray) = packet.as_chunks::<FRAME>();
        if self.is(Fault::PacketTakesUneven) {
            return Calls::packet(&RULES, book, frames.as_flattened());
        }
        let before = book.to_vec();
        let counts = Calls::packet(&RULES, book, packet)?;
        assert!(stray.is_empty());
        let alone = |frame: &&[u8; FRAME]| Calls::deliver(&RULES, &mut before.clone(), *frame);
        match self.0 {
            Fault::PacketEndsAtRefusal => {
                book.copy_from_slice(&before);
                _ = frames.iter().try_for_each(|f| Calls::deliver(&RULES, book, f).map(|_| ()));
                Ok(counts)
            }
            Fault::PacketByFirstBook => {
                let refused = frames.iter().filter(|frame| alone(frame).is_err()).count() as u64;
                Ok(Counts { refused, ..counts })
            }
            Fault::PacketCutsCounts => {
                let [fresh, known, refused] =
                    [counts.fresh, counts.known, counts.refused].map(|count| count % 256);
                Ok(Counts { fresh, known, refused })
            }
            Fault::PacketForgetsRefused => Ok(Counts { refused: 0, ..counts }),
            _ => Ok(counts),
        }
    }

    fn make_move(&self, book: &mut [u8], reply: &mut [u8]) -> Result<Move, u8> {
        let (before, reply_before) = (book.to_vec(), reply.to_vec());
        let made = Calls::make_move(&RULES, book, reply)?;
        let undone = match self.0 {
            Fault::NeverOffers => matches!(made, Move::Offer { .. }),
            Fault::NeverMoves => true,
            Fault::IdlesAboveHeightOne => made.height() > 1,
            _ => false,
        };
        if undone {
            book.copy_from_slice(&before);
            reply.copy_from_slice(&reply_before);
            return Ok(Move::Idle);
        }
        if let Move::Pass { height, certificate, finalized: false } = made {
            if self.is(Fault::LeavesSecondFrame) {
                reply[224..448].copy_from_slice(&reply_before[224..448]);
            }
            let finalized = self.is(Fault::FinalizesAfterTimer);
            return Ok(Move::Pass { height, certificate, finalized });
        }
        if self.is(Fault::WritesPastReply) && reply.len() > 448 && made != Move::Idle {
            reply[448] ^= 1;
        }
        Ok(made)
    }

    fn signal(&self, book: &mut [u8], height: u64) -> Result<(), u8> {
        match Calls::signal(&RULES, book, height) {
            Err(14) if self.is(Fault::SignalTwice) => Ok(()),
            answer => answer,
        }
    }

    fn size(&self, book: &[u8]) -> Result<u64, u8> {
        Calls::size(&RULES, book).map(|size| size + u64::from(self.is(Fault::CountsOneMore)))
    }

    fn read(&self, book: &[u8], buffer: &mut [u8]) -> u64 {
        let part = Calls::read(&RULES, book, buffer);
        match self.0 {
            Fault::ReadsConstant => 0,
            Fault::ReadsShort if part > 0 => part - 16,
            Fault::OwnLog if part > 0 => {
                buffer[0] = book[field::OWN];
                part
            }
            _ => part,
        }
    }

    fn fetch(&self, book: &[u8], kind: u64, height: u64, reply: &mut [u8]) -> Result<(), u8> {
        Calls::fetch(&RULES, book, kind, height, reply)?;
        if self.is(Fault::FetchSpoilsTail) {
            reply[224..].fill(0);
        }
        Ok(())
    }

    fn observer_move(&self, book: &mut [u8]) -> Result<Move, u8> {
        let before = book.to_vec();
        let made = Calls::observer_move(&RULES, book)?;
        if self.is(Fault::NeverMoves) {
            book.copy_from_slice(&before);
            return Ok(Move::Idle);
        }
        Ok(made)
    }
}

/// The calls within which a fault must show.
const CALLS: u64 = 20_000;

#[test]
fn no_fault_is_found_where_none_is() {
    run(RULES, Faulty(Fault::None), 3, CALLS).unwrap();
}

#[test]
fn each_fault_is_found() {
    for fault in [
        Fault::FinalizesAfterTimer,
        Fault::LeavesSecondFrame,
        Fault::WritesPastReply,
        Fault::NeverOffers,
        Fault::NeverMoves,
        Fault::IdlesAboveHeightOne,
        Fault::DropsOnRefusal,
        Fault::KnowsEverything,
        Fault::TouchesFreeByte,
        Fault::TakesSecondVote,
        Fault::ReadsConstant,
        Fault::ReadsShort,
        Fault::CountsOneMore,
        Fault::FetchSpoilsTail,
        Fault::SignalTwice,
        Fault::OpenLeavesJunk,
        Fault::OwnLog,
        Fault::PacketEndsAtRefusal,
        Fault::PacketTakesUneven,
        Fault::PacketByFirstBook,
        Fault::PacketCutsCounts,
        Fault::PacketForgetsRefused,
    ] {
        let found = run(RULES, Faulty(fault), 3, CALLS);
        let sentence = found.err().unwrap_or_else(|| panic!("{fault:?} was not found"));
        assert!(sentence.contains(exchange::HEADING), "{fault:?}: {sentence}");
    }
}

#[test]
fn faults_that_both_have_are_found_by_the_rules_of_calls() {
    let both =
        |fault, seed| run(Faulty(fault), Faulty(fault), seed, CALLS).err().unwrap_or_default();
    assert!(both(Fault::DropsOnRefusal, 3).contains("a call that may not has changed the book"));
    // What a network and what a station beside an observer show; the seed decides which comes first.
    let found: Vec<String> = (1..=16).map(|seed| both(Fault::OwnLog, seed)).collect();
    for sentence in ["two honest logs fork", "a station and an observer beside it read different"] {
        assert!(found.iter().any(|found| found.contains(sentence)), "{found:?}");
    }
}

#[test]
fn a_comparison_in_which_nothing_happens_fails() {
    let still = Faulty(Fault::NeverMoves);
    let found = run(still, still, 3, compare::LARGE).err().unwrap_or_default();
    assert!(found.contains("never occurred: move 1 (dummy), move 2 (final)"), "{found}");
}
