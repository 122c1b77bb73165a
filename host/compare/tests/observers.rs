//! The comparison finds faults of observers: each replica here has one, and some thousand calls show it.

#[macro_use]
mod as_reference;

use compare::run;
use reference::Rules;
use types::{field, head_height, height_at, is_observers, mask_at, put_head_height, Height};
use types::{Calls, Delivered, Move, Weights, FRAME_HEIGHT};
use types::{ObserverArea, ObserverLayout, FRAME};

/// What a faulty observer does wrong.
#[derive(Clone, Copy, Debug, PartialEq, Eq)]
enum Fault {
    None,
    TakesVotes,
    VotesBeforeForm,
    VotesAfterHeight,
    TakesNobodysCertificate,
    SamePageJoinsSigners,
    OtherPageIsKnown,
    OtherPageReplaces,
    EverythingIsFresh,
    TouchesFreeByte,
    ChangesOnRefusal,
    SettlesWithoutLink,
    SettlesOneByOne,
    NeverSettles,
    MoveAnswersTheOldHeight,
    TakesACurrentHeight,
    TakesAnOwnNumber,
    TakesAHeldState,
    TakesAStationsBook,
    SizeOfAllPages,
    ReadsShort,
    ReadsPastTheLog,
    OpenLeavesJunk,
    OpenSetsCurrent,
}

/// The reference with a fault.
#[derive(Clone, Copy)]
struct Faulty(Fault);

const RULES: Rules = Rules::SHA256;

impl Faulty {
    /// Whether this is the fault.
    fn is(&self, fault: Fault) -> bool {
        self.0 == fault
    }

    /// A book that this one takes for sound, made sound; none where the fault does not concern it.
    fn repaired(&self, book: &[u8]) -> Option<Vec<u8>> {
        let mut book = book.to_vec();
        let heights = head_height(&book, field::HEIGHTS);
        match self.0 {
            Fault::TakesACurrentHeight => put_head_height(&mut book, field::CURRENT, 0),
            Fault::TakesAnOwnNumber => *book.get_mut(field::OWN)? = 0,
            Fault::TakesAHeldState => {
                let layout = ObserverLayout::new(heights);
                for height in 1..=heights {
                    let row = layout.area(height, ObserverArea::Row).start;
                    book.get_mut(row).into_iter().for_each(|state| *state &= 2);
                }
            }
            _ => return None,
        }
        is_observers(&book).then_some(book)
    }
}

/// The largest height whose finalizes are a quorum, linked or not.
fn finalized_alone(book: &[u8]) -> Height {
    let last = head_height(book, field::HEIGHTS);
    let (weights, layout) = (Weights::of(book), ObserverLayout::new(last));
    let masked = |height: &Height| {
        let row = &book[layout.area(*height, ObserverArea::Row)];
        row[0] == 2 && weights.weight_of(mask_at(row, 6)) >= weights.needed()
    };
    (1..=last).rev().find(masked).unwrap_or(0)
}

impl Calls for Faulty {
    as_reference! { open deliver packet make_move signal submit size read fetch }

    fn observer_open(
        &self,
        book: &mut [u8],
        n: u64,
        heights: u64,
        weights: &[u8],
    ) -> Result<(), u8> {
        let last = book.last().copied().unwrap_or(0);
        Calls::observer_open(&RULES, book, n, heights, weights)?;
        match self.0 {
            Fault::OpenLeavesJunk => *book.last_mut().unwrap() = last,
            Fault::OpenSetsCurrent => put_head_height(book, field::CURRENT, 1),
            _ => {}
        }
        Ok(())
    }

    fn observer_deliver(&self, book: &mut [u8], frame: &[u8]) -> Result<Delivered, u8> {
        let kind = frame.first().copied().unwrap_or(0);
        let answer = Calls::observer_deliver(&RULES, book, frame);
        let nobody = |frame: &[u8]| kind >= 5 && frame[4..6] == [0, 0];
        let last = head_height(book, field::HEIGHTS);
        let height = height_at(frame, FRAME_HEIGHT);
        let high = height == 0 || height > last;
        match (self.0, answer) {
            (Fault::TakesVotes, Err(16)) => Ok(Delivered::Known),
            (Fault::VotesBeforeForm, Err(4)) if (1..=4).contains(&kind) => Err(16),
            (Fault::VotesAfterHeight, Err(16)) if high => Err(6),
            (Fault::TakesNobodysCertificate, Err(9)) if nobody(frame) => Ok(Delivered::Known),
            (Fault::OtherPageIsKnown, Err(10)) => Ok(Delivered::Known),
            (Fault::EverythingIsFresh, Ok(_)) => Ok(Delivered::Fresh),
            (fault, _) => {
                let layout = ObserverLayout::new(last);
                spoil(fault, book, frame, answer, layout);
                answer
            }
        }
    }

    fn observer_move(&self, book: &mut [u8]) -> Result<Move, u8> {
        let before = head_height(book, field::FINALIZED);
        let made = Calls::observer_move(&RULES, book)?;
        match (self.0, made) {
            (Fault::SettlesWithoutLink, _)
                if finalized_alone(book) > head_height(book, field::FINALIZED) =>
            {
                let height = finalized_alone(book);
                put_head_height(book, field::FINALIZED, height);
                Ok(Move::Final { height })
            }
            (Fault::SettlesOneByOne, Move::Final { height }) if height > before + 1 => {
                put_head_height(book, field::FINALIZED, before + 1);
                Ok(Move::Final { height: before + 1 })
            }
            (Fault::NeverSettles, _) => {
                put_head_height(book, field::FINALIZED, before);
                Ok(Move::Idle)
            }
            (Fault::MoveAnswersTheOldHeight, Move::Final { .. }) => {
                Ok(Move::Final { height: before })
            }
            _ => Ok(made),
        }
    }

    fn observer_size(&self, book: &[u8]) -> Result<u64, u8> {
        match Calls::observer_size(&RULES, book) {
            Err(_) if self.is(Fault::TakesAStationsBook) => Calls::size(&RULES, book),
            Err(number) => match self.repaired(book) {
                Some(repaired) => Calls::observer_size(&RULES, &repaired),
                None => Err(number),
            },
            Ok(size) if self.is(Fault::SizeOfAllPages) => Ok(size
                + 16 * u64::from(book[ObserverLayout::new(1).area(1, ObserverArea::Row).start])),
            answer => answer,
        }
    }

    fn observer_read(&self, book: &[u8], buffer: &mut [u8]) -> u64 {
        let part = Calls::observer_read(&RULES, book, buffer);
        match self.0 {
            Fault::ReadsShort if part > 0 => part - 16,
            Fault::ReadsPastTheLog if part > 0 => {
                buffer.iter_mut().skip(part as usize).take(1).for_each(|byte| *byte ^= 1);
                part
            }
            _ => part,
        }
    }
}

/// What a fault does to the book beside what the call does.
fn spoil(
    fault: Fault,
    book: &mut [u8],
    frame: &[u8],
    answer: Result<Delivered, u8>,
    layout: ObserverLayout,
) {
    let height = height_at(frame, FRAME_HEIGHT);
    let row = |at: usize| layout.area(height, ObserverArea::Row).start + at;
    match (fault, answer) {
        (Fault::SamePageJoinsSigners, Ok(Delivered::Known)) if frame[0] == 5 => {
            book[row(2)] |= frame[4];
        }
        (Fault::OtherPageReplaces, Err(10)) => {
            book[layout.area(height, ObserverArea::Notarized)].copy_from_slice(&frame[48..FRAME]);
        }
        (Fault::TouchesFreeByte, Ok(Delivered::Fresh)) if frame[0] != 5 && book[row(0)] == 0 => {
            book[layout.area(height, ObserverArea::Notarized).start + 9] ^= 1;
        }
        (Fault::ChangesOnRefusal, Err(16)) => *book.last_mut().unwrap() ^= 1,
        _ => {}
    }
}

/// The calls within which a fault must show.
const CALLS: u64 = 40_000;

#[test]
fn no_fault_is_found_where_none_is() {
    run(RULES, Faulty(Fault::None), 3, CALLS).unwrap();
}

#[test]
fn each_fault_is_found() {
    for fault in [
        Fault::TakesVotes,
        Fault::VotesBeforeForm,
        Fault::VotesAfterHeight,
        Fault::TakesNobodysCertificate,
        Fault::SamePageJoinsSigners,
        Fault::OtherPageIsKnown,
        Fault::OtherPageReplaces,
        Fault::EverythingIsFresh,
        Fault::TouchesFreeByte,
        Fault::ChangesOnRefusal,
        Fault::SettlesWithoutLink,
        Fault::SettlesOneByOne,
        Fault::NeverSettles,
        Fault::MoveAnswersTheOldHeight,
        Fault::TakesACurrentHeight,
        Fault::TakesAnOwnNumber,
        Fault::TakesAHeldState,
        Fault::TakesAStationsBook,
        Fault::SizeOfAllPages,
        Fault::ReadsShort,
        Fault::ReadsPastTheLog,
        Fault::OpenLeavesJunk,
        Fault::OpenSetsCurrent,
    ] {
        let found = run(RULES, Faulty(fault), 3, CALLS);
        let sentence = found.err().unwrap_or_else(|| panic!("{fault:?} was not found"));
        assert!(sentence.contains(exchange::HEADING), "{fault:?}: {sentence}");
    }
}

/// Faults that both have show by what the logs must be, or by what then never occurs.
#[test]
fn faults_that_both_have_are_found() {
    let both = |fault, count| run(Faulty(fault), Faulty(fault), 3, count).err().unwrap_or_default();
    let still = both(Fault::NeverSettles, CALLS);
    assert!(still.contains("a station and an observer beside it read different logs"), "{still}");
    let refusing = both(Fault::ChangesOnRefusal, CALLS);
    assert!(refusing.contains("a call that may not has changed the book"), "{refusing}");
    let votes = both(Fault::TakesVotes, compare::LARGE);
    assert!(votes.contains("never occurred: refusal 16"), "{votes}");
}
