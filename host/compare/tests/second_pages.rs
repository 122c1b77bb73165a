//! The comparison finds faults in what a replica makes of a leader's second page: each one here has one, and a few
//! thousand calls show it.

#[macro_use]
mod as_reference;

use compare::run;
use reference::Rules;
use types::{field, head_height, height_at, is_second_block, Area, Calls, Counts, Delivered};
use types::{Layout, BLOCK, FRAME, FRAME_HEIGHT};

/// What a faulty replica does wrong.
#[derive(Clone, Copy, Debug, PartialEq, Eq)]
enum Fault {
    None,
    Refuses,
    FiresAbove,
    FiresBelow,
    FiresPastAll,
    HoldsTheSecond,
    LosesFlags,
    AlwaysFresh,
    NotIfNotarized,
    NotIfBlockVoted,
    NotIfDummyVoted,
    NotInPackets,
}

/// The reference with a fault.
#[derive(Clone, Copy)]
struct Faulty(Fault);

const RULES: Rules = Rules::SHA256;

/// The flags of the current height.
const TIMER_FIRED: u8 = 1;
const DUMMY_VOTED: u8 = 2;
const BLOCK_VOTED: u8 = 4;

/// A second page, the book that it came to, and what the right replica answers.
struct Second<'a> {
    before: &'a [u8],
    frame: &'a [u8],
    answer: Result<Delivered, u8>,
}

impl Second<'_> {
    /// What a replica with a fault makes of it, in the book that the right one leaves.
    fn taken(&self, fault: Fault, book: &mut [u8]) -> Result<Delivered, u8> {
        match self.answer {
            Ok(Delivered::Fresh) => self.fires(fault, book),
            Err(8) if self.fires_wrongly(fault) => {
                book[field::FLAGS] |= TIMER_FIRED;
                Ok(Delivered::Fresh)
            }
            Ok(Delivered::Known) if fault == Fault::Refuses => Err(8),
            Ok(Delivered::Known) if fault == Fault::AlwaysFresh => Ok(Delivered::Fresh),
            answer => answer,
        }
    }

    /// Whether the fault fires the timer by a second page that is to be refused.
    fn fires_wrongly(&self, fault: Fault) -> bool {
        let [current, last] =
            [field::CURRENT, field::HEIGHTS].map(|at| head_height(self.before, at));
        let height = height_at(self.frame, FRAME_HEIGHT);
        match fault {
            Fault::FiresAbove => height > current,
            Fault::FiresBelow => height < current && current <= last,
            Fault::FiresPastAll => current > last,
            _ => false,
        }
    }

    /// What the fault makes of a second page that is to fire the timer.
    fn fires(&self, fault: Fault, book: &mut [u8]) -> Result<Delivered, u8> {
        let layout = Layout::new(head_height(book, field::HEIGHTS));
        let height = height_at(self.frame, FRAME_HEIGHT);
        let notarized = book[layout.area(height, Area::Row).start + 1] & 2 != 0;
        let flags = self.before[field::FLAGS];
        let left_out = match fault {
            Fault::Refuses => true,
            Fault::NotIfNotarized => notarized,
            Fault::NotIfBlockVoted => flags & BLOCK_VOTED != 0,
            Fault::NotIfDummyVoted => flags & DUMMY_VOTED != 0,
            _ => false,
        };
        if left_out {
            book[field::FLAGS] = flags;
            return if fault == Fault::Refuses { Err(8) } else { Ok(Delivered::Known) };
        }
        if fault == Fault::HoldsTheSecond {
            book[layout.area(height, Area::Held)].copy_from_slice(&self.frame[FRAME - BLOCK..]);
        }
        if fault == Fault::LosesFlags {
            book[field::FLAGS] = TIMER_FIRED;
        }
        self.answer
    }
}

impl Calls for Faulty {
    as_reference! { open make_move signal submit size read fetch observer_open observer_deliver observer_move observer_size observer_read }

    fn deliver(&self, book: &mut [u8], frame: &[u8]) -> Result<Delivered, u8> {
        let before = &book.to_vec();
        let answer = Calls::deliver(&RULES, book, frame);
        match is_second_block(before, frame) {
            true => Second { before, frame, answer }.taken(self.0, book),
            false => answer,
        }
    }

    fn packet(&self, book: &mut [u8], packet: &[u8]) -> Result<Counts, u8> {
        let flags = book.get(field::FLAGS).copied();
        let counts = Calls::packet(&RULES, book, packet)?;
        if let (Fault::NotInPackets, Some(flags)) = (self.0, flags) {
            book[field::FLAGS] = flags;
        }
        Ok(counts)
    }
}

/// The calls within which a fault must show.
const CALLS: u64 = 20_000;

#[test]
fn no_fault_is_found_where_none_is() {
    run(RULES, Faulty(Fault::None), 3, CALLS).unwrap();
}

#[test]
fn each_fault_is_found() {
    for fault in [
        Fault::Refuses,
        Fault::FiresAbove,
        Fault::FiresBelow,
        Fault::FiresPastAll,
        Fault::HoldsTheSecond,
        Fault::LosesFlags,
        Fault::AlwaysFresh,
        Fault::NotIfNotarized,
        Fault::NotIfBlockVoted,
        Fault::NotIfDummyVoted,
        Fault::NotInPackets,
    ] {
        let found = run(RULES, Faulty(fault), 3, CALLS);
        let sentence = found.err().unwrap_or_else(|| panic!("{fault:?} was not found"));
        assert!(sentence.contains(exchange::HEADING), "{fault:?}: {sentence}");
    }
}

/// Two replicas that both refuse a second page agree, and are found by what then never occurs.
#[test]
fn the_rule_of_before_is_found_even_where_both_have_it() {
    let before = Faulty(Fault::Refuses);
    let found = run(before, before, 3, compare::LARGE).err().unwrap_or_default();
    assert!(found.contains("never occurred: "), "{found}");
    assert!(found.contains("two pages: at c, known, two pages: fires by"), "{found}");
}
