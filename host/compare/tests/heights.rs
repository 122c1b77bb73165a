//! The comparison finds replicas that read one byte of a height, or know the editions in part.

#[macro_use]
mod as_reference;

use compare::run;
use reference::Rules;
use types::{book_length, field, head_height, height_at, observer_book_length, put_edition};
use types::{Calls, Counts, Delivered, Move, EDITION, FRAME, MOST_SHORT_HEIGHTS, SECOND_EDITION};

/// What a faulty replica does wrong.
#[derive(Clone, Copy, Debug, PartialEq, Eq)]
enum Fault {
    None,
    FrameByLowByte,
    ObserverFrameByLowByte,
    HighByteOfFrameIsFour,
    PageByLowByte,
    ObserverPageByLowByte,
    BackHeightByLowByte,
    BackHeight256IsZero,
    LengthByLowByte,
    ObserverLengthByLowByte,
    CurrentByLowByte,
    SettledByLowByte,
    ObserverSettledByLowByte,
    SettledAt42,
    ShortPlacesAreFree,
    ObserverShortPlacesAreFree,
    LongPlacesAreFree,
    RestIsFree,
    ObserverHasCurrent,
    SecondEditionTakesMore,
    ThirdEditionTakesMore,
    OpenTakesMore,
    OpenTakes63,
    OpenMakesSecondEdition,
    ObserverOpenMakesSecondEdition,
    SignalCutsToTwoBytes,
    SignalCutsToAByte,
    FetchCuts,
    MoveSaysLowByte,
}

use Fault::*;

/// The reference with a fault.
#[derive(Clone, Copy)]
struct Faulty(Fault);

const RULES: Rules = Rules::SHA256;

/// The bytes of a head that this fault does not look at, by whose book it is and by its edition.
fn unread(fault: Fault, observer: bool, long: bool) -> &'static [usize] {
    match (fault, observer, long) {
        (LengthByLowByte, false, true) | (ObserverLengthByLowByte, true, true) => &[41],
        (CurrentByLowByte, false, true) => &[43],
        (SettledByLowByte, false, true) | (ObserverSettledByLowByte, true, true) => &[45],
        (ShortPlacesAreFree, false, true) | (ObserverShortPlacesAreFree, true, true) => &[2, 4, 5],
        (LongPlacesAreFree, _, false) => &[40, 41, 42, 43, 44, 45],
        (RestIsFree, _, true) => &[46, 47, 62, 63],
        (ObserverHasCurrent, true, true) => &[42, 43],
        _ => &[],
    }
}

/// The book as this fault sees it; none if it sees the book as it is.
fn seen(fault: Fault, observer: bool, book: &[u8]) -> Option<Vec<u8>> {
    let mut other = book.get(..64).map(|_| book.to_vec())?;
    let long = other[field::EDITION] == EDITION;
    unread(fault, observer, long).iter().for_each(|at| other[*at] = 0);
    if fault == SettledAt42 && long && !observer {
        other.copy_within(42..44, 44);
    }
    let heights = head_height(&other, field::HEIGHTS);
    if fault == SecondEditionTakesMore && !long && heights > MOST_SHORT_HEIGHTS {
        put_edition(&mut other, EDITION);
    }
    (other != book).then_some(other)
}

impl Faulty {
    /// Makes a call on the book as this one sees it; what it changes goes to the book.
    fn on<T>(&self, observer: bool, book: &mut [u8], call: impl Fn(&mut [u8]) -> T) -> T {
        let Some(before) = seen(self.0, observer, book) else {
            return call(book);
        };
        let mut after = before.clone();
        let answer = call(&mut after);
        let changed = book.iter_mut().zip(before.iter().zip(after));
        changed.filter(|(_, (was, is))| **was != *is).for_each(|(to, (_, is))| *to = is);
        answer
    }

    /// The frame as this one reads it.
    fn read(&self, observer: bool, frame: &[u8]) -> Vec<u8> {
        let mut frame = frame.to_vec();
        let paged = frame.len() == FRAME && [1, 5].contains(&frame[0]);
        match (self.0, observer) {
            (FrameByLowByte, false) | (ObserverFrameByLowByte, true) if frame.len() == FRAME => {
                frame[3] = 0;
                if paged {
                    frame[49] = 0;
                }
            }
            (PageByLowByte, false) | (ObserverPageByLowByte, true) if paged => frame[49] = frame[3],
            (BackHeightByLowByte, _) if paged => frame[51] = 0,
            (BackHeight256IsZero, _) if paged && frame[50] == 0 => frame[51] = 0,
            _ => {}
        }
        frame
    }

    /// Whether a book has one height more than any may have, and nothing else is wrong with it as far as this one sees.
    fn takes_more(&self, book: &[u8], length: fn(u16) -> usize) -> bool {
        let heights = head_height(book, field::HEIGHTS);
        self.0 == ThirdEditionTakesMore && heights > 1000 && book.len() == length(heights)
    }
}

impl Calls for Faulty {
    as_reference! { submit read observer_read }

    fn open(
        &self,
        book: &mut [u8],
        n: u64,
        own: u64,
        heights: u64,
        weights: &[u8],
        leaders: &[u8],
    ) -> Result<(), u8> {
        let answer = Calls::open(&RULES, book, n, own, heights, weights, leaders);
        match self.0 {
            OpenTakesMore if heights == 1001 && answer == Err(2) => Err(1),
            OpenTakes63 if heights > 63 => Err(2),
            OpenMakesSecondEdition if answer.is_ok() && heights < 64 => {
                put_edition(book, SECOND_EDITION);
                answer
            }
            _ => answer,
        }
    }

    fn deliver(&self, book: &mut [u8], frame: &[u8]) -> Result<Delivered, u8> {
        let read = self.read(false, frame);
        let answer = self.on(false, book, |book| Calls::deliver(&RULES, book, &read));
        match (self.0, answer) {
            (HighByteOfFrameIsFour, Err(6)) if height_at(frame, 2) > 255 => Err(4),
            _ => answer,
        }
    }

    fn packet(&self, book: &mut [u8], packet: &[u8]) -> Result<Counts, u8> {
        self.on(false, book, |book| Calls::packet(&RULES, book, packet))
    }

    fn make_move(&self, book: &mut [u8], reply: &mut [u8]) -> Result<Move, u8> {
        let reply = std::cell::RefCell::new(reply);
        let made =
            self.on(false, book, |book| Calls::make_move(&RULES, book, &mut reply.borrow_mut()))?;
        Ok(match made {
            Move::Final { height } if self.0 == MoveSaysLowByte => {
                Move::Final { height: height & 255 }
            }
            made => made,
        })
    }

    fn signal(&self, book: &mut [u8], height: u64) -> Result<(), u8> {
        let height = match self.0 {
            SignalCutsToTwoBytes => height & 0xffff,
            SignalCutsToAByte => height & 0xff,
            _ => height,
        };
        self.on(false, book, |book| Calls::signal(&RULES, book, height))
    }

    fn size(&self, book: &[u8]) -> Result<u64, u8> {
        if self.takes_more(book, book_length) {
            return Ok(0);
        }
        self.on(false, &mut book.to_vec(), |book| Calls::size(&RULES, book))
    }

    fn fetch(&self, book: &[u8], kind: u64, height: u64, reply: &mut [u8]) -> Result<(), u8> {
        let height = if self.0 == FetchCuts { height & 0xffff } else { height };
        Calls::fetch(&RULES, book, kind, height, reply)
    }

    fn observer_open(
        &self,
        book: &mut [u8],
        n: u64,
        heights: u64,
        weights: &[u8],
    ) -> Result<(), u8> {
        Calls::observer_open(&RULES, book, n, heights, weights)?;
        if self.0 == ObserverOpenMakesSecondEdition && heights < 64 {
            put_edition(book, SECOND_EDITION);
        }
        Ok(())
    }

    fn observer_deliver(&self, book: &mut [u8], frame: &[u8]) -> Result<Delivered, u8> {
        let read = self.read(true, frame);
        self.on(true, book, |book| Calls::observer_deliver(&RULES, book, &read))
    }

    fn observer_move(&self, book: &mut [u8]) -> Result<Move, u8> {
        self.on(true, book, |book| Calls::observer_move(&RULES, book))
    }

    fn observer_size(&self, book: &[u8]) -> Result<u64, u8> {
        if self.takes_more(book, observer_book_length) {
            return Ok(0);
        }
        self.on(true, &mut book.to_vec(), |book| Calls::observer_size(&RULES, book))
    }
}

/// Calls that show any of the faults.
const CALLS: u64 = 60_000;

#[test]
fn without_a_fault_nothing_is_found() {
    assert_eq!(run(RULES, Faulty(Fault::None), 3, 10_000).err(), Option::None);
}

#[test]
fn each_fault_is_found() {
    for fault in [
        FrameByLowByte,
        ObserverFrameByLowByte,
        HighByteOfFrameIsFour,
        PageByLowByte,
        ObserverPageByLowByte,
        BackHeightByLowByte,
        BackHeight256IsZero,
        LengthByLowByte,
        ObserverLengthByLowByte,
        CurrentByLowByte,
        SettledByLowByte,
        ObserverSettledByLowByte,
        SettledAt42,
        ShortPlacesAreFree,
        ObserverShortPlacesAreFree,
        LongPlacesAreFree,
        RestIsFree,
        ObserverHasCurrent,
        SecondEditionTakesMore,
        ThirdEditionTakesMore,
        OpenTakesMore,
        OpenTakes63,
        OpenMakesSecondEdition,
        ObserverOpenMakesSecondEdition,
        SignalCutsToTwoBytes,
        SignalCutsToAByte,
        FetchCuts,
        MoveSaysLowByte,
    ] {
        let found = run(RULES, Faulty(fault), 3, CALLS);
        let sentence = found.err().unwrap_or_else(|| panic!("{fault:?} was not found"));
        assert!(sentence.contains(exchange::HEADING), "{fault:?}: {sentence}");
    }
}
