//! The comparison finds faults about weights and editions: each replica here has one, and some thousand calls show it.

#[macro_use]
mod as_reference;

use compare::{run, walk, Pair};
use reference::Rules;
use types::{field, is_observers, mask_at, put_first_edition, put_weights, weight_bytes};
use types::{Calls, Counts, Delivered, Move, Weights, EDITION, FIRST_EDITION};

/// What a faulty replica does wrong.
#[derive(Clone, Copy, Debug, PartialEq, Eq)]
enum Fault {
    Nothing,
    CountsStations,
    ObserverCountsStations,
    ExactlyTwoThirdsIsNone,
    AbsentStationsWeighOne,
    FirstEditionWeighsNothing,
    FirstEditionIsRefused,
    WeightsAtOneByteEach,
    OpenMakesFirstEdition,
    ObserverOpenMakesFirstEdition,
    OpenTakesZero,
    OpenTakesMore,
    OpenTakesHalfAWeight,
    OpenTakesZerosBehind,
    ObserverOpenTakesZero,
    ObserverOpenTakesMore,
    OpenLengthFirst,
    BookTakesZero,
    BookTakesMore,
    BookTakesAbsentWeight,
    BookTakesAnyEdition,
    FirstEditionTakesWeights,
    ObserverBookTakesMore,
    DeliverRaisesEdition,
    MoveRaisesEdition,
    ObserverMoveRaisesEdition,
    HighByteLeftOut,
}

use Fault::*;

/// The reference with a fault.
#[derive(Clone, Copy)]
struct Faulty(Fault);

const RULES: Rules = Rules::SHA256;

/// The head of a book from its edition to the end of its weights, or as much of it as there is.
fn head(book: &mut [u8]) -> Option<&mut [u8]> {
    let end = book.len().min(field::LONG);
    book.get_mut(field::EDITION..end)
}

/// Sets a book's weights as this edition has them.
fn put(book: &mut [u8], edition: u8, weights: &[u16]) {
    match edition {
        FIRST_EDITION => put_first_edition(book),
        _ => put_weights(book, weights),
    }
}

impl Faulty {
    /// Whether this is the fault.
    fn is(&self, fault: Fault) -> bool {
        self.0 == fault
    }

    /// The weights that this one takes a book to have, if those that it has are in range.
    fn taken(&self, book: &[u8]) -> Option<Vec<u16>> {
        let weights = Weights::of(book).each().to_vec();
        let in_range = weights.iter().all(|weight| (1..=1000).contains(weight));
        let mut same = book.to_vec();
        put(&mut same, *book.get(field::EDITION)?, &weights);
        match (self.0, is_observers(book)) {
            (CountsStations, false) | (ObserverCountsStations, true) => {
                Some(vec![1; weights.len()])
            }
            (HighByteLeftOut, _) => Some(weights.iter().map(|weight| weight % 256).collect()),
            _ => None,
        }
        .filter(|_| in_range && same == book)
    }

    /// Makes a call as if the book had the weights that this one takes it to have, or were sound as it takes it to be.
    fn as_taken<T>(&self, book: &mut [u8], call: impl FnOnce(&mut [u8]) -> T) -> T {
        let kept = head(book).map(|head| head.to_vec());
        match (self.taken(book), self.repaired(book)) {
            (Some(weights), _) => put(book, EDITION, &weights),
            (_, Some(repaired)) => book.copy_from_slice(&repaired),
            _ => return call(book),
        }
        let answer = call(book);
        head(book).into_iter().zip(kept).for_each(|(head, kept)| head.copy_from_slice(&kept));
        answer
    }

    /// A book that this one takes for sound, made sound; none where the fault does not concern it.
    fn repaired(&self, book: &[u8]) -> Option<Vec<u8>> {
        let (mut repaired, weights) = (book.to_vec(), Weights::of(book));
        let edition = *book.get(field::EDITION)?;
        let mend = |wrong: fn(u16) -> bool, right: u16| {
            weights
                .each()
                .iter()
                .map(|&weight| if wrong(weight) { right } else { weight })
                .collect()
        };
        let weights: Vec<u16> = match (self.0, edition, is_observers(book)) {
            (BookTakesZero, EDITION, false) => mend(|weight| weight == 0, 1),
            (BookTakesMore, EDITION, false) => mend(|weight| weight > 1000, 1000),
            (ObserverBookTakesMore, EDITION, true) => mend(|weight| weight > 1000, 1000),
            (BookTakesAbsentWeight, EDITION, false) => weights.each().to_vec(),
            (FirstEditionTakesWeights, FIRST_EDITION, false) => weights.each().to_vec(),
            (BookTakesAnyEdition, _, false) if edition > EDITION => weights.each().to_vec(),
            _ => return None,
        };
        put(&mut repaired, edition, &weights);
        repaired[field::EDITION] = edition.min(EDITION);
        (repaired != book).then_some(repaired)
    }

    /// Whether a certificate that the reference takes is none to this one, or the other way round.
    fn certificate(&self, book: &[u8], frame: &[u8], answer: Result<Delivered, u8>) -> Option<u8> {
        let (mask, weights) = (mask_at(frame, 4), Weights::of(book));
        let three = 3 * weights.weight_of(mask);
        let absent = 16 - weights.each().len() as u32;
        let certifies = frame.first().is_some_and(|kind| *kind >= 5) && answer.is_ok();
        let refused = match self.0 {
            ExactlyTwoThirdsIsNone => three == 2 * weights.total(),
            AbsentStationsWeighOne => three < 2 * (weights.total() + absent),
            _ => false,
        };
        let first = book.get(field::EDITION) == Some(&FIRST_EDITION);
        match answer {
            Err(9) if self.is(FirstEditionWeighsNothing) && first => Some(0),
            _ if self.is(FirstEditionIsRefused) && first => Some(1),
            _ => (certifies && refused).then_some(9),
        }
    }

    /// Delivers a frame by a call of the reference.
    fn delivered(
        &self,
        book: &mut [u8],
        frame: &[u8],
        call: impl Fn(&mut [u8]) -> Result<Delivered, u8>,
    ) -> Result<Delivered, u8> {
        let before = book.to_vec();
        let answer = self.as_taken(book, &call);
        match self.certificate(&before, frame, answer) {
            Some(0) => Ok(Delivered::Known),
            Some(number) => {
                book.copy_from_slice(&before);
                Err(number)
            }
            None => answer,
        }
    }

    /// Makes a book of edition 1 one of edition 2.
    fn raise(&self, fault: Fault, book: &mut [u8]) {
        if self.is(fault) && book.get(field::EDITION) == Some(&FIRST_EDITION) {
            let weights = Weights::of(book);
            put_weights(book, weights.each());
        }
    }

    /// Whether the fault concerns openings, and of this kind of book.
    fn opens(&self, observer: bool) -> bool {
        let observers =
            [ObserverOpenMakesFirstEdition, ObserverOpenTakesZero, ObserverOpenTakesMore];
        observer == observers.contains(&self.0)
    }

    /// Bytes of weights that this one takes, made such as the reference takes.
    fn mended(&self, n: u64, weights: &[u8]) -> Vec<u8> {
        let (each, half) = weights.as_chunks::<2>();
        let each = each.iter().map(|pair| u16::from_le_bytes(*pair));
        let twice = usize::try_from(n.min(16)).unwrap() * 2;
        match self.0 {
            OpenTakesZero | ObserverOpenTakesZero if half.is_empty() => {
                weight_bytes(&each.map(|weight| weight.max(1)).collect::<Vec<_>>())
            }
            OpenTakesMore | ObserverOpenTakesMore if half.is_empty() => {
                weight_bytes(&each.map(|weight| weight.min(1000)).collect::<Vec<_>>())
            }
            OpenTakesHalfAWeight if weights.len() == twice + 1 => weights[..twice].to_vec(),
            OpenTakesZerosBehind if weights.len() == 32 => weights[..twice].to_vec(),
            _ => weights.to_vec(),
        }
    }

    /// Opens a book by a call of the reference.
    fn opened(
        &self,
        book: &mut [u8],
        n: u64,
        weights: &[u8],
        call: impl Fn(&mut [u8], &[u8]) -> Result<(), u8>,
    ) -> Result<(), u8> {
        let length = |book: &[u8]| call(&mut book.to_vec(), &exchange::equal_weights(n)) == Err(1);
        match call(book, &self.mended(n, weights)) {
            Err(2) if self.is(OpenLengthFirst) && length(book) => return Err(1),
            answer => answer?,
        }
        let each: Vec<u16> =
            weights.as_chunks::<2>().0.iter().map(|pair| u16::from_le_bytes(*pair)).collect();
        match self.0 {
            OpenMakesFirstEdition | ObserverOpenMakesFirstEdition => put_first_edition(book),
            WeightsAtOneByteEach => {
                let bytes = each.iter().map(|weight| *weight as u8).chain([0; 16]);
                book[8..40].iter_mut().zip(bytes).for_each(|(to, from)| *to = from);
            }
            _ => put_weights(book, &each[..n as usize]),
        }
        Ok(())
    }
}

impl Calls for Faulty {
    as_reference! { signal submit }

    fn open(
        &self,
        book: &mut [u8],
        n: u64,
        own: u64,
        heights: u64,
        weights: &[u8],
        leaders: &[u8],
    ) -> Result<(), u8> {
        let call = |book: &mut [u8], weights: &[u8]| {
            Calls::open(&RULES, book, n, own, heights, weights, leaders)
        };
        if self.opens(false) {
            return self.opened(book, n, weights, call);
        }
        call(book, weights)
    }

    fn deliver(&self, book: &mut [u8], frame: &[u8]) -> Result<Delivered, u8> {
        let answer = self.delivered(book, frame, |book| Calls::deliver(&RULES, book, frame));
        if answer == Ok(Delivered::Fresh) {
            self.raise(DeliverRaisesEdition, book);
        }
        answer
    }

    fn packet(&self, book: &mut [u8], packet: &[u8]) -> Result<Counts, u8> {
        self.as_taken(book, |book| Calls::packet(&RULES, book, packet))
    }

    fn make_move(&self, book: &mut [u8], reply: &mut [u8]) -> Result<Move, u8> {
        let made = self.as_taken(book, |book| Calls::make_move(&RULES, book, reply))?;
        if made != Move::Idle {
            self.raise(MoveRaisesEdition, book);
        }
        Ok(made)
    }

    fn size(&self, book: &[u8]) -> Result<u64, u8> {
        self.as_taken(&mut book.to_vec(), |book| Calls::size(&RULES, book))
    }

    fn read(&self, book: &[u8], buffer: &mut [u8]) -> u64 {
        self.as_taken(&mut book.to_vec(), |book| Calls::read(&RULES, book, buffer))
    }

    fn fetch(&self, book: &[u8], kind: u64, height: u64, reply: &mut [u8]) -> Result<(), u8> {
        self.as_taken(&mut book.to_vec(), |book| Calls::fetch(&RULES, book, kind, height, reply))
    }

    fn observer_read(&self, book: &[u8], buffer: &mut [u8]) -> u64 {
        self.as_taken(&mut book.to_vec(), |book| Calls::observer_read(&RULES, book, buffer))
    }

    fn observer_open(
        &self,
        book: &mut [u8],
        n: u64,
        heights: u64,
        weights: &[u8],
    ) -> Result<(), u8> {
        let call = |book: &mut [u8], weights: &[u8]| {
            Calls::observer_open(&RULES, book, n, heights, weights)
        };
        if self.opens(true) {
            return self.opened(book, n, weights, call);
        }
        call(book, weights)
    }

    fn observer_deliver(&self, book: &mut [u8], frame: &[u8]) -> Result<Delivered, u8> {
        self.delivered(book, frame, |book| Calls::observer_deliver(&RULES, book, frame))
    }

    fn observer_move(&self, book: &mut [u8]) -> Result<Move, u8> {
        let made = self.as_taken(book, |book| Calls::observer_move(&RULES, book))?;
        if made != Move::Idle {
            self.raise(ObserverMoveRaisesEdition, book);
        }
        Ok(made)
    }

    fn observer_size(&self, book: &[u8]) -> Result<u64, u8> {
        self.as_taken(&mut book.to_vec(), |book| Calls::observer_size(&RULES, book))
    }
}

/// The calls within which a fault must show.
const CALLS: u64 = 40_000;

#[test]
fn no_fault_is_found_where_none_is() {
    run(RULES, Faulty(Nothing), 3, CALLS).unwrap();
}

#[test]
fn each_fault_is_found() {
    for fault in [
        CountsStations,
        ObserverCountsStations,
        ExactlyTwoThirdsIsNone,
        AbsentStationsWeighOne,
        FirstEditionWeighsNothing,
        FirstEditionIsRefused,
        WeightsAtOneByteEach,
        OpenMakesFirstEdition,
        ObserverOpenMakesFirstEdition,
        OpenTakesZero,
        OpenTakesMore,
        OpenTakesHalfAWeight,
        OpenTakesZerosBehind,
        ObserverOpenTakesZero,
        ObserverOpenTakesMore,
        OpenLengthFirst,
        BookTakesZero,
        BookTakesMore,
        BookTakesAbsentWeight,
        BookTakesAnyEdition,
        FirstEditionTakesWeights,
        ObserverBookTakesMore,
        DeliverRaisesEdition,
        MoveRaisesEdition,
        ObserverMoveRaisesEdition,
        HighByteLeftOut,
    ] {
        let found = run(RULES, Faulty(fault), 3, CALLS);
        let sentence = found.err().unwrap_or_else(|| panic!("{fault:?} was not found"));
        assert!(sentence.contains(exchange::HEADING), "{fault:?}: {sentence}");
    }
}

/// Faults that both have show by what the logs must be. Where stations count, and the dishonest are many and light,
/// two honest logs fork.
#[test]
fn faults_that_both_have_are_found() {
    let both = || Pair::new(Faulty(CountsStations), Faulty(CountsStations));
    let found = |mut pair: Pair<Faulty, Faulty>, seed| {
        walk(&mut pair, seed, CALLS).err().map(|stop| stop.to_string()).unwrap_or_default()
    };
    let beside = found(both(), 1);
    assert!(beside.contains("a station and an observer beside it read different"), "{beside}");
    let alone = (1..=8).map(|seed| found(both().without_observers(), seed));
    assert!(alone.into_iter().any(|found| found.contains("two honest logs fork")));
}
