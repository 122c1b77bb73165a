//! Times a case on two replicas and at two sizes, in rounds that alternate.

use crate::median::median;
use crate::Case;
use std::hint::black_box;
use std::time::Instant;
use types::Calls;

/// All copies of a book together have at most so many bytes, so that they stay in the processor's cache.
const ROOM: usize = 8 * 56_016;

/// A batch takes about so many nanoseconds at most, so that a busy machine interrupts few of them.
const BATCH: f64 = 100_000.0;

/// Calls that are timed to find the size of a batch.
const TRIES: usize = 9;

/// What one round says of one size, in nanoseconds a call.
#[derive(Clone, Copy, Debug)]
struct Times {
    ours: f64,
    reference: f64,
}

/// Medians over all rounds, at the small size and at the large one.
#[derive(Clone, Copy, Debug)]
pub struct Measured {
    /// How many times as fast the first replica is, at each size.
    pub ratios: [f64; 2],
    /// Nanoseconds of a call of the first replica, at each size.
    pub times: [f64; 2],
    /// How many times as long the large size takes, for each replica.
    pub growth: [f64; 2],
}

/// Times so many rounds. Every figure is the median of what the rounds say, so that a slow minute moves none of them.
pub fn measure<A: Calls, B: Calls>(
    ours: &A,
    reference: &B,
    sizes: &[Case; 2],
    rounds: usize,
) -> Result<Measured, String> {
    for case in sizes {
        case.check(ours, reference)?;
    }
    let mut copies = sizes.each_ref().map(|case| Copies::of(case, ours, reference));
    let mut round = |number: usize| {
        copies.each_mut().map(|copies| copies.round(ours, reference, number.is_multiple_of(2)))
    };
    let rounds: Vec<[Times; 2]> = (0..rounds).map(&mut round).collect();
    let of = |figure: &dyn Fn(&[Times; 2]) -> f64| {
        let mut figures: Vec<f64> = rounds.iter().map(figure).collect();
        median(&mut figures).ok_or("no round was measured")
    };
    Ok(Measured {
        ratios: [
            of(&|[few, _]| few.reference / few.ours)?,
            of(&|[_, many]| many.reference / many.ours)?,
        ],
        times: [of(&|[few, _]| few.ours)?, of(&|[_, many]| many.ours)?],
        growth: [
            of(&|[few, many]| many.ours / few.ours)?,
            of(&|[few, many]| many.reference / few.reference)?,
        ],
    })
}

/// A case with as many copies of its book and buffer as a batch has calls.
struct Copies<'a> {
    case: &'a Case,
    lent: Vec<[Vec<u8>; 2]>,
}

impl<'a> Copies<'a> {
    /// As many copies as there is room and, by the slower replica, time for.
    fn of<A: Calls, B: Calls>(case: &'a Case, ours: &A, reference: &B) -> Copies<'a> {
        let mut one = Copies::new(case, 1);
        let tries = (0..TRIES).map(|_| one.round(ours, reference, true));
        let slower = tries.map(|times| times.ours.max(times.reference)).fold(BATCH, f64::min);
        let room = ROOM.checked_div(case.book.len()).unwrap_or(1);
        Copies::new(case, room.min((BATCH / slower) as usize).max(1))
    }

    /// So many copies.
    fn new(case: &'a Case, count: usize) -> Copies<'a> {
        Copies { case, lent: vec![[case.book.clone(), vec![0xaa; case.lent]]; count] }
    }

    /// One batch of each replica; which one begins changes from round to round.
    fn round<A: Calls, B: Calls>(&mut self, ours: &A, reference: &B, ours_first: bool) -> Times {
        if ours_first {
            let ours = self.batch(ours);
            Times { ours, reference: self.batch(reference) }
        } else {
            let reference = self.batch(reference);
            Times { ours: self.batch(ours), reference }
        }
    }

    /// The nanoseconds of one call, from one call on each copy. The books are restored before the clock starts.
    fn batch(&mut self, calls: &impl Calls) -> f64 {
        for [book, _] in &mut self.lent {
            book.copy_from_slice(&self.case.book);
        }
        let start = Instant::now();
        for [book, buffer] in &mut self.lent {
            black_box(self.case.call.make(calls, black_box(book), black_box(buffer)));
        }
        start.elapsed().as_secs_f64() * 1e9 / self.lent.len() as f64
    }
}
