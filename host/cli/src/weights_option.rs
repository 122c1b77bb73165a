//! The option `--weights`: what each station of a new book weighs.

use crate::arguments::Arguments;
use crate::problem::Problem;
use types::{Refusal, MOST_WEIGHT};

/// The weights that the words ask for: a list with commas, or 1 for each station where the option is not given.
pub struct Weighing {
    n: u8,
    asked: Vec<u64>,
}

impl Weighing {
    /// Reads the option; anything but numbers with commas between them is an error.
    pub fn read(arguments: &Arguments, n: u8) -> Result<Weighing, Problem> {
        let Some(list) = arguments.value("weights")? else {
            return Ok(Weighing { n, asked: vec![1; n.into()] });
        };
        let number = |word: &str| {
            let wrong = || Problem::input(format!("--weights {list}: '{word}' is no whole number"));
            word.trim().parse::<u64>().map_err(|_| wrong())
        };
        Ok(Weighing { n, asked: list.split(',').map(number).collect::<Result<_, _>>()? })
    }

    /// The weights as a book is opened with them; one that has no room in two bytes is the largest, which is refused.
    pub fn numbers(&self) -> Vec<u16> {
        self.asked.iter().map(|weight| u16::try_from(*weight).unwrap_or(u16::MAX)).collect()
    }

    /// What is said where opening is refused: of weights that do not fit, what is wrong with them.
    pub fn refused(&self, refusal: Refusal) -> Problem {
        let problem = Problem::refused(refusal.number());
        match self.fault().filter(|_| refusal == Refusal::OutOfRange) {
            Some(fault) => {
                Problem { sentence: format!("{}: {fault}", problem.sentence), ..problem }
            }
            None => problem,
        }
    }

    /// What is wrong with the weights, if something is.
    fn fault(&self) -> Option<String> {
        let (given, n) = (self.asked.len(), self.n);
        if given != usize::from(n) {
            return Some(format!("--weights has {given}, and n is {n}"));
        }
        let strange = |weight: &u64| !(1..=u64::from(MOST_WEIGHT)).contains(weight);
        let (station, weight) = (0..).zip(&self.asked).find(|(_, weight)| strange(weight))?;
        let station: u32 = station;
        Some(format!("station {station} weighs {weight}, not 1 to {MOST_WEIGHT}"))
    }
}
