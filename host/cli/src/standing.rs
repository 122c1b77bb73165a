//! How a book in a file stands: what its head says, what it waits for, and what is beside it.

use crate::beside::{self, Beside};
use crate::problem::Problem;
use crate::{awaited, register, show_book, show_observer, unsound};
use types::{field, head_height, is_observers, Height, Weights};

/// A book that could be read.
pub struct Standing {
    /// What a sound book tells, or the first rule that it breaks.
    pub told: Result<Told, String>,
    pub beside: Beside,
}

/// What a sound book tells.
pub struct Told {
    /// The number of its station; none of an observer's.
    pub station: Option<u8>,
    pub n: u8,
    pub edition: u8,
    /// What each station weighs, as the book is read.
    pub weights: Weights,
    pub heights: Height,
    /// The current height and the number of pending entries, of a station's book.
    pub current: Height,
    pub pending: u8,
    pub settled: Height,
    pub entries: usize,
    pub waits_for: String,
}

impl Standing {
    /// How the book in a file stands; a problem if the file cannot be read.
    pub fn of(file: &str) -> Result<Standing, Problem> {
        let said = store::said(file);
        let bytes = store::read(file)?;
        let told = match unsound::reason(&bytes) {
            Some(why) => Err(why),
            None => told(&bytes).map_err(|problem| problem.sentence),
        };
        Ok(Standing { told, beside: beside::of(file, said, &bytes) })
    }

    /// What a person should look at: a book that is not sound, else what is wrong beside it.
    pub fn problem(&self) -> Option<Problem> {
        match &self.told {
            Err(why) => Some(Problem { status: 3, sentence: format!("not sound: {why}") }),
            Ok(_) => self.beside.trouble().map(Problem::difference),
        }
    }
}

/// What a sound book tells.
fn told(bytes: &[u8]) -> Result<Told, Problem> {
    let byte = |at: usize| bytes.get(at).copied().unwrap_or(0);
    let observers = is_observers(bytes);
    let waits_for = match observers {
        true => {
            show_observer::told(bytes)?;
            awaited::observer(bytes)
        }
        false => awaited::station(&show_book::told(bytes)?, bytes),
    };
    Ok(Told {
        station: (!observers).then_some(byte(field::OWN)),
        n: byte(field::N),
        edition: byte(field::EDITION),
        weights: Weights::of(bytes),
        heights: head_height(bytes, field::HEIGHTS),
        current: head_height(bytes, field::CURRENT),
        pending: byte(field::PENDING),
        settled: head_height(bytes, field::FINALIZED),
        entries: register::filed(bytes)?.len(),
        waits_for,
    })
}
