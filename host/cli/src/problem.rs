//! Why a command ended early: a sentence for people and the status of the program.

use exchange::Answer;
use store::Error;
use types::Refusal;

/// The refusal after which one stops and compares: two pages of one height are certified.
const TWO_PAGES: u8 = Refusal::OtherNotarized.number();

/// A sentence and a status: 1 for a list that does not come out as expected, 2 for bad input or output, 3 for a
/// refusal, 4 for refusal 10.
#[derive(Clone, Debug)]
pub struct Problem {
    pub status: u8,
    pub sentence: String,
}

impl Problem {
    /// Something about the command's words or files is wrong.
    pub fn input(sentence: impl Into<String>) -> Problem {
        Problem { status: 2, sentence: sentence.into() }
    }

    /// The replica refuses the call.
    pub fn refused(refusal: impl Into<u8>) -> Problem {
        let number = refusal.into();
        let status = if number == TWO_PAGES { 4 } else { 3 };
        Problem { status, sentence: format!("refused with {number}: {}", Refusal::of(number)) }
    }

    /// What becomes of a command whose frames have these answers, each with its line.
    pub fn of_answers(answers: &[Answer]) -> Result<(), Problem> {
        if let [Answer::Deny(number)] = answers {
            return Err(Problem::refused(*number));
        }
        Problem::of_packet(answers)?;
        match answers.iter().filter(|answer| matches!(answer, Answer::Deny(_))).count() {
            0 => Ok(()),
            refused => Err(Problem::some_refused(refused, answers.len())),
        }
    }

    /// The replica refuses some of several frames.
    pub fn some_refused(refused: usize, all: usize) -> Problem {
        Problem { status: 3, sentence: format!("{refused} of {all} frames were refused") }
    }

    /// A packet is not refused for its frames; but one that is refused with 10 is a reason to stop.
    pub fn of_packet(answers: &[Answer]) -> Result<(), Problem> {
        match answers.iter().filter(|answer| **answer == Answer::Deny(TWO_PAGES)).count() {
            0 => Ok(()),
            tens => {
                let Problem { status, sentence } = Problem::refused(TWO_PAGES);
                let sentence = format!("{tens} of {} frames were {sentence}", answers.len());
                Err(Problem { status, sentence })
            }
        }
    }

    /// The replica does not do what a list expects.
    pub fn difference(sentence: impl Into<String>) -> Problem {
        Problem { status: 1, sentence: sentence.into() }
    }
}

impl From<Error> for Problem {
    fn from(error: Error) -> Problem {
        match error {
            Error::Refused(number) => Problem::refused(number),
            _ => Problem::input(error.to_string()),
        }
    }
}
