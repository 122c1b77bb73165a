//! Going through a list: checking what it expects, or filling it in.

use crate::failure::{Failure, Unmet};
use crate::{Expected, Line, List, Problem, Stage, Tally};
use types::Calls;

/// What a list came to: the counts, and the buffers at its end.
#[derive(Clone, Debug, Default)]
pub struct Replayed {
    /// How often each answer occurred.
    pub tally: Tally,
    /// The buffers.
    pub stage: Stage,
}

/// Makes every call of a list and compares answers and buffers; stops at the first difference.
///
/// Calls of which nothing is expected are made and counted.
pub fn replay(list: &List, calls: &impl Calls) -> Result<Replayed, Box<Failure>> {
    replay_until(list, calls, usize::MAX)
}

/// The same up to a line of the text and with it; the heading is line 1.
pub fn replay_until(
    list: &List,
    calls: &impl Calls,
    last: usize,
) -> Result<Replayed, Box<Failure>> {
    let mut replayed = Replayed::default();
    let Replayed { stage, tally } = &mut replayed;
    for (line, step) in (2..=last).zip(&list.lines) {
        let before = buffers(stage, step);
        let failed = |sentence, unmet| {
            let (problem, case) = (Problem { line, sentence }, list.case(line));
            Box::new(Failure { problem, case: case.map(str::to_string), unmet })
        };
        let found = step_of(stage, step, calls).map_err(|sentence| failed(sentence, None))?;
        let Some((found, expected)) = found else { continue };
        tally.count(&found.answer);
        if let Some(expected) = expected.filter(|expected| !expected.is_met_by(&found)) {
            let sentence = difference(expected, &found);
            let (step, stage, expected) = (step.clone(), stage.clone(), expected.clone());
            return Err(failed(sentence, Some(Unmet { step, before, stage, expected })));
        }
    }
    Ok(replayed)
}

/// The same list with what a replica answers and leaves now in the place of what was expected.
pub fn record(list: &List, calls: &impl Calls) -> Result<List, Problem> {
    fill(list, calls, false)
}

/// The same with the bytes of the buffers in the place of digests.
pub fn record_in_full(list: &List, calls: &impl Calls) -> Result<List, Problem> {
    fill(list, calls, true)
}

/// Fills the expectations in: bytes where all are wanted in full, or where the line has them.
fn fill(list: &List, calls: &impl Calls, full: bool) -> Result<List, Problem> {
    let mut stage = Stage::default();
    let mut recorded = list.clone();
    for (line, step) in (2..).zip(&mut recorded.lines) {
        let found = step_of(&mut stage, step, calls);
        let found = found.map_err(|sentence| Problem { line, sentence })?.map(|(found, _)| found);
        let after = buffers(&stage, step);
        if let (Line::Call { expected, .. }, Some(found)) = (step, found) {
            let full = full || expected.as_ref().is_some_and(|expected| expected.bytes.is_some());
            *expected = Some(match full {
                true => Expected::in_full(found.answer, after),
                false => found,
            });
        }
    }
    Ok(recorded)
}

/// The bytes of the buffers that a call names: the book, then the second if one is lent.
fn buffers(stage: &Stage, step: &Line) -> Vec<Vec<u8>> {
    let Line::Call { book, buffer, .. } = step else { return Vec::new() };
    let names = [book, buffer].into_iter().filter(|name| !name.is_empty());
    names.map(|name| stage.bytes(name).unwrap_or(&[]).to_vec()).collect()
}

/// What a call came to, and what was expected of it.
type Outcome<'a> = (Expected, Option<&'a Expected>);

/// Does what a line says; nothing comes of a line that is no call.
fn step_of<'a>(
    stage: &mut Stage,
    step: &'a Line,
    calls: &impl Calls,
) -> Result<Option<Outcome<'a>>, String> {
    match step {
        Line::Remark(_) => Ok(None),
        Line::Give { name, bytes } => {
            stage.give(name, bytes.clone());
            Ok(None)
        }
        Line::Call { call, book, buffer, expected } => {
            let found = stage.make(calls, call, book, buffer)?;
            Ok(Some((found, expected.as_ref())))
        }
    }
}

/// Which part of the expectation was not met.
fn difference(expected: &Expected, found: &Expected) -> String {
    if expected.answer != found.answer {
        return format!("the answer is '{}', expected is '{}'", found.answer, expected.answer);
    }
    match expected.digests.first() == found.digests.first() {
        true => "the bytes of the reply or buffer are not the expected ones".to_string(),
        false => "the bytes of the book are not the expected ones".to_string(),
    }
}
