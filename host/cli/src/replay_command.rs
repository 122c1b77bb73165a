//! `replay`: makes the calls of lists and compares what comes of them.

use crate::arguments::Arguments;
use crate::chosen::{NAME, REPLICA};
use crate::problem::Problem;
use crate::{files, unmet, words};
use exchange::{List, Replayed, Stage, Tally};
use std::path::Path;

/// Replays every list named.
pub fn run(words: &[String], output: &mut Vec<u8>) -> Result<(), Problem> {
    let arguments = Arguments::sort(words, &["keep", "stop-at"], &["counts"])?;
    let names = arguments.words();
    let keep = arguments.value("keep")?.map(Path::new);
    let last = last_line(&arguments)?;
    match names {
        [] => return Err(Problem::input("a list is missing: give files, or - for standard input")),
        [_, _, ..] if keep.is_some() || last.is_some() => {
            return Err(Problem::input("--keep and --stop-at are for one list"));
        }
        _ => {}
    }
    let mut tally = Tally::default();
    for name in names {
        let replayed = replay(name, last, keep)?;
        let calls = words::count(replayed.tally.calls() as usize, "call", "calls");
        let end = last.map_or(String::new(), |line| format!(" up to line {line}"));
        let line = format!("{name}: {calls} on {NAME}{end}, all as expected\n");
        output.extend(line.into_bytes());
        tally.add(&replayed.tally);
    }
    if arguments.has("counts") {
        output.extend(tally.to_string().into_bytes());
    }
    Ok(())
}

/// The line to stop behind, if one is given.
fn last_line(arguments: &Arguments) -> Result<Option<usize>, Problem> {
    let line = arguments.number("stop-at")?;
    Ok(line.map(|line| usize::try_from(line).unwrap_or(usize::MAX)))
}

/// Replays one list up to a line, and keeps its buffers, also where it comes out otherwise.
fn replay(name: &str, last: Option<usize>, folder: Option<&Path>) -> Result<Replayed, Problem> {
    let list = List::parse(&files::read_text(name)?)
        .map_err(|problem| Problem::input(format!("{name}, {problem}")))?;
    let lines = list.lines.len().saturating_add(1);
    if let Some(line) = last.filter(|line| !(1..=lines).contains(line)) {
        return Err(Problem::input(format!("--stop-at {line}: {name} has lines 1 to {lines}")));
    }
    let replayed = exchange::replay_until(&list, &REPLICA, last.unwrap_or(usize::MAX));
    let stage = match &replayed {
        Ok(replayed) => Some(&replayed.stage),
        Err(failure) => failure.unmet.as_ref().map(|unmet| &unmet.stage),
    };
    if let (Some(folder), Some(stage)) = (folder, stage) {
        keep(folder, stage)?;
    }
    replayed.map_err(|failure| {
        let details = failure.unmet.iter().flat_map(unmet::lines).map(|line| format!("\n{line}"));
        Problem::difference(format!("{name}, {failure}{}", details.collect::<String>()))
    })
}

/// Writes each buffer, as the list left it, to a file of its name.
fn keep(folder: &Path, stage: &Stage) -> Result<(), Problem> {
    let plain = |c: char| c.is_ascii_alphanumeric() || c == '_';
    let shown = folder.display();
    let wrong = |error| Problem::input(format!("{shown} cannot be written: {error}"));
    std::fs::create_dir_all(folder).map_err(wrong)?;
    for (name, bytes) in stage.all() {
        if !name.chars().all(plain) {
            return Err(Problem::input(format!("'{name}' cannot be the name of a file")));
        }
        std::fs::write(folder.join(name), bytes).map_err(wrong)?;
    }
    Ok(())
}
