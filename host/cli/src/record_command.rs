//! `record`: fills the expectations of a list in, writes one of the ready lists, or a random one.

use crate::arguments::Arguments;
use crate::chosen::REPLICA;
use crate::files;
use crate::problem::Problem;
use compare::{walk, Pair, Scribe};
use exchange::{scenarios, List};
use std::path::Path;

/// How many calls a random list has if no number is given.
const COUNT: u64 = 1000;

/// Writes a list.
pub fn run(words: &[String], output: &mut Vec<u8>) -> Result<(), Problem> {
    let options = ["scenario", "folder", "random", "count"];
    let arguments = Arguments::sort(words, &options, &["full"])?;
    let full = arguments.has("full");
    let (count, random) = (arguments.number("count")?, arguments.number("random")?);
    if count.is_some() && random.is_none() {
        return Err(Problem::input("--count is for --random"));
    }
    let (scenario, folder) = (arguments.value("scenario")?, arguments.value("folder")?);
    let list = match (arguments.words(), scenario, folder, random) {
        ([name], None, None, None) => filled(name, full)?,
        ([], Some(name), None, None) => in_full(ready(name)?, full)?,
        ([], None, None, Some(seed)) => written(seed, count.unwrap_or(COUNT), full)?,
        ([], None, Some(folder), None) if full => {
            return Err(Problem::input(format!(
                "--folder {folder} has no --full: the folder's lists have digests"
            )));
        }
        ([], None, Some(folder), None) => return write_all(Path::new(folder)),
        _ => {
            let sentence =
                "expected here: one file, or --scenario NAME, or --folder FOLDER, or --random SEED";
            return Err(Problem::input(sentence));
        }
    };
    output.extend(list.to_string().into_bytes());
    Ok(())
}

/// The list of a file, with what the replica answers and leaves now.
fn filled(name: &str, full: bool) -> Result<List, Problem> {
    let wrong = |problem| Problem::input(format!("{name}, {problem}"));
    let list = List::parse(&files::read_text(name)?).map_err(wrong)?;
    match full {
        true => exchange::record_in_full(&list, &REPLICA).map_err(wrong),
        false => exchange::record(&list, &REPLICA).map_err(wrong),
    }
}

/// A ready list.
fn ready(name: &str) -> Result<List, Problem> {
    let names = scenarios::NAMES.join(", ");
    let unknown = || Problem::input(format!("'{name}' is no scenario; there are {names}"));
    scenarios::record(name, REPLICA).ok_or_else(unknown)
}

/// A list with its bytes in full, if that is wanted.
fn in_full(list: List, full: bool) -> Result<List, Problem> {
    match full {
        true => exchange::record_in_full(&list, &REPLICA)
            .map_err(|problem| Problem::input(problem.to_string())),
        false => Ok(list),
    }
}

/// So many random calls from a seed.
fn written(seed: u64, count: u64, full: bool) -> Result<List, Problem> {
    let mut pair = Pair::limited(REPLICA, Scribe::new(REPLICA, full), count);
    walk(&mut pair, seed, count).map_err(|stop| Problem::difference(stop.to_string()))?;
    Ok(pair.second().list().clone())
}

/// Writes all ready lists into a folder.
fn write_all(folder: &Path) -> Result<(), Problem> {
    for name in scenarios::NAMES {
        let file = folder.join(format!("{name}.txt"));
        std::fs::write(&file, ready(name)?.to_string()).map_err(|error| {
            Problem::input(format!("{} cannot be written: {error}", file.display()))
        })?;
    }
    Ok(())
}
