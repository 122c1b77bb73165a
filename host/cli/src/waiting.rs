//! How long a command waits for a book that another process has open.

use crate::arguments::Arguments;
use crate::problem::Problem;
use std::io::{stderr, Write};
use std::path::Path;
use std::time::Duration;
use store::{Disk, Holder, Patience};

/// The file system, with the patience that `--wait` asks for; without it a lock is waited for as long as it takes.
pub fn disk(arguments: &Arguments) -> Result<Disk, Problem> {
    let longest = arguments.number("wait")?.map(Duration::from_secs);
    Ok(Disk { patience: Patience { longest, tell } })
}

/// Refuses `--wait` where nothing is locked.
pub fn none(arguments: &Arguments, name: &str) -> Result<(), Problem> {
    match arguments.value("wait")? {
        Some(_) => Err(Problem::input(format!("{name} has no --wait: it locks nothing"))),
        None => Ok(()),
    }
}

/// Says on the standard error who has the lock.
fn tell(path: &Path, holder: Holder) {
    _ = writeln!(stderr(), "mavunilai: waiting for {}: {holder} has it", path.display());
}
