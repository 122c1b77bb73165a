//! The command `compare`: the proved replica against the reference on random lists of calls.

use std::process::ExitCode;

/// What the command is for.
const HELP: &str = "\
compare [--count N] [--seed S]

Makes N calls (100000 if not said) on the proved replica and on the reference, in
random lists that the seed S decides (1 if not said), and compares every answer and
every byte of every buffer after every call. Prints the seed and how often each
refusal, each move, each kind of pass and each kind of input occurred: books, frames,
packets, a leader's two pages, observers, entries that a chain carries again, weights
and editions, lengths of buffers, timers, what happens in a network. From 100000 calls
on it fails if one of them never did. The status is 0 if nothing differed, 1 if
something did, 2 if the command could not be understood or carried out.

Two implementations are compared only with the cargo feature `proved`, which needs
the static library of the proved replica. Without it there is one implementation,
this command does nothing, and the package's own tests compare the reference with
itself, to test the comparison.";

fn main() -> ExitCode {
    let words: Vec<String> =
        std::env::args_os().skip(1).map(|word| word.to_string_lossy().into_owned()).collect();
    if words.iter().any(|word| word == "--help" || word == "-h") {
        println!("{HELP}");
        return ExitCode::SUCCESS;
    }
    let (seed, count) = match arguments(&words) {
        Ok(numbers) => numbers,
        Err(sentence) => {
            eprintln!("{sentence}; try --help");
            return ExitCode::from(2);
        }
    };
    compare(seed, count)
}

/// The seed and the count that the words ask for.
fn arguments(words: &[String]) -> Result<(u64, u64), String> {
    let (mut seed, mut count) = (1, compare::LARGE);
    for pair in words.chunks(2) {
        let place = match pair.first().map(String::as_str) {
            Some("--seed") => &mut seed,
            Some("--count") => &mut count,
            word => return Err(format!("'{}' is no argument of compare", word.unwrap_or(""))),
        };
        let number = pair.get(1).and_then(|word| word.parse().ok());
        *place = number.ok_or_else(|| format!("{} needs a number", pair[0]))?;
    }
    Ok((seed, count))
}

/// Compares the two and prints what came of it.
#[cfg(feature = "proved")]
fn compare(seed: u64, count: u64) -> ExitCode {
    match compare::run(reference::Rules::SHA256, mavunilai::Proved, seed, count) {
        Ok(report) => {
            print!("{report}");
            ExitCode::SUCCESS
        }
        Err(sentence) => {
            eprintln!("{sentence}");
            ExitCode::from(1)
        }
    }
}

/// Says why nothing can be compared.
#[cfg(not(feature = "proved"))]
fn compare(_seed: u64, _count: u64) -> ExitCode {
    eprintln!("this build has the reference alone; build with --features proved to compare two implementations");
    ExitCode::from(2)
}
