//! The command `bench`: the proved replica's calls beside the reference's, as tables of ratios.

use bench::Options;
use std::process::ExitCode;

/// What the command is for.
const HELP: &str = "\
bench [--rounds N] [--only TEXT]

Makes every call, a station's and an observer's, on the proved replica and on the
reference in N rounds that alternate (1001 if not said), on empty and on full books of 8
and of 63 heights with 4 and with 16 replicas that weigh 1 each, and prints tables in
Markdown. A cell has how many times as fast the proved replica is, above 1 where it is
faster, and its microseconds for a call in brackets. Growth is the time at 63 heights
over that at 8, the reference's in brackets. A table of registers has their size and a
read where the entries of all pages differ, agree, or collide in a filter that has no
key, with 4 replicas. A last table has packets of 1 to 400
frames on a full book of 63 heights, in N / 10 rounds: the proved replica's
microseconds, how many times as long it takes to deliver the frames one by one, and how
many times as long the reference takes for the packet. All are medians over the rounds.
With --only, cases whose name has TEXT in it.

Both replicas must answer as the case expects and leave the same bytes; otherwise
the status is 1. The cargo feature `proved` links the proved replica; without it
there is nothing to measure, and the status is 2.";

fn main() -> ExitCode {
    let words: Vec<String> = std::env::args().skip(1).collect();
    if words.iter().any(|word| word == "--help" || word == "-h") {
        println!("{HELP}");
        return ExitCode::SUCCESS;
    }
    match arguments(&words) {
        Ok(options) => bench(&options),
        Err(sentence) => {
            eprintln!("{sentence}; try --help");
            ExitCode::from(2)
        }
    }
}

/// What the words ask for.
fn arguments(words: &[String]) -> Result<Options, String> {
    let mut options = Options { rounds: 1001, only: String::new() };
    for pair in words.chunks(2) {
        match pair {
            [name, text] if name == "--only" => options.only.clone_from(text),
            [name, number] if name == "--rounds" => {
                let number = number.parse().ok().filter(|rounds| *rounds > 0);
                options.rounds = number.ok_or("--rounds needs a number above 0")?;
            }
            [name, ..] => {
                return Err(format!("'{name}' is no argument of bench, or lacks a value"))
            }
            [] => {}
        }
    }
    Ok(options)
}

/// Measures and prints.
#[cfg(feature = "proved")]
fn bench(options: &Options) -> ExitCode {
    match bench::run(&mavunilai::Proved, &reference::Rules::SHA256, options) {
        Ok(()) => ExitCode::SUCCESS,
        Err(sentence) => {
            eprintln!("{sentence}");
            ExitCode::from(1)
        }
    }
}

/// Says why nothing can be measured.
#[cfg(not(feature = "proved"))]
fn bench(_options: &Options) -> ExitCode {
    eprintln!("this build has the reference alone; build with --features proved to measure the proved replica");
    ExitCode::from(2)
}
