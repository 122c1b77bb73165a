//! `try`: random calls on a partner's program and on the replica at hand, up to the first difference.

use crate::arguments::Arguments;
use crate::chosen::{NAME, REPLICA};
use crate::problem::Problem;
use crate::theirs::Theirs;
use crate::{told, words};
use compare::{walk, Difference, Pair, Report, Stop};
use exchange::{Line, List};
use std::time::Duration;

/// How many calls are made if no number is given.
const COUNT: u64 = 10_000;

/// How many seconds an answer may take if no number is given.
const SECONDS: u64 = 10;

/// Tries the program behind `--`.
pub fn run(words: &[String], output: &mut Vec<u8>) -> Result<(), Problem> {
    let expected =
        || Problem::input("expected here: options, then -- and a program with its words");
    let mut halves = words.splitn(2, |word| word == "--");
    let options = ["seed", "count", "seconds"];
    let arguments = Arguments::sort(halves.next().unwrap_or(&[]), &options, &["stations"])?;
    let (program, rest) = halves.next().and_then(<[_]>::split_first).ok_or_else(expected)?;
    let [] = arguments.plain("options, then -- and a program with its words")?;
    let seed = arguments.number("seed")?.unwrap_or(1);
    let count = positive(&arguments, "count", COUNT)?;
    let limit = Duration::from_secs(positive(&arguments, "seconds", SECONDS)?);
    let pair = Pair::limited(REPLICA, Theirs::start(program, rest, limit)?, count);
    let mut pair = if arguments.has("stations") { pair.without_observers() } else { pair };
    match walk(&mut pair, seed, count) {
        Ok(report) => {
            let ended = pair.into_second().finish();
            ended.map_err(|sentence| Problem::difference(format!("{program}: {sentence}")))?;
            output.extend(summary(program, &report).into_bytes());
            Ok(())
        }
        Err(stop) => {
            let list = stop.difference.as_ref().map(|difference| list(&stop.case, difference));
            list.iter().for_each(|list| output.extend(list.to_string().into_bytes()));
            Err(Problem::difference(sentence(program, &stop)))
        }
    }
}

/// An option that is a number above 0.
fn positive(arguments: &Arguments, name: &str, unsaid: u64) -> Result<u64, Problem> {
    match arguments.number(name)?.unwrap_or(unsaid) {
        0 => Err(Problem::input(format!("--{name} 0: one at least"))),
        number => Ok(number),
    }
}

/// What was tried, where nothing differed.
fn summary(program: &str, report: &Report) -> String {
    let calls = words::count(report.tally.calls() as usize, "call", "calls");
    let seed = report.seed;
    let lists = words::count(report.lists as usize, "list", "lists");
    let networks = words::count(report.networks as usize, "whole network", "whole networks");
    let dishonest = report.with_dishonest;
    format!(
        "{program}: {calls} as on {NAME} (seed {seed}: {lists} on single books, {networks}, \
         {dishonest} with dishonest stations)\n"
    )
}

/// The list of one call that shows a difference, with bytes in full.
fn list(case: &str, difference: &Difference) -> List {
    let remark = Line::Remark(case.to_string());
    let shown = &difference.list;
    let shown = exchange::record_in_full(shown, &REPLICA).unwrap_or_else(|_| shown.clone());
    List { lines: [vec![remark], shown.lines].concat() }
}

/// The difference in words: the call, both answers, and the fields in which the buffers differ.
fn sentence(program: &str, stop: &Stop) -> String {
    let place = format!("{program}, call {} (case \"{}\")", stop.call, stop.case);
    let Some(difference) = &stop.difference else {
        return format!("{place}: {}", stop.sentence);
    };
    let mut lines = vec![match difference.two {
        Some(_) => format!("{place}: it differs from {NAME}"),
        None => format!("{place}: {}", stop.sentence),
    }];
    lines.extend(told::call(&difference.call, "book", "buffer"));
    let one = &difference.one;
    match &difference.two {
        None => lines.push(format!("the answer of {NAME}: {}", one.answer)),
        Some(two) => {
            let same = if one.answer == two.answer { " (the same)" } else { "" };
            lines.push(format!("answers: ours '{}', theirs '{}'{same}", one.answer, two.answer));
            lines.extend(told::books(["ours", "theirs"], &one.book, &two.book));
            let buffers = [one.buffer.as_slice(), &two.buffer];
            lines.extend(told::buffers(&difference.call, ["ours", "theirs"], buffers));
        }
    }
    lines.join("\n")
}
