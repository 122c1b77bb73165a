//! `answer`: the other side of `try`, on the replica at hand.

use crate::arguments::Arguments;
use crate::bounded_line::{self, Next};
use crate::chosen::REPLICA;
use crate::problem::Problem;
use exchange::request::{self, Request};
use std::io::Write;

/// Answers each line of standard input with a line of standard output.
pub fn run(words: &[String]) -> Result<(), Problem> {
    let arguments = Arguments::sort(words, &[], &[])?;
    let [] = arguments.plain("nothing: the calls come from standard input")?;
    let (mut input, mut output) = (std::io::stdin().lock(), std::io::stdout().lock());
    for number in 1_u64.. {
        let wrong = |sentence: &str| Problem::input(format!("line {number}: {sentence}"));
        let line = match bounded_line::next(&mut input) {
            Next::Line(line) => line,
            Next::End => break,
            Next::Rubbish => return Err(wrong("this is no text")),
            Next::Long => return Err(wrong("this is too long for a call")),
        };
        let Request { call, mut book, mut buffer } =
            request::parse(&line).map_err(|sentence| wrong(&sentence))?;
        let answer = call.make(&REPLICA, &mut book, &mut buffer);
        let answered = request::print_answer(&call, answer, &book, &buffer);
        let written = writeln!(output, "{answered}").and_then(|()| output.flush());
        written
            .map_err(|error| Problem::input(format!("the output cannot be written: {error}")))?;
    }
    Ok(())
}
