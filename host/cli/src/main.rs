//! The command `mavunilai`: makes and shows frames and books, makes calls, replays and records lists, tries
//! other replicas, runs the rehearsal.

#![warn(clippy::indexing_slicing, clippy::arithmetic_side_effects)]
#![warn(clippy::unwrap_used, clippy::expect_used, clippy::panic)]

mod answer_command;
mod arguments;
mod awaited;
mod beside;
mod bounded_line;
mod call_command;
mod check_command;
mod chosen;
mod diff_command;
mod evidence;
mod evidence_file;
mod files;
mod follow;
mod frame_command;
mod frame_input;
mod frame_line;
mod help;
mod help_books;
mod json;
mod json_answer;
mod manual;
mod observer_command;
mod open_command;
mod output;
mod page_options;
mod pages;
mod problem;
mod read_command;
mod record_command;
mod register;
mod rehearsal_command;
mod replay_command;
mod show_book;
mod show_books;
mod show_command;
mod show_frame;
mod show_json;
mod show_observer;
mod standing;
mod station;
mod status_command;
mod table;
mod theirs;
mod told;
mod try_command;
mod unmet;
mod unsound;
mod unsound_heights;
mod unsound_observer;
mod unsound_setting;
mod waiting;
mod weighed;
mod weights_option;
mod why;
mod words;

use problem::Problem;
use std::io::Write;
use std::process::ExitCode;

fn main() -> ExitCode {
    let mut output = Vec::new();
    let outcome = words().and_then(|words| run(&words, &mut output));
    let printed = output::write(&output);
    match (outcome, printed) {
        (Err(problem), _) => {
            complain(&problem.sentence);
            ExitCode::from(problem.status)
        }
        (Ok(()), Err(error)) if error.kind() != std::io::ErrorKind::BrokenPipe => {
            complain(&format!("the output cannot be written: {error}"));
            ExitCode::from(2)
        }
        _ => ExitCode::SUCCESS,
    }
}

/// Says a sentence on the standard error; where that fails the status says as much as it can.
fn complain(sentence: &str) {
    _ = writeln!(std::io::stderr(), "mavunilai: {sentence}");
}

/// The words behind the program's name, which must be text.
fn words() -> Result<Vec<String>, Problem> {
    let text = |word: std::ffi::OsString| word.into_string();
    let words: Result<_, _> = std::env::args_os().skip(1).map(text).collect();
    words.map_err(|word| Problem::input(format!("{word:?} is no text")))
}

/// Carries out the command in the words.
fn run(words: &[String], output: &mut Vec<u8>) -> Result<(), Problem> {
    let (name, rest) = match words.split_first() {
        None => return Err(Problem::input("a command is missing; try `mavunilai help`")),
        Some((name, rest)) => (name.as_str(), rest),
    };
    let asked = |word: &String| word == "--help" || word == "-h";
    if rest.iter().take_while(|word| *word != "--").any(asked) {
        return help::print(name, output);
    }
    match name {
        "frame" => frame_command::run(rest, output),
        "show" => show_command::run(rest, output),
        "check" => check_command::run(rest, output),
        "status" => status_command::run(rest, output),
        "read" => read_command::run(rest, output),
        "open" => open_command::run(rest, output),
        "call" => call_command::run(rest, output),
        "observer" => observer_command::run(rest, output),
        "replay" => replay_command::run(rest, output),
        "record" => record_command::run(rest, output),
        "rehearsal" => rehearsal_command::run(rest, output),
        "try" => try_command::run(rest, output),
        "answer" => answer_command::run(rest),
        "diff" => diff_command::run(rest, output),
        "--version" | "version" => version(rest, output),
        "help" | "--help" | "-h" => help::run(rest, output),
        _ => Err(Problem::input(format!("'{name}' is no command; try `mavunilai help`"))),
    }
}

/// The last request that has landed: the packages' version behind its first number.
fn request() -> &'static str {
    env!("CARGO_PKG_VERSION").split_once('.').map_or("", |(_, request)| request)
}

/// Prints the version, the last request that has landed, the number of the C interface, and which replica this is.
fn version(rest: &[String], output: &mut Vec<u8>) -> Result<(), Problem> {
    if !rest.is_empty() {
        return Err(Problem::input("expected here: --version alone"));
    }
    let (version, name) = (env!("CARGO_PKG_VERSION"), chosen::NAME);
    let (request, interface) = (request(), types::packing::INTERFACE);
    let line =
        format!("mavunilai {version}, request {request}, interface {interface}, with {name}\n");
    output.extend(line.into_bytes());
    Ok(())
}
