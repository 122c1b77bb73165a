//! `observer`: calls on an observer's book that is kept in a file.

use crate::arguments::Arguments;
use crate::chosen::REPLICA;
use crate::evidence::Keeper;
use crate::follow::Follower;
use crate::json_answer::{self, denied};
use crate::output::print;
use crate::problem::Problem;
use crate::weights_option::Weighing;
use crate::{frame_input, open_command, station, waiting, words};
use exchange::{Answer, Call, ObserverCall};
use store::{Disk, FileObserver};
use types::{Calls, ObserverBook, Refusal, ENTRY};

/// Makes a call, prints what it answers, and keeps the book if it changed.
pub fn run(all: &[String], output: &mut Vec<u8>) -> Result<(), Problem> {
    if all.get(1).is_some_and(|name| name == "open") {
        return open(all, output);
    }
    let arguments = Arguments::sort(all, &["evidence", "since", "wait"], &["json"])?;
    let (disk, json) = (waiting::disk(&arguments)?, arguments.has("json"));
    match arguments.words() {
        [file, name] if name == "follow" => follow(file, &arguments, disk),
        [_, name, ..] if arguments.value("since")?.is_some() => {
            Err(Problem::input(format!("{name} has no --since")))
        }
        [file, name, from] if name == "deliver" => deliver(file, from, &arguments, disk),
        [_, name, ..] if arguments.value("evidence")?.is_some() => {
            Err(Problem::input(format!("{name} has no --evidence")))
        }
        [file, name] if name == "move" => {
            let book = FileObserver::open_in(disk, REPLICA, file.as_ref());
            let made = book.and_then(|mut book| book.make_move());
            print(&line(json, &Answer::Moved(made.map_err(|error| denied(json, error))?)))
        }
        [file, name] if name == "size" || name == "read" => {
            waiting::none(&arguments, name)?;
            let call = if name == "size" { ObserverCall::Size } else { ObserverCall::Read };
            ask(call, file, json, output)
        }
        [_, name, ..] => {
            let sentence = format!("'{name}' with so many words is no call of an observer");
            Err(Problem::input(format!("{sentence}; try `mavunilai help observer`")))
        }
        _ => Err(Problem::input("expected here: the file of an observer's book, then a call")),
    }
}

/// Writes a new book to a file, to one that is there only if it is forced to, or to standard output.
fn open(all: &[String], output: &mut Vec<u8>) -> Result<(), Problem> {
    let arguments = Arguments::sort(all, &["n", "heights", "weights", "wait"], &["force"])?;
    let [file, _] =
        arguments.plain("the file of the new book, or - for standard output, then `open`")?;
    let (n, heights) = (arguments.byte("n")?, arguments.height("heights")?);
    let weighing = Weighing::read(&arguments, n)?;
    let book = ObserverBook::open(REPLICA, n.into(), heights, &weighing.numbers())
        .map_err(|refusal| weighing.refused(refusal))?;
    let disk = waiting::disk(&arguments)?;
    let kept = match (file.as_str(), arguments.has("force")) {
        ("-", true) => return Err(Problem::input("standard output needs no --force")),
        ("-", false) => {
            waiting::none(&arguments, "open -")?;
            output.extend_from_slice(book.bytes());
            return Ok(());
        }
        (_, true) => FileObserver::overwrite_in(disk, book, file.as_ref()),
        (_, false) => FileObserver::create_in(disk, book, file.as_ref()),
    };
    open_command::ended(kept.map(|_| ()))
}

/// Delivers whole frames, all in one commit; a refused one keeps no other back. No bytes are no frames: that is what a
/// station's book prints which holds no certificate yet.
fn deliver(file: &str, from: &str, arguments: &Arguments, disk: Disk) -> Result<(), Problem> {
    let (input, json) = (frame_input::read(from)?, arguments.has("json"));
    let frames = input.whole();
    let keeper = Keeper::ready(arguments.value("evidence")?)?;
    let book = FileObserver::open_in(disk, REPLICA, file.as_ref());
    let mut book = book.map_err(|error| denied(json, error))?;
    let told = book.book().answers(frames.iter().map(Vec::as_slice));
    keeper.keep(1, &told)?;
    book.deliver_all(&frames)?;
    drop(book);
    let answers: Vec<Answer> = told.iter().map(station::answer).collect();
    print(&answers.iter().map(|answer| line(json, answer)).collect::<String>())?;
    input.and_rest(Problem::of_answers(&answers))
}

/// Goes on taking certificates from the standard input, and prints entries as they settle.
fn follow(file: &str, arguments: &Arguments, disk: Disk) -> Result<(), Problem> {
    let keeper = Keeper::ready(arguments.value("evidence")?)?;
    let since = arguments.value("since")?.map(|_| arguments.height("since")).transpose()?;
    let follower = Follower::new(file, disk, keeper, arguments.has("json"));
    follower.follow(since, std::io::stdin().lock())
}

/// Makes a call that changes nothing; no lock is needed, since a book is replaced as a whole.
fn ask(call: ObserverCall, file: &str, json: bool, output: &mut Vec<u8>) -> Result<(), Problem> {
    let mut book = store::read(file)?;
    let refused = |number| denied(json, Refusal::of(number).into());
    let size = Calls::observer_size(&REPLICA, &book).map_err(refused)?;
    let mut register = vec![0; usize::try_from(size).unwrap_or(0)];
    let answer = Call::Observer(call).make(&REPLICA, &mut book, &mut register);
    let text = match answer {
        Answer::Part(_) if json => json_answer::read(&answer, &register),
        Answer::Part(_) => {
            let entries = register.as_chunks::<ENTRY>().0.iter();
            format!("{answer}\n{}", entries.map(|e| words::entry(e) + "\n").collect::<String>())
        }
        _ => line(json, &answer),
    };
    output.extend(text.into_bytes());
    Ok(())
}

/// The line of an answer, in words or as an object.
fn line(json: bool, answer: &Answer) -> String {
    match json {
        true => json_answer::line(&answer.to_string(), &[]),
        false => format!("{answer}\n"),
    }
}
