//! `call`: makes calls on a book that is kept in a file.

use crate::arguments::Arguments;
use crate::chosen::REPLICA;
use crate::evidence::Keeper;
use crate::frame_input::{self, FrameInput};
use crate::json_answer::{self, denied};
use crate::page_options::entry;
use crate::problem::Problem;
use crate::{station, waiting, words};
use exchange::{Answer, Call};
use types::{Book, Calls, Refusal, ENTRY, FRAME};

/// What is asked for; all input is read before the book is.
enum Request {
    /// Frames to deliver one by one, and what is behind them.
    Deliver(FrameInput),
    /// Frames to deliver as one packet.
    Packet(Vec<u8>),
    /// Another call.
    One(Call),
    /// An entry to add.
    Submit([u8; ENTRY]),
    /// Moves until idle, own frames delivered.
    Run,
    /// All that fetch gives.
    Certificates,
}

/// Makes the calls, prints what they answer and write, and keeps the book if it changed.
pub fn run(words: &[String], output: &mut Vec<u8>) -> Result<(), Problem> {
    let arguments = Arguments::sort(words, &["out", "evidence", "wait"], &["each", "json"])?;
    let [file, name, rest @ ..] = arguments.words() else {
        return Err(Problem::input("expected here: the file of a book, then a call"));
    };
    let (out, disk) = (arguments.value("out")?, waiting::disk(&arguments)?);
    let [each, json] = ["each", "json"].map(|name| arguments.has(name));
    only_for(&arguments, name)?;
    let request = request(name, rest)?;
    let keeper = Keeper::ready(arguments.value("evidence")?)?;
    let open = || station::open(file, out, disk, json);
    match (request, out) {
        (Request::Deliver(input), _) => input.and_rest(open()?.deliver(&input.whole(), &keeper)),
        (Request::Packet(packet), _) => open()?.packet(&packet, each, &keeper),
        (Request::Run, _) => open()?.run(),
        (Request::One(Call::Move), _) => open()?.make_move(),
        (Request::One(Call::Signal { height }), _) => open()?.signal(height),
        (Request::Submit(entry), _) => open()?.submit(&entry),
        (Request::One(_) | Request::Certificates, Some(_)) => {
            Err(Problem::input(format!("{name} has no --out")))
        }
        (Request::Certificates, None) => {
            waiting::none(&arguments, name)?;
            certificates(file, output)
        }
        (Request::One(call), None) => {
            waiting::none(&arguments, name)?;
            ask(&call, file, json, output)
        }
    }
}

/// Refuses what would say nothing beside this call.
fn only_for(arguments: &Arguments, name: &str) -> Result<(), Problem> {
    let evidence = arguments.value("evidence")?.filter(|_| !["deliver", "packet"].contains(&name));
    let each = arguments.has("each") && name != "packet";
    let json = arguments.has("json") && name == "certificates";
    let option = evidence.map(|_| "evidence").or(each.then_some("each"));
    let option = option.or(json.then_some("json"));
    option.map_or(Ok(()), |option| Err(Problem::input(format!("{name} has no --{option}"))))
}

/// What the words ask for.
fn request(name: &str, rest: &[String]) -> Result<Request, Problem> {
    Ok(Request::One(match (name, rest) {
        ("run", []) => return Ok(Request::Run),
        ("certificates", []) => return Ok(Request::Certificates),
        ("submit", [text]) => return Ok(Request::Submit(entry(text)?)),
        ("deliver", [file]) => return Ok(Request::Deliver(frame_input::read(file)?)),
        ("packet", [file]) => return Ok(Request::Packet(frame_input::read(file)?.all()?)),
        ("move", []) => Call::Move,
        ("signal", [height]) => Call::Signal { height: number(height)? },
        ("size", []) => Call::Size,
        ("read", []) => Call::Read,
        ("fetch", [kind, height]) => Call::Fetch { kind: number(kind)?, height: number(height)? },
        _ => {
            let sentence =
                format!("'{name}' with so many words is no call; try `mavunilai help call`");
            return Err(Problem::input(sentence));
        }
    }))
}

/// A number as an argument.
fn number(word: &str) -> Result<u64, Problem> {
    word.parse().map_err(|_| Problem::input(format!("'{word}' is no number")))
}

/// Makes a call that changes nothing; no lock is needed, since a book is replaced as a whole.
fn ask(call: &Call, file: &str, json: bool, output: &mut Vec<u8>) -> Result<(), Problem> {
    let mut book = store::read(file)?;
    let refused = |number| denied(json, Refusal::of(number).into());
    let mut reply = vec![0; length(call, &book).map_err(refused)?];
    let answer = call.make(&REPLICA, &mut book, &mut reply);
    let frames = reply.as_chunks::<FRAME>().0;
    let lines = match answer {
        Answer::Deny(number) => return Err(refused(number)),
        Answer::Part(_) if json => json_answer::read(&answer, &reply),
        _ if json => json_answer::line(&answer.to_string(), frames),
        Answer::Part(_) => {
            let entries = reply.as_chunks::<ENTRY>().0.iter();
            format!("{answer}\n{}", entries.map(|e| words::entry(e) + "\n").collect::<String>())
        }
        _ => {
            let frames = frames.iter().map(|frame| words::hex(frame) + "\n");
            format!("{answer}\n{}", frames.collect::<String>())
        }
    };
    output.extend(lines.into_bytes());
    Ok(())
}

/// Prints all certificates that the book holds, one to a line, and nothing else.
fn certificates(file: &str, output: &mut Vec<u8>) -> Result<(), Problem> {
    let book = Book::from_bytes(REPLICA, store::read(file)?)
        .map_err(|refusal| Problem::refused(refusal.number()))?;
    let lines = book.certificates().into_iter().map(|frame| words::hex(&frame) + "\n");
    lines.for_each(|line| output.extend(line.into_bytes()));
    Ok(())
}

/// The length of the reply or buffer to lend; a register has none where size is refused.
fn length(call: &Call, book: &[u8]) -> Result<usize, u8> {
    Ok(match call {
        Call::Fetch { .. } => FRAME,
        Call::Read => usize::try_from(Calls::size(&REPLICA, book)?).unwrap_or(0),
        _ => 0,
    })
}
