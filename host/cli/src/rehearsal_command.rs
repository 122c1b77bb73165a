//! `rehearsal`: the program of document 01, frames from standard input, a line for each event.

use crate::arguments::Arguments;
use crate::chosen::REPLICA;
use crate::files;
use crate::problem::Problem;
use types::{Book, Calls, Delivered, Move, Refusal, FRAME};

/// The roll; its replica is 2 of 4.
const ROLL: [u8; 3] = [0, 1, 2];

/// Delivers the frames of standard input one by one, a short last one too, and moves until idle after each.
pub fn run(words: &[String], output: &mut Vec<u8>) -> Result<(), Problem> {
    let arguments = Arguments::sort(words, &[], &[])?;
    let [] = arguments.plain("nothing: the frames come from standard input")?;
    let refused = |refusal: Refusal| {
        Problem::input(format!("the rehearsal was refused with {}", refusal.number()))
    };
    let mut book = Book::open(REPLICA, 4, 2, &[1; 4], &ROLL).map_err(refused)?;
    for frame in files::read("-")?.chunks(FRAME) {
        print(output, delivery(&mut book, frame));
        loop {
            let (made, _) = book.make_move().map_err(refused)?;
            if made == Move::Idle {
                break;
            }
            print(output, made.to_string());
        }
    }
    Ok(())
}

/// Adds a line.
fn print(output: &mut Vec<u8>, line: String) {
    output.extend(line.into_bytes());
    output.push(b'\n');
}

/// Delivers a frame and says what became of it.
fn delivery(book: &mut Book<impl Calls>, frame: &[u8]) -> String {
    let word = match book.deliver(frame) {
        Ok(Delivered::Fresh) => "take",
        Ok(Delivered::Known) => "same",
        Err(refusal) => return format!("deny {}", refusal.number()),
    };
    match frame {
        [kind, signer, height, ..] => format!("{word} {kind} {height} {signer}"),
        _ => word.to_string(),
    }
}
