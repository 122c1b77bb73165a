//! The rehearsal: replica 2 of 4, three heights, frames from a stream, one line for each event.

use crate::height::{self, Height};
use crate::{book_length, Delivered, Move, Rules, FRAME};
use std::io::{self, Read, Write};

const RULES: Rules = Rules::SHA256;

/// The settings that every rehearsal has.
const N: u64 = 4;
const OWN: u64 = 2;
const HEIGHTS: Height = 3;
/// Four weights of 1, two bytes each.
const WEIGHTS: [u8; 8] = [1, 0, 1, 0, 1, 0, 1, 0];
const LEADERS: [u8; 3] = [0, 1, 2];

/// Delivers the frames of the input one by one, a short last one too, and moves until idle after
/// each. What the replica writes is not delivered to it.
pub fn rehearse(mut input: impl Read, mut output: impl Write) -> io::Result<()> {
    let mut book = vec![0; book_length(HEIGHTS)];
    RULES.open(&mut book, N, OWN, HEIGHTS.into(), &WEIGHTS, &LEADERS).map_err(refused)?;
    let mut frame = Vec::with_capacity(FRAME);
    loop {
        frame.clear();
        input.by_ref().take(FRAME as u64).read_to_end(&mut frame)?;
        if frame.is_empty() {
            return output.flush();
        }
        writeln!(output, "{}", delivery_line(&mut book, &frame))?;
        let mut reply = [0; 2 * FRAME];
        while let Some(line) = move_line(RULES.make_move(&mut book, &mut reply).map_err(refused)?) {
            writeln!(output, "{line}")?;
        }
    }
}

/// Delivers a frame and says what became of it.
fn delivery_line(book: &mut [u8], frame: &[u8]) -> String {
    let word = match RULES.deliver(book, frame) {
        Ok(Delivered::Fresh) => "take",
        Ok(Delivered::Known) => "same",
        Err(number) => return format!("deny {number}"),
    };
    match frame {
        [kind, signer, low, high, ..] => {
            format!("{word} {kind} {} {signer}", height::from_bytes([*low, *high]))
        }
        _ => word.to_string(),
    }
}

/// The line for a move; none when idle.
fn move_line(made: Move) -> Option<String> {
    (made != Move::Idle).then(|| made.to_string())
}

/// A refusal that a rehearsal never meets, as an error of the stream.
fn refused(number: u8) -> io::Error {
    io::Error::other(format!("refused with {number}"))
}
