//! What a call answered, whichever call it was, and its words in a list.

use std::fmt;
use types::{Certificate, Counts, Delivered, Height, Move};

/// The answer of any call.
#[derive(Clone, Copy, Debug, PartialEq, Eq)]
pub enum Answer {
    /// Open, signal, submit or fetch was not refused.
    Done,
    /// What deliver says of a frame, a replica's or an observer's.
    Delivered(Delivered),
    /// How many frames of a packet were fresh, known and refused.
    Counted(Counts),
    /// What move did.
    Moved(Move),
    /// The size of the log.
    Size(u64),
    /// The length of the part that was read.
    Part(u64),
    /// The number of a refusal.
    Deny(u8),
}

impl fmt::Display for Answer {
    fn fmt(&self, to: &mut fmt::Formatter<'_>) -> fmt::Result {
        match self {
            Answer::Done => write!(to, "done"),
            Answer::Delivered(Delivered::Fresh) => write!(to, "fresh"),
            Answer::Delivered(Delivered::Known) => write!(to, "known"),
            Answer::Counted(counts) => write!(to, "{counts}"),
            Answer::Moved(made) => write!(to, "{made}"),
            Answer::Size(size) => write!(to, "size {size}"),
            Answer::Part(length) => write!(to, "part {length}"),
            Answer::Deny(number) => write!(to, "deny {number}"),
        }
    }
}

impl Answer {
    /// The answer in these words, if they are one.
    pub fn parse(words: &[&str]) -> Option<Answer> {
        let number = |word: &str| word.parse::<Height>().ok();
        Some(match *words {
            ["done"] => Answer::Done,
            ["fresh"] => Answer::Delivered(Delivered::Fresh),
            ["known"] => Answer::Delivered(Delivered::Known),
            ["counts", fresh, known, refused] => Answer::Counted(Counts {
                fresh: fresh.parse().ok()?,
                known: known.parse().ok()?,
                refused: refused.parse().ok()?,
            }),
            ["idle"] => Answer::Moved(Move::Idle),
            ["dummy", height] => Answer::Moved(Move::Dummy { height: number(height)? }),
            ["final", height] => Answer::Moved(Move::Final { height: number(height)? }),
            ["offer", height] => Answer::Moved(Move::Offer { height: number(height)? }),
            ["vote", height] => Answer::Moved(Move::Vote { height: number(height)? }),
            ["pass", height, kind, second] => Answer::Moved(pass(number(height)?, kind, second)?),
            ["size", size] => Answer::Size(size.parse().ok()?),
            ["part", length] => Answer::Part(length.parse().ok()?),
            ["deny", refusal] => Answer::Deny(refusal.parse().ok()?),
            _ => return None,
        })
    }
}

/// The pass with these kinds of first and second frame.
fn pass(height: Height, kind: &str, second: &str) -> Option<Move> {
    let certificate = match kind {
        "5" => Certificate::Block,
        "6" => Certificate::Dummy,
        _ => return None,
    };
    let finalized = match second {
        "4" => true,
        "0" => false,
        _ => return None,
    };
    Some(Move::Pass { height, certificate, finalized })
}
