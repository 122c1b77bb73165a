//! Small parts of the lists: entries out of words, blocks on blocks, moves until idle.

use crate::{Answer, Call, Recorder};
use reference::sha256;
use types::{Block, Calls, Entries, Frame, Height, Move, ENTRY};

/// The name of the reply buffer in every list.
pub const REPLY: &str = "reply";

/// The name of a book whose proposals are for height 2, above the current one.
pub const AHEAD: &str = "ahead";

/// A byte of the head that no edition uses.
pub const UNUSED: usize = 63;

/// The most moves before idle that a list needs.
const MOVES: usize = 50;

/// The first bytes that the entries of the lists have are those below this: request 2.13 takes no other.
const TEAMS: u8 = 4;

/// An entry that begins with the byte 0, then has a few words, filled up with blanks.
pub fn entry(words: &str) -> [u8; ENTRY] {
    entry_of(0, words)
}

/// One of many entries; those of numbers that follow one another begin with 0, 1, 2, 3, 0 and so on.
pub fn numbered(number: u8) -> [u8; ENTRY] {
    entry_of(number.saturating_sub(1) % TEAMS, &format!("entry {number}"))
}

/// An entry of its first byte and a few words.
fn entry_of(team: u8, words: &str) -> [u8; ENTRY] {
    let mut entry = [b' '; ENTRY];
    entry.iter_mut().zip([team].into_iter().chain(words.bytes())).for_each(|(to, from)| *to = from);
    entry
}

/// The digest of a block.
pub fn digest(block: &Block) -> [u8; 32] {
    sha256::digest(&block.bytes())
}

/// A block with no parent.
pub fn first(height: Height, entries: &[[u8; ENTRY]]) -> Block {
    Block { height, entries: Entries::first_of(entries), ..Block::default() }
}

/// A block on another one.
pub fn child(height: Height, below: &Block, entries: &[[u8; ENTRY]]) -> Block {
    Block {
        height,
        parent: below.height,
        digest: digest(below),
        entries: Entries::first_of(entries),
    }
}

/// The mask of the first so many replicas.
pub fn first_replicas(count: u32) -> u16 {
    (0..count).fold(0, |mask, replica| mask | 1_u16.checked_shl(replica).unwrap_or(0))
}

/// A vote for a block.
pub fn vote(signer: u8, block: &Block) -> Frame {
    Frame::BlockVote { signer, height: block.height, digest: digest(block) }
}

/// Submits an entry.
pub fn submit<C: Calls>(to: &mut Recorder<C>, book: &str, entry: [u8; ENTRY]) -> Option<Answer> {
    to.make(Call::Submit { entry: entry.to_vec() }, book, "")
}

/// The timer of a height fires.
pub fn signal<C: Calls>(to: &mut Recorder<C>, book: &str, height: u64) -> Option<Answer> {
    to.make(Call::Signal { height }, book, "")
}

/// Delivers frames one after another.
pub fn deliver<C: Calls>(to: &mut Recorder<C>, book: &str, frames: &[Frame]) {
    frames.iter().for_each(|frame| _ = to.deliver(book, &frame.bytes()));
}

/// Moves until idle; returns the frames written.
pub fn moves<C: Calls>(to: &mut Recorder<C>, book: &str) -> Vec<Vec<u8>> {
    let mut written = Vec::new();
    for _ in 0..MOVES {
        let (made, frames) = to.make_move(book, REPLY);
        written.extend(frames);
        if made.is_none_or(|made| made == Move::Idle) {
            break;
        }
    }
    written
}

/// Moves until idle, and what is written is delivered to the same book before the next move.
pub fn moves_with_own_frames<C: Calls>(to: &mut Recorder<C>, book: &str) {
    for _ in 0..MOVES {
        let (made, frames) = to.make_move(book, REPLY);
        frames.iter().for_each(|frame| _ = to.deliver(book, frame));
        if made.is_none_or(|made| made == Move::Idle) {
            break;
        }
    }
}
