//! The list of the rehearsal in document 01, with a refused and a short frame after it.

use super::parts::{deliver, moves, REPLY};
use crate::Recorder;
use types::{Calls, Frame};

/// The one book.
const BOOK: &str = "book";

/// Records the list.
pub fn run<C: Calls>(to: &mut Recorder<C>) {
    to.remark("The rehearsal: replica 2 of 4, three heights, own frames not fed back.");
    to.open(BOOK, 4, 2, &[0, 1, 2]);
    to.give(REPLY, vec![0; 448]);
    let votes = [0, 1, 2].map(|signer| Frame::DummyVote { signer, height: 1 });
    let certificate = Frame::DummyCertificate { mask: 7, height: 2 };
    for frame in votes.into_iter().chain([certificate.clone(), certificate]) {
        deliver(to, BOOK, &[frame]);
        moves(to, BOOK);
    }
    to.part("A proposer who does not lead, and a frame that is too short");
    deliver(to, BOOK, &[Frame::Proposal { signer: 1, block: super::parts::first(1, &[]) }]);
    moves(to, BOOK);
    to.deliver(BOOK, &[3, 0, 3]);
    moves(to, BOOK);
}
