//! The list of moves: each move and each kind of pass on the smallest books that show it.

use super::parts::*;
use crate::{Call, Recorder};
use types::{Calls, Frame, Height};

/// The one book of the list, opened anew in each part.
const BOOK: &str = "book";

/// Records the list.
pub fn run<C: Calls>(to: &mut Recorder<C>) {
    to.remark("Every move and every kind of pass; letters are those of document 01's examples.");
    to.give(REPLY, vec![0xaa; 450]);
    timer(to);
    dummy_pass(to);
    late_dummy_pass(to);
    alone(to);
    alone_after_the_timer(to);
    finalized_nothing(to);
    gap(to);
    two_apply(to);
    two_pages(to);
    two_pages_of_a_passable_height(to);
}

/// The dummy votes of replicas 0, 1 and 2.
fn three_dummies(height: Height) -> [Frame; 3] {
    [0, 1, 2].map(|signer| Frame::DummyVote { signer, height })
}

fn timer<C: Calls>(to: &mut Recorder<C>) {
    to.part("f, g: idle in a new book; after the signal a blank vote, then idle");
    to.open(BOOK, 4, 2, &[0]);
    moves(to, BOOK);
    signal(to, BOOK, 1);
    moves(to, BOOK);
}

fn dummy_pass<C: Calls>(to: &mut Recorder<C>) {
    to.part("h: a pass on blank votes without a signal finalises");
    to.open(BOOK, 4, 2, &[0]);
    deliver(to, BOOK, &three_dummies(1));
    moves(to, BOOK);
}

fn late_dummy_pass<C: Calls>(to: &mut Recorder<C>) {
    to.part("i: after the signal the second frame is zero");
    to.open(BOOK, 4, 2, &[0]);
    signal(to, BOOK, 1);
    moves(to, BOOK);
    deliver(to, BOOK, &three_dummies(1));
    moves(to, BOOK);
    signal(to, BOOK, 1);
    signal(to, BOOK, 2);
}

fn alone<C: Calls>(to: &mut Recorder<C>) {
    to.part("j and on: a single station proposes, votes, passes on its page, and settles it");
    to.open(BOOK, 1, 0, &[0, 0]);
    submit(to, BOOK, entry("swap A1 B2"));
    submit(to, BOOK, entry("undo A1 B2"));
    moves_with_own_frames(to, BOOK);
    to.make(Call::Size, BOOK, "");
    for length in [0, 31, 32, 40] {
        to.give("register", vec![0xbb; length]);
        to.make(Call::Read, BOOK, "register");
    }
    for kind in 5..=7 {
        to.make(Call::Fetch { kind, height: 1 }, BOOK, REPLY);
    }
}

fn alone_after_the_timer<C: Calls>(to: &mut Recorder<C>) {
    to.part("The same after a signal, the blank vote lost: a pass on the page without a finalise");
    to.open(BOOK, 1, 0, &[0]);
    signal(to, BOOK, 1);
    to.make_move(BOOK, REPLY);
    moves_with_own_frames(to, BOOK);
}

fn finalized_nothing<C: Calls>(to: &mut Recorder<C>) {
    to.part("k: finalises without a page settle nothing");
    to.open(BOOK, 4, 2, &[0]);
    deliver(to, BOOK, &[Frame::FinalizeCertificate { mask: 7, height: 1 }]);
    moves(to, BOOK);
}

fn gap<C: Calls>(to: &mut Recorder<C>) {
    to.part(
        "l: a page at 3 on page 1 does not stand until 2 is blank; then two passes, and 3 settles",
    );
    to.open(BOOK, 4, 3, &[0, 1, 3]);
    let one = first(1, &[entry("swap A1 B2"), entry("lot 7 to C3")]);
    let three = child(3, &one, &[entry("undo A1 B2")]);
    deliver(to, BOOK, &[Frame::BlockCertificate { mask: 7, block: one }]);
    deliver(to, BOOK, &[Frame::BlockCertificate { mask: 14, block: three }]);
    deliver(to, BOOK, &[Frame::FinalizeCertificate { mask: 7, height: 3 }]);
    moves(to, BOOK);
    deliver(to, BOOK, &[Frame::DummyCertificate { mask: 14, height: 2 }]);
    moves(to, BOOK);
    to.give("register", vec![0xbb; 64]);
    to.make(Call::Read, BOOK, "register");
}

fn two_apply<C: Calls>(to: &mut Recorder<C>) {
    to.part("The blank vote goes before settling, and of two settled heights the larger is taken at once");
    to.open(BOOK, 4, 2, &[0, 1]);
    let one = first(1, &[entry("swap A1 B2")]);
    let two = child(2, &one, &[]);
    for block in [one, two] {
        let height = block.height;
        deliver(to, BOOK, &[Frame::BlockCertificate { mask: 7, block }]);
        deliver(to, BOOK, &[Frame::FinalizeCertificate { mask: 7, height }]);
    }
    signal(to, BOOK, 1);
    moves(to, BOOK);
    to.part("The proposal goes before the vote for one that is held already");
    to.open(BOOK, 4, 0, &[0]);
    deliver(to, BOOK, &[Frame::Proposal { signer: 0, block: first(1, &[]) }]);
    moves(to, BOOK);
}

/// The two pages of height 1 that station 0 proposes.
fn both_pages() -> [Frame; 2] {
    let pages = [first(1, &[entry("swap A1 B2")]), first(1, &[entry("swap A1 B3")])];
    pages.map(|block| Frame::Proposal { signer: 0, block })
}

fn two_pages<C: Calls>(to: &mut Recorder<C>) {
    to.part("The leader of c sends two pages: with no signal a blank vote, then the vote for the first; no finalise");
    to.open(BOOK, 4, 2, &[0]);
    let pages = both_pages();
    deliver(to, BOOK, &pages);
    moves(to, BOOK);
    deliver(to, BOOK, &three_dummies(1));
    moves(to, BOOK);
    to.part("The second page comes after the vote for the first, which is notarised all the same: no finalise");
    to.open(BOOK, 4, 2, &[0]);
    deliver(to, BOOK, &pages[..1]);
    moves(to, BOOK);
    deliver(to, BOOK, &pages[1..]);
    moves(to, BOOK);
    let block = first(1, &[entry("swap A1 B2")]);
    deliver(to, BOOK, &[0, 1, 3].map(|signer| vote(signer, &block)));
    moves(to, BOOK);
}

fn two_pages_of_a_passable_height<C: Calls>(to: &mut Recorder<C>) {
    to.part("c is linked, settled, blank, or linked and blank when the second page comes: no pass finalises then");
    let pages = both_pages();
    let block = first(1, &[entry("swap A1 B2")]);
    let page = Frame::BlockCertificate { mask: 7, block };
    let blank = Frame::DummyCertificate { mask: 7, height: 1 };
    let settled = Frame::FinalizeCertificate { mask: 7, height: 1 };
    let ways =
        [vec![page.clone()], vec![page.clone(), settled], vec![blank.clone()], vec![page, blank]];
    for certificates in &ways {
        to.open(BOOK, 4, 2, &[0]);
        deliver(to, BOOK, &pages[..1]);
        deliver(to, BOOK, certificates);
        deliver(to, BOOK, &pages[1..]);
        moves(to, BOOK);
    }
}
