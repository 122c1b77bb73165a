//! The list of corners: quorums of every n, chains with two ways down, tallies that complete late.

use super::parts::*;
use super::{edges, packets, two_pages};
use crate::{Call, Recorder};
use types::{field, put_head_height, Calls, Frame, Weights, MOST_REPLICAS};

/// The one book of the list, opened anew in each part.
const BOOK: &str = "book";

/// Records the list.
pub fn run<C: Calls>(to: &mut Recorder<C>) {
    to.remark("Corners of the rules, each on the smallest book that shows it.");
    to.give(REPLY, vec![0xaa; 448]);
    quorums(to);
    two_ways_down(to);
    wrong_back_digest(to);
    no_chain_below(to);
    parent_chain_filters(to);
    late_proposal(to);
    both_votes(to);
    vote_after_the_quorum(to);
    joined_certificates(to);
    unlinked_certificate(to);
    unsettled_entry(to);
    two_pages::run(to);
    packets::run(to);
    edges::run(to);
}

fn quorums<C: Calls>(to: &mut Recorder<C>) {
    to.part("For n from 1 to 16: one signer fewer than a quorum is refused, a quorum is taken");
    for n in 1..=MOST_REPLICAS {
        to.open(BOOK, n.into(), 0, &[0]);
        let quorum = Weights::equal(n).needed();
        for count in [quorum.saturating_sub(1), quorum] {
            let mask = first_replicas(count);
            deliver(to, BOOK, &[Frame::FinalizeCertificate { mask, height: 1 }]);
        }
    }
}

fn two_ways_down<C: Calls>(to: &mut Recorder<C>) {
    to.part("Height 1 is linked and blank: its page lets the station pass, and the next page stands on it");
    to.open(BOOK, 4, 2, &[0, 2]);
    let block = first(1, &[entry("swap A1 B2")]);
    deliver(to, BOOK, &[Frame::DummyCertificate { mask: 7, height: 1 }]);
    deliver(to, BOOK, &[Frame::BlockCertificate { mask: 7, block }]);
    moves(to, BOOK);
    to.remark("It is blank all the same: a page on height 0 stands over it, and gets the vote");
    deliver(to, BOOK, &[Frame::Proposal { signer: 2, block: first(2, &[]) }]);
    moves(to, BOOK);
}

fn wrong_back_digest<C: Calls>(to: &mut Recorder<C>) {
    to.part(
        "A certified page that names another digest for its back page does not stand, nor settle",
    );
    to.open(BOOK, 4, 2, &[0, 1, 0]);
    let one = first(1, &[]);
    let two = child(2, &first(1, &[entry("swap A1 B2")]), &[]);
    let three = child(3, &two, &[]);
    deliver(to, BOOK, &[Frame::BlockCertificate { mask: 7, block: one }]);
    deliver(to, BOOK, &[Frame::BlockCertificate { mask: 7, block: two.clone() }]);
    deliver(to, BOOK, &[Frame::FinalizeCertificate { mask: 7, height: 2 }]);
    moves(to, BOOK);
    to.remark("Held, it gets no vote; nor does the page on it settle");
    deliver(to, BOOK, &[Frame::Proposal { signer: 1, block: two }]);
    deliver(to, BOOK, &[Frame::BlockCertificate { mask: 7, block: three }]);
    deliver(to, BOOK, &[Frame::FinalizeCertificate { mask: 7, height: 3 }]);
    moves(to, BOOK);
}

fn no_chain_below<C: Calls>(to: &mut Recorder<C>) {
    to.part("A blank height over one that is neither linked nor blank is not passed, and gets no proposal");
    to.open(BOOK, 4, 2, &[0, 2]);
    let mut book = to.bytes(BOOK).to_vec();
    put_head_height(&mut book, field::CURRENT, 2);
    to.give(BOOK, book);
    deliver(to, BOOK, &[Frame::DummyCertificate { mask: 7, height: 2 }]);
    moves(to, BOOK);
    deliver(to, BOOK, &[Frame::DummyCertificate { mask: 7, height: 1 }]);
    moves(to, BOOK);
}

fn parent_chain_filters<C: Calls>(to: &mut Recorder<C>) {
    to.part("A proposal leaves out what its parent chain holds, settled or not, and carries eight at most");
    to.open(BOOK, 4, 2, &[0, 2]);
    for number in 1..=11 {
        submit(to, BOOK, numbered(number));
    }
    let block = first(1, &[numbered(2), numbered(5)]);
    deliver(to, BOOK, &[Frame::BlockCertificate { mask: 7, block }]);
    let written = moves(to, BOOK);
    to.remark("Eight entries are a page like any other");
    let offer = written.iter().filter(|frame| frame.starts_with(&[1]));
    offer.for_each(|frame| _ = to.deliver(BOOK, frame));
    moves(to, BOOK);
}

fn late_proposal<C: Calls>(to: &mut Recorder<C>) {
    to.part("Votes come before their proposal, which completes the page; a second vote is refused even then");
    to.open(BOOK, 4, 2, &[0]);
    let (one, two) = (first(1, &[entry("swap A1 B2")]), first(1, &[]));
    deliver(to, BOOK, &[vote(0, &one), vote(1, &one), vote(2, &two), vote(3, &one)]);
    to.make(Call::Fetch { kind: 5, height: 1 }, BOOK, REPLY);
    deliver(to, BOOK, &[Frame::Proposal { signer: 0, block: one.clone() }]);
    to.make(Call::Fetch { kind: 5, height: 1 }, BOOK, REPLY);
    deliver(to, BOOK, &[vote(1, &two), vote(2, &one), vote(3, &one)]);
    moves(to, BOOK);
}

fn both_votes<C: Calls>(to: &mut Recorder<C>) {
    to.part("A page vote after the same station's blank vote is fresh, and the other way round");
    to.open(BOOK, 4, 2, &[0]);
    let block = first(1, &[]);
    let blank = |signer| Frame::DummyVote { signer, height: 1 };
    deliver(to, BOOK, &[blank(1), vote(1, &block), vote(3, &block), blank(3)]);
    to.remark("So is a finalise; the same again is known");
    let finalize = Frame::Finalize { signer: 1, height: 1 };
    deliver(to, BOOK, &[finalize.clone(), finalize, blank(1)]);
}

fn vote_after_the_quorum<C: Calls>(to: &mut Recorder<C>) {
    to.part("A vote after the quorum is kept and fresh, and the certificate stays as it was");
    to.open(BOOK, 4, 2, &[0]);
    let block = first(1, &[]);
    deliver(to, BOOK, &[Frame::Proposal { signer: 0, block: block.clone() }]);
    deliver(to, BOOK, &[0, 1, 3, 2].map(|signer| vote(signer, &block)));
    to.make(Call::Fetch { kind: 5, height: 1 }, BOOK, REPLY);
}

fn joined_certificates<C: Calls>(to: &mut Recorder<C>) {
    to.part("Certificates of one height join their signers, and the joined mask is fetched");
    to.open(BOOK, 4, 2, &[0]);
    for mask in [7, 14, 11] {
        deliver(to, BOOK, &[Frame::DummyCertificate { mask, height: 1 }]);
    }
    for mask in [11, 13, 14] {
        deliver(to, BOOK, &[Frame::FinalizeCertificate { mask, height: 1 }]);
    }
    for kind in [6, 7] {
        to.make(Call::Fetch { kind, height: 1 }, BOOK, REPLY);
    }
}

fn unlinked_certificate<C: Calls>(to: &mut Recorder<C>) {
    to.part("The certificate of a page that does not stand is fetched; two of four signers are no certificate");
    to.open(BOOK, 4, 2, &[0, 1]);
    let two = child(2, &first(1, &[]), &[]);
    deliver(to, BOOK, &[Frame::BlockCertificate { mask: 7, block: two }]);
    to.make(Call::Fetch { kind: 5, height: 2 }, BOOK, REPLY);
    for signer in [0, 3] {
        deliver(to, BOOK, &[Frame::DummyVote { signer, height: 1 }]);
        deliver(to, BOOK, &[Frame::Finalize { signer, height: 1 }]);
    }
    for kind in [6, 7] {
        to.make(Call::Fetch { kind, height: 1 }, BOOK, REPLY);
    }
}

fn unsettled_entry<C: Calls>(to: &mut Recorder<C>) {
    to.part("An entry of a page that is not settled is taken; later it is 13, and the refused call drops nothing");
    to.open(BOOK, 4, 2, &[0]);
    let block = first(1, &[entry("swap A1 B2"), entry("swap A1 B2")]);
    deliver(to, BOOK, &[Frame::BlockCertificate { mask: 7, block }]);
    for one in [numbered(1), entry("swap A1 B2"), numbered(2), numbered(3)] {
        submit(to, BOOK, one);
    }
    deliver(to, BOOK, &[Frame::FinalizeCertificate { mask: 7, height: 1 }]);
    moves(to, BOOK);
    submit(to, BOOK, entry("swap A1 B2"));
    to.remark("A taken one drops it from between the others, which stay in order");
    submit(to, BOOK, numbered(4));
    to.remark("An entry that its page carries twice is counted once");
    to.make(Call::Size, BOOK, "");
}
