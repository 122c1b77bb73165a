//! The list of a season: four replicas through five heights, one of them dishonest, none in step, and an observer.

use super::observer_chains::settle;
use super::observers::WATCH;
use super::parts::*;
use crate::{Answer, Call, ObserverCall, Recorder};
use types::{Block, Calls, Frame, BLOCK};

/// The books, by replica.
const BOOKS: [&str; 4] = ["book0", "book1", "book2", "book3"];

/// The leaders of the five heights.
const LEADERS: [u8; 5] = [0, 1, 3, 2, 0];

/// Records the list.
pub fn run<C: Calls>(to: &mut Recorder<C>) {
    to.remark("A season of four stations. Station 3 is cut off at first, and later says two things at once.");
    to.remark("A seed testing house follows it with an observer's book: it is given certificates, and has no vote.");
    to.give(REPLY, vec![0xaa; 448]);
    for (own, book) in (0..).zip(BOOKS) {
        to.open(book, 4, own, &LEADERS);
    }
    to.open_observer(WATCH, 4, 5);
    first_height(to);
    second_height(to);
    catching_up(to);
    let late = third_height(to);
    fourth_height(to, &late);
    reading(to);
}

/// The book of a replica.
fn book(replica: usize) -> &'static str {
    BOOKS.get(replica).copied().unwrap_or(REPLY)
}

/// These replicas move until idle; returns all frames written of these kinds.
fn all_move<C: Calls>(to: &mut Recorder<C>, replicas: &[usize], kinds: &[u8]) -> Vec<Vec<u8>> {
    let written = replicas.iter().flat_map(|replica| moves(to, book(*replica)));
    let wanted = |frame: &Vec<u8>| frame.first().is_some_and(|kind| kinds.contains(kind));
    written.filter(wanted).collect()
}

/// Delivers frames to these replicas.
fn send<C: Calls>(to: &mut Recorder<C>, frames: &[Vec<u8>], replicas: &[usize]) {
    for replica in replicas {
        frames.iter().for_each(|frame| _ = to.deliver(book(*replica), frame));
    }
}

/// Delivers frames to the observer, which then moves until idle.
fn watch<C: Calls>(to: &mut Recorder<C>, frames: &[Vec<u8>]) {
    for frame in frames {
        to.observer(WATCH, ObserverCall::Deliver { frame: frame.clone() });
    }
    settle(to, WATCH);
}

/// Parts frames into certificates and all others.
fn certificates(frames: Vec<Vec<u8>>) -> (Vec<Vec<u8>>, Vec<Vec<u8>>) {
    frames.into_iter().partition(|frame| frame.first().is_some_and(|kind| *kind >= 5))
}

/// Fetches a certificate from one book and delivers it to another; returns it.
fn hand_over<C: Calls>(to: &mut Recorder<C>, from: usize, into: usize, kind: u64) -> Vec<u8> {
    to.make(Call::Fetch { kind, height: 3 }, book(from), REPLY);
    let frame: Vec<u8> = to.bytes(REPLY).iter().copied().take(types::FRAME).collect();
    to.deliver(book(into), &frame);
    frame
}

/// Fetches all certificates of one book and delivers them to another as one packet; returns them.
fn catch_up<C: Calls>(to: &mut Recorder<C>, from: usize, into: usize) -> Vec<Vec<u8>> {
    let mut frames: Vec<Vec<u8>> = Vec::new();
    for height in 1..=LEADERS.len() as u64 {
        for kind in 5..=7 {
            if to.make(Call::Fetch { kind, height }, book(from), REPLY) == Some(Answer::Done) {
                frames.push(to.bytes(REPLY).iter().copied().take(types::FRAME).collect());
            }
        }
    }
    to.packet(book(into), &frames);
    frames
}

fn first_height<C: Calls>(to: &mut Recorder<C>) {
    to.part("Height 1: station 0 leads, station 3 hears nothing, the other three settle page 1");
    submit(to, book(0), entry("swap A12 to B40"));
    submit(to, book(1), entry("seed lot 7 to 3"));
    let offer = all_move(to, &[0], &[1]);
    send(to, &offer, &[0, 1, 2]);
    let votes = all_move(to, &[0, 1, 2], &[2]);
    to.remark("The swap was a mistake: an undo entry waits for the next page");
    submit(to, book(1), entry("undo A12 to B40"));
    send(to, &votes, &[0, 1, 2]);
    let (passed, after) = certificates(all_move(to, &[0, 1, 2], &[1, 4, 5]));
    send(to, &after, &[0, 1, 2]);
    to.remark("The observer gets the certificates that the three passes wrote; finalises one by one are not for it");
    watch(to, &passed);
    watch(to, after.get(..2).unwrap_or(&[]));
}

fn second_height<C: Calls>(to: &mut Recorder<C>) {
    to.part(
        "Height 2: the timer of station 2 fires between two votes, so it passes without a finalise",
    );
    let votes = all_move(to, &[0, 1, 2], &[2]);
    send(to, &votes, &[0, 1]);
    send(to, votes.get(..1).unwrap_or(&[]), &[2]);
    signal(to, book(2), 2);
    let late = all_move(to, &[2], &[3]);
    send(to, votes.get(1..).unwrap_or(&[]), &[2]);
    let passed = all_move(to, &[0, 1, 2], &[4]);
    to.remark("Both votes of station 2 count: its page vote and the blank vote");
    send(to, &late, &[0, 1, 2]);
    send(to, &passed, &[0, 1, 2]);
}

fn catching_up<C: Calls>(to: &mut Recorder<C>) {
    to.part("Station 3 is back and catches up: all that fetch gives of station 0's book comes as one packet");
    let fetched = catch_up(to, 0, 3);
    to.remark("The observer gets the same certificates one by one, and settles page 1");
    watch(to, &fetched);
    submit(to, book(3), entry("lot 9 to plot 5"));
}

/// Returns the first proposal.
fn third_height<C: Calls>(to: &mut Recorder<C>) -> Vec<Vec<u8>> {
    to.part("Height 3: station 3 leads and sends one page to station 0 and another to 1 and 2");
    let offer = all_move(to, &[3], &[1]);
    let one = offered(&offer);
    let two = Block { entries: [entry("lot 9 to plot 6")].into(), ..one.clone() };
    send(to, &offer, &[0]);
    let other = Frame::Proposal { signer: 3, block: two.clone() };
    [1, 2].into_iter().for_each(|replica| deliver(to, book(replica), std::slice::from_ref(&other)));
    let votes = all_move(to, &[0, 1, 2], &[2]);
    send(to, &votes, &[0, 1, 2]);
    to.remark("Its second vote is refused where the first is kept");
    deliver(to, book(0), &[vote(3, &one), vote(3, &two)]);
    to.remark("No page gets three votes. Stations 0 and 1 hand each other what the leader sent: each hears both pages");
    deliver(to, book(0), std::slice::from_ref(&other));
    send(to, &offer, &[1]);
    to.remark("Neither waits for its timer: both vote blank with no signal; the timer of 0 comes late, and is refused");
    let mut blanks = all_move(to, &[0, 1], &[3]);
    signal(to, book(0), 3);
    to.remark("Station 2 heard one page; it passes on the blank before its own timer fires");
    blanks.push(Frame::DummyVote { signer: 3, height: 3 }.bytes().to_vec());
    submit(to, book(2), entry("plot C7 fallow"));
    send(to, &blanks, &[0, 1, 2]);
    offer
}

fn fourth_height<C: Calls>(to: &mut Recorder<C>, late: &[Vec<u8>]) {
    to.part("Height 4: page 4 stands on page 2 over the blank; station 1 gets its certificate before the page");
    let offer = all_move(to, &[0, 1, 2], &[1]);
    to.remark(
        "Station 2 hears of the other page of height 3 once it has passed it, and refuses it",
    );
    send(to, late, &[2]);
    let blank = hand_over(to, 0, 3, 6);
    send(to, &offer, &[0, 2, 3]);
    let votes = all_move(to, &[0, 2, 3], &[2]);
    send(to, &votes, &[0, 2]);
    let passed = all_move(to, &[0, 2], &[4, 5]);
    send(to, &passed, &[0, 1, 2]);
    send(to, &offer, &[1]);
    let last = all_move(to, &[1], &[4]);
    send(to, &last, &[0, 1, 2]);
    all_move(to, &[0, 1, 2], &[]);
    to.remark("The observer hears of page 4 before the blank below it");
    watch(to, &certificates(passed).0);
    watch(to, &[blank]);
    to.remark("Station 3 catches up again, from station 1: it knows most of the packet; the observer settles page 4");
    let fetched = catch_up(to, 1, 3);
    all_move(to, &[3], &[]);
    watch(to, &fetched);
}

fn reading<C: Calls>(to: &mut Recorder<C>) {
    to.part("All four read the same register, and so does the observer");
    for book in BOOKS {
        to.make(Call::Size, book, "");
        to.give("register", vec![0xbb; 80]);
        to.make(Call::Read, book, "register");
    }
    to.observer(WATCH, ObserverCall::Size);
    to.give("register", vec![0xbb; 80]);
    to.make(Call::Observer(ObserverCall::Read), WATCH, "register");
}

/// The block of the first proposal among these frames.
fn offered(frames: &[Vec<u8>]) -> Block {
    let bytes = frames.iter().find_map(|frame| frame.last_chunk::<BLOCK>());
    bytes.map_or_else(Block::default, Block::parts)
}
