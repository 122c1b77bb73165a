//! The list of editions: which bytes of the heads of editions 1 and 2 are what, broken one by one, and books of all
//! three editions in every call.

use super::observer_chains::settle;
use super::observers::{blank, finalise, observe, page, WATCH};
use super::parts::*;
use crate::{equal_weights, Call, ObserverCall, Recorder};
use types::{field, put_edition, put_weights, Calls, Frame, FIRST_EDITION, SECOND_EDITION};

/// A station's book.
const BOOK: &str = "book";

/// The same book in editions 1 and 2.
const FIRST: &str = "first";
const SECOND: &str = "second";

/// The same observer's book in editions 1 and 2.
const EARLIER: &str = "earlier";
const EARLY: &str = "early";

/// Where the head ends.
const HEAD: usize = 64;

/// Records the list.
pub fn run<C: Calls>(to: &mut Recorder<C>) {
    to.remark("Edition 1 has no weights in its head and is read as all weights 1; edition 2 has them. Both stay.");
    to.give(REPLY, vec![0xaa; 448]);
    for book in [BOOK, WATCH] {
        first_edition(to, book);
        second_edition(to, book);
        other_editions(to, book);
        numbers_of_stations(to, book);
    }
    quorums(to);
    calls(to);
    observers(to);
    opened_over(to);
}

/// A new book of four stations and one height, a station's or an observer's.
fn new<C: Calls>(to: &mut Recorder<C>, book: &str) -> Vec<u8> {
    match book {
        WATCH => to.open_observer(book, 4, 1),
        _ => to.open(book, 4, 2, &[0]),
    }
    to.bytes(book).to_vec()
}

/// The same book in another edition.
fn in_edition(edition: u8, book: &[u8]) -> Vec<u8> {
    let mut book = book.to_vec();
    put_edition(&mut book, edition);
    book
}

/// The book with some bytes set, which is then asked for its size.
fn ask<C: Calls>(to: &mut Recorder<C>, name: &str, sound: &[u8], edits: &[(usize, u8)]) {
    let mut book = sound.to_vec();
    for (at, byte) in edits {
        book.iter_mut().skip(*at).take(1).for_each(|place| *place = *byte);
    }
    to.give(name, book);
    match name {
        WATCH => to.observer(name, ObserverCall::Size),
        _ => to.make(Call::Size, name, ""),
    };
}

/// Whose book it is, in words.
fn whose(book: &str) -> &'static str {
    if book == WATCH {
        "an observer's book"
    } else {
        "a station's book"
    }
}

fn first_edition<C: Calls>(to: &mut Recorder<C>, book: &str) {
    to.part(&format!(
        "Edition 1, {}: sound; then each byte from 8 to 63 in turn is not zero",
        whose(book)
    ));
    let sound = in_edition(FIRST_EDITION, &new(to, book));
    ask(to, book, &sound, &[]);
    (field::WEIGHTS..HEAD).for_each(|at| ask(to, book, &sound, &[(at, 1)]));
    to.remark("All four weights of 1 are written out in it");
    let ones = (field::WEIGHTS..).zip(equal_weights(4));
    ask(to, book, &sound, &ones.collect::<Vec<_>>());
}

fn second_edition<C: Calls>(to: &mut Recorder<C>, book: &str) {
    let book_of = whose(book);
    to.part(&format!("Edition 2, {book_of}: sound; each station weighs 0, 1,001, and 1,000 and 256, which are sound"));
    let sound = in_edition(SECOND_EDITION, &new(to, book));
    ask(to, book, &sound, &[]);
    let places = (field::WEIGHTS..).step_by(2).take(4);
    for place in places {
        for weight in [0, 1001, 1000, 256] {
            let [low, high] = u16::to_le_bytes(weight);
            ask(to, book, &sound, &[(place, low), (place.saturating_add(1), high)]);
        }
    }
    to.remark("Each byte of an absent station, and each up to the end of the head, is not zero");
    let present = field::WEIGHTS.saturating_add(8);
    (present..HEAD).for_each(|at| ask(to, book, &sound, &[(at, 1)]));
    to.remark("No weights at all, and a weight of 65,535");
    let none = (field::WEIGHTS..present).map(|at| (at, 0));
    ask(to, book, &sound, &none.collect::<Vec<_>>());
    ask(to, book, &sound, &[(field::WEIGHTS, 255), (field::WEIGHTS.saturating_add(1), 255)]);
}

fn other_editions<C: Calls>(to: &mut Recorder<C>, book: &str) {
    to.part(&format!("Editions 0, 4 and above are none, {}: over each head", whose(book)));
    let third = new(to, book);
    let heads = [FIRST_EDITION, SECOND_EDITION].map(|edition| in_edition(edition, &third));
    let heads = heads.into_iter().chain([third]).collect::<Vec<_>>();
    for edition in [0, 4, 128, 255] {
        heads.iter().for_each(|head| ask(to, book, head, &[(field::EDITION, edition)]));
    }
    to.remark("Each edition over the heads of the other two");
    for (own, head) in (1..).zip(&heads) {
        let others = (1..=3).filter(|edition| *edition != own);
        others.for_each(|edition| ask(to, book, head, &[(field::EDITION, edition)]));
    }
}

fn numbers_of_stations<C: Calls>(to: &mut Recorder<C>, book: &str) {
    to.part(&format!(
        "Another n in {}: one station without a weight, one weight too many; edition 1 has none",
        whose(book)
    ));
    let third = new(to, book);
    let [first, second] =
        [FIRST_EDITION, SECOND_EDITION].map(|edition| in_edition(edition, &third));
    for n in [3, 5, 16, 0, 17, 255] {
        ask(to, book, &second, &[(field::N, n)]);
        ask(to, book, &first, &[(field::N, n)]);
    }
    to.remark("Sixteen stations: the last weight is 1,000, then 1,001");
    let mut all = third.clone();
    put_weights(&mut all, &[1000; 16]);
    for low in [0xe8, 0xe9] {
        ask(to, book, &all, &[(field::N, 16), (field::LONG.saturating_sub(2), low)]);
    }
}

fn quorums<C: Calls>(to: &mut Recorder<C>) {
    to.part("Edition 1: three of four are a quorum, two not, for each kind of certificate, and for a book's own masks");
    for book in [BOOK, WATCH] {
        let first = in_edition(FIRST_EDITION, &new(to, book));
        to.give(book, first);
    }
    let none = super::parts::first(1, &[]);
    for mask in [3, 9, 7, 14] {
        let frames = [page(mask, &none), blank(mask, 1), finalise(mask, 1)];
        deliver(to, BOOK, &frames);
        observe(to, WATCH, &frames);
    }
    let [station, observer] = [BOOK, WATCH].map(|book| to.bytes(book).to_vec());
    ask(to, BOOK, &station, &[(578, 3)]);
    ask(to, WATCH, &observer, &[(66, 3)]);
    ask(to, BOOK, &station, &[(578, 13)]);
    ask(to, WATCH, &observer, &[(66, 13)]);
}

/// Makes the same calls on the book of edition 3 and on those of editions 1 and 2.
fn on_all<C: Calls>(to: &mut Recorder<C>, make: impl Fn(&mut Recorder<C>, &str)) {
    [BOOK, FIRST, SECOND].into_iter().for_each(|book| make(to, book));
}

/// Gives a book in editions 1 and 2 under these names.
fn give_older<C: Calls>(to: &mut Recorder<C>, book: &str, names: [&str; 2]) {
    for (edition, name) in (1..).zip(names) {
        let older = in_edition(edition, to.bytes(book));
        to.give(name, older);
    }
}

fn calls<C: Calls>(to: &mut Recorder<C>) {
    to.part("Every call on a book of edition 3 with weights of 1, and on it in editions 1 and 2: alike but for heads");
    to.open(BOOK, 4, 2, &[0, 2]);
    give_older(to, BOOK, [FIRST, SECOND]);
    to.give("register", vec![0xbb; 48]);
    let block = super::parts::first(1, &[entry("swap A1 B2")]);
    let votes = [0, 1, 3].map(|signer| vote(signer, &block));
    let proposal = Frame::Proposal { signer: 0, block: block.clone() };
    on_all(to, |to, book| deliver(to, book, &[proposal.clone(), blank(3, 1)]));
    on_all(to, |to, book| _ = to.make_move(book, REPLY));
    on_all(to, |to, book| deliver(to, book, &votes));
    on_all(to, |to, book| _ = submit(to, book, entry("lot 7 to C3")));
    on_all(to, |to, book| _ = signal(to, book, 1));
    let packet = [finalise(13, 1), finalise(3, 1), Frame::Finalize { signer: 1, height: 1 }];
    on_all(to, |to, book| _ = to.packet(book, &packet.clone().map(|frame| frame.bytes())));
    on_all(to, |to, book| _ = moves(to, book));
    for (kind, height) in [(5, 1), (7, 1), (6, 1), (5, 3)] {
        on_all(to, |to, book| _ = to.make(Call::Fetch { kind, height }, book, REPLY));
    }
    on_all(to, |to, book| _ = to.make(Call::Size, book, ""));
    on_all(to, |to, book| _ = to.make(Call::Read, book, "register"));
}

fn observers<C: Calls>(to: &mut Recorder<C>) {
    to.part("An observer's calls on a book of edition 3 with weights of 1, and on the same book in editions 1 and 2");
    to.open_observer(WATCH, 4, 2);
    give_older(to, WATCH, [EARLIER, EARLY]);
    let block = super::parts::first(1, &[entry("swap A1 B2")]);
    let frames = [page(3, &block), page(7, &block), finalise(14, 1), blank(9, 2), blank(13, 2)];
    for book in [WATCH, EARLIER, EARLY] {
        observe(to, book, &frames);
        settle(to, book);
        to.observer(book, ObserverCall::Size);
        to.make(Call::Observer(ObserverCall::Read), book, "register");
    }
}

fn opened_over<C: Calls>(to: &mut Recorder<C>) {
    to.part(
        "Opening over books of editions 1 and 2 makes edition 3; refused, they keep their edition",
    );
    let open = |weights| Call::Open { n: 4, own: 2, heights: 2, weights, leaders: vec![0, 2] };
    for book in [FIRST, SECOND] {
        to.make(open(equal_weights(3)), book, "");
        to.make(Call::Size, book, "");
        to.make(open(equal_weights(4)), book, "");
    }
    let open = |weights| ObserverCall::Open { n: 4, heights: 2, weights };
    for book in [EARLIER, EARLY] {
        to.observer(book, open(equal_weights(5)));
        to.observer(book, ObserverCall::Size);
        to.observer(book, open(equal_weights(4)));
    }
}
