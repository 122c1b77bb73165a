//! The first half of the list of heights: the head of edition 3 byte by byte, and how many heights each edition has.

use super::observers::{blank, observe, WATCH};
use super::parts::*;
use crate::{Call, ObserverCall, Recorder};
use types::{
    book_length, field, observer_book_length, put_edition, put_head_height, put_height, Calls,
    HeadHeight, Height, EDITION, FIRST_EDITION, SECOND_EDITION,
};

/// A station's book.
const BOOK: &str = "book";

/// Where the head ends.
const HEAD: usize = 64;

/// Records these parts.
pub fn run<C: Calls>(to: &mut Recorder<C>) {
    for book in [BOOK, WATCH] {
        zeros(to, book);
        heights(to, book);
    }
    current(to);
    observers_zeros(to);
    one_length(to);
}

/// A new book of four stations, a station's or an observer's.
fn new<C: Calls>(to: &mut Recorder<C>, book: &str, heights: Height) -> Vec<u8> {
    match book {
        WATCH => to.open_observer(book, 4, heights),
        _ => to.open(book, 4, 2, &vec![0; heights.into()]),
    }
    to.bytes(book).to_vec()
}

/// Gives a book and asks it for its size.
fn ask<C: Calls>(to: &mut Recorder<C>, name: &str, book: Vec<u8>) {
    to.give(name, book);
    match name {
        WATCH => to.observer(name, ObserverCall::Size),
        _ => to.make(Call::Size, name, ""),
    };
}

/// The book with one byte set.
fn with(book: &[u8], at: usize, byte: u8) -> Vec<u8> {
    let mut book = book.to_vec();
    book.iter_mut().skip(at).take(1).for_each(|place| *place = byte);
    book
}

/// Whose book it is, in words.
fn whose(book: &str) -> &'static str {
    if book == WATCH {
        "an observer's book"
    } else {
        "a station's book"
    }
}

fn zeros<C: Calls>(to: &mut Recorder<C>, book: &str) {
    to.part(&format!(
        "Edition 3, {}: sound; then bytes 2, 4, 5 and 46 to 63 in turn are not zero",
        whose(book)
    ));
    let sound = new(to, book, 1);
    ask(to, book, sound.clone());
    let short = [field::HEIGHTS, field::CURRENT, field::FINALIZED].map(|of| of.short);
    let places = short.into_iter().chain(field::UNUSED..HEAD);
    places.for_each(|at| ask(to, book, with(&sound, at, 1)));
    to.remark("The high bytes of H, c and g");
    let long = [field::HEIGHTS, field::CURRENT, field::FINALIZED].map(|of| of.long);
    long.into_iter().for_each(|at| ask(to, book, with(&sound, at.saturating_add(1), 1)));
}

/// A book of zeros behind a head that says so many heights, with the length for them.
fn stretched(name: &str, head: &[u8], heights: Height) -> Vec<u8> {
    let length = if name == WATCH { observer_book_length(heights) } else { book_length(heights) };
    let mut book: Vec<u8> = head.iter().take(HEAD).copied().collect();
    book.resize(length, 0);
    book
}

fn heights<C: Calls>(to: &mut Recorder<C>, name: &str) {
    to.part(&format!(
        "How many heights, {}, with the length for them: editions 1 and 2 have up to 63, edition 3 up to 1,000",
        whose(name)
    ));
    let third = new(to, name, 1);
    for edition in [FIRST_EDITION, SECOND_EDITION, EDITION] {
        for heights in [0, 1, 63, 64, 255] {
            let mut head = third.clone();
            put_edition(&mut head, edition);
            put_head_height(&mut head, field::HEIGHTS, heights);
            ask(to, name, stretched(name, &head, heights));
        }
    }
    to.remark("Edition 3: the low byte is 0, 1 or 232, and the high one counts");
    for heights in [256, 257, 1000, 1001, 1024] {
        let mut head = third.clone();
        put_head_height(&mut head, field::HEIGHTS, heights);
        ask(to, name, stretched(name, &head, heights));
    }
    to.remark("257 heights that are as long as one, and one that is as long as 257");
    let mut long = third.clone();
    put_head_height(&mut long, field::HEIGHTS, 257);
    ask(to, name, stretched(name, &long, 1));
    ask(to, name, stretched(name, &third, 257));
    to.remark("Edition 2 whose bytes 40 and 41 say 1,000");
    let mut second = third;
    put_edition(&mut second, SECOND_EDITION);
    put_height(&mut second, field::HEIGHTS.long, 1000);
    ask(to, name, stretched(name, &second, 1000));
    ask(to, name, stretched(name, &with(&second, field::HEIGHTS.short, 0), 1000));
}

/// A new station's book of so many heights with another height in its head.
fn ask_height<C: Calls>(to: &mut Recorder<C>, book: &[u8], of: HeadHeight, height: Height) {
    let mut book = book.to_vec();
    put_head_height(&mut book, of, height);
    ask(to, BOOK, book);
}

fn current<C: Calls>(to: &mut Recorder<C>) {
    to.part("c is 1 to H + 1 by both of its bytes: 300 heights, then 255, 256, 1,000");
    for (heights, values) in [
        (300, &[0, 1, 255, 256, 257, 301, 302, 512, 513][..]),
        (255, &[256, 257]),
        (256, &[256, 257, 258]),
        (1000, &[1000, 1001, 1002, 1025]),
    ] {
        let sound = new(to, BOOK, heights);
        values.iter().for_each(|value| ask_height(to, &sound, field::CURRENT, *value));
    }
    to.remark("In editions 1 and 2 c is one byte: 64, 65");
    for edition in [FIRST_EDITION, SECOND_EDITION] {
        let mut sound = new(to, BOOK, 63);
        put_edition(&mut sound, edition);
        [64, 65].iter().for_each(|value| ask_height(to, &sound, field::CURRENT, *value));
    }
}

fn observers_zeros<C: Calls>(to: &mut Recorder<C>) {
    to.part("An observer's head of edition 3 has zeros at 1 to 6, 42 and 43, also where c would be in range");
    let sound = new(to, WATCH, 300);
    ask(to, WATCH, sound.clone());
    for at in [1, 2, 3, 4, 5, 6, 42, 43] {
        ask(to, WATCH, with(&sound, at, 1));
    }
}

fn one_length<C: Calls>(to: &mut Recorder<C>) {
    to.part("A station's 22 heights and an observer's 108 have one length: each is no book for the other's calls");
    let station = new(to, BOOK, 22);
    let observer = new(to, WATCH, 108);
    to.give(WATCH, station);
    to.give(BOOK, observer);
    to.make(Call::Size, BOOK, "");
    to.observer(WATCH, ObserverCall::Size);
    deliver(to, BOOK, &[blank(7, 1)]);
    observe(to, WATCH, &[blank(7, 1)]);
    to.remark("Each by its own calls");
    let [station, observer] = [WATCH, BOOK].map(|name| to.bytes(name).to_vec());
    to.give(BOOK, station);
    to.give(WATCH, observer);
    deliver(to, BOOK, &[blank(7, 22), blank(7, 23)]);
    observe(to, WATCH, &[blank(7, 22), blank(7, 23), blank(7, 108), blank(7, 109)]);
}
