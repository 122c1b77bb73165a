//! `open` and `show book`: tables of heights, and the reasons for the current one.

mod common;

use common::{denied, fine, refused};
use reference::Rules;
use types::{Block, Book, Frame};

/// A book with three heights after these frames.
fn book(frames: &[Frame]) -> Book<Rules> {
    let mut book = Book::open(Rules::SHA256, 4, 2, &[1; 4], &[0, 1, 2]).unwrap();
    frames.iter().for_each(|frame| assert!(book.deliver(&frame.bytes()).is_ok()));
    book
}

/// The text that shows a book.
fn shown(book: &Book<Rules>) -> String {
    String::from_utf8(fine("show book -", book.bytes())).unwrap()
}

#[test]
fn a_new_book() {
    let bytes = fine("open - --n 4 --own 2 --roll 0,1,2", &[]);
    assert_eq!(bytes, book(&[]).bytes());
    let text = shown(&book(&[]));
    let head = "\
Book of station 2 of 4, edition 3: 3 heights, settled height 0, 0 pending entries.
Each station weighs 1; a quorum weighs 3 or more of 4.

";
    assert!(text.starts_with(head), "{text}");
    assert!(text.contains("The current height is 1: none is passed yet.\n"));
    assert!(text.contains("No proposal is held and no page is notarised; 0 page votes are kept.\n"));
    assert!(text.contains("It is not blank: its blank votes weigh 0 of 4, 3 needed.\n"));
    assert!(text.ends_with("The next move is: idle.\n"), "{text}");
}

#[test]
fn a_held_proposal_and_a_timer() {
    let block = Block { height: 1, ..Block::default() };
    let mut book = book(&[Frame::Proposal { signer: 0, block }]);
    book.signal(1).unwrap();
    let text = shown(&book);
    assert!(text.contains(
        "A proposal is held and stands; its page is not notarised: 0 page votes are kept, and those for this page \
         weigh 0 of 4, 3 needed.\n"
    ));
    assert!(text.contains("Done at this height so far: timer fired.\n"));
    assert!(text.ends_with("The next move is: dummy 1.\n"), "{text}");
}

#[test]
fn a_page_that_does_not_stand() {
    let one = Block { height: 1, ..Block::default() };
    let digest = reference::sha256::digest(&one.bytes());
    let certificate = |block| Frame::BlockCertificate { mask: 7, block };
    let two = Block { height: 2, parent: 1, digest: [1; 32], ..Block::default() };
    let three = Block { height: 3, parent: 1, digest, ..Block::default() };
    let mut book = book(&[certificate(one), certificate(two), certificate(three)]);
    assert!(shown(&book).contains("Its page is notarised and linked: it can be passed."));
    book.make_move().unwrap();
    let text = shown(&book);
    assert!(text.contains("does not stand: its back digest is not that of page 1."), "{text}");
    book.deliver(&Frame::DummyCertificate { mask: 7, height: 2 }.bytes()).unwrap();
    let text = shown(&book);
    assert!(
        text.contains("It is blank, and a chain ends just below it: it can be passed."),
        "{text}"
    );
    assert!(text.ends_with("The next move is: pass 2 6 4.\n"), "{text}");
    book.make_move().unwrap();
    book.make_move().unwrap();
    let text = shown(&book);
    assert!(text.contains("All heights are passed; only settling is left.\n"), "{text}");
    let row = text.lines().find(|line| line.starts_with('3')).unwrap();
    let cells: Vec<&str> = row.split_whitespace().collect();
    assert_eq!(cells[..4], ["3", "2", "-", "-"], "{row}");
    assert_eq!(cells[5..9], ["on", "1,", "0", "entries"], "{row}");
    assert_eq!(cells[cells.len() - 3..], ["yes", "-", "-"], "{row}");
}

#[test]
fn bad_input_gets_a_sentence() {
    refused("show book -", &[1; 1456], "refused with 1: the book is not sound");
    refused("show book -", &[], "(0 bytes)");
    refused("show", &[], "`frame` or `book`");
    refused("show page -", &[], "cannot be shown");
    denied("open - --n 4 --own 4 --roll 0", &[], "refused with 2");
    refused("open - --n 4 --own 1 --roll 0,,1", &[], "no numbers with commas");
    refused("open - --n 4 --own 1", &[], "--roll is missing");
    refused("open --n 4 --own 1 --roll 0", &[], "the file of the new book");
    refused("open - --n 4 --own 1 --roll 0 --force", &[], "needs no --force");
}
