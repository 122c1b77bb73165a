//! Books in files that were opened as older editions: they work on, stay of their edition, and what their stations have
//! said binds them as before. And new ones, of up to 1,000 heights.

use reference::Rules;
use std::fs;
use std::path::{Path, PathBuf};
use store::{Error, FileBook, FileObserver};
use types::{book_length, observer_book_length, put_edition, Block, Book, Certificate, Frame};
use types::{Height, Move, ObserverBook, MOST_HEIGHTS};

/// An empty folder for a test alone.
fn folder(name: &str) -> PathBuf {
    let folder = PathBuf::from(env!("CARGO_TARGET_TMPDIR")).join("editions").join(name);
    _ = fs::remove_dir_all(&folder);
    fs::create_dir_all(&folder).unwrap();
    folder
}

/// The bytes of a new book of station 2 of 4 with these weights.
fn opened(weights: &[u16; 4]) -> Vec<u8> {
    Book::open(Rules::SHA256, 4, 2, weights, &[0, 1]).unwrap().bytes().to_vec()
}

/// The file of a new book of an older edition.
fn older(name: &str, edition: u8) -> PathBuf {
    let path = folder(&format!("{name}{edition}")).join("book");
    let mut bytes = opened(&[1; 4]);
    put_edition(&mut bytes, edition);
    fs::write(&path, bytes).unwrap();
    path
}

/// The edition in a file, and whether the head's bytes behind the weights, or behind the edition where there are none,
/// are zero.
fn edition(path: &Path) -> (u8, bool) {
    let bytes = fs::read(path).unwrap();
    let from = if bytes[7] == 1 { 8 } else { 40 };
    (bytes[7], bytes[from..64].iter().all(|byte| *byte == 0))
}

#[test]
fn a_book_of_an_older_edition_works_on_and_stays_one() {
    for of in [1, 2] {
        let path = older("station", of);
        let mut book = FileBook::open(Rules::SHA256, &path).unwrap();
        book.submit(&[3; 16]).unwrap();
        for signer in [0, 1] {
            book.deliver(&Frame::DummyVote { signer, height: 1 }.bytes()).unwrap();
        }
        assert_eq!(book.make_move().unwrap(), Move::Idle);
        let few = Frame::DummyCertificate { mask: 12, height: 2 }.bytes();
        let refused = book.deliver(&few);
        assert!(matches!(refused, Err(Error::Refused(types::Refusal::NoQuorum))), "{refused:?}");
        book.deliver(&Frame::DummyVote { signer: 3, height: 1 }.bytes()).unwrap();
        assert_eq!(book.make_move().unwrap().to_string(), "pass 1 6 4");
        book.sent().unwrap();
        drop(book);
        assert_eq!(edition(&path), (of, true));
        let book = FileBook::open(Rules::SHA256, &path).unwrap();
        assert_eq!((book.book().current(), book.book().pending()), (2, &[[3; 16]][..]));
    }
}

#[test]
fn an_observers_book_of_an_older_edition_works_on_and_stays_one() {
    for of in [1, 2] {
        let path = folder(&format!("observer{of}")).join("book");
        let mut bytes = ObserverBook::open(Rules::SHA256, 4, 2, &[1; 4]).unwrap().bytes().to_vec();
        put_edition(&mut bytes, of);
        fs::write(&path, bytes).unwrap();
        let mut book = FileObserver::open(Rules::SHA256, &path).unwrap();
        let block = Block { height: 1, entries: [[3; 16]].into(), ..Block::default() };
        let frames = [
            Frame::BlockCertificate { mask: 7, block }.bytes(),
            Frame::FinalizeCertificate { mask: 14, height: 1 }.bytes(),
        ];
        book.deliver_all(&frames).unwrap();
        assert_eq!(book.make_move().unwrap(), Move::Final { height: 1 });
        drop(book);
        assert_eq!(edition(&path), (of, true));
        let book = FileObserver::open(Rules::SHA256, &path).unwrap();
        assert_eq!(book.book().log().unwrap(), [[3; 16]]);
    }
}

/// What was said beside a book of edition 1 is known to it later, and binds one of edition 3 that is put in its place,
/// whatever its weights are.
#[test]
fn what_was_said_binds_a_book_of_any_edition() {
    let path = older("said", 1);
    let mut book = FileBook::open(Rules::SHA256, &path).unwrap();
    book.signal(1).unwrap();
    assert_eq!(book.make_move().unwrap(), Move::Dummy { height: 1 });
    book.sent().unwrap();
    drop(book);
    assert!(store::said(&path).unwrap().is_some());
    for weights in [[1; 4], [10, 1, 1, 1]] {
        fs::write(&path, opened(&weights)).unwrap();
        let mut book = FileBook::open(Rules::SHA256, &path).unwrap();
        book.deliver(&Frame::DummyCertificate { mask: 11, height: 1 }.bytes()).unwrap();
        let made = book.make_move();
        assert!(matches!(made, Err(Error::Contradiction { height: 1, .. })), "{made:?}");
    }
}

/// New books in files are of edition 3, with their weights and heights.
#[test]
fn a_new_book_is_of_edition_3() {
    let path = folder("new").join("book");
    let book = Book::open(Rules::SHA256, 4, 2, &[1000, 1, 1, 256], &[0, 1]).unwrap();
    drop(FileBook::create(book, &path).unwrap());
    let bytes = fs::read(&path).unwrap();
    assert_eq!(bytes[7..17], [3, 0xe8, 3, 1, 0, 1, 0, 0, 1, 0]);
    assert_eq!((bytes[2], &bytes[40..46]), (0, &[2, 0, 1, 0, 0, 0][..]));
    let book = FileBook::open(Rules::SHA256, &path).unwrap();
    assert_eq!(book.book().weights().each(), [1000, 1, 1, 256]);
}

/// A book with so many heights in a file, whose station leads none of them, has the dummy certificates of all but the
/// last one, and has passed all but the last five.
fn long(name: &str, heights: Height) -> (PathBuf, FileBook<Rules>) {
    let path = folder(&format!("{name}{heights}")).join("book");
    let roll = vec![0; heights.into()];
    let mut book = Book::open(Rules::SHA256, 4, 2, &[1; 4], &roll).unwrap();
    book.deliver_packet(&dummies(heights, 1)).unwrap();
    while book.current() < heights - 4 {
        let (_, frames) = book.make_move().unwrap();
        frames.iter().for_each(|frame| _ = book.deliver(frame).unwrap());
    }
    (path.clone(), FileBook::create(book, &path).unwrap())
}

/// The dummy certificates of all heights but the last ones, one behind the other.
fn dummies(heights: Height, but: Height) -> Vec<u8> {
    let frame = |height| Frame::DummyCertificate { mask: 11, height }.bytes();
    (1..=heights - but).flat_map(frame).collect()
}

/// Long books are kept whole: frames wait with the book that cast them at the greatest heights, what was said is found
/// again, and a file that is longer than any book is none.
#[test]
fn long_books_are_kept() {
    for heights in [64, 256, MOST_HEIGHTS] {
        let (path, mut book) = long("long", heights);
        for height in heights - 4..heights {
            let pass = Move::Pass { height, certificate: Certificate::Dummy, finalized: true };
            assert_eq!(book.make_move().unwrap(), pass);
            // The frames are on disk beside the book, and an end of the process loses neither.
            drop(book);
            book = FileBook::open(Rules::SHA256, &path).unwrap();
            assert_eq!(book.unsent().len(), 2);
            book.sent().unwrap();
        }
        book.signal(heights).unwrap();
        assert_eq!(book.move_and_take().unwrap(), Move::Dummy { height: heights });
        book.sent().unwrap();
        drop(book);
        assert_eq!(fs::read(&path).unwrap().len(), book_length(heights));
        let said = store::said(&path).unwrap().unwrap();
        assert_eq!(said.statements().count(), heights.into());
        assert_eq!(said.of_height(heights).collect::<Vec<_>>(), [store::Statement::DummyVote]);
        assert_eq!(said.of_height(heights - 1).collect::<Vec<_>>(), [store::Statement::Finalize]);
        let mut bytes = fs::read(&path).unwrap();
        bytes.resize(book_length(MOST_HEIGHTS) + 1, 0);
        fs::write(&path, bytes).unwrap();
        let opened = FileBook::open(Rules::SHA256, &path).map(|_| ());
        assert!(matches!(opened, Err(Error::Refused(types::Refusal::Unsound))), "{opened:?}");
    }
}

/// What was said at a height above 255 binds an older copy of the book that is put back.
#[test]
fn what_was_said_at_great_heights_binds() {
    let heights = 258;
    let (path, mut book) = long("bound", heights);
    while !matches!(book.make_move().unwrap(), Move::Idle) {
        book.sent().unwrap();
    }
    let before = fs::read(&path).unwrap();
    book.signal(heights).unwrap();
    assert_eq!(book.make_move().unwrap(), Move::Dummy { height: heights });
    book.sent().unwrap();
    drop(book);
    fs::write(&path, before).unwrap();
    let mut book = FileBook::open(Rules::SHA256, &path).unwrap();
    book.deliver(&Frame::DummyCertificate { mask: 11, height: heights }.bytes()).unwrap();
    let made = book.make_move();
    assert!(matches!(made, Err(Error::Contradiction { height: 258, .. })), "{made:?}");
}

/// A long observer's book, of a length that a station's has too, is kept by its own calls and taken by no other.
#[test]
fn a_long_observers_book_is_kept() {
    for heights in [108, MOST_HEIGHTS] {
        let path = folder(&format!("watch{heights}")).join("book");
        let book = ObserverBook::open(Rules::SHA256, 4, heights, &[1; 4]).unwrap();
        let mut book = FileObserver::create(book, &path).unwrap();
        let block = Block { height: heights, entries: [[3; 16]].into(), ..Block::default() };
        let frames = [
            dummies(heights, 1),
            Frame::BlockCertificate { mask: 7, block }.bytes().to_vec(),
            Frame::FinalizeCertificate { mask: 7, height: heights }.bytes().to_vec(),
        ];
        let frames = frames.concat();
        book.deliver_all(frames.as_chunks::<{ types::FRAME }>().0).unwrap();
        assert_eq!(book.make_move().unwrap(), Move::Final { height: heights });
        drop(book);
        assert_eq!(fs::read(&path).unwrap().len(), observer_book_length(heights));
        assert_eq!(FileObserver::open(Rules::SHA256, &path).unwrap().book().finalized(), heights);
        let opened = FileBook::open(Rules::SHA256, &path).map(|_| ());
        assert!(matches!(opened, Err(Error::Refused(types::Refusal::Unsound))), "{opened:?}");
    }
    assert_eq!(book_length(22), observer_book_length(108));
}
