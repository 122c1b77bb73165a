//! An observer's book in a file: what is told is kept, whenever the process or the machine ends, and who is refused.

mod common;

use common::fake::{Fake, Fault, Forgotten};
use common::random::Random;
use reference::Rules;
use std::fs;
use std::path::{Path, PathBuf};
use store::{Error, FileBook, FileObserver};
use types::{Block, Book, Delivered, Frame, Height, Move, ObserverBook, Refusal, FRAME};

/// The path of the book in the file system of the tests.
const BOOK: &str = "folder/book";

/// A new book over four replicas, three heights.
fn new() -> ObserverBook<Rules> {
    ObserverBook::open(Rules::SHA256, 4, 3, &[1; 4]).unwrap()
}

/// Certificates of three heights, each block on the one below, finalized one after another, with a vote amid them.
fn script() -> Vec<[u8; FRAME]> {
    let mut parent = Block::default();
    let mut frames = Vec::new();
    for height in 1..=3 {
        let digest = if height == 1 { [0; 32] } else { sha256::digest(&parent.bytes()) };
        let block =
            Block { height, parent: height - 1, digest, entries: [[height as u8; 16]].into() };
        frames.push(Frame::BlockCertificate { mask: 7, block: block.clone() }.bytes());
        frames.push(Frame::Finalize { signer: 0, height }.bytes());
        frames.push(Frame::DummyCertificate { mask: 11, height }.bytes());
        frames.push(Frame::FinalizeCertificate { mask: 14, height }.bytes());
        parent = block;
    }
    frames
}

/// What an observer has told: the settled height, and the certificates that it has taken.
#[derive(Debug, Default)]
struct Told {
    settled: Height,
    taken: Vec<[u8; FRAME]>,
}

/// One life: all frames from the first, and a move after each; what was told before must still be there.
fn live(files: &Fake, told: &mut Told, at_once: bool) -> Result<Vec<u8>, Error> {
    let mut book = FileObserver::open_in(files.clone(), Rules::SHA256, Path::new(BOOK))?;
    assert!(book.book().finalized() >= told.settled, "a settled height that was told is lost");
    for frame in &told.taken {
        assert_eq!(book.deliver(frame)?, Delivered::Known, "a certificate that was told is lost");
    }
    let frames = script();
    for part in frames.chunks(if at_once { frames.len() } else { 1 }) {
        for (frame, answer) in part.iter().zip(book.deliver_all(part)?) {
            match answer {
                Ok(_) => told.taken.push(*frame),
                Err(refusal) => assert_eq!((refusal, frame[0]), (Refusal::NotACertificate, 4)),
            }
        }
        if let Move::Final { height } = book.make_move()? {
            told.settled = height;
        }
        if !files.synced(Path::new(BOOK), book.book().bytes()) {
            return Err(Error::Own(PathBuf::from("it told what was not synced")));
        }
    }
    Ok(book.book().bytes().to_vec())
}

/// The book after lives of which the first ends with this fault; none if what was told was not synced.
fn lives(files: &Fake, fault: Option<(usize, Fault)>, at_once: bool) -> Option<Vec<u8>> {
    let mut told = Told::default();
    FileObserver::create_in(files.clone(), new(), Path::new(BOOK)).unwrap();
    if let Some((steps, fault)) = fault {
        files.fault(steps, fault);
    }
    for life in 0..3 {
        let ended = live(files, &mut told, at_once);
        let faulty = files.revive(&mut Random::new(life));
        match ended {
            Ok(book) => return Some(book),
            Err(Error::Own(_)) => return None,
            Err(error) => assert!(faulty, "{error}"),
        }
    }
    None
}

#[test]
fn what_is_told_is_kept_at_every_step() {
    for at_once in [false, true] {
        let expected = lives(&Fake::default(), None, at_once).unwrap();
        let book = ObserverBook::from_bytes(Rules::SHA256, expected.clone()).unwrap();
        assert_eq!((book.finalized(), book.log().unwrap().len()), (3, 3));
        for fault in [Fault::Process, Fault::Machine, Fault::Refusal] {
            for steps in 0..if at_once { 40 } else { 150 } {
                let ended = lives(&Fake::default(), Some((steps, fault)), at_once);
                assert_eq!(ended.as_ref(), Some(&expected), "{fault:?} at {steps}");
            }
        }
    }
}

/// Without syncing what is told may be lost, and these tests see it.
#[test]
fn a_step_that_is_left_out_is_noticed() {
    for forgotten in [Forgotten::Files, Forgotten::Folders] {
        assert_eq!(lives(&Fake::forgetting(Some(forgotten)), None, false), None, "{forgotten:?}");
    }
}

/// An empty folder of the machine for a test alone.
fn folder(name: &str) -> PathBuf {
    let folder = PathBuf::from(env!("CARGO_TARGET_TMPDIR")).join(name);
    _ = fs::remove_dir_all(&folder);
    fs::create_dir_all(&folder).unwrap();
    folder
}

#[test]
fn a_book_is_kept_and_opened_again() {
    let path = folder("observer").join("watch");
    let mut book = FileObserver::create(new(), &path).unwrap();
    let answers = book.deliver_all(&script()).unwrap();
    assert_eq!(answers.iter().filter(|answer| **answer == Ok(Delivered::Fresh)).count(), 9);
    assert_eq!(book.make_move().unwrap(), Move::Final { height: 3 });
    assert_eq!(fs::read(&path).unwrap(), book.book().bytes());
    drop(book);
    let mut again = FileObserver::open(Rules::SHA256, &path).unwrap();
    assert_eq!(again.make_move().unwrap(), Move::Idle);
    let vote = Frame::DummyVote { signer: 0, height: 1 }.bytes();
    let refused = again.deliver(&vote).err();
    assert!(matches!(refused, Some(Error::Refused(Refusal::NotACertificate))));
    assert_eq!(again.book().log().unwrap(), [[1; 16], [2; 16], [3; 16]]);
    drop(again);
    let exists = FileObserver::create(new(), &path).err();
    assert!(matches!(exists, Some(Error::Exists(_))));
    let empty = FileObserver::overwrite(new(), &path).unwrap();
    assert_eq!(empty.book().finalized(), 0);
}

#[test]
fn neither_kind_opens_the_others_book() {
    let folder = folder("kinds");
    let (watch, station) = (folder.join("watch"), folder.join("book"));
    FileObserver::create(new(), &watch).unwrap();
    FileBook::create(Book::open(Rules::SHA256, 4, 2, &[1; 4], &[0]).unwrap(), &station).unwrap();
    let wrong = [
        FileObserver::open(Rules::SHA256, &station).err(),
        FileBook::open(Rules::SHA256, &watch).err(),
    ];
    for error in wrong {
        assert!(matches!(error, Some(Error::Refused(Refusal::Unsound))));
    }
}

/// Frames of a station's book that was there are gone with it.
#[test]
fn an_observer_in_the_place_of_a_station_leaves_no_frames() {
    let path = folder("replaced").join("book");
    let mut station =
        FileBook::create(Book::open(Rules::SHA256, 4, 0, &[1; 4], &[0]).unwrap(), &path).unwrap();
    station.make_move().unwrap();
    assert_eq!(station.unsent().len(), 1);
    drop(station);
    drop(FileObserver::overwrite(new(), &path).unwrap());
    assert!(!path.with_extension("frames").exists());
    assert!(FileObserver::open(Rules::SHA256, &path).is_ok());
}
