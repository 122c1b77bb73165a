//! A book in a file of the machine: what is kept, what is refused, and who waits for whom.

use reference::Rules;
use std::fs;
use std::os::unix::fs::{symlink, PermissionsExt};
use std::path::PathBuf;
use store::{Error, FileBook};
use types::{Book, Frame, Move, Refusal};

/// An empty folder for a test alone.
fn folder(name: &str) -> PathBuf {
    let folder = PathBuf::from(env!("CARGO_TARGET_TMPDIR")).join(name);
    _ = fs::remove_dir_all(&folder);
    fs::create_dir_all(&folder).unwrap();
    folder
}

/// A new book: station 2 of 4, one height.
fn new() -> Book<Rules> {
    Book::open(Rules::SHA256, 4, 2, &[1; 4], &[0]).unwrap()
}

/// The book in a file, with three blank votes in it, so that it can pass height 1.
fn passable(path: &PathBuf) -> FileBook<Rules> {
    let mut book = FileBook::create(new(), path).unwrap();
    for signer in [0, 1, 3] {
        book.deliver(&Frame::DummyVote { signer, height: 1 }.bytes()).unwrap();
    }
    book
}

#[test]
fn frames_wait_until_they_are_acknowledged() {
    let path = folder("wait").join("book");
    let mut book = passable(&path);
    assert!(matches!(book.make_move().unwrap(), Move::Pass { height: 1, finalized: true, .. }));
    let frames = book.unsent().to_vec();
    assert_eq!(frames.len(), 2);
    for refused in [book.make_move().err(), book.signal(1).err(), book.submit(&[1; 16]).err()] {
        assert!(matches!(refused, Some(Error::Unsent)));
    }
    drop(book);
    let mut again = FileBook::open(Rules::SHA256, &path).unwrap();
    assert_eq!(again.unsent(), frames);
    again.sent().unwrap();
    assert!(again.unsent().is_empty());
    assert_eq!(again.make_move().unwrap(), Move::Idle);
    drop(again);
    assert!(FileBook::open(Rules::SHA256, &path).unwrap().unsent().is_empty());
}

#[test]
fn frames_of_another_book_are_dropped() {
    let path = folder("other").join("book");
    let mut book = passable(&path);
    let before = book.book().bytes().to_vec();
    book.make_move().unwrap();
    drop(book);
    fs::write(&path, before).unwrap();
    let book = FileBook::open(Rules::SHA256, &path).unwrap();
    assert!(book.unsent().is_empty() && !path.with_extension("frames").exists());
}

#[test]
fn a_spoilt_outbox_is_no_empty_one() {
    let path = folder("spoilt").join("book");
    passable(&path).make_move().unwrap();
    let frames = path.with_extension("frames");
    let text = fs::read_to_string(&frames).unwrap();
    fs::write(&frames, &text[..text.len() - 5]).unwrap();
    assert!(matches!(FileBook::open(Rules::SHA256, &path), Err(Error::Foreign(_))));
}

#[test]
fn every_path_leads_to_one_book() {
    let folder = folder("paths");
    let (path, link) = (folder.join("book"), folder.join("link"));
    drop(passable(&path));
    symlink("book", &link).unwrap();
    FileBook::open(Rules::SHA256, &link).unwrap().signal(1).unwrap();
    assert!(fs::symlink_metadata(&link).unwrap().is_symlink());
    assert_eq!(store::read(&link).unwrap(), store::read(&path).unwrap());
    let opened = FileBook::open(Rules::SHA256, &path).unwrap();
    let waits = std::thread::spawn(move || FileBook::open(Rules::SHA256, link).map(drop).is_ok());
    std::thread::sleep(std::time::Duration::from_millis(100));
    assert!(!waits.is_finished());
    drop(opened);
    assert!(waits.join().unwrap());
    fs::hard_link(&path, folder.join("second")).unwrap();
    assert!(matches!(FileBook::open(Rules::SHA256, &path), Err(Error::Files { .. })));
}

#[test]
fn a_book_is_as_private_as_it_was() {
    let path = folder("private").join("book");
    drop(passable(&path));
    fs::set_permissions(&path, fs::Permissions::from_mode(0o600)).unwrap();
    FileBook::open(Rules::SHA256, &path).unwrap().make_move().unwrap();
    for file in [path.clone(), path.with_extension("frames")] {
        assert_eq!(fs::metadata(file).unwrap().permissions().mode() & 0o777, 0o600);
    }
}

#[test]
fn a_new_book_takes_no_place_that_is_taken() {
    let path = folder("taken").join("book");
    passable(&path).make_move().unwrap();
    let before = fs::read(&path).unwrap();
    assert!(matches!(FileBook::create(new(), &path), Err(Error::Exists(_))));
    assert_eq!(fs::read(&path).unwrap(), before);
    let book = FileBook::overwrite(new(), &path).unwrap();
    assert_eq!(book.book().bytes(), new().bytes());
    assert!(!path.with_extension("frames").exists());
}

#[test]
fn no_book_has_the_name_of_a_file_beside_another() {
    let folder = folder("beside");
    let path = folder.join("book");
    let mut book = passable(&path);
    for ending in ["lock", "new", "frames", "frames.new"] {
        let beside = path.with_extension(ending);
        assert!(matches!(FileBook::create(new(), &beside), Err(Error::Reserved(_))));
        assert!(matches!(FileBook::open(Rules::SHA256, &beside), Err(Error::Reserved(_))));
        assert!(matches!(book.hand_to(&beside), Err(Error::Reserved(_))));
    }
    assert!(matches!(book.hand_to(&path), Err(Error::Own(_))));
    let link = folder.join("link");
    symlink("book.new", &link).unwrap();
    fs::write(path.with_extension("new"), new().bytes()).unwrap();
    assert!(matches!(FileBook::open(Rules::SHA256, &link), Err(Error::Reserved(_))));
}

#[test]
fn what_is_no_book_is_left_alone() {
    let folder = folder("none");
    let missing = folder.join("missing");
    assert!(matches!(FileBook::open(Rules::SHA256, &missing), Err(Error::Files { .. })));
    assert!(matches!(FileBook::open(Rules::SHA256, "/dev/zero"), Err(Error::Files { .. })));
    let long = folder.join("long");
    fs::write(&long, vec![0; 1 << 20]).unwrap();
    assert!(matches!(FileBook::open(Rules::SHA256, &long), Err(Error::Refused(Refusal::Unsound))));
    assert!(!folder.join("missing.lock").exists());
}
