//! A book that is renamed, removed or replaced while it is open: no second book comes of it.

mod common;

use common::fake::{Fake, Meddling};
use common::life::{Station, Way, BOOK};
use common::script::script;
use reference::Rules;
use std::fs;
use std::path::{Path, PathBuf};
use std::time::Duration;
use store::{Disk, Error, FileBook, FileObserver, Files, Patience};
use types::{Book, Frame, ObserverBook};

/// Another name for the book.
const OTHER: &str = "folder/other";

/// An empty folder for a test alone.
fn folder(name: &str) -> PathBuf {
    let folder = PathBuf::from(env!("CARGO_TARGET_TMPDIR")).join("moved").join(name);
    _ = fs::remove_dir_all(&folder);
    fs::create_dir_all(&folder).unwrap();
    folder
}

/// The book of station 2 of 4 with two heights, three blank votes for the first: it can pass, with a finalise.
fn passable(path: &Path) -> FileBook<Rules> {
    let mut new = Book::open(Rules::SHA256, 4, 2, &[1; 4], &[0, 0]).unwrap();
    for signer in [0, 1, 3] {
        new.deliver(&Frame::DummyVote { signer, height: 1 }.bytes()).unwrap();
    }
    FileBook::create(new, path).unwrap()
}

/// What is done to a book that is open; it is the only one afterwards, by the path that is given back.
type Meddler = fn(&Path) -> Option<PathBuf>;

/// All that people do.
const MEDDLERS: [(&str, Meddler); 6] = [
    ("renamed", |path| {
        fs::rename(path, path.with_extension("moved")).unwrap();
        Some(path.with_extension("moved"))
    }),
    ("removed", |path| {
        fs::remove_file(path).unwrap();
        None
    }),
    ("replaced", |path| {
        let bytes = fs::read(path).unwrap();
        fs::rename(path, path.with_extension("moved")).unwrap();
        fs::write(path, bytes).unwrap();
        Some(path.with_extension("moved"))
    }),
    ("rewritten", |path| {
        let older = Book::open(Rules::SHA256, 4, 2, &[1; 4], &[0, 0]).unwrap();
        fs::write(path, older.bytes()).unwrap();
        Some(path.to_path_buf())
    }),
    ("linked", |path| {
        fs::hard_link(path, path.with_extension("second")).unwrap();
        Some(path.to_path_buf())
    }),
    ("in another folder", |path| {
        let (old, new) = (path.parent().unwrap(), path.parent().unwrap().with_extension("moved"));
        _ = fs::remove_dir_all(&new);
        fs::rename(old, &new).unwrap();
        Some(new.join("book"))
    }),
];

#[test]
fn a_call_on_a_book_that_was_moved_changes_nothing() {
    for (name, meddler) in MEDDLERS {
        let path = folder(name).join("book");
        let mut book = passable(&path);
        let at = meddler(&path);
        let (there, moved) = (fs::read(&path).ok(), at.as_ref().map(|at| fs::read(at).unwrap()));
        assert!(matches!(book.make_move(), Err(Error::Moved(at)) if at == path), "{name}");
        assert!(matches!(book.signal(1), Err(Error::Stale)), "{name}");
        assert!(book.unsent().is_empty(), "{name}");
        assert_eq!(fs::read(&path).ok(), there, "{name}");
        assert_eq!(at.as_ref().map(|at| fs::read(at).unwrap()), moved, "{name}");
        for ending in ["frames", "said"] {
            assert!(!path.with_extension(ending).exists(), "{name}");
            assert!(at.as_ref().is_none_or(|at| !at.with_extension(ending).exists()), "{name}");
        }
    }
}

#[test]
fn so_with_an_observers_book() {
    let certificate = Frame::DummyCertificate { mask: 11, height: 1 }.bytes();
    for (name, meddler) in MEDDLERS {
        let path = folder(&format!("observer {name}")).join("book");
        let new = ObserverBook::open(Rules::SHA256, 4, 3, &[1; 4]).unwrap();
        let mut book = FileObserver::create(new, &path).unwrap();
        meddler(&path);
        let there = fs::read(&path).ok();
        assert!(
            matches!(book.deliver(&certificate), Err(Error::Moved(at)) if at == path),
            "{name}"
        );
        assert!(matches!(book.deliver(&certificate), Err(Error::Stale)), "{name}");
        assert_eq!(fs::read(&path).ok(), there, "{name}");
    }
}

/// Frames that wait belong to the book of their name: an old book neither writes over them nor removes them.
#[test]
fn frames_of_a_book_that_took_the_place_are_left_alone() {
    let folder = folder("frames");
    let (path, other) = (folder.join("book"), folder.join("other"));
    passable(&other).make_move().unwrap();
    let frames = fs::read(other.with_extension("frames")).unwrap();
    for sent in [false, true] {
        _ = fs::remove_file(&path);
        _ = fs::remove_file(path.with_extension("said"));
        let mut book = passable(&path);
        if sent {
            book.make_move().unwrap();
        }
        fs::rename(&path, folder.join("moved")).unwrap();
        fs::copy(&other, &path).unwrap();
        fs::copy(other.with_extension("frames"), path.with_extension("frames")).unwrap();
        let ended = if sent { book.sent() } else { book.make_move().map(|_| ()) };
        assert!(matches!(ended, Err(Error::Moved(_))));
        assert_eq!(fs::read(path.with_extension("frames")).unwrap(), frames);
    }
}

#[test]
fn who_opens_a_renamed_book_waits_for_who_has_it() {
    let folder = folder("waits");
    let (path, other) = (folder.join("book"), folder.join("other"));
    let mut book = passable(&path);
    fs::rename(&path, &other).unwrap();
    let patience = Patience::of(Duration::from_millis(50));
    let refused = FileBook::open_in(Disk { patience }, Rules::SHA256, &other);
    assert!(matches!(refused, Err(Error::Locked { path, .. }) if path == other));
    assert!(matches!(book.make_move(), Err(Error::Moved(_))));
    drop(book);
    let mut again = FileBook::open(Rules::SHA256, &other).unwrap();
    again.signal(1).unwrap();
    again.make_move().unwrap();
    assert!(!path.exists());
}

/// What shows that a book was renamed at the last moment.
#[test]
fn the_machine_tells_whether_a_file_has_a_name() {
    let (folder, disk) = (folder("names"), Disk::default());
    let [path, other, free] = ["book", "other", "free"].map(|name| folder.join(name));
    fs::write(&path, "old").unwrap();
    fs::write(&free, "new").unwrap();
    let held = disk.hold(&path).unwrap().unwrap();
    assert!(disk.is(&held, &path).unwrap());
    fs::rename(&path, &other).unwrap();
    assert!(!disk.is(&held, &path).unwrap());
    fs::rename(&free, &path).unwrap();
    assert_eq!(disk.has_name(&held, &free).unwrap(), Some(true));
    assert!(!free.exists() && !disk.is(&held, &path).unwrap());
    fs::rename(&path, &other).unwrap();
    assert_eq!(disk.has_name(&held, &free).unwrap(), Some(false));
    assert_eq!(fs::read(&other).unwrap(), b"new");
}

/// A lock file that somebody removed lets nobody in.
#[test]
fn a_book_is_locked_without_its_lock_file() {
    let path = folder("unlocked").join("book");
    let mut book = passable(&path);
    fs::remove_file(path.with_extension("lock")).unwrap();
    let patience = Patience::of(Duration::ZERO);
    let open = || FileBook::open_in(Disk { patience }, Rules::SHA256, &path);
    assert!(matches!(open(), Err(Error::Locked { .. })));
    book.signal(1).unwrap();
    fs::remove_file(path.with_extension("lock")).unwrap();
    assert!(matches!(open(), Err(Error::Locked { .. })));
    drop(book);
    assert!(open().is_ok());
}

/// A station whose book somebody meddles with after so many steps, and who is at work next: who opens the other name,
/// then who opens the first one again, each with a timer that has fired; none if nobody meddled any more.
fn lives_after(
    mut station: Station,
    steps: usize,
    meddling: &Meddling,
    silent: bool,
) -> Option<Station> {
    if silent {
        station.files.be_silent();
    }
    (station.meddled, station.timer) = (true, true);
    station.files.meddle(steps, BOOK.as_ref(), meddling.clone());
    let first = station.live();
    if station.files.left_alone() {
        return None;
    }
    if matches!(meddling, Meddling::Rename(_)) {
        // Before the book was open it is missing; after the last renaming nobody asks.
        assert!(matches!(first, Err(Error::Moved(_) | Error::Files { .. }) | Ok(_)), "{first:?}");
        let named = [BOOK, OTHER].map(|path| station.files.bytes(path.as_ref()));
        let usable = named.map(|bytes| bytes.is_some_and(|bytes| !bytes.is_empty()));
        assert!(usable == [false, true] || (silent && usable == [true, false]));
    }
    for path in [OTHER, BOOK] {
        (station.path, station.done, station.late) = (path, 0, true);
        if station.files.bytes(path.as_ref()).is_some_and(|book| !book.is_empty()) {
            _ = station.live();
        }
    }
    Some(station)
}

/// Whatever somebody does at any step of a station's work, nobody who goes on afterwards says another thing.
fn meddle_at_every_step(meddling: &Meddling, silent: bool) {
    let mut ends = 0;
    for (seed, way) in (1..).zip([Way::Takes, Way::Bare, Way::Hands]) {
        for steps in 0.. {
            let station = Station::new(Fake::default(), script(seed), way);
            let Some(station) = lives_after(station, steps, meddling, silent) else {
                break;
            };
            assert_eq!(station.broken, None, "{meddling:?} at {steps}, script {seed}, {way:?}");
            ends += 1;
        }
    }
    assert!(ends > 500, "{ends}");
}

#[test]
fn a_renaming_at_every_step() {
    meddle_at_every_step(&Meddling::Rename(OTHER.into()), false);
}

/// So too where the file system does not tell whether a file has a name.
#[test]
fn a_renaming_at_every_step_that_does_not_show() {
    meddle_at_every_step(&Meddling::Rename(OTHER.into()), true);
}

#[test]
fn a_removal_and_an_older_copy_at_every_step() {
    let older = Book::open(Rules::SHA256, 4, 2, &[1; 4], &common::script::LEADERS)
        .unwrap()
        .bytes()
        .to_vec();
    let others = [Meddling::Remove, Meddling::Replace(older.clone()), Meddling::Rewrite(older)];
    others.iter().for_each(|meddling| meddle_at_every_step(meddling, false));
}
