//! Who has a book open, how long others wait for it, and whose its files are.

use reference::Rules;
use std::fs;
use std::os::unix::fs::{chown, MetadataExt, PermissionsExt};
use std::path::{Path, PathBuf};
use std::sync::atomic::{AtomicU32, Ordering};
use std::time::{Duration, Instant};
use store::{Disk, Error, FileBook, FileObserver, Holder, Patience};
use types::{Book, ObserverBook};

/// An empty folder for a test alone.
fn folder(name: &str) -> PathBuf {
    let folder = PathBuf::from(env!("CARGO_TARGET_TMPDIR")).join("locks").join(name);
    _ = fs::remove_dir_all(&folder);
    fs::create_dir_all(&folder).unwrap();
    folder
}

/// A new book: station 0 of 4, which leads its one height.
fn new() -> Book<Rules> {
    Book::open(Rules::SHA256, 4, 0, &[1; 4], &[0]).unwrap()
}

/// This process, as a holder.
fn me() -> Holder {
    Holder { process: Some(std::process::id()) }
}

#[test]
fn a_lock_is_not_waited_for_longer_than_asked() {
    let path = folder("longest").join("book");
    let open = |longest| {
        let disk = Disk { patience: Patience::of(longest) };
        FileBook::open_in(disk, Rules::SHA256, &path)
    };
    assert!(matches!(store::holder(&path), Ok(None)));
    let book = FileBook::create(new(), &path).unwrap();
    assert!(matches!(store::holder(&path), Ok(Some(holder)) if holder == me()));
    for longest in [Duration::ZERO, Duration::from_millis(200)] {
        let begun = Instant::now();
        let Err(Error::Locked { path: locked, holder }) = open(longest) else {
            panic!("it is locked");
        };
        assert_eq!((locked, holder), (path.with_extension("lock"), me()));
        assert!(begun.elapsed() >= longest && begun.elapsed() < longest + Duration::from_secs(2));
    }
    drop(book);
    assert!(matches!(store::holder(&path), Ok(None)));
    assert_eq!(fs::read(path.with_extension("lock")).unwrap(), b"");
    assert!(open(Duration::ZERO).is_ok());
}

/// What a process left in the lock file that has ended names nobody.
#[test]
fn a_process_that_has_ended_has_no_lock() {
    let path = folder("ended").join("book");
    drop(FileBook::create(new(), &path).unwrap());
    fs::write(path.with_extension("lock"), "4194304\n").unwrap();
    assert!(matches!(store::holder(&path), Ok(None)));
    let book = FileBook::open(Rules::SHA256, &path).unwrap();
    assert!(matches!(store::holder(&path), Ok(Some(holder)) if holder == me()));
    fs::write(path.with_extension("lock"), "no number").unwrap();
    assert!(matches!(store::holder(&path), Ok(Some(Holder { process: None }))));
    drop(book);
}

/// The process that was told of.
static TOLD: AtomicU32 = AtomicU32::new(0);

/// Keeps the process that has the lock.
fn tell(path: &Path, holder: Holder) {
    assert!(path.ends_with("book.lock"));
    TOLD.store(holder.process.unwrap(), Ordering::SeqCst);
}

#[test]
fn after_two_seconds_it_is_told_who_has_it() {
    let path = folder("told").join("book");
    let watch = ObserverBook::open(Rules::SHA256, 4, 3, &[1; 4]).unwrap();
    let (book, begun) = (FileObserver::create(watch, &path).unwrap(), Instant::now());
    let waits = std::thread::spawn(move || {
        let patience = Patience { longest: None, tell };
        FileObserver::open_in(Disk { patience }, Rules::SHA256, &path).is_ok()
    });
    while TOLD.load(Ordering::SeqCst) == 0 && begun.elapsed() < Duration::from_secs(60) {
        std::thread::sleep(Duration::from_millis(10));
    }
    assert!(begun.elapsed() >= Duration::from_secs(2));
    assert_eq!(TOLD.load(Ordering::SeqCst), std::process::id());
    drop(book);
    assert!(waits.join().unwrap());
}

/// The administrator may make a call for a station, which has its book and all files beside it afterwards.
#[test]
fn a_book_belongs_to_whom_it_did() {
    let folder = folder("owner");
    let path = folder.join("book");
    drop(FileBook::create(new(), &path).unwrap());
    if chown(&path, Some(12345), Some(12346)).is_err() {
        eprintln!("left out: only the administrator gives files away");
        return;
    }
    fs::set_permissions(&path, fs::Permissions::from_mode(0o600)).unwrap();
    fs::remove_file(path.with_extension("lock")).unwrap();
    let mut book = FileBook::open(Rules::SHA256, &path).unwrap();
    book.make_move().unwrap();
    assert_eq!(book.unsent().len(), 1);
    for ending in ["", ".frames", ".said", ".lock"] {
        let file = fs::metadata(folder.join(format!("book{ending}"))).unwrap();
        assert_eq!((file.uid(), file.gid()), (12345, 12346), "book{ending}");
        assert_eq!(file.permissions().mode() & 0o777, 0o600, "book{ending}");
    }
    book.hand_to(folder.join("pile")).unwrap();
    drop(book);
    drop(FileBook::overwrite(new(), &path).unwrap());
    assert_eq!(fs::metadata(&path).unwrap().uid(), 12345);
}
