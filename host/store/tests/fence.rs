//! What a station has said stands beside its book: an older copy that is put back says no other thing.

mod common;

use common::fake::{Fake, Fault};
use common::life::{Station, Way, BOOK};
use common::random::Random;
use common::script::script;
use reference::Rules;
use std::fs;
use std::path::{Path, PathBuf};
use store::{Error, FileBook, Said, Statement};
use types::{Block, Book, Frame, Move, FRAME};

/// An empty folder for a test alone.
fn folder(name: &str) -> PathBuf {
    let folder = PathBuf::from(env!("CARGO_TARGET_TMPDIR")).join("fence").join(name);
    _ = fs::remove_dir_all(&folder);
    fs::create_dir_all(&folder).unwrap();
    folder
}

/// The book of station 2 of 4, which leads height 1 if asked for.
fn new(leads: bool) -> Book<Rules> {
    Book::open(Rules::SHA256, 4, 2, &[1; 4], if leads { &[2, 0] } else { &[0, 0] }).unwrap()
}

/// A page of height 1.
fn page(byte: u8) -> Block {
    Block { height: 1, entries: [[byte; 16]].into(), ..Block::default() }
}

/// One thing that comes to the station before a move.
#[derive(Clone, Copy, Debug)]
enum Heard {
    /// Its timer fires.
    Timer,
    /// Blank votes of the three others, so that it can pass.
    Blanks,
    /// The leader's page.
    Page(u8),
    /// An entry.
    Entry(u8),
}

/// Lets a station hear it, move, and send: what the move made, or the error.
fn hear(book: &mut FileBook<Rules>, heard: Heard) -> Result<(Move, Vec<[u8; FRAME]>), Error> {
    match heard {
        Heard::Timer => book.signal(1)?,
        Heard::Blanks => {
            for signer in [0, 1, 3] {
                book.deliver(&Frame::DummyVote { signer, height: 1 }.bytes())?;
            }
        }
        Heard::Page(byte) => {
            book.deliver(&Frame::Proposal { signer: 0, block: page(byte) }.bytes())?;
        }
        Heard::Entry(byte) => book.submit(&[byte; 16])?,
    }
    let made = book.make_move()?;
    let frames = book.unsent().to_vec();
    book.sent()?;
    Ok((made, frames))
}

/// What a station may hear in two lives that makes it say two things; the last one that leads.
const PAIRS: [(Heard, Heard); 4] = [
    (Heard::Timer, Heard::Blanks),
    (Heard::Blanks, Heard::Timer),
    (Heard::Page(1), Heard::Page(2)),
    (Heard::Entry(1), Heard::Entry(2)),
];

/// The book of a station that has heard something and said what it says then, and as it was before.
fn after(name: &str, heard: Heard) -> (PathBuf, Vec<u8>) {
    let path = folder(name).join("book");
    let mut book = FileBook::create(new(matches!(heard, Heard::Entry(_))), &path).unwrap();
    let before = book.book().bytes().to_vec();
    assert_ne!(hear(&mut book, heard).unwrap().0, Move::Idle);
    (path, before)
}

#[test]
fn an_older_copy_says_no_other_thing() {
    for (at, (first, second)) in PAIRS.into_iter().enumerate() {
        let (path, before) = after(&format!("older {at}"), first);
        fs::write(&path, &before).unwrap();
        let mut book = FileBook::open(Rules::SHA256, &path).unwrap();
        let error = hear(&mut book, second).unwrap_err();
        let Error::Contradiction { height: 1, said, now } = error else {
            panic!("{first:?}, {second:?}: {error}");
        };
        assert!(said != now && error.to_string().contains(&said.to_string()), "{error}");
        assert!(error.to_string().contains(&now.to_string()), "{error}");
        assert!(book.unsent().is_empty() && !path.with_extension("frames").exists());
        assert_eq!(fs::read(&path).unwrap(), book.book().bytes());
        // It is no error of the file: what contradicts nothing is done.
        book.submit(&[9; 16]).unwrap();
    }
}

#[test]
fn the_same_may_be_said_again() {
    for (at, (heard, _)) in PAIRS.into_iter().enumerate() {
        let (path, before) = after(&format!("again {at}"), heard);
        let said = store::said(&path).unwrap().unwrap();
        assert!(said.statements().count() == 1, "{said:?}");
        fs::write(&path, &before).unwrap();
        let mut book = FileBook::open(Rules::SHA256, &path).unwrap();
        let (made, frames) = hear(&mut book, heard).unwrap();
        assert!(made != Move::Idle && !frames.is_empty());
        assert_eq!(book.said(), &said);
        drop(book);
        assert_eq!(store::said(&path).unwrap(), Some(said));
    }
}

/// Frames that wait are held against it too, where book and frames were put back together.
#[test]
fn frames_that_wait_are_held_against_it() {
    let path = folder("waiting").join("book");
    let mut book = FileBook::create(new(false), &path).unwrap();
    book.signal(1).unwrap();
    book.make_move().unwrap();
    let (old, frames) = (fs::read(&path).unwrap(), path.with_extension("frames"));
    let waiting = fs::read(&frames).unwrap();
    assert_eq!(store::waiting(&path).unwrap(), book.unsent());
    drop(book);
    fs::remove_file(path.with_extension("said")).unwrap();
    drop(FileBook::overwrite(new(false), &path).unwrap());
    let mut book = FileBook::open(Rules::SHA256, &path).unwrap();
    hear(&mut book, Heard::Blanks).unwrap();
    drop(book);
    fs::write(&path, old).unwrap();
    fs::write(&frames, waiting).unwrap();
    let refused = FileBook::open(Rules::SHA256, &path);
    assert!(matches!(refused, Err(Error::Contradiction { said: Statement::Finalize, .. })));
    assert!(frames.exists());
}

/// Where nothing is beside a book yet, as of an earlier version, the book itself shows what it can.
#[test]
fn a_book_alone_shows_what_it_said() {
    let digest = sha256::digest(&page(1).bytes());
    for (at, (heard, _)) in PAIRS.into_iter().enumerate() {
        let (path, _) = after(&format!("alone {at}"), heard);
        fs::remove_file(path.with_extension("said")).unwrap();
        let book = FileBook::open(Rules::SHA256, &path).unwrap();
        let shown: Vec<_> = book.said().statements().collect();
        // A finalise or a proposal that was not delivered here does not show.
        let expected = match heard {
            Heard::Timer => vec![(1, Statement::DummyVote)],
            Heard::Page(_) => vec![(1, Statement::BlockVote(digest))],
            Heard::Blanks | Heard::Entry(_) => vec![],
        };
        assert_eq!(shown, expected, "{heard:?}");
    }
    let mut taken = Book::open(Rules::SHA256, 1, 0, &[1; 1], &[0, 0]).unwrap();
    let mut said = Vec::new();
    loop {
        let (made, frames) = taken.make_move().unwrap();
        frames.iter().for_each(|frame| _ = taken.deliver(frame));
        said.extend(frames.iter().filter_map(|frame| Statement::of(frame, 0)));
        if made == Move::Idle {
            break;
        }
    }
    said.sort_unstable();
    assert_eq!(said.len(), 6);
    assert_eq!(Said::shown_by(&taken).statements().collect::<Vec<_>>(), said);
}

#[test]
fn a_file_that_was_spoilt_or_is_of_another_season_is_refused() {
    let (path, _) = after("spoilt", Heard::Page(1));
    let said = path.with_extension("said");
    let text = fs::read_to_string(&said).unwrap();
    let other = text.replace("station 2 of 4", "station 1 of 4");
    let twice = text.replace("end\n", "1 finalise\n1 finalise\nend\n");
    let zeros = text.replace("\n1 ", "\n01 ");
    for spoilt in [&text[..text.len() - 1], "", &other, &twice, &zeros] {
        assert_ne!(spoilt, text);
        fs::write(&said, spoilt).unwrap();
        let refused = FileBook::open(Rules::SHA256, &path);
        assert!(matches!(refused, Err(Error::Said(at)) if at == said), "{spoilt}");
    }
    fs::write(&said, &text).unwrap();
    assert!(FileBook::open(Rules::SHA256, &path).is_ok());
}

#[test]
fn a_new_season_begins_only_where_it_is_asked_for() {
    let (path, _) = after("season", Heard::Timer);
    let said = path.with_extension("said");
    fs::remove_file(&path).unwrap();
    let refused = FileBook::create(new(true), &path);
    assert!(matches!(refused, Err(Error::Exists(at)) if at == said));
    assert!(said.exists() && !path.exists());
    let mut book = FileBook::overwrite(new(true), &path).unwrap();
    assert!(!said.exists());
    hear(&mut book, Heard::Entry(1)).unwrap();
    assert!(matches!(FileBook::create(new(true), &said), Err(Error::Reserved(_))));
}

/// A new season begins in the place of a book whose frames wait, and comes to grief after so many steps: whether the
/// new book is there afterwards. Either can be used, the old one with its frames, the new one with nothing said.
fn begun_anew(steps: usize, fault: Fault, seed: u64) -> bool {
    let (files, path) = (Fake::default(), Path::new(BOOK));
    let mut old = FileBook::create_in(files.clone(), new(false), path).unwrap();
    old.signal(1).unwrap();
    old.make_move().unwrap();
    let frames = old.unsent().to_vec();
    drop(old);
    files.fault(steps, fault);
    drop(FileBook::overwrite_in(files.clone(), new(true), path));
    files.revive(&mut Random::new(seed));
    let book = FileBook::open_in(files, Rules::SHA256, path).unwrap();
    let is_new = book.book().bytes() == new(true).bytes();
    assert_eq!(book.unsent(), if is_new { &[] } else { frames.as_slice() });
    assert_eq!(book.said().statements().count(), usize::from(!is_new));
    is_new
}

#[test]
fn a_new_season_begins_or_does_not() {
    let mut seen = [0, 0];
    for fault in [Fault::Process, Fault::Machine, Fault::Refusal] {
        for (steps, seed) in (0..16).flat_map(|steps| (0..10).map(move |seed| (steps, seed))) {
            seen[usize::from(begun_anew(steps, fault, seed))] += 1;
        }
    }
    assert!(seen.iter().all(|count| *count > 50), "{seen:?}");
}

/// A station whose book is put back to an older copy between its lives, again and again, and hears what it had heard
/// once more, with other timers: how often it was stopped, and the first rule that it broke.
fn put_back(seed: u64, fenced: bool) -> (usize, Option<String>) {
    let mut random = Random::new(seed);
    let way = [Way::Takes, Way::Bare, Way::Hands][random.below(3)];
    let files = Fake::default();
    let mut station = Station::new(files.clone(), script(seed % 40), way);
    let mut copies = vec![files.bytes(BOOK.as_ref()).unwrap()];
    let mut stopped = 0;
    for _ in 0..12 {
        files.fault(random.below(300), [Fault::Process, Fault::Machine][random.below(2)]);
        let ended = station.live();
        stopped += usize::from(matches!(ended, Err(Error::Contradiction { .. })));
        files.revive(&mut random);
        copies.extend(files.bytes(BOOK.as_ref()));
        files.put(BOOK.as_ref(), Some(copies[random.below(copies.len())].clone()));
        if !fenced {
            files.put(Path::new(&format!("{BOOK}.said")), None);
        }
        (station.done, station.late) = (0, random.below(2) == 0);
    }
    (stopped, station.broken)
}

#[test]
fn older_copies_again_and_again() {
    let ends: Vec<_> = (0..200).map(|seed| put_back(seed, true)).collect();
    for (seed, (_, broken)) in ends.iter().enumerate() {
        assert_eq!(*broken, None, "seed {seed}");
    }
    assert!(ends.iter().filter(|(stopped, _)| *stopped > 0).count() > 20);
}

/// The test above can fail: without the fence many stations say two things.
#[test]
fn a_fence_that_is_taken_away_is_noticed() {
    let broken = (0..100).filter(|seed| put_back(*seed, false).1.is_some()).count();
    assert!(broken > 10, "{broken}");
}
