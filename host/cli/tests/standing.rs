//! `check` and `status`: whether books are sound, what they wait for, and what stands beside them.

mod common;

use common::{fine, folder, list, refused, run};
use reference::Rules;
use store::FileBook;
use types::{Block, Frame, FRAME};

/// The path of a new book of station 2 of 4, three heights led by 0, 1, 2, with nothing beside it.
fn book(name: &str) -> String {
    let path = folder("standing").join(name).to_str().unwrap().to_string();
    for ending in [".frames", ".said", ".bak"] {
        _ = std::fs::remove_file(format!("{path}{ending}"));
    }
    fine(&format!("open {path} --n 4 --own 2 --roll 0,1,2 --force"), &[]);
    path
}

/// The status of a check, and its lines.
fn check(book: &str) -> (i32, Vec<String>) {
    let ended = run(&format!("check {book}"), &[]);
    (ended.status, ended.text().lines().map(str::to_string).collect())
}

/// The last cell of the only row.
fn waits(book: &str) -> String {
    let rows = run(&format!("status {book}"), &[]).text();
    let row = rows.lines().nth(1).unwrap();
    row.rsplit("  ").next().unwrap().trim().to_string()
}

/// Frames delivered to a book.
fn deliver(book: &str, frames: &[Frame]) {
    let frames: Vec<u8> = frames.iter().flat_map(Frame::bytes).collect();
    fine(&format!("call {book} deliver -"), &frames);
}

#[test]
fn a_book_that_is_well_has_status_0() {
    let book = book("well");
    let sound = "book: sound, station 2 of 4, edition 3, weights all 1, 3 heights, settled height 0, 0 entries";
    let lines = [sound, "frames: none wait", "said: nothing is kept", "lock: nobody has it"];
    assert_eq!(check(&book), (0, lines.map(str::to_string).to_vec()));
    let kept = folder("standing").join("season").to_str().unwrap().to_string();
    fine(&format!("replay {} --keep {kept}", list("season.txt")), &[]);
    let (status, lines) = check(&format!("{kept}/watch"));
    let sound = "book: sound, an observer of 4, edition 3, weights all 1, 5 heights, settled height 4, 4 entries";
    assert_eq!((status, lines[0].as_str()), (0, sound));
}

#[test]
fn a_book_that_is_not_sound_is_told_with_rule_and_byte() {
    let book = book("spoilt");
    let mut bytes = std::fs::read(&book).unwrap();
    bytes[types::field::CURRENT.long] = 9;
    std::fs::write(&book, &bytes).unwrap();
    let (status, lines) = check(&book);
    let rule = "byte 42 (current height): the current height is 9, not 1 to 4";
    assert_eq!((status, lines[0].clone()), (3, format!("book: not sound: {rule}")));
    let ended = run(&format!("check {book}"), &[]);
    assert_eq!(ended.complaint, format!("mavunilai: {book}: not sound: {rule}\n"));
    refused("check nowhere", &[], "nowhere cannot be read");
    refused("check", &[], "the file of a book");
}

#[test]
fn frames_that_wait_are_told() {
    let book = book("frames");
    fine(&format!("call {book} signal 1"), &[]);
    let full = std::fs::File::options().write(true).open("/dev/full").unwrap();
    let mut command = std::process::Command::new(env!("CARGO_BIN_EXE_mavunilai"));
    command.args(["call", &book, "run"]).stdout(full).output().unwrap();
    let (status, lines) = check(&book);
    let wait = format!("frames: 1 in {book}.frames, which the next call sends");
    assert_eq!((status, lines[1].clone()), (1, wait));
    assert_eq!(waits(&book), "a look: 1 frame waits to be sent");
    // Cut, it is no longer a file of frames.
    let file = format!("{book}.frames");
    let text = std::fs::read(&file).unwrap();
    std::fs::write(&file, &text[..text.len() - 9]).unwrap();
    let (status, lines) = check(&book);
    assert_eq!(status, 1);
    assert!(lines[1].ends_with("frames holds something else than frames"), "{}", lines[1]);
    // Those of another book were never cast.
    let other = String::from_utf8(text).unwrap().replacen("book ", "book 0", 1);
    let end = other.find("\n0").unwrap();
    let other = format!("{}{}", &other[..end - 1], &other[end..]);
    std::fs::write(&file, other).unwrap();
    let (status, lines) = check(&book);
    assert!(lines[1].contains("is of a call that was not committed"), "{}", lines[1]);
    assert_eq!(status, 0);
}

#[test]
fn a_book_that_is_older_than_what_was_said_is_told() {
    let book = book("older");
    fine(&format!("call {book} signal 1"), &[]);
    std::fs::copy(&book, format!("{book}.bak")).unwrap();
    fine(&format!("call {book} run"), &[]);
    let (status, lines) = check(&book);
    assert_eq!((status, lines[2].as_str()), (0, "said: 1 statement, and the book agrees"));
    std::fs::copy(format!("{book}.bak"), &book).unwrap();
    let (status, lines) = check(&book);
    let older = "said: blank-vote of height 1, of which the book does not know: it is an older one";
    assert_eq!((status, lines[2].as_str()), (1, older));
    assert_eq!(waits(&book), "a look: this book is older than what the station has said");
    std::fs::write(format!("{book}.said"), "rubbish").unwrap();
    let (status, lines) = check(&book);
    assert!(lines[2].contains(".said is damaged, or of another season"), "{}", lines[2]);
    assert_eq!(status, 1);
}

/// At each step of a station alone the book agrees with what has been said, and each older copy does not.
#[test]
fn every_older_copy_of_a_season_is_told() {
    let book = folder("standing").join("steps").to_str().unwrap().to_string();
    _ = std::fs::remove_file(format!("{book}.said"));
    fine(&format!("open {book} --n 1 --own 0 --roll 0,0 --force"), &[]);
    let mut copies = vec![std::fs::read(&book).unwrap()];
    loop {
        let made = String::from_utf8(fine(&format!("call {book} move"), &[])).unwrap();
        let frames: Vec<&str> = made.lines().skip(1).collect();
        assert_eq!(check(&book).0, 0, "{made}");
        if made == "idle\n" {
            break;
        }
        if !frames.is_empty() {
            copies.push(std::fs::read(&book).unwrap());
            fine(&format!("call {book} deliver -"), frames.join("\n").as_bytes());
        }
    }
    let last = copies.pop().unwrap();
    assert!(copies.len() > 4);
    for copy in copies {
        std::fs::write(&book, copy).unwrap();
        let (status, lines) = check(&book);
        assert!(status == 1 && lines[2].ends_with("it is an older one"), "{lines:?}");
    }
    std::fs::write(&book, last).unwrap();
    assert_eq!(check(&book).0, 0);
}

#[test]
fn who_has_the_lock_is_told() {
    let book = book("held");
    let held = FileBook::open(Rules::SHA256, &book).unwrap();
    let (status, lines) = check(&book);
    let lock = format!("lock: process {} has it", std::process::id());
    assert_eq!((status, lines[3].clone()), (0, lock));
    let rows = String::from_utf8(fine(&format!("status {book}"), &[])).unwrap();
    assert!(rows.contains(&format!("  process {}  ", std::process::id())), "{rows}");
    drop(held);
    assert_eq!(check(&book).1[3], "lock: nobody has it");
}

#[test]
fn a_row_says_what_a_book_waits_for() {
    let book = book("waits");
    assert_eq!(waits(&book), "the proposal of station 0 or the timer");
    let block = Block { height: 1, ..Block::default() };
    let digest = reference::sha256::digest(&block.bytes());
    deliver(&book, &[Frame::Proposal { signer: 0, block }]);
    assert_eq!(waits(&book), "a move (vote 1)");
    fine(&format!("call {book} move"), &[]);
    assert_eq!(waits(&book), "page votes (weigh 0 of 4, 3 needed) or the timer");
    let vote = |signer| Frame::BlockVote { signer, height: 1, digest };
    deliver(&book, &[vote(0), vote(2), Frame::DummyVote { signer: 3, height: 1 }]);
    fine(&format!("call {book} signal 1"), &[]);
    fine(&format!("call {book} move"), &[]);
    let votes = "page votes (weigh 2 of 4, 3 needed) or blank votes (weigh 1 of 4, 3 needed)";
    assert_eq!(waits(&book), votes);
    deliver(&book, &[vote(1)]);
    fine(&format!("call {book} move"), &[]);
    deliver(&book, &[2, 3].map(|height| Frame::DummyCertificate { mask: 11, height }));
    fine(&format!("call {book} run"), &[]);
    assert_eq!(waits(&book), "nothing, all heights are passed");
    let above = Frame::BlockCertificate {
        mask: 7,
        block: Block { height: 1, parent: 0, ..Block::default() },
    };
    let watch = folder("standing").join("watch").to_str().unwrap().to_string();
    fine(&format!("observer {watch} open --n 4 --heights 3 --force"), &[]);
    assert_eq!(waits(&watch), "certificates");
    let finalises = Frame::FinalizeCertificate { mask: 7, height: 1 };
    let frames: [[u8; FRAME]; 2] = [above.bytes(), finalises.bytes()];
    fine(&format!("observer {watch} deliver -"), frames.as_flattened());
    assert_eq!(waits(&watch), "a move (final 1)");
}

#[test]
fn a_row_for_each_book_whatever_it_is() {
    let book = book("row");
    let spoilt = folder("standing").join("no-book");
    std::fs::write(&spoilt, [0; 100]).unwrap();
    let ended = run(&format!("status {book} {} nowhere", spoilt.display()), &[]);
    let text = ended.text();
    let rows: Vec<Vec<&str>> = text.lines().map(|row| row.split_whitespace().collect()).collect();
    let heading = "book of n weights H c g pending entries frames held by waits for";
    assert_eq!(rows[0], heading.split(' ').collect::<Vec<_>>());
    let row =
        format!("{book} station 2 4 all 1 3 1 0 0 0 0 - the proposal of station 0 or the timer");
    assert_eq!(rows[1], row.split(' ').collect::<Vec<_>>());
    assert_eq!(rows[2][1..12], "not sound - - - - - - - - -".split(' ').collect::<Vec<_>>());
    assert_eq!(rows[3][1..11], "unreadable - - - - - - - - -".split(' ').collect::<Vec<_>>());
    assert_eq!(ended.status, 3);
    assert!(ended.complaint.starts_with("mavunilai: 2 of 3 books should be looked at"));
    assert_eq!(run(&format!("status {book} nowhere"), &[]).status, 2);
    assert_eq!(run(&format!("status {book}"), &[]).status, 0);
    refused("status", &[], "the files of books are missing");
}
