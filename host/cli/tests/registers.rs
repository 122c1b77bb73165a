//! `read` and `observer BOOK follow`: entries with place, height and text, and entries as they settle.

mod common;

use common::{denied, fine, folder, list, refused, run};
use std::io::{BufRead, BufReader, Write};
use std::process::{Child, Command, Stdio};
use types::{Block, Frame, FRAME};

/// The folder of the books at the end of the season.
fn season(name: &str) -> String {
    let kept = folder("registers").join(name).to_str().unwrap().to_string();
    fine(&format!("replay {} --keep {kept}", list("season.txt")), &[]);
    kept
}

/// What a command prints.
fn text(words: &str) -> String {
    String::from_utf8(fine(words, &[])).unwrap()
}

/// The path of a new observer's book over four stations, five heights.
fn watch(name: &str) -> String {
    let path = folder("registers").join(name).to_str().unwrap().to_string();
    fine(&format!("observer {path} open --n 4 --heights 5 --force"), &[]);
    path
}

#[test]
fn the_register_has_place_height_and_text() {
    let kept = season("read");
    let all = "\
place  height  text
1      1       \\x00swap A12 to B40
2      2       \\x00seed lot 7 to 3
3      2       \\x00undo A12 to B40
4      4       \\x00plot C7 fallow
";
    let lines: Vec<&str> = all.lines().collect();
    for book in ["book1", "watch"] {
        assert_eq!(text(&format!("read {kept}/{book}")), all);
        for (since, left) in [("0", 4), ("1", 4), ("2", 3), ("3", 1), ("4", 1), ("5", 0)] {
            let read = text(&format!("read {kept}/{book} --since {since}"));
            let places: Vec<&str> = read.lines().skip(1).map(|line| &line[..1]).collect();
            let expected: Vec<&str> = lines[5 - left..].iter().map(|line| &line[..1]).collect();
            assert_eq!(places, expected, "{since}");
        }
    }
    let read = text(&format!("read {kept}/watch --since 4 --json"));
    let entry = r#"{"place":4,"height":4,"hex":"00706c6f742043372066616c6c6f7720","text":"\\x00plot C7 fallow "}"#;
    assert_eq!(
        read,
        format!("{{\"book\":\"{kept}/watch\",\"settled\":4,\"entries\":[{entry}]}}\n")
    );
}

/// An entry that the chain carries again stands once, at the height of its first place.
#[test]
fn a_repeat_has_the_height_of_its_first_place() {
    let book = watch("repeats");
    let page = |height, parent, digest, letters: &[u8]| {
        let entries: Vec<[u8; 16]> = letters.iter().map(|letter| [*letter; 16]).collect();
        Block { height, parent, digest, entries: entries.try_into().unwrap() }
    };
    let first = page(1, 0, [0; 32], b"ab\\a");
    let second = page(3, 1, reference::sha256::digest(&first.bytes()), b"bc");
    let frames = [
        Frame::BlockCertificate { mask: 7, block: first },
        Frame::DummyCertificate { mask: 7, height: 2 },
        Frame::BlockCertificate { mask: 7, block: second },
        Frame::FinalizeCertificate { mask: 7, height: 3 },
    ];
    fine(&format!("observer {book} deliver -"), &frames.map(|frame| frame.bytes()).concat());
    fine(&format!("observer {book} move"), &[]);
    let rows = [("1", "1", "a"), ("2", "1", "b"), ("3", "1", "\\\\"), ("4", "3", "c")];
    let rows = rows.map(|(place, height, letter)| {
        format!("{place}      {height}       {}\n", letter.repeat(16))
    });
    assert_eq!(text(&format!("read {book}")), format!("place  height  text\n{}", rows.concat()));
}

#[test]
fn what_is_no_book_has_no_register() {
    let spoilt = folder("registers").join("spoilt");
    std::fs::write(&spoilt, [1; 1456]).unwrap();
    refused(&format!("read {}", spoilt.display()), &[], "refused with 1: the book is not sound");
    refused("read nowhere", &[], "nowhere cannot be read");
    refused("read", &[], "the file of a book");
    refused("read nowhere --since high", &[], "no number from 0 to 65535");
}

/// A follower of a book, with pipes.
fn follower(words: &[&str]) -> Child {
    let mut command = Command::new(env!("CARGO_BIN_EXE_mavunilai"));
    command.arg("observer").args(words).stdin(Stdio::piped()).stdout(Stdio::piped());
    command.stderr(Stdio::piped()).spawn().unwrap()
}

/// A frame as a line of digits.
fn line(frame: &[u8; FRAME]) -> String {
    frame.iter().map(|byte| format!("{byte:02x}")).collect::<String>() + "\n"
}

#[test]
fn each_entry_is_printed_as_it_settles() {
    let kept = season("followed");
    let book = watch("follows");
    let certificates = text(&format!("call {kept}/book1 certificates"));
    let certificates: Vec<&str> = certificates.lines().collect();
    let mut child = follower(&[&book, "follow"]);
    let mut input = child.stdin.take().unwrap();
    let mut output = BufReader::new(child.stdout.take().unwrap());
    let mut read = || {
        let mut line = String::new();
        output.read_line(&mut line).unwrap();
        // What is printed is in the file by now.
        let settled = std::fs::read(&book).unwrap()[types::field::FINALIZED.long];
        (line, settled)
    };
    // The input stays open: what comes must be told at once. Answers between the frames are left out.
    writeln!(input, "pass 1 5 4\n{}\nfresh\n\n{}", certificates[0], certificates[1]).unwrap();
    assert_eq!(read(), ("1  1  \\x00swap A12 to B40\n".to_string(), 1));
    for certificate in &certificates[2..] {
        writeln!(input, "{certificate}").unwrap();
    }
    assert_eq!(read(), ("2  2  \\x00seed lot 7 to 3\n".to_string(), 4));
    assert_eq!(read(), ("3  2  \\x00undo A12 to B40\n".to_string(), 4));
    assert_eq!(read(), ("4  4  \\x00plot C7 fallow\n".to_string(), 4));
    // Nobody is kept away while it waits.
    assert_eq!(text(&format!("observer {book} move")), "idle\n");
    drop(input);
    let ended = child.wait_with_output().unwrap();
    assert_eq!((ended.status.code(), ended.stderr.as_slice()), (Some(0), &b""[..]));
}

#[test]
fn what_is_settled_before_is_printed_if_it_is_asked_for() {
    let kept = season("since");
    let follow = |words: &str| text(&format!("observer {kept}/watch follow {words}"));
    assert_eq!(follow(""), "");
    assert_eq!(follow("--since 4"), "4  4  \\x00plot C7 fallow\n");
    assert_eq!(follow("--since 1").lines().count(), 4);
    let object = follow("--since 4 --json");
    assert!(object.starts_with("{\"place\":4,\"height\":4,\"hex\":\"00706c"), "{object}");
    // Certificates that were delivered, and not settled by a move, are settled first.
    let book = watch("moves");
    let certificates = fine(&format!("call {kept}/book1 certificates"), &[]);
    fine(&format!("observer {book} deliver -"), &certificates);
    assert_eq!(text(&format!("observer {book} follow")).lines().count(), 4);
    denied(&format!("observer {kept}/book1 follow"), &[], "refused with 1");
    refused(&format!("observer {book} move --since 1"), &[], "move has no --since");
}

#[test]
fn refused_frames_are_told_and_two_pages_end_it() {
    let page = |byte| Block { height: 1, entries: [[byte; 16]].into(), ..Block::default() };
    let certificate = |byte| Frame::BlockCertificate { mask: 7, block: page(byte) }.bytes();
    let finalises = Frame::FinalizeCertificate { mask: 7, height: 1 }.bytes();
    let vote = Frame::DummyVote { signer: 0, height: 1 }.bytes();
    let book = watch("refused");
    let input = [line(&vote), "rubbish\n".to_string(), line(&certificate(b'a'))].concat();
    let ended = run(&format!("observer {book} follow"), (input + &line(&finalises)).as_bytes());
    assert_eq!((ended.status, ended.text()), (3, format!("1  1  {}\n", "a".repeat(16))));
    let complaint = "\
mavunilai: frame 1: refused with 16: the frame is no certificate, and an observer takes no other
mavunilai: line 2 is left out: it is neither a frame in digits nor an answer
mavunilai: 1 of 3 frames were refused
";
    assert_eq!(ended.complaint, complaint);
    let kept = folder("registers").join("two-pages");
    _ = std::fs::remove_dir_all(&kept);
    let words = format!("observer {book} follow --evidence {}", kept.display());
    let input = line(&certificate(b'a')) + &line(&certificate(b'b')) + &line(&vote);
    let ended = run(&words, input.as_bytes());
    assert_eq!((ended.status, ended.text().as_str()), (4, ""));
    let lines: Vec<&str> = ended.complaint.lines().collect();
    assert!(lines[0].starts_with("mavunilai: frame 2: two pages of height 1 are certified"));
    assert!(lines[1].starts_with("mavunilai: refused with 10: ") && lines.len() == 2, "{lines:?}");
    assert_eq!(std::fs::read_dir(&kept).unwrap().count(), 2);
    let strange = run(&format!("observer {book} follow"), b"rubbish\nabcd\n");
    assert_eq!(strange.status, 2);
    assert!(strange.complaint.ends_with("2 lines were neither a frame nor an answer\n"));
}
