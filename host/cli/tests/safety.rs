//! `call` on a book in a file: two processes at once, a write that is cut short, an output that fails.

mod common;

use common::{denied, fine, folder, list, refused, run};
use reference::Rules;
use std::fs::{read, write, File};
use std::io::Write;
use std::process::{Command, Stdio};
use std::time::Duration;
use types::{Book, Frame};

/// The path of a book with these blank votes at height 1: station 2 of 4, so many heights that station 0 leads.
fn book(name: &str, heights: usize, signers: &[u8]) -> String {
    let mut book = Book::open(Rules::SHA256, 4, 2, &[1; 4], &vec![0; heights]).unwrap();
    for signer in signers {
        book.deliver(&Frame::DummyVote { signer: *signer, height: 1 }.bytes()).unwrap();
    }
    let path = folder("safety").join(name);
    write(&path, book.bytes()).unwrap();
    path.to_str().unwrap().to_string()
}

/// The lines that a call prints.
fn lines(words: &str) -> Vec<String> {
    let text = String::from_utf8(fine(words, &[])).unwrap();
    text.lines().map(str::to_string).collect()
}

/// A frame as digits.
fn digits(frame: &Frame) -> String {
    frame.bytes().iter().map(|byte| format!("{byte:02x}")).collect()
}

#[test]
fn a_call_that_waits_for_its_input_undoes_nothing() {
    let book = book("waiting", 1, &[0, 1]);
    let command = || Command::new(env!("CARGO_BIN_EXE_mavunilai"));
    let mut waiting = command()
        .args(["call", &book, "deliver", "-"])
        .stdin(Stdio::piped())
        .stdout(Stdio::piped())
        .spawn()
        .unwrap();
    std::thread::sleep(Duration::from_millis(300));
    assert_eq!(lines(&format!("call {book} signal 1")), ["done"]);
    let blank = digits(&Frame::DummyVote { signer: 2, height: 1 });
    assert_eq!(lines(&format!("call {book} move")), ["dummy 1".to_string(), blank]);
    let vote = Frame::DummyVote { signer: 3, height: 1 }.bytes();
    waiting.stdin.take().unwrap().write_all(&vote).unwrap();
    assert_eq!(waiting.wait_with_output().unwrap().stdout, b"fresh\n");
    // The blank vote of height 1 is out: a pass must not finalise that height.
    let certificate = digits(&Frame::DummyCertificate { mask: 11, height: 1 });
    assert_eq!(lines(&format!("call {book} move")), ["pass 1 6 0".to_string(), certificate]);
}

#[test]
fn calls_at_once_lose_nothing() {
    let book = book("at_once", 1, &[]);
    let submit = |number| {
        let mut command = Command::new(env!("CARGO_BIN_EXE_mavunilai"));
        let entry = format!("{:02x}{number:030x}", number % 4);
        command.args(["call", &book, "submit", &entry]);
        command.stdout(Stdio::null()).spawn().unwrap()
    };
    let calls: Vec<_> = (0..16).map(submit).collect();
    calls.into_iter().for_each(|mut call| assert!(call.wait().unwrap().success()));
    assert_eq!(read(&book).unwrap()[types::field::PENDING], 16);
}

#[test]
fn a_write_that_is_cut_short_leaves_the_book() {
    let book = book("short", 63, &[0, 1, 3]);
    let before = read(&book).unwrap();
    for call in ["signal 1", "move", "run"] {
        let limited =
            format!("ulimit -f 2; {} call {book} {call}", env!("CARGO_BIN_EXE_mavunilai"));
        Command::new("bash").args(["-c", &limited]).output().unwrap();
        assert!(read(&book).unwrap() == before, "{call}");
    }
    // The pass was never made, so its frames are nowhere, and the station may still vote blank.
    assert_eq!(lines(&format!("call {book} signal 1")), ["done"]);
    assert_eq!(lines(&format!("call {book} move"))[0], "dummy 1");
}

/// A move whose output goes there, which must fail, and the lines of the next call.
fn after_a_lost_output(name: &str, output: Stdio) {
    let book = book(name, 1, &[0, 1, 3]);
    let mut command = Command::new(env!("CARGO_BIN_EXE_mavunilai"));
    let failed = command.args(["call", &book, "move"]).stdout(output).output().unwrap();
    let complaint = String::from_utf8(failed.stderr).unwrap();
    assert_eq!(failed.status.code(), Some(2), "{complaint}");
    assert!(complaint.contains("the output cannot be written"), "{complaint}");
    let certificate = digits(&Frame::DummyCertificate { mask: 11, height: 1 });
    let finalise = digits(&Frame::Finalize { signer: 2, height: 1 });
    let next = lines(&format!("call {book} move"));
    assert_eq!(next, ["unsent".to_string(), certificate, finalise, "idle".to_string()]);
    assert_eq!(lines(&format!("call {book} move")), ["idle"]);
}

#[test]
fn frames_of_a_linked_book_wait_beside_the_book() {
    let book = book("behind", 1, &[0, 1, 3]);
    let link = folder("safety").join("link");
    _ = std::fs::remove_file(&link);
    std::os::unix::fs::symlink(&book, &link).unwrap();
    let full = File::options().write(true).open("/dev/full").unwrap();
    let mut command = Command::new(env!("CARGO_BIN_EXE_mavunilai"));
    let failed = command.arg("call").arg(&link).arg("move").stdout(full).output().unwrap();
    let complaint = String::from_utf8(failed.stderr).unwrap();
    assert!(complaint.contains("safety/behind.frames for the next call"), "{complaint}");
    assert!(std::path::Path::new(&format!("{book}.frames")).exists());
}

#[test]
fn frames_outlive_a_full_output() {
    after_a_lost_output("full", File::options().write(true).open("/dev/full").unwrap().into());
}

#[test]
fn frames_outlive_a_reader_that_is_gone() {
    let (reader, writer) = std::io::pipe().unwrap();
    drop(reader);
    after_a_lost_output("gone", writer.into());
}

#[test]
fn unsent_frames_go_to_the_file_that_the_next_call_names() {
    let book = book("handed", 1, &[0, 1, 3]);
    let pile = folder("safety").join("pile");
    _ = std::fs::remove_file(&pile);
    let pile = pile.to_str().unwrap();
    let full = File::options().write(true).open("/dev/full").unwrap();
    let mut command = Command::new(env!("CARGO_BIN_EXE_mavunilai"));
    command.args(["call", &book, "move"]).stdout(full).output().unwrap();
    // A question leaves them alone.
    assert_eq!(lines(&format!("call {book} size")), ["size 0"]);
    let bad = format!("call {book} deliver - --out {book}.frames");
    refused(&bad, &Frame::Finalize { signer: 0, height: 1 }.bytes(), "a file beside a book");
    let entry = "00".repeat(16);
    assert_eq!(lines(&format!("call {book} submit {entry} --out {pile}")), ["unsent", "done"]);
    let certificate = digits(&Frame::DummyCertificate { mask: 11, height: 1 });
    let finalise = digits(&Frame::Finalize { signer: 2, height: 1 });
    assert_eq!(std::fs::read_to_string(pile).unwrap(), format!("{certificate}\n{finalise}\n"));
    assert_eq!(lines(&format!("call {book} move --out {pile}")), ["idle"]);
}

#[test]
fn a_file_that_takes_no_frames_stops_the_call_before_its_move() {
    let book = book("nowhere", 1, &[0, 1, 3]);
    let before = read(&book).unwrap();
    let foreign = list("season.txt");
    for (out, part) in [
        (book.as_str(), "takes no frames"),
        (foreign.as_str(), "something else than frames"),
        ("/dev/full", "no plain file"),
        ("/no/such/folder/pile", "cannot be read"),
    ] {
        refused(&format!("call {book} move --out {out}"), &[], part);
        assert_eq!(read(&book).unwrap(), before);
    }
    assert_eq!(lines(&format!("call {book} move"))[0], "pass 1 6 4");
}

#[test]
fn a_new_book_does_not_take_the_place_of_one() {
    let path = folder("safety").join("new");
    let book = path.to_str().unwrap();
    _ = std::fs::remove_file(&path);
    denied(&format!("open {book} --n 4 --own 4 --roll 0"), &[], "refused with 2");
    refused(&format!("open {book} --n 4 --own 2"), &[], "--roll is missing");
    assert!(!path.exists());
    assert!(lines(&format!("open {book} --n 4 --own 2 --roll 0")).is_empty());
    assert_eq!(lines(&format!("call {book} signal 1")), ["done"]);
    let before = read(&path).unwrap();
    refused(&format!("open {book} --n 4 --own 2 --roll 0"), &[], "is there already");
    assert_eq!(read(&path).unwrap(), before);
    assert!(lines(&format!("open {book} --n 4 --own 2 --roll 0 --force")).is_empty());
    assert_eq!(lines(&format!("call {book} move")), ["idle"]);
}

/// A station alone with nine heights, ended by the system at any time: the others get all it said, in order.
#[test]
fn a_run_that_is_killed_again_and_again_says_all_in_the_end() {
    let station = |name: &str| {
        let book = folder("safety").join(name).to_str().unwrap().to_string();
        _ = std::fs::remove_file(format!("{book}.pile"));
        fine(&format!("open {book} --n 1 --own 0 --roll 0,0,0,0,0,0,0,0,0 --force"), &[]);
        book
    };
    let said = |book: &str| {
        let mut frames: Vec<String> = Vec::new();
        for line in std::fs::read_to_string(format!("{book}.pile")).unwrap().lines() {
            if !frames.iter().any(|frame| frame == line) {
                frames.push(line.to_string());
            }
        }
        frames
    };
    let (quiet, killed) = (station("quiet"), station("killed"));
    run(&format!("call {quiet} run --out {quiet}.pile"), &[]);
    let mut ends = 0;
    for microseconds in (0..).map(|round| 500 + round * 1237 % 20_000).take(60) {
        let mut command = Command::new(env!("CARGO_BIN_EXE_mavunilai"));
        command.args(["call", &killed, "run", "--out", &format!("{killed}.pile")]);
        let mut child = command.stdout(Stdio::null()).stderr(Stdio::null()).spawn().unwrap();
        std::thread::sleep(Duration::from_micros(microseconds));
        _ = child.kill();
        ends += usize::from(!child.wait().unwrap().success());
        Book::from_bytes(Rules::SHA256, read(&killed).unwrap()).unwrap();
    }
    assert!(ends > 0);
    run(&format!("call {killed} run --out {killed}.pile"), &[]);
    assert_eq!(read(&killed).unwrap(), read(&quiet).unwrap());
    assert_eq!(said(&killed), said(&quiet));
}
