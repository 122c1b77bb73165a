//! A book that is renamed during a call, and an older copy that is put back: the station says no two things.

mod common;

use common::{fine, folder, refused, run};
use reference::Rules;
use std::fs::{copy, metadata, read, read_to_string, remove_file, rename, write};
use std::os::unix::fs::MetadataExt;
use std::path::Path;
use std::process::{Command, Stdio};
use types::{Book, Frame};

/// The SHA-256 of 63 zeros.
const ROLL: &str = "c7723fa1e0127975e49e62e753db53924c1bd84b8ac1ac08df78d09270f3d971";

/// The path of a new book and of another name for it: station 2 of 4, 63 heights that station 0 leads.
fn book(name: &str) -> [String; 2] {
    let paths = [name.to_string(), format!("{name}-other")];
    let paths = paths.map(|name| folder("two_books").join(name).to_str().unwrap().to_string());
    for path in &paths {
        for ending in ["", ".said", ".frames", ".bak"] {
            _ = remove_file(format!("{path}{ending}"));
        }
    }
    let book = Book::open(Rules::SHA256, 4, 2, &[1; 4], &[0; 63]).unwrap();
    write(&paths[0], book.bytes()).unwrap();
    paths
}

/// Blank votes of the three others at these heights.
fn blanks(heights: impl Iterator<Item = types::Height>) -> Vec<u8> {
    let votes = heights.flat_map(|height| [0, 1, 3].map(|signer| (signer, height)));
    votes.flat_map(|(signer, height)| Frame::DummyVote { signer, height }.bytes()).collect()
}

/// Whether a blank vote and a finalise of height 1 are both among what was printed.
fn says_both(printed: &str) -> bool {
    let digits = |frame: Frame| -> String {
        frame.bytes().iter().map(|byte| format!("{byte:02x}")).collect()
    };
    let blank = digits(Frame::DummyVote { signer: 2, height: 1 });
    let finalise = digits(Frame::Finalize { signer: 2, height: 1 });
    printed.contains(&blank) && printed.contains(&finalise)
}

#[test]
fn a_book_that_is_renamed_during_a_call_becomes_no_second_book() {
    let [path, other] = book("renamed");
    let many = format!("{path}.many");
    write(&many, blanks((2..=63).chain([1]))).unwrap();
    let before = metadata(&path).unwrap().ino();
    let mut command = Command::new(env!("CARGO_BIN_EXE_mavunilai"));
    command.args(["call", &path, "deliver", &many]).stdout(Stdio::null()).stderr(Stdio::piped());
    let child = command.spawn().unwrap();
    // Its first frame is committed, the last one is far.
    while metadata(&path).unwrap().ino() == before {
        std::thread::yield_now();
    }
    rename(&path, &other).unwrap();
    let mut printed = run(&format!("call {other} signal 1"), &[]).text();
    printed += &run(&format!("call {other} move"), &[]).text();
    assert!(printed.contains("dummy 1"), "{printed}");
    let ended = child.wait_with_output().unwrap();
    let complaint = String::from_utf8(ended.stderr).unwrap();
    printed += &run(&format!("call {path} run"), &[]).text();
    assert!(!says_both(&printed), "{printed}");
    assert_eq!(ended.status.code(), Some(2), "{complaint}");
    assert!(complaint.contains("no longer the book that was opened"), "{complaint}");
    assert!(!Path::new(&path).exists());
}

#[test]
fn an_older_copy_that_is_put_back_is_stopped() {
    let [path, _] = book("restored");
    fine(&format!("call {path} packet -"), &blanks(1..=1));
    copy(&path, format!("{path}.bak")).unwrap();
    let mut printed = run(&format!("call {path} run"), &[]).text();
    assert!(printed.contains("pass 1 6 4"), "{printed}");
    copy(format!("{path}.bak"), &path).unwrap();
    assert_eq!(fine(&format!("call {path} signal 1"), &[]), b"done\n");
    let signalled = read(&path).unwrap();
    let ended = run(&format!("call {path} run"), &[]);
    printed += &ended.text();
    assert!(!says_both(&printed), "{printed}");
    assert_eq!((ended.status, ended.output.len()), (2, 0), "{}", ended.complaint);
    for part in ["height 1", "has said finalise", "would say blank-vote now", "older copy"] {
        assert!(ended.complaint.contains(part), "{}", ended.complaint);
    }
    assert_eq!(read(&path).unwrap(), signalled);
    assert!(!Path::new(&format!("{path}.frames")).exists());
}

/// The file of what was said, as the page of formats has it.
#[test]
fn what_was_said_can_be_read() {
    let [path, _] = book("read");
    fine(&format!("call {path} packet -"), &blanks(1..=1));
    fine(&format!("call {path} run"), &[]);
    fine(&format!("call {path} signal 2"), &[]);
    fine(&format!("call {path} move"), &[]);
    let season = format!("station 2 of 4, 63 heights, roll {ROLL}");
    let expected = format!("mavunilai said 1\n{season}\n1 finalise\n2 blank-vote\nend\n");
    assert_eq!(read_to_string(format!("{path}.said")).unwrap(), expected);
}

#[test]
fn a_new_book_does_not_forget_what_a_removed_one_said() {
    let [path, _] = book("removed");
    fine(&format!("call {path} signal 1"), &[]);
    fine(&format!("call {path} move"), &[]);
    remove_file(&path).unwrap();
    let open = format!("open {path} --n 4 --own 2 --roll 0,0");
    refused(&open, &[], "removed.said is there already; --force begins a new book");
    let open_observer = format!("observer {path} open --n 4 --heights 2");
    refused(&open_observer, &[], "removed.said is there already; --force begins a new book");
    assert!(!Path::new(&path).exists());
    fine(&format!("{open} --force"), &[]);
    assert!(!Path::new(&format!("{path}.said")).exists());
    fine(&format!("call {path} packet -"), &blanks(1..=1));
    assert!(run(&format!("call {path} run"), &[]).text().contains("pass 1 6 4"));
}
