//! A book that another process has open, and one that belongs to another user.

mod common;

use common::{fine, folder, refused};
use reference::Rules;
use std::fs::{metadata, remove_file, write};
use std::io::{BufRead, BufReader, Read};
use std::os::unix::fs::{chown, MetadataExt};
use std::process::{Command, Stdio};
use std::time::{Duration, Instant};
use store::FileBook;
use types::{Book, ObserverBook};

/// The path of a new book: station 0 of 4, which leads its one height.
fn book(name: &str) -> String {
    let path = folder("held").join(name).to_str().unwrap().to_string();
    for ending in ["", ".said", ".frames", ".lock"] {
        _ = remove_file(format!("{path}{ending}"));
    }
    write(&path, Book::open(Rules::SHA256, 4, 0, &[1; 4], &[0]).unwrap().bytes()).unwrap();
    path
}

#[test]
fn an_impatient_call_says_who_has_the_book() {
    let path = book("impatient");
    let held = FileBook::open(Rules::SHA256, &path).unwrap();
    let me = format!("impatient.lock is locked, process {} has it", std::process::id());
    let calls = ["signal 1", "move", "run", "submit x", "deliver -", "packet -"];
    for call in calls {
        refused(&format!("call {path} {call} --wait 0"), &[], &me);
    }
    refused(&format!("observer {path} move --wait 0"), &[], &me);
    refused(&format!("observer {path} deliver - --wait 0"), &[], &me);
    refused(&format!("open {path} --n 4 --own 0 --roll 0 --force --wait 0"), &[], &me);
    refused(&format!("observer {path} open --n 4 --heights 1 --force --wait 0"), &[], &me);
    // Who only looks waits for nobody.
    assert_eq!(fine(&format!("call {path} size"), &[]), b"size 0\n");
    for call in ["size", "read", "certificates", "fetch 5 1"] {
        refused(&format!("call {path} {call} --wait 0"), &[], "has no --wait");
    }
    refused(&format!("observer {path} size --wait 0"), &[], "has no --wait");
    refused(&format!("call {path} move --wait soon"), &[], "no number");
    drop(held);
    assert_eq!(fine(&format!("call {path} signal 1 --wait 0"), &[]), b"done\n");
}

#[test]
fn a_call_that_waits_says_for_whom() {
    let path = book("waits");
    let held = FileBook::open(Rules::SHA256, &path).unwrap();
    let begin = |wait: &[&str]| {
        let mut command = Command::new(env!("CARGO_BIN_EXE_mavunilai"));
        command.args(["call", &path, "signal", "1"]).args(wait);
        command.stdout(Stdio::piped()).stderr(Stdio::piped()).spawn().unwrap()
    };
    let (begun, mut patient, impatient) = (Instant::now(), begin(&[]), begin(&["--wait", "3"]));
    let ended = impatient.wait_with_output().unwrap();
    assert!(begun.elapsed() >= Duration::from_secs(3));
    let has = format!("waits.lock: process {} has it\n", std::process::id());
    let complaint = String::from_utf8(ended.stderr).unwrap();
    assert_eq!(ended.status.code(), Some(2), "{complaint}");
    assert!(complaint.contains(&has) && complaint.lines().count() == 2, "{complaint}");
    let mut told = BufReader::new(patient.stderr.take().unwrap());
    let (mut line, mut rest) = (String::new(), String::new());
    told.read_line(&mut line).unwrap();
    drop(held);
    told.read_to_string(&mut rest).unwrap();
    assert!(line.contains(&has) && rest.is_empty(), "{line}{rest}");
    let ended = patient.wait_with_output().unwrap();
    assert_eq!((ended.status.code(), ended.stdout.as_slice()), (Some(0), b"done\n".as_slice()));
}

/// One call of the administrator leaves the book, and all that is beside it, to its owner.
#[test]
fn a_call_leaves_the_book_to_its_owner() {
    let (path, watch) = (book("owned"), book("watched"));
    let observer = ObserverBook::open(Rules::SHA256, 4, 3, &[1; 4]).unwrap();
    write(&watch, observer.bytes()).unwrap();
    for path in [&path, &watch] {
        if chown(path, Some(12345), Some(12346)).is_err() {
            eprintln!("left out: only the administrator gives files away");
            return;
        }
    }
    fine(&format!("call {path} run"), &[]);
    let certificate = types::Frame::DummyCertificate { mask: 11, height: 1 }.bytes();
    fine(&format!("observer {watch} deliver -"), &certificate);
    for file in [&path, &format!("{path}.said"), &format!("{path}.lock"), &watch] {
        let owner = metadata(file).unwrap();
        assert_eq!((owner.uid(), owner.gid()), (12345, 12346), "{file}");
    }
}
