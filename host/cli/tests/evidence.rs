//! Frames that contradict what a book has: what is said of them, the status, and what `--evidence` keeps.

mod common;

use common::{fine, folder, refused, run, Ended};
use std::path::{Path, PathBuf};
use types::{Block, Frame, Height, FRAME};

/// The path of a new book of station 2 of 4 with two heights that station 0 leads; with `observer` an observer's.
fn book(name: &str, command: &str) -> String {
    let path = folder("evidence").join(format!("{command}-{name}"));
    let path = path.to_str().unwrap().to_string();
    match command {
        "call" => fine(&format!("open {path} --n 4 --own 2 --roll 0,0 --force"), &[]),
        _ => fine(&format!("observer {path} open --n 4 --heights 2 --force"), &[]),
    };
    path
}

/// A page with one entry of this byte alone.
fn page(height: Height, byte: u8) -> Block {
    Block { height, entries: [[byte; 16]].into(), ..Block::default() }
}

/// The certificate of such a page by the stations of a mask.
fn certificate(mask: u16, byte: u8) -> [u8; FRAME] {
    Frame::BlockCertificate { mask, block: page(1, byte) }.bytes()
}

/// A station's vote for the page of a height whose digest has this byte alone.
fn vote(signer: u8, byte: u8) -> [u8; FRAME] {
    Frame::BlockVote { signer, height: 1, digest: [byte; 32] }.bytes()
}

fn proposal(height: Height, byte: u8) -> [u8; FRAME] {
    Frame::Proposal { signer: 0, block: page(height, byte) }.bytes()
}

/// An empty folder for evidence.
fn empty(name: &str) -> PathBuf {
    let path = folder("evidence").join(name);
    _ = std::fs::remove_dir_all(&path);
    path
}

/// The names of the files in a folder, in order.
fn names(folder: &Path) -> Vec<String> {
    let names = std::fs::read_dir(folder).unwrap();
    let mut names: Vec<String> =
        names.map(|file| file.unwrap().file_name().to_str().unwrap().to_string()).collect();
    names.sort();
    names
}

/// The frames as lines of digits.
fn digits(frames: &[[u8; FRAME]]) -> String {
    let line = |frame: &[u8; FRAME]| {
        frame.iter().map(|byte| format!("{byte:02x}")).collect::<String>() + "\n"
    };
    frames.iter().map(line).collect()
}

const CERTIFIED: &str = "two pages of height 1 are certified, and stations 1 2 signed both";

#[test]
fn two_certified_pages_are_told_with_a_status_of_their_own() {
    let frames = [certificate(7, 1), certificate(14, 2)].concat();
    let ten = "refused with 10: another page is notarised at that height\n";
    for (command, call, printed) in [
        ("call", "packet", "counts 1 0 1\n"),
        ("call", "deliver", "fresh\ndeny 10\n"),
        ("observer", "deliver", "fresh\ndeny 10\n"),
    ] {
        let book = book(&format!("certified-{call}"), command);
        let Ended { status, output, complaint } =
            run(&format!("{command} {book} {call} -"), &frames);
        assert_eq!((status, String::from_utf8(output).unwrap().as_str()), (4, printed), "{call}");
        let told = format!("mavunilai: frame 2: {CERTIFIED}; keep both frames\n");
        assert_eq!(complaint, format!("{told}mavunilai: 1 of 2 frames were {ten}"), "{call}");
        let alone = run(&format!("{command} {book} {call} -"), &frames[FRAME..]);
        assert_eq!(alone.status, 4, "{call}");
        assert!(alone.complaint.ends_with(ten), "{}", alone.complaint);
        assert!(alone.complaint.contains(CERTIFIED), "{}", alone.complaint);
    }
}

#[test]
fn two_votes_of_one_station_are_told() {
    let told = "mavunilai: frame 2: station 3 voted for two pages of height 1; keep both frames\n";
    let frames = [vote(3, 1), vote(3, 2), vote(3, 1)].concat();
    let (one, two) = (book("votes-packet", "call"), book("votes-deliver", "call"));
    let ended = run(&format!("call {one} packet -"), &frames);
    assert_eq!((ended.status, ended.text().as_str()), (0, "counts 1 1 1\n"));
    assert_eq!(ended.complaint, told);
    let ended = run(&format!("call {two} deliver -"), &frames);
    assert_eq!((ended.status, ended.text().as_str()), (3, "fresh\ndeny 8\nknown\n"));
    assert_eq!(ended.complaint, format!("{told}mavunilai: 1 of 3 frames were refused\n"));
    let alone = run(&format!("call {two} deliver -"), &vote(3, 2));
    assert_eq!((alone.status, alone.text().as_str()), (3, ""));
    assert!(alone.complaint.starts_with("mavunilai: frame 1: station 3 voted for two pages"));
    assert!(alone.complaint.contains("\nmavunilai: refused with 8: "), "{}", alone.complaint);
}

/// The pairs that a packet of all kinds of evidence leaves: each frame, and what the book has against it.
fn pairs() -> ([[u8; FRAME]; 8], [[[u8; FRAME]; 2]; 4]) {
    let frames = [
        proposal(1, 1),
        proposal(1, 2),
        vote(3, 1),
        vote(3, 2),
        certificate(7, 1),
        certificate(14, 2),
        proposal(2, 1),
        proposal(2, 2),
    ];
    let [first, second, one, two, page, other, above, above_too] = frames;
    (frames, [[second, first], [two, one], [other, page], [above_too, above]])
}

#[test]
fn a_folder_keeps_both_frames_of_each_pair() {
    let (frames, pairs) = pairs();
    for call in ["packet", "deliver"] {
        let (book, kept) = (book(&format!("kept-{call}"), "call"), empty(&format!("kept-{call}")));
        let words = format!("call {book} {call} - --evidence {}", kept.display());
        let ended = run(&words, &frames.concat());
        assert_eq!(ended.status, 4);
        let files: Vec<String> = names(&kept);
        assert_eq!(files.len(), 8, "{files:?}");
        for (pair, start) in pairs.iter().zip([
            "height-1-proposals-of-0-",
            "height-1-page-votes-of-3-",
            "height-1-page-certificates-",
            "height-2-proposals-of-0-",
        ]) {
            let name = files.iter().find(|file| file.starts_with(start)).unwrap();
            let file = kept.join(name).with_extension("hex");
            assert_eq!(std::fs::read_to_string(&file).unwrap(), digits(pair));
            let told = format!("; {} has both frames\n", file.display());
            assert!(ended.complaint.contains(&told), "{}", ended.complaint);
            let shown = String::from_utf8(fine(&format!("show frame {}", file.display()), &[]));
            let [one, two] = pair.map(|frame| String::from_utf8(fine("show frame -", &frame)));
            let (one, two) = (one.unwrap(), two.unwrap());
            assert_eq!(shown.unwrap(), format!("{one}\n{two}"));
            let text = std::fs::read_to_string(file.with_extension("txt")).unwrap();
            assert!(text.contains(&one) && text.contains(&two), "{text}");
        }
        // The same again is the same evidence.
        assert_eq!(run(&words, &frames.concat()).status, 4);
        assert_eq!(names(&kept), files);
    }
}

#[test]
fn the_kept_certificate_is_that_of_the_book() {
    let (book, kept) = (book("fetched", "call"), empty("fetched"));
    fine(&format!("call {book} deliver -"), &certificate(7, 1));
    let words = format!("call {book} packet - --evidence {}", kept.display());
    assert_eq!(run(&words, &certificate(14, 2)).status, 4);
    let fetched = String::from_utf8(fine(&format!("call {book} fetch 5 1"), &[])).unwrap();
    let [file, _] = names(&kept).try_into().unwrap();
    let pair = std::fs::read_to_string(kept.join(file)).unwrap();
    assert_eq!(pair.lines().nth(1), fetched.lines().nth(1));
}

#[test]
fn an_observer_keeps_two_certificates() {
    let (book, kept) = (book("kept", "observer"), empty("observed"));
    let frames = [certificate(7, 1), certificate(14, 2)];
    let words = format!("observer {book} deliver - --evidence {}", kept.display());
    assert_eq!(run(&words, &frames.concat()).status, 4);
    let [file, _] = names(&kept).try_into().unwrap();
    let [page, other] = frames;
    assert_eq!(std::fs::read_to_string(kept.join(file)).unwrap(), digits(&[other, page]));
}

#[test]
fn a_folder_that_takes_nothing_ends_the_call_before_the_book_changes() {
    let (frames, _) = pairs();
    let file = folder("evidence").join("a-file");
    std::fs::write(&file, "other").unwrap();
    for command in ["call", "observer"] {
        let book = book("untouched", command);
        let before = std::fs::read(&book).unwrap();
        for bad in [file.to_str().unwrap(), "/no/such/folder", "/dev/full"] {
            let words = format!("{command} {book} deliver - --evidence {bad}");
            refused(&words, &frames.concat(), "takes no evidence");
            assert_eq!(std::fs::read(&book).unwrap(), before);
        }
    }
    assert_eq!(std::fs::read(&file).unwrap(), b"other");
}

#[test]
fn a_file_that_holds_something_else_is_left_alone() {
    let (frames, _) = pairs();
    let (full, fresh) = (book("filled", "call"), book("fresh", "call"));
    let kept = empty("other");
    let words = |book: &str| format!("call {book} packet - --evidence {}", kept.display());
    run(&words(&full), &frames.concat());
    let file = kept.join(&names(&kept)[0]);
    std::fs::write(&file, "mine").unwrap();
    let before = std::fs::read(&fresh).unwrap();
    let ended = run(&words(&fresh), &frames.concat());
    assert_eq!((ended.status, ended.text().as_str()), (2, ""));
    assert!(ended.complaint.contains("is there and holds other evidence"), "{}", ended.complaint);
    assert_eq!(std::fs::read(&fresh).unwrap(), before);
    assert_eq!(std::fs::read(&file).unwrap(), b"mine");
}

#[test]
fn evidence_is_kept_where_the_output_is_full() {
    let (book, kept) = (book("full", "call"), empty("full-output"));
    let frames = format!("{book}.pile");
    std::fs::write(&frames, pairs().0.concat()).unwrap();
    let output = std::fs::File::options().write(true).open("/dev/full").unwrap();
    let mut command = std::process::Command::new(env!("CARGO_BIN_EXE_mavunilai"));
    command.args(["call", &book, "packet", &frames, "--evidence"]).arg(&kept).stdout(output);
    assert_eq!(command.output().unwrap().status.code(), Some(2));
    assert_eq!(names(&kept).len(), 8);
}

/// A process that may write no file as long as its book ends before the commit: the evidence is there by then.
#[test]
fn evidence_is_kept_before_the_book_changes() {
    let kept = empty("before");
    let book = folder("evidence").join("long").to_str().unwrap().to_string();
    let roll = ["0"; 63].join(",");
    fine(&format!("open {book} --n 4 --own 2 --roll {roll} --force"), &[]);
    let before = std::fs::read(&book).unwrap();
    let frames = format!("{book}.pile");
    std::fs::write(&frames, pairs().0.concat()).unwrap();
    let command = env!("CARGO_BIN_EXE_mavunilai");
    let words = format!("{command} call {book} packet {frames} --evidence {}", kept.display());
    let limited = format!("ulimit -f 8; {words}");
    let ended = std::process::Command::new("bash").args(["-c", &limited]).output().unwrap();
    assert!(!ended.status.success() && ended.status.code() != Some(4), "{ended:?}");
    assert_eq!(std::fs::read(&book).unwrap(), before);
    assert_eq!(names(&kept).len(), 8);
}

#[test]
fn each_frame_of_a_packet_is_told() {
    let (frames, _) = pairs();
    let packet = [&frames.concat(), &vote(9, 1)[..], &vote(3, 1)].concat();
    let book = book("each", "call");
    let ended = run(&format!("call {book} packet - --each"), &packet);
    let each = "fresh fresh fresh deny_8 fresh deny_10 fresh deny_8 deny_5 known";
    let each = each.replace(' ', "\n").replace('_', " ");
    assert_eq!(ended.text(), format!("counts 5 1 4\n{each}\n"));
    assert_eq!(ended.status, 4);
    assert_eq!(fine(&format!("call {book} packet - --each"), &[]), b"counts 0 0 0\n");
    refused(&format!("call {book} deliver - --each"), &packet, "deliver has no --each");
    refused(&format!("call {book} move --evidence x"), &[], "move has no --evidence");
    refused(&format!("observer {book} move --evidence x"), &[], "move has no --evidence");
}
