//! Frames that a command is given: what calls print goes through a pipe as it is, and what is cut or strange is told.

mod common;

use common::{fine, folder, refused, run, Ended};
use std::fs::read;
use types::{Block, Frame, FRAME};

/// The paths of a new book of a station and of an observer's, over four stations with two heights.
fn books(name: &str) -> [String; 2] {
    let [station, watch] = ["station", "watch"].map(|kind| {
        let path = folder("frame_inputs").join(format!("{name}-{kind}"));
        path.to_str().unwrap().to_string()
    });
    fine(&format!("open {station} --n 4 --own 0 --roll 0,0 --force"), &[]);
    fine(&format!("observer {watch} open --n 4 --heights 2 --force"), &[]);
    [station, watch]
}

/// Three certificates of height 1: a page's, a blank one, and one of finalises.
fn certificates() -> [[u8; FRAME]; 3] {
    let block = Block { height: 1, entries: [[7; 16]].into(), ..Block::default() };
    [
        Frame::BlockCertificate { mask: 7, block }.bytes(),
        Frame::DummyCertificate { mask: 11, height: 1 }.bytes(),
        Frame::FinalizeCertificate { mask: 13, height: 1 }.bytes(),
    ]
}

/// Bytes as digits.
fn digits(bytes: &[u8]) -> String {
    bytes.iter().map(|byte| format!("{byte:02x}")).collect()
}

/// What delivering an input comes to at a station and at an observer, both with a new book; the books are those after
/// these frames alone.
fn delivered(name: &str, input: &[u8], frames: &[[u8; FRAME]]) -> [Ended; 2] {
    let (given, whole) = (books(name), books(&format!("{name}-whole")));
    let words = [("call", 0), ("observer", 1)];
    words.map(|(command, at)| {
        let ended = run(&format!("{command} {} deliver -", given[at]), input);
        for frame in frames {
            fine(&format!("{command} {} deliver -", whole[at]), frame);
        }
        assert!(read(&given[at]).unwrap() == read(&whole[at]).unwrap(), "{name}, {command}");
        ended
    })
}

/// Nothing for nothing: no bytes, or a call that had nothing to print but its answer.
#[test]
fn no_frames_are_no_error() {
    for (name, input) in
        [("nothing", ""), ("blank", " \r\n\n"), ("idle", "idle\n"), ("one", "final 2\nidle")]
    {
        for ended in delivered(name, input.as_bytes(), &[]) {
            assert_eq!(
                (ended.status, ended.text(), ended.complaint),
                (0, String::new(), String::new()),
                "{name}"
            );
        }
    }
}

/// Of an input that is cut the whole frames are taken, and a sentence is said of the rest.
#[test]
fn whole_frames_come_first_and_the_rest_is_told() {
    let all = certificates().concat();
    let (lines, text) = (certificates().map(|frame| digits(&frame) + "\n").concat(), digits(&all));
    let part = |count: usize, left: &str| {
        format!("- is cut: behind {count} frames stands a part of one, {left} of 224")
    };
    let odd = || "- is cut: the last digit of its bytes has no second one".to_string();
    for (name, input, count, sentence) in [
        ("byte", &all[..1], 0, part(0, "1 byte")),
        ("short", &all[..223], 0, part(0, "223 bytes")),
        ("two-bytes", &all[..449], 2, part(2, "1 byte")),
        ("two-short", &all[..671], 2, part(2, "223 bytes")),
        ("digit", &text.as_bytes()[..1], 0, odd()),
        ("digits", &text.as_bytes()[..2], 0, part(0, "1 byte")),
        ("two-digits", &text.as_bytes()[..1096], 2, part(2, "100 bytes")),
        ("two-digit", &text.as_bytes()[..897], 2, odd()),
        ("two-line", &lines.as_bytes()[..1099], 2, odd()),
        ("two-lines", &lines.as_bytes()[..1100], 2, part(2, "101 bytes")),
    ] {
        for ended in delivered(name, input, &certificates()[..count]) {
            assert_eq!((ended.status, ended.text()), (2, "fresh\n".repeat(count)), "{name}");
            assert_eq!(ended.complaint, format!("mavunilai: {sentence}\n"), "{name}");
        }
    }
}

/// A frame that is refused before a cut keeps its status, and both are told.
#[test]
fn a_refusal_before_a_cut_keeps_its_status() {
    let malformed = [9; FRAME];
    let input = [&certificates()[0][..], &malformed, &[5]].concat();
    let [station, observer] = delivered("refused", &input, &certificates()[..1]);
    for ended in [station, observer] {
        assert_eq!((ended.status, ended.text().as_str()), (3, "fresh\ndeny 4\n"));
        let told = "1 of 2 frames were refused; - is cut: behind 2 frames stands a part of one, 1 byte of 224";
        assert_eq!(ended.complaint, format!("mavunilai: {told}\n"));
    }
}

/// All forms of answers that stand beside frames; frames between them are taken as if they stood alone.
#[test]
fn answers_between_frames_go_by() {
    let [page, blank, finalises] = certificates().map(|frame| digits(&frame));
    let (half, rest) = blank.split_at(151);
    let input = format!(
        "unsent\n{page}\nfresh\nknown\r\ndeny 16\ndone\n\ncounts 1 20 300\n{half}\n  {rest}\ndummy 1\n\
         offer 2\nvote 63\npass 1 6 0\n070001000d+00*219\npass 1 5 4\nfinal 2\nidle"
    );
    assert!(finalises.starts_with("070001000d00"));
    for ended in delivered("answers", input.as_bytes(), &certificates()) {
        assert_eq!(
            (ended.status, ended.text(), ended.complaint),
            (0, "fresh\n".repeat(3), String::new())
        );
    }
}

/// What is no digits, no answer, or an answer to the letter but of a register ends the input, with the line's number.
#[test]
fn other_lines_are_told_by_their_number() {
    let [page, ..] = certificates().map(|frame| digits(&frame));
    for line in [
        "hello",
        "part 16",
        "size 16",
        "Idle",
        "idle idle",
        "idle  1",
        "final +4",
        "final 04",
        "final x",
        "final",
        "pass 1 7 4",
        "pass 1 5 1",
        "pass 1  5 4",
        "deny 300",
        "counts 1 2",
        "mavunilai frames 1",
        "060001 idle",
        "-",
        "zz",
        "0g",
        "é",
        "00**2",
        "00+",
    ] {
        let input = format!("idle\n{page}\n{line}\n{page}\n");
        for ended in delivered("strange", input.as_bytes(), &certificates()[..1]) {
            assert_eq!((ended.status, ended.text().as_str()), (2, "fresh\n"), "{line}");
            assert!(
                ended.complaint.starts_with("mavunilai: -, line 3: '"),
                "{line}: {}",
                ended.complaint
            );
        }
    }
    let mut mixed = format!("idle\n{page}\n").into_bytes();
    mixed.extend(certificates()[1]);
    for (name, input) in [("mixed", mixed), ("no-text", [page.as_bytes(), b"\n\n\xff"].concat())] {
        for ended in delivered(name, &input, &certificates()[..1]) {
            assert_eq!((ended.status, ended.text().as_str()), (2, "fresh\n"), "{name}");
            assert!(ended.complaint.starts_with("mavunilai: -, line 3: '"), "{}", ended.complaint);
        }
    }
    let cut = format!("{page}\n{}\nunsent\n{page}\n", &page[..100]);
    for ended in delivered("parted", cut.as_bytes(), &certificates()[..1]) {
        assert_eq!((ended.status, ended.text().as_str()), (2, "fresh\n"));
        let told =
            "mavunilai: -, line 3: 'unsent' stands within a frame, of which a part is missing\n";
        assert_eq!(ended.complaint, told);
    }
}

/// A packet is one call: of an input with a strange line nothing is taken, nor shown.
#[test]
fn a_packet_with_a_strange_line_is_not_delivered() {
    let [station, _] = books("packet");
    let before = read(&station).unwrap();
    let input = format!("{}\nhello\n", digits(&certificates()[0]));
    for words in [format!("call {station} packet -"), "show frame -".to_string()] {
        refused(
            &words,
            input.as_bytes(),
            "-, line 2: 'hello' is neither digits of frames nor an answer",
        );
    }
    assert_eq!(read(&station).unwrap(), before);
}

/// What a station alone prints, by each call that prints frames, is taken by each command that reads them.
#[test]
fn all_that_calls_print_is_read_by_all_that_read_frames() {
    let [one, two, three] = ["one", "two", "three"].map(|name| {
        let path = folder("frame_inputs").join(format!("alone-{name}"));
        let path = path.to_str().unwrap().to_string();
        fine(&format!("open {path} --n 1 --own 0 --roll 0,0 --force"), &[]);
        path
    });
    let offer = fine(&format!("call {one} move"), &[]);
    assert!(offer.starts_with(b"offer 1\n01"));
    assert_eq!(fine(&format!("call {one} deliver -"), &offer), b"fresh\n");
    assert_eq!(fine(&format!("call {two} deliver -"), &offer), b"fresh\n");
    let said = fine(&format!("call {one} run"), &[]);
    let answers = ["fresh", "known", "fresh", "fresh", "fresh", "known", "fresh", ""].join("\n");
    assert_eq!(fine(&format!("call {two} deliver -"), &said), answers.as_bytes());
    let all = [offer, said].concat();
    assert_eq!(fine(&format!("call {three} packet -"), &all), b"counts 6 2 0\n");
    assert_eq!(String::from_utf8(fine("show frame -", &all)).unwrap().matches("(kind ").count(), 8);
    let bodies = types::Layout::new(2).area(1, types::Area::Row).start..;
    let [one_book, two_book, three_book] =
        [&one, &two, &three].map(|book| read(book).unwrap()[bodies.clone()].to_vec());
    assert!(one_book == two_book && one_book == three_book);
    let watch = folder("frame_inputs").join("alone-watch");
    let watch = watch.to_str().unwrap();
    fine(&format!("observer {watch} open --n 1 --heights 2 --force"), &[]);
    for (call, answers) in [
        ("fetch 5 1", "fresh\n"),
        ("fetch 7 1", "fresh\n"),
        ("certificates", "known\nknown\nfresh\nfresh\n"),
    ] {
        let printed = fine(&format!("call {one} {call}"), &[]);
        assert_eq!(
            fine(&format!("observer {watch} deliver -"), &printed),
            answers.as_bytes(),
            "{call}"
        );
    }
    assert_eq!(fine(&format!("observer {watch} move"), &[]), b"final 2\n");
}
