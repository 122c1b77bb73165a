//! `call`: one call on a book in a file, its answer, what it wrote, and the file after it.

mod common;

use common::{denied, fine, folder, refused, run, run_words};
use types::Frame;

/// The path of a new book for one station of so many, with two heights that station 0 leads.
fn book(name: &str, n: u8) -> String {
    let path = folder("calls").join(name);
    let path = path.to_str().unwrap().to_string();
    assert!(fine(&format!("open {path} --n {n} --own 0 --roll 0,0 --force"), &[]).is_empty());
    path
}

/// The lines that a call prints.
fn lines(words: &str, input: &[u8]) -> Vec<String> {
    let text = String::from_utf8(fine(words, input)).unwrap();
    text.lines().map(str::to_string).collect()
}

/// An entry of the byte 0 and the words "swap A12 to B40".
const ENTRY: &str = "00737761702041313220746f20423430";

#[test]
fn an_entry_of_text_is_filled_up_with_blanks() {
    let book = book("text", 1);
    let submitted = run_words(&["call", &book, "submit", "any 16 bytes"], &[]);
    assert_eq!((submitted.status, submitted.text().as_str()), (0, "done\n"));
    let pending = &std::fs::read(&book).unwrap()[types::Layout::new(2).pending()];
    assert_eq!(pending[..16], *b"any 16 bytes    ");
}

#[test]
fn a_station_alone_fills_its_register() {
    let book = book("alone", 1);
    assert_eq!(lines(&format!("call {book} submit {ENTRY}"), &[]), ["done"]);
    let mut answers = Vec::new();
    loop {
        let made = lines(&format!("call {book} move"), &[]);
        if made[0] == "idle" {
            break;
        }
        for frame in &made[1..] {
            lines(&format!("call {book} deliver -"), frame.as_bytes());
        }
        answers.push(made[0].clone());
    }
    let first = ["offer 1", "vote 1", "pass 1 5 4", "final 1"];
    assert_eq!(answers[..4], first.map(str::to_string));
    assert_eq!(lines(&format!("call {book} size"), &[]), ["size 16"]);
    let read = lines(&format!("call {book} read"), &[]);
    assert_eq!((read[0].as_str(), read.len()), ("part 16", 2));
    assert_eq!(read[1].trim(), ENTRY);
    let fetched = lines(&format!("call {book} fetch 7 1"), &[]);
    assert_eq!((fetched[0].as_str(), &fetched[1][..6]), ("done", "070001"));
}

#[test]
fn the_file_changes_only_where_the_book_does() {
    let book = book("timer", 4);
    let vote = Frame::DummyVote { signer: 1, height: 1 }.bytes();
    assert_eq!(lines(&format!("call {book} deliver -"), &vote), ["fresh"]);
    let kept = std::fs::read(&book).unwrap();
    assert_eq!(lines(&format!("call {book} deliver -"), &vote), ["known"]);
    denied(&format!("call {book} signal 2"), &[], "refused with 14");
    denied(&format!("call {book} fetch 6 1"), &[], "refused with 11");
    assert_eq!(std::fs::read(&book).unwrap(), kept);
    assert_eq!(lines(&format!("call {book} signal 1"), &[]), ["done"]);
    assert_ne!(std::fs::read(&book).unwrap(), kept);
}

#[test]
fn bad_words_get_a_sentence() {
    let book = book("words", 4);
    refused("call", &[], "the file of a book, then a call");
    refused("call /no/such/book size", &[], "cannot be read");
    refused(&format!("call {book} dance"), &[], "'dance' with so many words is no call");
    refused(&format!("call {book} move now"), &[], "'move' with so many words is no call");
    refused(&format!("call {book} signal one"), &[], "'one' is no number");
    refused(&format!("call {book} size --out frames"), &[], "size has no --out");
    denied(&format!("call {book} deliver -"), &[8; types::FRAME], "refused with 4");
    refused(&format!("call {book} submit 0123456789abcdefg"), &[], "more than 16 bytes");
    let spoilt = folder("calls").join("spoilt");
    std::fs::write(&spoilt, [0; 1456]).unwrap();
    denied(&format!("call {} move", spoilt.to_str().unwrap()), &[], "refused with 1");
    denied(&format!("call {} read", spoilt.to_str().unwrap()), &[], "refused with 1");
}

#[test]
fn several_frames_are_delivered_in_order() {
    let book = book("several", 4);
    let vote = |signer| Frame::DummyVote { signer, height: 1 }.bytes();
    let frames = [vote(1), vote(9), vote(1), vote(2)].concat();
    let ended = run(&format!("call {book} deliver -"), &frames);
    assert_eq!((ended.status, ended.text().as_str()), (3, "fresh\ndeny 5\nknown\nfresh\n"));
    assert_eq!(ended.complaint, "mavunilai: 1 of 4 frames were refused\n");
    assert_eq!(lines(&format!("call {book} deliver -"), &frames[..224]), ["known"]);
}

#[test]
fn a_packet_is_counted() {
    let book = book("packet", 4);
    let vote = |signer| Frame::DummyVote { signer, height: 1 }.bytes();
    let frames = [vote(1), vote(9), vote(1), vote(2)].concat();
    let call = format!("call {book} packet -");
    assert_eq!(lines(&call, &frames), ["counts 2 1 1"]);
    let kept = std::fs::read(&book).unwrap();
    assert_eq!(lines(&call, &frames), ["counts 0 3 1"]);
    assert_eq!(lines(&call, &[]), ["counts 0 0 0"]);
    for length in [1, 223, 225, 895] {
        denied(&call, &frames[..length], "refused with 15: the packet's length is not a multiple");
    }
    assert_eq!(std::fs::read(&book).unwrap(), kept);
    refused(&format!("call {book} packet"), &[], "'packet' with so many words is no call");
    let spoilt = folder("calls").join("spoilt packet");
    std::fs::write(&spoilt, [0; 1456]).unwrap();
    let ended = run_words(&["call", spoilt.to_str().unwrap(), "packet", "-"], &frames[..225]);
    assert_eq!((ended.status, ended.text().as_str()), (3, ""));
    assert!(ended.complaint.contains("refused with 1:"), "{}", ended.complaint);
}

/// A proposal of station 0, with one entry of this byte alone.
fn proposal(height: types::Height, byte: u8) -> [u8; types::FRAME] {
    let block = types::Block { height, entries: [[byte; 16]].into(), ..types::Block::default() };
    Frame::Proposal { signer: 0, block }.bytes()
}

/// What is said of a frame of this number.
fn two_pages(number: usize, height: types::Height) -> String {
    format!(
        "mavunilai: frame {number}: station 0 leads height {height} and proposed two pages of it; keep both frames\n"
    )
}

#[test]
fn a_second_page_of_the_leader_is_told() {
    let book = book("two-pages", 4);
    let deliver = |frames: &[[u8; types::FRAME]]| {
        let ended = run(&format!("call {book} deliver -"), &frames.concat());
        (ended.status, ended.text(), ended.complaint)
    };
    let told = |answer: &str, complaint: String| (0, answer.to_string(), complaint);
    assert_eq!(deliver(&[proposal(1, 1)]), told("fresh\n", String::new()));
    assert_eq!(deliver(&[proposal(1, 1)]), told("known\n", String::new()));
    assert_eq!(deliver(&[proposal(1, 2)]), told("fresh\n", two_pages(1, 1)));
    denied(&format!("call {book} signal 1"), &[], "refused with 14: the signal is not for");
    assert_eq!(lines(&format!("call {book} move"), &[])[0], "dummy 1");
    let both = [proposal(1, 1), proposal(1, 3)];
    assert_eq!(deliver(&both), told("known\nknown\n", two_pages(2, 1)));
    let (status, answers, complaint) = deliver(&[1, 2].map(|byte| proposal(2, byte)));
    assert_eq!((status, answers.as_str()), (3, "fresh\ndeny 8\n"));
    assert_eq!(complaint, two_pages(2, 2) + "mavunilai: 1 of 2 frames were refused\n");
    let other = Frame::parts(&proposal(1, 4)).unwrap();
    let Frame::Proposal { block, .. } = other else { panic!("{other:?}") };
    denied(
        &format!("call {book} deliver -"),
        &Frame::Proposal { signer: 1, block }.bytes(),
        "refused with 7",
    );
}

#[test]
fn a_second_page_that_is_refused_alone_is_told() {
    let book = book("two-pages-alone", 4);
    let call = format!("call {book} deliver -");
    assert_eq!(lines(&call, &proposal(2, 1)), ["fresh"]);
    let kept = std::fs::read(&book).unwrap();
    let ended = run(&call, &proposal(2, 2));
    assert_eq!((ended.status, ended.text().as_str()), (3, ""));
    let refusal = ended.complaint.strip_prefix(&two_pages(1, 2)).unwrap();
    assert!(refusal.starts_with("mavunilai: refused with 8: "), "{refusal}");
    assert_eq!((refusal.lines().count(), std::fs::read(&book).unwrap()), (1, kept));
}

#[test]
fn second_pages_are_told_where_the_output_is_full() {
    for call in ["deliver", "packet"] {
        let book = book(&format!("two-pages-full-{call}"), 4);
        let frames = format!("{book}.pile");
        std::fs::write(&frames, [1, 2].map(|byte| proposal(1, byte)).concat()).unwrap();
        let full = std::fs::File::options().write(true).open("/dev/full").unwrap();
        let mut command = std::process::Command::new(env!("CARGO_BIN_EXE_mavunilai"));
        let ended = command.args(["call", &book, call, &frames]).stdout(full).output().unwrap();
        let complaint = String::from_utf8(ended.stderr).unwrap();
        let problem = complaint.strip_prefix(&two_pages(2, 1)).unwrap();
        assert!(problem.contains("the output cannot be written"), "{problem}");
        assert_eq!(ended.status.code(), Some(2));
    }
}

#[test]
fn second_pages_of_a_packet_are_told() {
    let book = book("two-pages-packet", 4);
    let mut of_another = proposal(1, 3);
    of_another[1] = 1;
    let frames = [proposal(1, 1), proposal(1, 2), of_another, proposal(2, 1), proposal(2, 2)];
    let ended = run(&format!("call {book} packet -"), &frames.concat());
    assert_eq!((ended.status, ended.text().as_str()), (0, "counts 3 0 2\n"));
    assert_eq!(ended.complaint, two_pages(2, 1) + &two_pages(5, 2));
    assert_eq!(std::fs::read(&book).unwrap()[types::field::FLAGS], 1);
}

#[test]
fn what_one_station_wrote_is_a_packet_for_another() {
    let (one, two) = (book("wrote", 1), book("reads", 1));
    let frames = format!("{one}.pile");
    _ = std::fs::remove_file(&frames);
    lines(&format!("call {one} run --out {frames}"), &[]);
    assert_eq!(lines(&format!("call {two} packet {frames}"), &[]), ["counts 6 2 0"]);
    let bodies = types::Layout::new(2).area(1, types::Area::Row).start..;
    let [one, two] = [one, two].map(|book| std::fs::read(book).unwrap()[bodies.clone()].to_vec());
    assert_eq!(one, two);
}

#[test]
fn a_run_delivers_what_it_writes_to_itself() {
    let (one, two) = (book("printed", 1), book("handed", 1));
    let printed = lines(&format!("call {one} run"), &[]);
    let frames = format!("{two}.pile");
    _ = std::fs::remove_file(&frames);
    let answers = lines(&format!("call {two} run --out {frames}"), &[]);
    let moves = ["offer 1", "vote 1", "pass 1 5 4", "final 1", "offer 2", "vote 2", "pass 2 5 4"];
    assert_eq!(answers[..7], moves.map(str::to_string));
    assert_eq!(answers[7..], ["final 2", "idle"].map(str::to_string));
    let is_frame = |line: &&String| line.len() == 448;
    let digits: Vec<&String> = printed.iter().filter(is_frame).collect();
    let handed = std::fs::read_to_string(&frames).unwrap();
    assert_eq!(handed.lines().collect::<Vec<_>>(), digits);
    assert_eq!(digits.len(), 8);
    assert_eq!(std::fs::read(one).unwrap(), std::fs::read(&two).unwrap());
    assert_eq!(lines(&format!("call {two} run --out {frames}"), &[]), ["idle"]);
    assert_eq!(std::fs::read_to_string(&frames).unwrap(), handed);
}
