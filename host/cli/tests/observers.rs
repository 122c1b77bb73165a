//! `observer`: an observer's book in a file, its calls, what they print, and how it is shown.

mod common;

use common::{denied, fine, folder, list, refused, run};
use types::{Block, Frame, FRAME};

/// The path of a new observer's book over four stations, two heights.
fn watch(name: &str) -> String {
    let path = folder("observers").join(name);
    let path = path.to_str().unwrap().to_string();
    assert!(fine(&format!("observer {path} open --n 4 --heights 2 --force"), &[]).is_empty());
    path
}

/// What a call prints.
fn text(words: &str, input: &[u8]) -> String {
    String::from_utf8(fine(words, input)).unwrap()
}

/// The certificates of a page at height 1: of the page, and of its finalises.
fn certificates() -> [[u8; FRAME]; 2] {
    let block = Block { height: 1, entries: [*b"\0swap A12 to B40"].into(), ..Block::default() };
    [
        Frame::BlockCertificate { mask: 7, block }.bytes(),
        Frame::FinalizeCertificate { mask: 13, height: 1 }.bytes(),
    ]
}

#[test]
fn an_observer_follows_the_register() {
    let book = watch("follows");
    let [page, finalises] = certificates();
    assert_eq!(text(&format!("observer {book} move"), &[]), "idle\n");
    assert_eq!(text(&format!("observer {book} deliver -"), &page), "fresh\n");
    assert_eq!(text(&format!("observer {book} deliver -"), &page), "known\n");
    let both = [page, finalises].concat();
    assert_eq!(text(&format!("observer {book} deliver -"), &both), "known\nfresh\n");
    assert_eq!(text(&format!("observer {book} read"), &[]), "part 0\n");
    assert_eq!(text(&format!("observer {book} move"), &[]), "final 1\n");
    assert_eq!(text(&format!("observer {book} move"), &[]), "idle\n");
    assert_eq!(text(&format!("observer {book} size"), &[]), "size 16\n");
    let read = text(&format!("observer {book} read"), &[]);
    assert_eq!(read.trim_end(), "part 16\n00737761702041313220746f20423430");
}

#[test]
fn frames_that_are_no_certificates_are_refused() {
    let book = watch("refuses");
    let before = std::fs::read(&book).unwrap();
    let vote = Frame::DummyVote { signer: 9, height: 9 }.bytes();
    let words = format!("observer {book} deliver -");
    for (frame, line, sentence) in [
        (&vote[..], "deny 16\n", "mavunilai: refused with 16: the frame is no certificate"),
        (
            &[8; FRAME],
            "deny 4\n",
            "mavunilai: refused with 4: the frame, entry or kind does not have",
        ),
    ] {
        let ended = run(&words, frame);
        assert_eq!((ended.status, ended.text().as_str()), (3, line));
        assert!(ended.complaint.starts_with(sentence), "{}", ended.complaint);
    }
    assert_eq!(std::fs::read(&book).unwrap(), before);
    let [page, finalises] = certificates();
    let ended = run(&words, &[page, vote, finalises, [8; FRAME]].concat());
    assert_eq!((ended.status, ended.text().as_str()), (3, "fresh\ndeny 16\nfresh\ndeny 4\n"));
    assert_eq!(ended.complaint, "mavunilai: 2 of 4 frames were refused\n");
    assert_eq!(text(&format!("observer {book} move"), &[]), "final 1\n");
}

/// A station that has no certificate yet prints none, and that is no frame, not a malformed one.
#[test]
fn no_bytes_are_no_frames() {
    let book = watch("nothing");
    let station = folder("observers").join("new");
    let station = station.to_str().unwrap();
    fine(&format!("open {station} --n 4 --own 0 --roll 0,0 --force"), &[]);
    let before = std::fs::read(&book).unwrap();
    let certificates = fine(&format!("call {station} certificates"), &[]);
    assert_eq!(certificates, b"");
    assert_eq!(text(&format!("observer {book} deliver -"), &certificates), "");
    assert_eq!(std::fs::read(&book).unwrap(), before);
    denied(&format!("observer {station} deliver -"), &[], "refused with 1: ");
    refused("observer nowhere deliver -", &[], "nowhere cannot be read");
}

#[test]
fn opening_is_as_for_a_station() {
    let path = folder("observers").join("opened");
    _ = std::fs::remove_file(&path);
    let path = path.to_str().unwrap();
    fine(&format!("observer {path} open --n 16 --heights=63"), &[]);
    assert_eq!(std::fs::read(path).unwrap().len(), 11_656);
    refused(&format!("observer {path} open --n 4 --heights 1"), &[], "--force begins a new book");
    fine(&format!("observer {path} open --n 4 --heights 1 --force"), &[]);
    assert_eq!(fine("observer - open --n 4 --heights 1", &[]), std::fs::read(path).unwrap());
    for (words, part) in [
        ("open --heights 1", "--n is missing"),
        ("open --n 4", "--heights is missing"),
        ("open --n 4 --heights 1 --own 2", "'--own' is not known here"),
        ("open --n 4 --heights 65536", "no number from 0 to 65535"),
    ] {
        refused(&format!("observer {path} {words}"), &[], part);
    }
    denied(&format!("observer {path} open --n 17 --heights 1 --force"), &[], "refused with 2");
    denied(&format!("observer {path} open --n 4 --heights 1001 --force"), &[], "refused with 2");
}

#[test]
fn other_words_get_a_sentence() {
    let book = watch("words");
    for (words, part) in [
        ("fetch 5 1", "'fetch' with so many words is no call of an observer"),
        ("move now", "'move' with so many words"),
        ("deliver", "'deliver' with so many words"),
        ("size --n 4", "'--n' is not known here"),
        ("", "the file of an observer's book, then a call"),
    ] {
        refused(&format!("observer {book} {words}"), &[], part);
    }
    refused("observer nowhere move", &[], "nowhere cannot be read");
    refused(&format!("observer {book} deliver nowhere"), &[], "nowhere cannot be read");
}

#[test]
fn neither_command_takes_the_others_book() {
    let book = watch("kinds");
    let station = folder("observers").join("station");
    let station = station.to_str().unwrap();
    fine(&format!("open {station} --n 4 --own 0 --roll 0,0 --force"), &[]);
    let [page, _] = certificates();
    for words in ["deliver -", "move", "size", "read"] {
        denied(&format!("observer {station} {words}"), &page, "refused with 1: ");
        denied(&format!("call {book} {words}"), &page, "refused with 1: ");
    }
}

/// A text with the cells of its tables parted by bars: how wide they are depends on the names of files.
fn cells(text: &str) -> String {
    let line = |line: &str| {
        let cells = line.split("  ").map(str::trim).filter(|cell| !cell.is_empty());
        cells.collect::<Vec<_>>().join(" | ") + "\n"
    };
    text.lines().map(line).collect()
}

/// Beside a station's book: the same n and H, no roll to compare, and the registers are held against each other.
#[test]
fn books_of_both_kinds_side_by_side() {
    let kept = folder("observers").join("beside");
    let kept = kept.to_str().unwrap();
    fine(&format!("replay {} --keep {kept}", list("season.txt")), &[]);
    let shown = text(&format!("show books {kept}/watch {kept}/book3"), &[]);
    let expected = "\
2 books of 4 stations: 5 heights.
Each station weighs 1; a quorum weighs 3 or more of 4.
Observer (watch), edition 3: settled height 4.
Station 3 (book3), edition 3: current height 5, settled height 4, 1 pending entry.

height | leader | observer watch | station 3
1 | 0 | page 0d4594f8 in register | page 0d4594f8 in register
2 | 1 | page 7173bee7 in register | page 7173bee7 in register
3 | 3 | blank | blank
4 | 2 | page 3a1b0ed7 in register | page 3a1b0ed7 in register
5 | 0 | - | - <-

Of any two registers one begins the other.
";
    assert_eq!(cells(&shown).replace(&format!("{kept}/"), ""), expected);
    let alone = text(&format!("show books {kept}/watch"), &[]);
    assert!(alone.contains("\n4       -       page 3a1b0ed7 in register\n"), "{alone}");
    let (other, words) = (watch("other"), "have not the same number of heights");
    refused(&format!("show books {kept}/book0 {other}"), &[], words);
    let block = Block { height: 1, entries: [[1; 16]].into(), ..Block::default() };
    let fork = [
        Frame::BlockCertificate { mask: 7, block }.bytes(),
        Frame::FinalizeCertificate { mask: 7, height: 1 }.bytes(),
    ];
    let path = folder("observers").join("forked");
    let path = path.to_str().unwrap();
    fine(&format!("observer {path} open --n 4 --heights 5 --force"), &[]);
    fine(&format!("observer {path} deliver -"), &fork.concat());
    fine(&format!("observer {path} move"), &[]);
    let shown = text(&format!("show books {kept}/book0 {path}"), &[]);
    assert!(shown.contains("THE REGISTERS FORK: "), "{shown}");
    let shown = cells(&text(&format!("show books {kept}/watch {path}"), &[]));
    let heading = format!("\nheight | leader | observer {kept}/watch | observer {path}\n");
    assert!(shown.contains(&heading), "{shown}");
}

/// The observer's book at the end of the season, as it is shown.
#[test]
fn the_book_of_the_season_is_shown() {
    let kept = folder("observers").join("season");
    let kept = kept.to_str().unwrap();
    fine(&format!("replay {} --keep {kept}", list("season.txt")), &[]);
    let shown = text(&format!("show book {kept}/watch"), &[]);
    assert_eq!(shown, include_str!("expected/season-watch.txt"));
    let registers = ["call", "observer"].map(|command| {
        let book = if command == "call" { "book1" } else { "watch" };
        text(&format!("{command} {kept}/{book} read"), &[])
    });
    assert_eq!(registers[0], registers[1]);
}

/// All certificates of a station's book, one to a line, go into an observer's as they are printed.
#[test]
fn certificates_of_a_station_are_handed_on() {
    let kept = folder("observers").join("handed");
    let kept = kept.to_str().unwrap();
    fine(&format!("replay {} --keep {kept}", list("season.txt")), &[]);
    let station = format!("{kept}/book1");
    let before = std::fs::read(&station).unwrap();
    let certificates = text(&format!("call {station} certificates"), &[]);
    assert_eq!(std::fs::read(&station).unwrap(), before);
    let kinds: Vec<&str> = certificates.lines().map(|line| &line[..6]).collect();
    assert_eq!(kinds, ["050001", "070001", "050002", "060003", "050004", "070004"]);
    let path = folder("observers").join("given");
    let path = path.to_str().unwrap();
    fine(&format!("observer {path} open --n 4 --heights 5 --force"), &[]);
    let answers = text(&format!("observer {path} deliver -"), certificates.as_bytes());
    assert_eq!(answers, "fresh\n".repeat(6));
    assert_eq!(text(&format!("observer {path} move"), &[]), "final 4\n");
    let read = text(&format!("observer {path} read"), &[]);
    assert_eq!(read, text(&format!("call {station} read"), &[]));
    refused(&format!("call {station} certificates --out {path}"), &[], "certificates has no --out");
    denied(&format!("call {path} certificates"), &[], "refused with 1: ");
}

#[test]
fn what_is_wrong_with_a_book_is_told() {
    let book = watch("wrong");
    let [page, _] = certificates();
    fine(&format!("observer {book} deliver -"), &page);
    let sound = std::fs::read(&book).unwrap();
    for (at, byte, part) in [
        (42, 1, "byte 42 (current height): it is 1, and must be zero in an observer's book"),
        (43, 1, "byte 43 (current height): it is 1, and must be zero in an observer's book"),
        (1, 2, "byte 1 (own number): it is 2, and must be zero in an observer's book"),
        (5, 1, "byte 5 (zeros behind the flags): it is 1, and must be zero in a book of edition 3"),
        (44, 1, "byte 44 (settled height): height 1 is not settled: its finalises are no quorum"),
        (44, 2, "byte 44 (settled height): height 2 is not settled: it is not linked"),
        (7, 9, "byte 7 (edition): the edition is 9, and this program knows 1 to 3: was the book made by"),
        (40, 3, "byte 40 (number of heights): it is 3, and the length is that of an observer's book of 2"),
        (64, 1, "byte 64 (height 1, state): the state is 1, neither 0 nor 2"),
        (65, 1, "byte 65 (height 1, zero behind the state): it is 1, and must be zero"),
        (66, 1, "byte 66 (height 1, page certificate): a page is notarised"),
        (76, 16, "byte 76 (height 2, blank): the mask has a bit that is not below n"),
        (80, 2, "byte 80 (height 1, notarised page, height): the page says height 2"),
    ] {
        let mut damaged = sound.clone();
        damaged[at] = byte;
        refused("show book -", &damaged, part);
    }
    refused("show book -", &[0; 100], "the length 100 is not 576 + 880 H, nor 64 + 184 H, for any");
}
