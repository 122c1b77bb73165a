//! Weights: opening with them, what is shown of them, and books of edition 1.

mod common;

use common::{denied, fine, folder, refused, run};
use reference::Rules;
use std::path::Path;
use types::{put_first_edition, Block, Book, Frame, ObserverBook};

/// A large partner and three small ones: 10 of 13, 9 needed.
const LARGE: [u16; 4] = [10, 1, 1, 1];

/// The text that a command prints.
fn text(words: &str, input: &[u8]) -> String {
    String::from_utf8(fine(words, input)).unwrap()
}

/// A station's book with these weights, after these frames.
fn station(weights: &[u16; 4], frames: &[Frame]) -> Book<Rules> {
    let mut book = Book::open(Rules::SHA256, 4, 2, weights, &[0, 1, 2]).unwrap();
    frames.iter().for_each(|frame| assert!(book.deliver(&frame.bytes()).is_ok()));
    book
}

/// An observer's book with these weights, after these frames.
fn observer(weights: &[u16; 4], frames: &[Frame]) -> ObserverBook<Rules> {
    let mut book = ObserverBook::open(Rules::SHA256, 4, 3, weights).unwrap();
    frames.iter().for_each(|frame| assert!(book.deliver(&frame.bytes()).is_ok()));
    book
}

/// These bytes as a book of edition 1.
fn older(bytes: &[u8]) -> Vec<u8> {
    let mut bytes = bytes.to_vec();
    put_first_edition(&mut bytes);
    bytes
}

#[test]
fn weights_are_given_or_are_1() {
    let opened = |more: &str| fine(&format!("open - --n 4 --own 2 --roll 0,1,2{more}"), &[]);
    assert_eq!(opened(" --weights 10,1,1,1"), station(&LARGE, &[]).bytes());
    assert_eq!(opened(" --weights=1000,1,256,7"), station(&[1000, 1, 256, 7], &[]).bytes());
    assert_eq!(opened(""), station(&[1; 4], &[]).bytes());
    let watch = |more: &str| fine(&format!("observer - open --n 4 --heights 3{more}"), &[]);
    assert_eq!(watch(" --weights 10,1,1,1"), observer(&LARGE, &[]).bytes());
    assert_eq!(watch(""), observer(&[1; 4], &[]).bytes());
}

#[test]
fn weights_that_do_not_fit_are_told() {
    for open in ["open - --n 4 --own 2 --roll 0", "observer - open --n 4 --heights 1"] {
        for (list, told) in [
            ("1,1,1", "--weights has 3, and n is 4"),
            ("1,1,1,1,1", "--weights has 5, and n is 4"),
            ("1,0,1,1", "station 1 weighs 0, not 1 to 1000"),
            ("1,1,1,1001", "station 3 weighs 1001, not 1 to 1000"),
            ("65537,1,1,1", "station 0 weighs 65537, not 1 to 1000"),
        ] {
            let sentence = format!("a weight or a leader is out of range: {told}");
            denied(&format!("{open} --weights {list}"), &[], &sentence);
        }
        for (list, word) in [("1,x,1,1", "x"), ("1,,1,1", ""), ("-1,1,1,1", "-1"), ("1.5", "1.5")] {
            let sentence = format!("--weights {list}: '{word}' is no whole number");
            refused(&format!("{open} --weights {list}"), &[], &sentence);
        }
        refused(&format!("{open} --weights 1,1,1,1 --weights 1,1,1,1"), &[], "more than once");
        refused(&format!("{open} --weights"), &[], "--weights needs a value");
    }
    // Where something else is out of range nothing is said of weights.
    let ended = run("open - --n 4 --own 4 --roll 0 --weights 1,1,1,1", &[]);
    assert!(ended.complaint.ends_with("a leader is out of range\n"), "{}", ended.complaint);
}

/// Quorums are explained by weight: three small stations are few, and what they weigh is told.
#[test]
fn quorums_are_told_by_weight() {
    let block = Block { height: 1, ..Block::default() };
    let digest = reference::sha256::digest(&block.bytes());
    let vote = |signer, digest| Frame::BlockVote { signer, height: 1, digest };
    let frames = [
        Frame::Proposal { signer: 0, block },
        vote(1, digest),
        vote(2, digest),
        vote(3, [1; 32]),
        Frame::DummyVote { signer: 1, height: 1 },
        Frame::DummyVote { signer: 3, height: 1 },
        Frame::DummyCertificate { mask: 9, height: 2 },
        Frame::Finalize { signer: 2, height: 3 },
    ];
    let mut book = station(&LARGE, &frames);
    let shown = text("show book -", book.bytes());
    for part in [
        "Book of station 2 of 4, edition 3: 3 heights, settled height 0, 0 pending entries.\n\
         The stations weigh 10,1,1,1; a quorum weighs 9 or more of 13.\n\n",
        "3 page votes are kept, and those for this page weigh 2 of 13, 9 needed.\n",
        "It is not blank: its blank votes weigh 2 of 13, 9 needed.\n",
        "  1 3 (weight 2)  ",
        "  0 3 (weight 11) (quorum)  ",
        "  2 (weight 1)  ",
    ] {
        assert!(shown.contains(part), "{part}\n{shown}");
    }
    book.signal(1).unwrap();
    (0..2).for_each(|_| _ = book.make_move().unwrap());
    let file = folder("weights").join("waits");
    std::fs::write(&file, book.bytes()).unwrap();
    let row = text(&format!("status {}", file.display()), &[]);
    let waits = "page votes (weigh 2 of 13, 9 needed) or blank votes (weigh 2 of 13, 9 needed)\n";
    assert!(row.ends_with(waits) && row.contains("  10,1,1,1  "), "{row}");
}

#[test]
fn an_observers_book_is_shown_by_weight() {
    let block = Block { height: 1, ..Block::default() };
    let frames = [
        Frame::BlockCertificate { mask: 1, block },
        Frame::DummyCertificate { mask: 3, height: 2 },
        Frame::FinalizeCertificate { mask: 13, height: 1 },
    ];
    let shown = text("show book -", observer(&LARGE, &frames).bytes());
    for part in [
        "Observer's book of 4 stations, edition 3: 3 heights, settled height 0.\n\
         The stations weigh 10,1,1,1; a quorum weighs 9 or more of 13.\n\n",
        "  0 (weight 10)  ",
        "  0 1 (weight 11) (quorum)  ",
        "  0 2 3 (weight 12)  ",
    ] {
        assert!(shown.contains(part), "{part}\n{shown}");
    }
}

/// Where weights are equal and not 1 they are told all the same; with one station too.
#[test]
fn equal_weights_are_told() {
    let shown = text("show book -", station(&[5; 4], &[]).bytes());
    assert!(shown.contains("\nThe stations weigh 5,5,5,5; a quorum weighs 14 or more of 20.\n"));
    let alone = fine("open - --n 1 --own 0 --roll 0", &[]);
    let shown = text("show book -", &alone);
    assert!(shown.contains("\nEach station weighs 1; a quorum weighs 1 or more of 1.\n"));
}

/// The objects have edition and weights, and what each mask weighs.
#[test]
fn weights_stand_in_objects() {
    let frames = [
        Frame::DummyCertificate { mask: 3, height: 1 },
        Frame::FinalizeCertificate { mask: 13, height: 1 },
    ];
    let head = r#""n":4,"weights":[10,1,1,1],"total_weight":13,"quorum":9,"heights":3"#;
    let row = r#""page_certificate_weight":0,"blank_weight":11,"finalise_weight":12,"#;
    let [station, observer] = [station(&LARGE, &frames).bytes(), observer(&LARGE, &frames).bytes()]
        .map(|book| text("show book - --json", book));
    for shown in [&station, &observer] {
        assert!(shown.contains(head) && shown.contains(row), "{shown}");
        assert!(shown.contains(r#""edition":3,"#), "{shown}");
    }
}

/// Writes a book to a file of this name.
fn kept(name: &str, bytes: &[u8]) -> String {
    let file = folder("weights").join(name);
    std::fs::write(&file, bytes).unwrap();
    file.to_str().unwrap().to_string()
}

/// An edition 1 is shown and checked as such, and goes beside an edition 3 in which each weighs 1.
#[test]
fn books_of_edition_1_are_told_apart_and_go_with_weights_of_1() {
    let one = kept("one", &older(station(&[1; 4], &[]).bytes()));
    let watch = kept("watch", &older(observer(&[1; 4], &[]).bytes()));
    let two = kept("two", station(&[1; 4], &[]).bytes());
    assert!(text(&format!("show book {one}"), &[]).starts_with(
        "Book of station 2 of 4, edition 1: 3 heights, settled height 0, 0 pending entries.\n\
         Each station weighs 1; a quorum weighs 3 or more of 4.\n"
    ));
    let check = text(&format!("check {one}"), &[]);
    let told = "book: sound, station 2 of 4, edition 1, weights all 1, 3 heights, settled height 0, 0 entries\n";
    assert!(check.starts_with(told), "{check}");
    let check = text(&format!("check {watch}"), &[]);
    assert!(check.starts_with("book: sound, an observer of 4, edition 1, weights all 1, "));
    let beside = text(&format!("show books {one} {two} {watch}"), &[]);
    assert!(beside.contains(&format!("Station 2 ({one}), edition 1: ")), "{beside}");
    assert!(beside.contains(&format!("Observer ({watch}), edition 1: ")), "{beside}");
    let rows = text(&format!("status {one} {two} {watch}"), &[]);
    assert!(!rows.contains("not of one roll"), "{rows}");
    let object = text(&format!("status {one} --json"), &[]);
    assert!(object.contains(r#""edition":1,"n":4,"weights":[1,1,1,1],"heights":3"#), "{object}");
}

/// Books whose weights differ are of two rolls: side by side they are refused, and in rows it is said.
#[test]
fn books_of_other_weights_are_not_of_one_roll() {
    let one = kept("ones", &older(station(&[1; 4], &[]).bytes()));
    let large = kept("large", station(&LARGE, &[]).bytes());
    let watch = kept("follows", observer(&LARGE, &[]).bytes());
    let words = format!("{one} and {large} have not the same weights: 1,1,1,1 and 10,1,1,1");
    refused(&format!("show books {one} {large}"), &[], &words);
    let words = format!("{one} and {watch} have not the same weights: 1,1,1,1 and 10,1,1,1");
    refused(&format!("show books {one} {watch}"), &[], &words);
    let rows = text(&format!("status {large} {watch} {one}"), &[]);
    let line = format!(
        "These books are not of one roll: {large} has the weights 10,1,1,1, and {one} has 1,1,1,1.\n"
    );
    assert!(rows.ends_with(&line), "{rows}");
    assert!(!text(&format!("status {large} {watch}"), &[]).contains("not of one roll"));
    // Another number of heights is another season, of which nothing follows.
    let longer = Book::open(Rules::SHA256, 4, 2, &[1; 4], &[0; 4]).unwrap();
    let longer = kept("longer", longer.bytes());
    assert!(!text(&format!("status {large} {longer}"), &[]).contains("not of one roll"));
}

#[test]
fn the_fields_of_weights_are_named_by_diff() {
    let [one, two] = [station(&LARGE, &[]), station(&[10, 1, 300, 1], &[])];
    let ended =
        run(&format!("diff {} {}", kept("this", one.bytes()), kept("that", two.bytes())), &[]);
    let rows: Vec<String> = ended.text().lines().map(str::to_string).collect();
    let cells: Vec<&str> = rows[1].split("  ").map(str::trim).filter(|c| !c.is_empty()).collect();
    assert_eq!((ended.status, rows.len()), (1, 2));
    assert_eq!(cells, ["weight of station 2", "12", "1", "300"]);
}

/// Each rule of edition and weights that a head can break, told with its byte: for both kinds of book.
#[test]
fn a_head_that_is_not_sound_is_told() {
    let block = Block { height: 1, ..Block::default() };
    let frames = [Frame::BlockCertificate { mask: 14, block }];
    let ones = [1; 4];
    let sound =
        [station(&ones, &frames).bytes().to_vec(), observer(&ones, &frames).bytes().to_vec()];
    for (bytes, told) in [
        (vec![(7, 0)], "byte 7 (edition): the edition is 0, not 1 to 3"),
        (
            vec![(7, 5)],
            "byte 7 (edition): the edition is 5, and this program knows 1 to 3: was the book",
        ),
        (vec![(8, 0)], "byte 8 (weight of station 0): station 0 weighs 0, not 1 to 1000"),
        (vec![(14, 0xe9), (15, 3)], "byte 14 (weight of station 3): station 3 weighs 1001, not"),
        (vec![(11, 0xff)], "byte 10 (weight of station 1): station 1 weighs 65281, not 1 to 1000"),
        (vec![(17, 1)], "byte 16 (weight of station 4): it is 256, and must be zero: n is 4, so"),
        (vec![(38, 7)], "byte 38 (weight of station 15): it is 7, and must be zero: n is 4, so"),
        (
            vec![(46, 9)],
            "byte 46 (zeros of the head): it is 9, and must be zero in a book of edition 3",
        ),
        (vec![(8, 10)], "no quorum: they weigh 3 of 13, 9 needed"),
    ] {
        for sound in &sound {
            let mut book = sound.clone();
            bytes.iter().for_each(|(at, byte)| book[*at] = *byte);
            refused("show book -", &book, told);
        }
    }
}

/// What an edition 1 calls zero is told with its byte.
#[test]
fn zeros_of_edition_1_are_told() {
    for sound in [station(&[1; 4], &[]).bytes(), observer(&[1; 4], &[]).bytes()] {
        let older = older(sound);
        fine("show book -", &older);
        for (at, told) in
            [(8, "weight of station 0"), (40, "zeros of the head"), (63, "zeros of the head")]
        {
            let mut book = older.clone();
            book[at] = 2;
            let told = format!("({told}): it is 2, and must be zero in a book of edition 1");
            refused("show book -", &book, &format!("byte {at} {told}"));
        }
    }
}

/// A book of edition 1 that was kept from before works on through the command, and stays of edition 1.
#[test]
fn a_kept_book_of_edition_1_works_on() {
    let path = kept("before", &older(station(&[1; 4], &[]).bytes()));
    for end in ["said", "frames"] {
        _ = std::fs::remove_file(format!("{path}.{end}"));
    }
    let frames: Vec<u8> = [0, 1, 3]
        .iter()
        .flat_map(|&signer| Frame::DummyVote { signer, height: 1 }.bytes())
        .collect();
    assert_eq!(text(&format!("call {path} deliver -"), &frames), "fresh\nfresh\nfresh\n");
    assert!(text(&format!("call {path} run"), &[]).starts_with("pass 1 6 4\n"));
    let bytes = std::fs::read(&path).unwrap();
    assert_eq!((bytes[7], &bytes[8..64]), (1, &[0; 56][..]));
    assert!(text(&format!("check {path}"), &[]).contains("edition 1"));
    assert!(Path::new(&format!("{path}.said")).exists());
}
