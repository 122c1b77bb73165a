//! Seasons of up to 1,000 heights: opening them, frames and books of great heights in words, and what is told of books
//! that are not sound, by their edition.

mod common;

use common::{denied, fine, folder, refused, run};
use reference::Rules;
use types::{book_length, observer_book_length, put_edition, Block, Book, Frame, Height};
use types::{ObserverBook, EDITION, MOST_HEIGHTS};

/// The output of a command as text.
fn text(words: &str, input: &[u8]) -> String {
    String::from_utf8(fine(words, input)).unwrap()
}

/// The path of a file for one test, and nothing of it or beside it.
fn fresh(name: &str) -> String {
    let path = folder("heights").join(name).to_str().unwrap().to_string();
    for end in ["", ".lock", ".said", ".frames"] {
        _ = std::fs::remove_file(format!("{path}{end}"));
    }
    path
}

/// A station's book with so many heights, led by 0 to 3 in turn.
fn station(heights: Height) -> Vec<u8> {
    let roll: Vec<u8> = (0..heights).map(|height| (height % 4) as u8).collect();
    Book::open(Rules::SHA256, 4, 2, &[1; 4], &roll).unwrap().bytes().to_vec()
}

/// An observer's.
fn observer(heights: Height) -> Vec<u8> {
    ObserverBook::open(Rules::SHA256, 4, heights, &[1; 4]).unwrap().bytes().to_vec()
}

/// The same book as one of another edition.
fn of_edition(mut book: Vec<u8>, edition: u8) -> Vec<u8> {
    put_edition(&mut book, edition);
    book
}

/// `--heights` lets the leaders of the roll take turns; both kinds have up to 1,000.
#[test]
fn books_are_opened_with_so_many_heights() {
    for heights in [1, 2, 3, 63, 64, 256, 1000] {
        let turns = ["0", "0,1", "0,1,2"][usize::from(heights).min(3) - 1];
        let roll = if heights < 4 { turns } else { "0,1,2,3" };
        let words = format!("open - --n 4 --own 2 --roll {roll} --heights {heights}");
        assert_eq!(fine(&words, &[]), station(heights), "{words}");
        let words = format!("observer - open --n 4 --heights {heights}");
        assert_eq!(fine(&words, &[]), observer(heights), "{words}");
    }
    assert_eq!(fine("open - --n 4 --own 2 --roll 0,1,2", &[]), station(3));
    for heights in [1001, 65535] {
        let open = format!("open - --n 4 --own 2 --roll 0,1 --heights {heights}");
        denied(&open, &[], "refused with 2: ");
        denied(&format!("observer - open --n 4 --heights {heights}"), &[], "refused with 2: ");
    }
    denied("observer - open --n 4 --heights 0", &[], "refused with 2: ");
    let open = "open - --n 4 --own 2 --roll 0,1,2";
    refused(&format!("{open} --heights 2"), &[], "--roll has 3 leaders, and --heights is 2");
    refused(&format!("{open} --heights 65536"), &[], "no number from 0 to 65535");
    refused("open - --n 4 --own 2 --heights 3", &[], "--roll is missing");
}

/// Frames of great heights are made, shown in words and as objects, and taken.
#[test]
fn frames_of_great_heights_are_shown() {
    let vote = fine("frame blank-vote --signer 1 --height 1000", &[]);
    assert_eq!(vote, Frame::DummyVote { signer: 1, height: 1000 }.bytes());
    assert_eq!(text("show frame -", &vote), "blank vote (kind 3)\nsigner 1\nheight 1000\n");
    let object = r#"{"kind":3,"name":"blank vote","height":1000,"signer":1}"#;
    assert_eq!(text("show frame - --json", &vote), format!("{object}\n"));
    let digest = "5a".repeat(32);
    let page = format!("--signer 0 --height 257 --back 256 --back-digest {digest} --entry swap");
    let proposal = fine(&format!("frame proposal {page}"), &[]);
    let block = Block {
        height: 257,
        parent: 256,
        digest: [0x5a; 32],
        entries: [*b"swap            "].into(),
    };
    assert_eq!(proposal, Frame::Proposal { signer: 0, block }.bytes());
    let shown = text("show frame -", &proposal);
    assert!(
        shown.contains("\nheight 257\n") && shown.contains("\nback height 256, back digest 5a5a"),
        "{shown}"
    );
    assert!(text("show frame - --json", &proposal).contains(r#""height":257,"back":256,"#));
    // The same low byte is another height.
    let mut other = proposal.clone();
    other[3] = 0;
    refused("show frame -", &other, "(refusal 4)");
    let mut other = proposal;
    other[49] = 0;
    refused("show frame -", &other, "(refusal 4)");
    refused("frame blank-vote --signer 1 --height 65536", &[], "no number from 0 to 65535");
}

/// Calls on a long book take and give heights of two bytes, and cut none.
#[test]
fn a_long_book_is_called_and_shown() {
    let (book, watch) = (fresh("long"), fresh("watch"));
    fine(&format!("open {book} --n 4 --own 2 --roll 0,1,2,3 --heights 1000"), &[]);
    fine(&format!("observer {watch} open --n 4 --heights 1000"), &[]);
    let certificate = |height| Frame::DummyCertificate { mask: 11, height }.bytes();
    let frames = [1, 2, 256, 1000].map(certificate).concat();
    assert_eq!(text(&format!("call {book} packet -"), &frames), "counts 4 0 0\n");
    let above = certificate(1001);
    denied(&format!("call {book} deliver -"), &above, "refused with 6: ");
    let moves = text(&format!("call {book} run"), &[]);
    let moves: Vec<&str> = moves.lines().filter(|line| line.contains(' ')).collect();
    assert_eq!(moves, ["pass 1 6 4", "pass 2 6 4", "offer 3", "vote 3"]);
    let fetched = text(&format!("call {book} fetch 6 1000"), &[]);
    assert!(fetched.starts_with("done\n0600e8030b0000"), "{fetched}");
    for number in ["65537", "65536", "66536", "18446744073709551615"] {
        denied(&format!("call {book} fetch 6 {number}"), &[], "refused with 6: ");
        denied(&format!("call {book} signal {number}"), &[], "refused with 6: ");
    }
    denied(&format!("call {book} signal 259"), &[], "refused with 14: ");
    let given = fine(&format!("call {book} certificates"), &[]);
    assert_eq!(text(&format!("observer {watch} deliver -"), &given), "fresh\n".repeat(4));
    let shown = text(&format!("show book {book}"), &[]);
    let first =
        "Book of station 2 of 4, edition 3: 1000 heights, settled height 0, 0 pending entries.\n";
    assert!(shown.starts_with(first) && shown.contains("\n1000    3 "), "{shown}");
    let status = text(&format!("status {book} {watch}"), &[]);
    let rows: Vec<Vec<&str>> =
        status.lines().map(|line| line.split_whitespace().skip(1).take(7).collect()).collect();
    assert_eq!(rows[1], ["station", "2", "4", "all", "1", "1000", "3"]);
    assert_eq!(rows[2], ["observer", "4", "all", "1", "1000", "-", "0"]);
    let object = text(&format!("show book {watch} --json"), &[]);
    assert!(object.contains(r#""edition":3,"n":4,"#) && object.contains(r#""heights":1000,"#));
    let last = r#"{"height":1000,"page_certificate":[],"blank":[0,1,3],"#;
    assert!(object.contains(last), "{object}");
    let check = text(&format!("check {book}"), &[]);
    assert!(
        check.starts_with("book: sound, station 2 of 4, edition 3, weights all 1, 1000 heights, "),
        "{check}"
    );
}

/// Entries that settle at great heights are read and followed with their heights.
#[test]
fn a_register_of_great_heights_is_read() {
    let watch = fresh("followed");
    fine(&format!("observer {watch} open --n 4 --heights 300"), &[]);
    let hex =
        |frame: Frame| frame.bytes().iter().map(|byte| format!("{byte:02x}")).collect::<String>();
    let page = |height: Height, entry: &[u8; 16]| {
        let block = Block { height, entries: [*entry].into(), ..Block::default() };
        hex(Frame::BlockCertificate { mask: 7, block }) + "\n"
    };
    let dummies = (1..256).map(|height| hex(Frame::DummyCertificate { mask: 7, height }) + "\n");
    let lines = dummies.collect::<String>() + &page(256, b"swap A12 to B140");
    assert_eq!(
        text(&format!("observer {watch} deliver -"), lines.as_bytes()),
        "fresh\n".repeat(256)
    );
    let finalises = hex(Frame::FinalizeCertificate { mask: 7, height: 256 }) + "\n";
    let entry = "1  256  swap A12 to B140\n";
    assert_eq!(text(&format!("observer {watch} follow"), finalises.as_bytes()), entry);
    assert_eq!(text(&format!("observer {watch} follow"), finalises.as_bytes()), "");
    assert_eq!(text(&format!("observer {watch} follow --since 256"), &[]), entry);
    assert_eq!(text(&format!("observer {watch} follow --since 257"), &[]), "");
    let read = text(&format!("read {watch} --since 256"), &[]);
    assert_eq!(read.lines().nth(1), Some("1      256     swap A12 to B140"));
    assert!(text(&format!("read {watch} --json"), &[])
        .contains(r#""settled":256,"entries":[{"place":1,"height":256,"#));
}

/// Books of all editions are shown, and go beside each other.
#[test]
fn books_of_all_editions_are_shown() {
    let mut words = "show books".to_string();
    for edition in 1..=EDITION {
        let names = ["station", "observer"].map(|kind| fresh(&format!("{kind}{edition}")));
        std::fs::write(&names[0], of_edition(station(63), edition)).unwrap();
        std::fs::write(&names[1], of_edition(observer(63), edition)).unwrap();
        let [one, two] = names.clone().map(|name| text(&format!("show book {name}"), &[]));
        let told = format!("Book of station 2 of 4, edition {edition}: 63 heights, ");
        assert!(one.starts_with(&told), "{one}");
        let told = format!("Observer's book of 4 stations, edition {edition}: 63 heights, ");
        assert!(two.starts_with(&told), "{two}");
        words += &format!(" {} {}", names[0], names[1]);
    }
    assert!(text(&words, &[]).starts_with("6 books of 4 stations: 63 heights.\n"));
}

/// Each kind of book is told by the heights that it says, also where a station's has the length of an observer's.
#[test]
fn books_of_one_length_are_told_apart() {
    assert_eq!((book_length(22), observer_book_length(108)), (19_936, 19_936));
    assert!(text("show book -", &station(22)).starts_with("Book of station 2 of 4"));
    assert!(text("show book -", &observer(108)).starts_with("Observer's book of 4 stations"));
    let damaged = |mut book: Vec<u8>, at: usize, byte: u8, told: &str| {
        book[at] = byte;
        refused("show book -", &book, told);
    };
    damaged(station(22), 1, 4, "byte 1 (own number): own number 4 is not below n, which is 4");
    damaged(observer(108), 1, 4, "byte 1 (own number): it is 4, and must be zero in an observer's");
    let both = "the length is that of a station's book of 22 heights or of an observer's book of 108 heights";
    for book in [station(22), observer(108)] {
        damaged(book.clone(), 40, 7, &format!("byte 40 (number of heights): it is 7, and {both}"));
        damaged(book, 41, 255, "and a book of edition 3 has 1000 at most");
    }
    damaged(
        of_edition(station(22), 2),
        2,
        7,
        &format!("byte 2 (number of heights): it is 7, and {both}"),
    );
}

/// What an edition has no room for.
#[test]
fn the_rule_of_the_edition_is_told() {
    for edition in [1, 2] {
        let most = format!(
            "byte 2 (number of heights): it is 64, and a book of edition {edition} has 63 at most"
        );
        refused("show book -", &of_edition(station(64), edition), &most);
        refused("show book -", &of_edition(observer(64), edition), &most);
        let mut damaged = of_edition(station(63), edition);
        damaged[41] = 1;
        let zero = format!(
            "byte 41 (zeros of the head): it is 1, and must be zero in a book of edition {edition}"
        );
        refused("show book -", &damaged, &zero);
    }
}

/// A book of an edition that is not known is told so wherever books are told, and that a newer program may have made it.
#[test]
fn a_newer_edition_is_told() {
    let path = fresh("newer");
    for mut book in [station(1000), observer(1000), of_edition(station(3), 1)] {
        book[7] = 4;
        let told = "byte 7 (edition): the edition is 4, and this program knows 1 to 3: was the book made by a newer one?";
        refused("show book -", &book, told);
        std::fs::write(&path, &book).unwrap();
        let ended = run(&format!("check {path}"), &[]);
        assert_eq!(ended.status, 3);
        assert!(
            ended.text().starts_with(&format!("book: not sound: {told}\n")),
            "{}",
            ended.text()
        );
        let problem = text_of_status(&path);
        assert!(
            problem.contains(&format!("\"kind\":\"not sound\",\"problem\":\"not sound: {told}\"")),
            "{problem}"
        );
        book.pop();
        refused("show book -", &book, "; byte 7 says edition 4, which this program does not know");
    }
}

/// More than 1,000 heights no book has.
#[test]
fn too_many_heights_are_told() {
    let long = [station(1000), vec![0; 880]].concat();
    refused(
        "show book -",
        &long,
        "the length 881456 is not 576 + 880 H, nor 64 + 184 H, for any H from 1 to 1000",
    );
    let mut long = station(MOST_HEIGHTS);
    [long[40], long[41]] = 1001_u16.to_le_bytes();
    refused("show book -", &long, "it is 1001, and a book of edition 3 has 1000 at most");
}

/// The object of a book that `status` prints.
fn text_of_status(path: &str) -> String {
    run(&format!("status {path} --json"), &[]).text()
}
