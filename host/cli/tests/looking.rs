//! `show book`, `show books` and `diff`: entries, votes, the register, several books, books that are not sound.

mod common;

use common::{fine, folder, list, refused, run};
use reference::Rules;
use types::{Area, Block, Book, Calls, Frame, Layout, ObserverBook};

/// The text that a command prints.
fn text(words: &str, input: &[u8]) -> String {
    String::from_utf8(fine(words, input)).unwrap()
}

/// The folder with the books that the season's list leaves, or leaves at a line.
fn season(name: &str, more: &str) -> String {
    let kept = folder(name).to_str().unwrap().to_string();
    fine(&format!("replay {} --keep {kept}{more}", list("season.txt")), &[]);
    kept
}

#[test]
fn a_book_with_votes_pages_and_entries() {
    let shown = text(&format!("show book {}/book0", season("season", "")), &[]);
    let expected = include_str!("expected/season-book0.txt");
    assert_eq!(shown, expected);
}

#[test]
fn several_books_side_by_side() {
    let kept = season("some", " --stop-at 43");
    let files = [0, 1, 2, 3].map(|station| format!("{kept}/book{station}"));
    let shown =
        text(&format!("show books {}", files.join(" ")), &[]).replace(&format!("{kept}/"), "");
    let expected = "\
4 books of 4 stations: 5 heights.
Each station weighs 1; a quorum weighs 3 or more of 4.
Station 0 (book0), edition 3: current height 2, settled height 0, 1 pending entry.
Station 1 (book1), edition 3: current height 2, settled height 0, 2 pending entries.
Station 2 (book2), edition 3: current height 1, settled height 0, 0 pending entries.
Station 3 (book3), edition 3: current height 1, settled height 0, 0 pending entries.

height  leader  station 0             station 1             station 2                station 3
1       0       page 0d4594f8 linked  page 0d4594f8 linked  page 0d4594f8 linked <-  - <-
2       1       - <-                  - <-                  -                        -
3       3       -                     -                     -                        -
4       2       -                     -                     -                        -
5       0       -                     -                     -                        -

Of any two registers one begins the other.
";
    assert_eq!(shown, expected);
    let kept = season("whole", "");
    let shown = text(&format!("show books {kept}/book0 {kept}/book3"), &[]);
    let row = shown.lines().find(|line| line.starts_with('3')).unwrap();
    assert_eq!(row, "3       3       proposal dd68c34e, blank   blank");
    let row = shown.lines().find(|line| line.starts_with('4')).unwrap();
    assert_eq!(row, "4       2       page 3a1b0ed7 in register  page 3a1b0ed7 in register");
}

/// The bytes of a book of station 0 with one height, whose page with this entry is settled.
fn settled(entry: &[u8; 16]) -> Vec<u8> {
    let mut book = Book::open(Rules::SHA256, 4, 0, &[1; 4], &[0]).unwrap();
    let block = Block { height: 1, entries: [*entry].into(), ..Block::default() };
    book.deliver(&Frame::BlockCertificate { mask: 7, block }.bytes()).unwrap();
    book.deliver(&Frame::FinalizeCertificate { mask: 7, height: 1 }.bytes()).unwrap();
    book.make_move().unwrap();
    book.bytes().to_vec()
}

/// The bytes of a new book of station 1 with these leaders.
fn opened(leaders: &[u8]) -> Vec<u8> {
    Book::open(Rules::SHA256, 4, 1, &[1; 4], leaders).unwrap().bytes().to_vec()
}

#[test]
fn books_of_another_season_and_forks_are_told() {
    let at = folder("forks").to_str().unwrap().to_string();
    let write = |name: &str, bytes: &[u8]| std::fs::write(format!("{at}/{name}"), bytes).unwrap();
    write("a", &settled(b"\0one entry      "));
    write("b", &settled(b"\0another entry  "));
    let shown = text(&format!("show books {at}/a {at}/b"), &[]).replace(&format!("{at}/"), "");
    assert!(shown.ends_with("\nTHE REGISTERS FORK: a and b.\n"), "{shown}");
    write("c", &opened(&[1]));
    refused(&format!("show books {at}/a {at}/c"), &[], "have not the same roll");
    write("d", &opened(&[0, 0]));
    refused(&format!("show books {at}/a {at}/d"), &[], "have not the same number of heights");
    write("e", &[0; 1456]);
    refused(&format!("show books {at}/a {at}/e"), &[], "/e: refused with 1");
    refused("show books", &[], "the files of books are missing");
}

/// Pages that repeat entries, in one page and over two, and the page of a third height that is not settled.
fn repeating() -> Vec<Frame> {
    let [a, b, c] = [b"\0one entry      ", b"\0another entry  ", b"\0a third entry  "];
    let one = Block { height: 1, entries: [*a, *b, *a].into(), ..Block::default() };
    let digest = reference::sha256::digest(&one.bytes());
    let two = Block { height: 2, parent: 1, digest, entries: [*b, *c].into() };
    let digest = reference::sha256::digest(&two.bytes());
    let three = Block { height: 3, parent: 2, digest, entries: [*a].into() };
    let certificates = [one, two, three].map(|block| Frame::BlockCertificate { mask: 7, block });
    certificates.into_iter().chain([Frame::FinalizeCertificate { mask: 7, height: 2 }]).collect()
}

#[test]
fn entries_that_were_filed_before_are_marked() {
    let mut station = Book::open(Rules::SHA256, 4, 0, &[1; 4], &[0, 1, 2]).unwrap();
    let mut observer = ObserverBook::open(Rules::SHA256, 4, 3, &[1; 4]).unwrap();
    for frame in repeating() {
        station.deliver(&frame.bytes()).unwrap();
        observer.deliver(&frame.bytes()).unwrap();
    }
    station.make_move().unwrap();
    observer.make_move().unwrap();
    let expected = "
    006f6e6520656e747279202020202020
    00616e6f7468657220656e7472792020
    006f6e6520656e747279202020202020 (filed before)
    00616e6f7468657220656e7472792020 (filed before)
    006120746869726420656e7472792020
    006f6e6520656e747279202020202020
";
    for bytes in [station.bytes(), observer.bytes()] {
        let shown = text("show book -", bytes);
        let entries = shown.lines().filter(|line| line.starts_with("    "));
        assert_eq!(entries.collect::<Vec<_>>().join("\n"), expected.trim_matches('\n'), "{shown}");
    }
    assert_eq!(text("show book -", station.bytes()).matches(", in the register:").count(), 2);
}

#[test]
fn the_rule_that_a_head_breaks_is_told_with_its_byte() {
    let sound = settled(b"\0one entry      ");
    assert!(Calls::size(&Rules::SHA256, &sound).is_ok());
    let cases = [
        (0, 17, "byte 0 (number of stations): n is 17, not 1 to 16"),
        (1, 4, "byte 1 (own number): own number 4 is not below n, which is 4"),
        (2, 1, "byte 2 (zero before the flags): it is 1, and must be zero in a book of edition 3"),
        (3, 16, "byte 3 (flags of the current height): flags 16 are not below 16"),
        (4, 3, "byte 4 (zeros behind the flags): it is 3, and must be zero in a book of edition 3"),
        (40, 2, "byte 40 (number of heights): it is 2, and the length is that of a station's book of 1 height"),
        (42, 3, "byte 42 (current height): the current height is 3, not 1 to 2"),
        (44, 2, "byte 44 (settled height): the settled height is 2, above the last one"),
        (6, 33, "byte 6 (number of pending entries): 33 entries are pending, 32 at most can be"),
        (7, 0, "byte 7 (edition): the edition is 0, not 1 to 3"),
        (7, 4, "byte 7 (edition): the edition is 4, and this program knows 1 to 3: was the book made by a newer one?"),
        (46, 1, "byte 46 (zeros of the head): it is 1, and must be zero in a book of edition 3"),
    ];
    for (byte, value, told) in cases {
        let mut book = sound.clone();
        book[byte] = value;
        refused("show book -", &book, told);
    }
}

#[test]
fn the_rule_that_a_height_breaks_is_told_with_its_byte() {
    let sound = settled(b"\0one entry      ");
    let page = Layout::new(1).area(1, Area::Notarized).start;
    let cases = [
        (576, 4, "byte 576 (height 1, leader): leader 4 is not below n, which is 4"),
        (577, 4, "byte 577 (height 1, state): the state is 4, above 3"),
        (581, 1, "byte 580 (height 1, blank): the mask has a bit that is not below n, which is 4"),
        (
            578,
            3,
            "byte 578 (height 1, page certificate): a page is notarised, and the signers of its",
        ),
        (
            582,
            3,
            "height 1 is not settled: its finalises are no quorum, they weigh 2 of 4, 3 needed",
        ),
        (page + 4, 0, "notarised page, entry 1): it is 111, and must be zero"),
        (page + 1, 1, "notarised page, height): the page says height 257, and stands at 1"),
        (page + 2, 1, "notarised page, back height): its back height 1 is not below 1"),
        (page + 3, 1, "notarised page, back height): its back height 256 is not below 1"),
    ];
    for (byte, value, told) in cases {
        let mut book = sound.clone();
        book[byte] = value;
        refused("show book -", &book, told);
    }
    refused(
        "show book -",
        &sound[1..],
        "the length 1455 is not 576 + 880 H, nor 64 + 184 H, for any H from 1 to 1000",
    );
}

#[test]
fn two_books_are_held_against_each_other() {
    let at = folder("diff").to_str().unwrap().to_string();
    let mut book = Book::open(Rules::SHA256, 4, 2, &[1; 4], &[0]).unwrap();
    std::fs::write(format!("{at}/one"), book.bytes()).unwrap();
    book.deliver(&Frame::DummyVote { signer: 1, height: 1 }.bytes()).unwrap();
    book.signal(1).unwrap();
    std::fs::write(format!("{at}/two"), book.bytes()).unwrap();
    let ended = run(&format!("diff {at}/one {at}/two"), &[]);
    assert_eq!(ended.status, 1);
    assert_eq!(ended.complaint, format!("mavunilai: {at}/one and {at}/two differ in 2 fields\n"));
    let rows: Vec<String> = ended.text().lines().map(str::to_string).collect();
    let cells = |row: &str| {
        row.split("  ")
            .map(str::trim)
            .filter(|cell| !cell.is_empty())
            .collect::<Vec<_>>()
            .join(" | ")
    };
    assert_eq!(cells(&rows[0]), format!("field | byte | {at}/one | {at}/two"));
    assert_eq!(cells(&rows[1]), "flags of the current height | 3 | 0 | 1 (timer fired)");
    assert_eq!(cells(&rows[2]), "height 1, blank | 580 | - | 1");
    assert_eq!(
        text(&format!("diff {at}/one {at}/one"), &[]),
        format!("{at}/one and {at}/one are the same\n")
    );
    refused(&format!("diff {at}/one"), &[], "the files of two books");
    // What is far too long for a book is told in short, too.
    std::fs::write(format!("{at}/long"), (0..1 << 18).map(|at| at as u8).collect::<Vec<_>>())
        .unwrap();
    let ended = run(&format!("diff {at}/one {at}/long"), &[]);
    assert_eq!((ended.status, ended.text().lines().count()), (1, 3));
    assert!(ended.text().len() < 1000);
}

#[test]
fn reading_has_a_limit() {
    refused(
        "show book /dev/zero",
        &[],
        "/dev/zero has more than 16777216 bytes, which is too much",
    );
    refused("show frame /dev/zero", &[], "more than 16777216 bytes");
    refused("replay /dev/zero", &[], "/dev/zero has more than 268435456 bytes, which is too much");
}
