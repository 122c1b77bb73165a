//! What the C header reads out of a book and makes out of parts is what the host's types read and make; digests are
//! those of the host's SHA-256; and an answer that is not looked at is warned of.

mod common;

use common::{compiler, host, prints, prints_of, scratch, LANGUAGES};
use types::{book_length, observer_book_length, Block, Book, Entries, Frame, Height, ObserverBook};
use types::{EDITION, MOST_HEIGHTS, MOST_SHORT_HEIGHTS};

/// What stands for no station, as MAVUNILAI_NO_STATION of the header.
const NO_STATION: u8 = 255;

/// A file of the host folder as a word.
fn word(file: &str) -> String {
    host(file).to_str().unwrap().to_string()
}

/// The words by which the compiler is told to watch for readings beyond memory and for other undefined behaviour; none,
/// with a note, where it cannot.
fn watched() -> Vec<&'static str> {
    let words = vec!["-fsanitize=address,undefined", "-fno-sanitize-recover=all"];
    let empty = scratch("empty.c");
    std::fs::write(&empty, "int main(void) { return 0; }\n").unwrap();
    let output = scratch("empty");
    let all = [&words[..], &[empty.to_str().unwrap(), "-o", output.to_str().unwrap()]].concat();
    if compiler(LANGUAGES[0], &all).is_some_and(|ended| ended.status.success()) {
        return words;
    }
    eprintln!("not watched: the compiler has no sanitizers");
    Vec::new()
}

/// A proposal of a height of another page than the one that [`station`] holds at its last height.
fn second(height: Height) -> [u8; types::FRAME] {
    let block = Block { height, entries: [[2; 16]].into(), ..Block::default() };
    Frame::Proposal { signer: 3, block }.bytes()
}

/// A book of so many heights and of this edition, led by stations 3, 2, 1, 0 in turn, the last by 3, which holds a page
/// of its last height.
fn station(heights: Height, edition: u8) -> Book<reference::Rules> {
    let mut leaders: Vec<u8> = (0..heights).map(|height| 3 - (height % 4) as u8).collect();
    *leaders.last_mut().unwrap() = 3;
    let mut book = Book::open(reference::Rules::SHA256, 4, 2, &[1; 4], &leaders).unwrap();
    let block = Block { height: heights, entries: [[1; 16]].into(), ..Block::default() };
    book.deliver(&Frame::Proposal { signer: 3, block }.bytes()).unwrap();
    let mut bytes = book.bytes().to_vec();
    types::put_edition(&mut bytes, edition);
    Book::from_bytes(reference::Rules::SHA256, bytes).unwrap()
}

/// An observer's book of so many heights and of this edition.
fn observer(heights: Height, edition: u8) -> ObserverBook<reference::Rules> {
    let book = ObserverBook::open(reference::Rules::SHA256, 4, heights, &[1; 4]).unwrap();
    let mut bytes = book.bytes().to_vec();
    types::put_edition(&mut bytes, edition);
    ObserverBook::from_bytes(reference::Rules::SHA256, bytes).unwrap()
}

/// The line that `readers.c` is to print of a book with so many heights, and of the proposal that is a second page of a
/// station's: what the types say of each height.
fn line(heights: Height, leader: impl Fn(Height) -> Option<u8>, station: bool) -> String {
    let mut words: Vec<u32> = vec![heights.into(), station.into(), 0];
    let leaders = (0..=MOST_HEIGHTS + 300).map(|height| leader(height).unwrap_or(NO_STATION));
    words.extend(leaders.chain([NO_STATION; 6]).map(u32::from));
    words.extend([u32::from(heights), u32::from(station)]);
    words.iter().map(u32::to_string).collect::<Vec<_>>().join(" ")
}

/// Heights that a book does not have have no leader and no second page, and nothing beyond the book is read, whatever
/// its edition is.
#[test]
fn readers_keep_to_the_book() {
    let (mut input, mut expected) = (Vec::new(), Vec::new());
    let mut put = |bytes: &[u8], second: [u8; types::FRAME], line: String| {
        input.extend(u32::try_from(bytes.len()).unwrap().to_le_bytes());
        input.extend([bytes, &second].concat());
        expected.push(line);
    };
    let short = [1, 2, 3, 62, MOST_SHORT_HEIGHTS].into_iter();
    let short = short.flat_map(|heights| [(heights, 1), (heights, 2), (heights, EDITION)]);
    let long = [64, 108, 255, 256, 257, 999, MOST_HEIGHTS].map(|heights| (heights, EDITION));
    for (heights, edition) in short.chain(long) {
        let book = station(heights, edition);
        assert_eq!(book.bytes().len(), book_length(heights));
        assert!(book.is_second_block(&second(heights)));
        put(book.bytes(), second(heights), line(heights, |height| book.leader(height), true));
        let book = observer(heights, edition);
        assert_eq!(book.bytes().len(), observer_book_length(heights));
        assert!(!types::is_second_block(book.bytes(), &second(heights)));
        put(book.bytes(), second(heights), line(heights, |_| None, false));
    }
    let program = word("mavunilai/tests/c/readers.c");
    let words = [&watched()[..], &[&program]].concat();
    if let Some((text, ended)) = prints_of(LANGUAGES[0], "readers", &words, &input) {
        assert!(ended && text.lines().eq(expected.iter().map(String::as_str)));
    }
}

/// Bytes as digits.
fn digits(bytes: &[u8]) -> String {
    bytes.iter().map(|byte| format!("{byte:02x}")).collect()
}

#[test]
fn pages_and_frames_are_made_as_by_the_types() {
    let digest = std::array::from_fn(|at| 200 - at as u8);
    let entry = |first: u8| std::array::from_fn(|at| first + at as u8);
    let entries = Entries::from([entry(1), entry(17), entry(33)]);
    let block = Block { height: 9, parent: 7, digest, entries };
    let entries = std::array::from_fn::<_, 8, _>(|at| entry(1 + 16 * at as u8)).into();
    let high = Block { height: 1000, parent: 513, digest, entries };
    let mut expected = vec![digits(&block.bytes())];
    for frame in [
        Frame::Proposal { signer: 5, block },
        Frame::BlockVote { signer: 6, height: 63, digest },
        Frame::DummyVote { signer: 15, height: 2 },
        Frame::Finalize { signer: 0, height: 1 },
        Frame::Finalize { signer: 255, height: 1000 },
    ] {
        expected.push(digits(&frame.bytes()));
    }
    expected.push(digits(&high.bytes()));
    expected.push(digits(&Frame::Proposal { signer: 3, block: high }.bytes()));
    let weights: [u16; 6] = [1, 255, 256, 1000, 0, 65535];
    expected.push(digits(weights.map(u16::to_le_bytes).as_flattened()));
    let program = word("mavunilai/tests/c/makers.c");
    let words = [&watched()[..], &[&program]].concat();
    if let Some((text, ended)) = prints(LANGUAGES[0], "makers", &words) {
        assert!(ended && text.lines().eq(expected.iter().map(String::as_str)));
    }
}

/// The weight of the stations of a mask.
fn weight(weights: &[u16], mask: u32) -> u32 {
    let of = |(station, weight): (usize, &u16)| u32::from(*weight) * (mask >> station & 1);
    weights.iter().enumerate().map(of).sum()
}

/// The lines that `weighing.c` is to print of a book with these weights, worked out from the numbers.
fn weighed(weights: &[u16]) -> [String; 3] {
    let all = weight(weights, u32::MAX);
    let is_quorum = |mask: u32| mask >> weights.len() == 0 && 3 * weight(weights, mask) >= 2 * all;
    let mut first: Vec<u32> = weights.iter().map(|weight| (*weight).into()).collect();
    first.resize(26, 0);
    first.extend([all, (2 * all).div_ceil(3)]);
    let quorums = (0..=65536).map(|mask| if is_quorum(mask) { '1' } else { '0' });
    let some = (0..=65535).step_by(257).map(|mask| weight(weights, mask)).chain([all]);
    let join = |numbers: Vec<u32>| numbers.iter().map(u32::to_string).collect::<Vec<_>>().join(" ");
    [join(first), quorums.collect(), join(some.collect())]
}

/// Weights of stations: equal ones, a large partner and small ones, and others of every number of stations.
fn many_weights() -> Vec<Vec<u16>> {
    let mut all: Vec<Vec<u16>> = (1..=16).map(|n| vec![1; n]).collect();
    all.extend([vec![10, 1, 1, 1], vec![3, 1, 1, 1], vec![1000; 16], vec![1000, 1]]);
    all.extend((1..=16_u16).map(|n| (0..n).map(|at| (at * 397 + n * 61) % 1000 + 1).collect()));
    all
}

/// Weights and quorums are those of the numbers that a book was opened with; in a book of edition 1 all weigh 1.
#[test]
fn weights_are_read_from_the_head() {
    let (mut input, mut expected) = (Vec::new(), Vec::new());
    for weights in many_weights() {
        let n = weights.len() as u64;
        let station = Book::open(reference::Rules::SHA256, n, 0, &weights, &[0]).unwrap();
        let observer = ObserverBook::open(reference::Rules::SHA256, n, 1, &weights).unwrap();
        let older = [1, 2].map(|edition| {
            let mut older = station.bytes().to_vec();
            types::put_edition(&mut older, edition);
            assert!(Book::from_bytes(reference::Rules::SHA256, older.clone()).is_ok());
            older
        });
        for book in [station.bytes(), observer.bytes(), &older[0], &older[1]] {
            input.extend(&book[..64]);
        }
        let ones = vec![1; weights.len()];
        for weights in [&weights, &weights, &ones, &weights] {
            expected.extend(weighed(weights));
        }
    }
    let program = word("mavunilai/tests/c/weighing.c");
    let words = [&watched()[..], &[&program]].concat();
    if let Some((text, ended)) = prints_of(LANGUAGES[0], "weighing", &words, &input) {
        assert!(ended && text.lines().eq(expected.iter().map(String::as_str)));
    }
}

#[test]
#[cfg(feature = "proved")]
fn digests_are_those_of_the_host() {
    let bytes: Vec<u8> = (0..300u32).map(|at| (at * 7 % 256) as u8).collect();
    let expected = (0..=bytes.len()).map(|length| digits(&sha256::digest(&bytes[..length])));
    let program = word("mavunilai/tests/c/digests.c");
    let words = [&watched()[..], &[&program, "-x", "none", env!("MAVUNILAI_ARCHIVE")]].concat();
    if let Some((text, ended)) = prints_of(LANGUAGES[0], "digests", &words, &bytes) {
        assert!(ended && text.lines().map(str::to_string).eq(expected), "{text}");
    }
}

/// Every function that only the library has is declared as one whose answer is to be looked at.
#[test]
fn every_call_is_to_be_looked_at() {
    let text = std::fs::read_to_string(host("include/mavunilai.h")).unwrap();
    let lines: Vec<&str> = text.lines().collect();
    let of_a_call = |line: &str| {
        ["mavunilai_answer", "uint64_t"]
            .map(|of| format!("{of} mavunilai_"))
            .iter()
            .any(|of| line.starts_with(of))
    };
    let calls = lines.windows(2).filter(|pair| of_a_call(pair[1]));
    let (looked, dropped): (Vec<_>, Vec<_>) = calls.partition(|pair| pair[0] == "MAVUNILAI_LOOK");
    assert_eq!((looked.len(), dropped.len()), (15, 0));
}

#[test]
fn an_answer_that_is_dropped_is_warned_of() {
    for (at, (statement, fine)) in [
        ("mavunilai_signal(book, 64, 1);", false),
        ("mavunilai_read(book, 64, book, 0);", false),
        ("mavunilai_fits();", false),
        ("mavunilai_disregard(mavunilai_signal(book, 64, 1));", true),
        ("if (mavunilai_refusal(mavunilai_signal(book, 64, 1)) != 0) { return; }", true),
    ]
    .into_iter()
    .enumerate()
    {
        let file = scratch(&format!("dropped_{at}.c"));
        let text = format!(
            "#include \"mavunilai.h\"\nvoid asked(uint8_t *book);\n\
             void asked(uint8_t *book) {{\n    (void)book;\n    {statement}\n}}\n"
        );
        std::fs::write(&file, text).unwrap();
        for language in LANGUAGES {
            let words = ["-c", file.to_str().unwrap(), "-o", "/dev/null"];
            let ended = compiler(language, &words);
            let compiled = ended.map(|ended| ended.status.success());
            assert!(compiled.is_none_or(|compiled| compiled == fine), "{language:?}: {statement}");
        }
    }
}
