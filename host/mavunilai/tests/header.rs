//! The C header: it compiles without warnings, its names have the values that the host's types have, its texts are
//! theirs, and with the library it keeps its promises. What needs a C compiler is noted and left out where none is.

mod common;

#[cfg(feature = "proved")]
use common::prints_of;
use common::{compiler, compiles, host, prints, scratch, LANGUAGES};
use std::collections::BTreeMap;
use types::refusal::meaning;
use types::{
    book_length, field, observer_book_length, Area, Block, Book, Certificate, Frame, Layout,
};
use types::{Move, ObserverArea, ObserverBook, ObserverLayout, Refusal};

/// A file of the host folder as a word.
fn word(file: &str) -> String {
    host(file).to_str().unwrap().to_string()
}

/// The numbers that the header defines, by name without the prefix.
fn numbers() -> BTreeMap<String, u64> {
    let text = std::fs::read_to_string(host("include/mavunilai.h")).unwrap();
    let number = |line: &str| {
        let mut words = line.strip_prefix("#define MAVUNILAI_")?.split_whitespace();
        let (name, value) = (words.next()?, words.next()?);
        Some((name.to_string(), value.strip_suffix('u')?.parse().ok()?))
    };
    text.lines().filter_map(number).collect()
}

/// The programs in C that tests here and beside this file run.
const TESTS: [&str; 11] = [
    "promises",
    "observers",
    "repeats",
    "weights",
    "heights",
    "texts",
    "readers",
    "weighing",
    "makers",
    "digests",
    "packet_each",
];

#[test]
fn header_example_and_tests_compile_without_warnings() {
    for language in LANGUAGES {
        assert!(compiles(language, &["-include", "mavunilai.h", "-fsyntax-only", "/dev/null"]));
        for example in ["example/first_call.c", "example/observer.c"] {
            assert!(compiles(language, &["-fsyntax-only", &word(example)]));
        }
        for program in TESTS {
            let program = word(&format!("mavunilai/tests/c/{program}.c"));
            assert!(compiles(language, &["-fsyntax-only", &program]));
        }
    }
}

/// The count that read returns is no packed answer, and the compiler says so.
#[test]
fn read_is_told_apart() {
    let program = |call: &str| {
        let name = call.split('(').next().unwrap();
        let file = scratch(&format!("apart_{name}.c"));
        let text = format!(
            "#include \"mavunilai.h\"\nunsigned asked(const uint8_t *book, uint8_t *to);\n\
             unsigned asked(const uint8_t *book, uint8_t *to) {{\n    (void)to;\n    \
             return mavunilai_refusal(mavunilai_{call});\n}}\n"
        );
        std::fs::write(&file, text).unwrap();
        let words = ["-fsyntax-only", file.to_str().unwrap()];
        compiler(LANGUAGES[0], &words).map(|output| output.status.success())
    };
    for of in ["", "observer_"] {
        let [packed, plain] = ["size(book, 64)", "read(book, 64, to, 16)"]
            .map(|call| program(&format!("{of}{call}")));
        assert!(packed.is_none_or(|compiled| compiled));
        assert!(plain.is_none_or(|compiled| !compiled));
    }
}

/// Bytes as a row of an array in C.
fn row(bytes: &[u8]) -> String {
    format!("{{{}}}", bytes.iter().map(u8::to_string).collect::<Vec<_>>().join(","))
}

/// What the header says of second pages, over a book that holds a page of height 2 of three heights: a frame whose
/// height has the same low byte is of another height.
#[test]
fn a_second_page_is_told_as_by_the_types() {
    let page = |height, byte| Block { height, entries: [[byte; 16]].into(), ..Block::default() };
    let proposal = |height, byte| Frame::Proposal { signer: 0, block: page(height, byte) }.bytes();
    let mut book = Book::open(reference::Rules::SHA256, 4, 2, &[1; 4], &[0; 3]).unwrap();
    book.deliver(&proposal(2, 1)).unwrap();
    let certificate = Frame::BlockCertificate { mask: 7, block: page(2, 2) }.bytes();
    let frames = [(2, 1), (2, 2), (1, 2), (3, 2), (0, 2), (4, 2), (258, 2)];
    let frames = frames.map(|(height, byte)| proposal(height, byte)).into_iter();
    let frames: Vec<_> = frames.chain([certificate]).collect();
    let rows: Vec<String> = frames.iter().map(|frame| row(frame)).collect();
    let text = format!(
        "#include <stdio.h>\n#include \"mavunilai.h\"\nint main(void) {{\n    \
         static const uint8_t book[] = {}, frames[][MAVUNILAI_FRAME] = {{{}}};\n    size_t at;\n    \
         for (at = 0; at < sizeof frames / sizeof *frames; at++) {{\n        \
         printf(\"%d\\n\", mavunilai_second_page(book, frames[at]));\n    }}\n    return 0;\n}}\n",
        row(book.bytes()),
        rows.join(",")
    );
    let file = scratch("second_page.c");
    std::fs::write(&file, text).unwrap();
    let expected: Vec<bool> = frames.iter().map(|frame| book.is_second_block(frame)).collect();
    assert_eq!(expected, [false, true, false, false, false, false, false, false]);
    if let Some((text, ended)) = prints(LANGUAGES[0], "second_page", &[file.to_str().unwrap()]) {
        assert!(ended && text.lines().eq(expected.iter().map(|is| if *is { "1" } else { "0" })));
    }
}

#[test]
fn texts_are_those_of_the_types() {
    let files = [word("mavunilai/tests/c/texts.c")];
    if let Some((text, _)) = prints(LANGUAGES[0], "texts", &[&files[0]]) {
        assert!(text.lines().eq((1..=types::LAST_REFUSAL + 1).map(meaning)), "{text}");
    }
}

#[test]
fn refusals_have_their_numbers() {
    let numbers = numbers();
    let named = numbers.iter().filter_map(|(name, value)| {
        let words = name.strip_prefix("REFUSED_")?.replace("NOTARISED", "NOTARIZED");
        Some((u8::try_from(*value).unwrap(), words.replace('_', "").to_lowercase()))
    });
    let known = (1..=types::LAST_REFUSAL).map(|number| {
        let refusal = Refusal::of(number);
        (number, format!("{refusal:?}").to_lowercase())
    });
    assert_eq!(named.collect::<BTreeMap<_, _>>(), known.collect());
}

#[test]
fn lengths_and_maxima_are_those_of_the_types() {
    let numbers = numbers();
    let is = |name: &str, value: usize| assert_eq!(numbers[name], value as u64, "{name}");
    is("FRAME", types::FRAME);
    is("PAGE", types::BLOCK);
    is("ENTRY", types::ENTRY);
    is("DIGEST", Block::default().digest.len());
    is("MOVE_REPLY", 2 * types::FRAME);
    is("FETCH_REPLY", types::FRAME);
    is("MOST_STATIONS", types::MOST_REPLICAS.into());
    is("MOST_WEIGHT", types::MOST_WEIGHT.into());
    is("MOST_HEIGHTS", types::MOST_HEIGHTS.into());
    is("MOST_SHORT_HEIGHTS", types::MOST_SHORT_HEIGHTS.into());
    is("MOST_PENDING", Layout::new(1).pending().len() / types::ENTRY);
    is("MOST_BOOK", book_length(types::MOST_HEIGHTS));
    is("MOST_OBSERVER_BOOK", observer_book_length(types::MOST_HEIGHTS));
    let entries = types::Entries::first_of(&[[1; types::ENTRY]; 100]);
    let most = Block::parts(&Block { entries, ..Block::default() }.bytes()).entries.len();
    is("MOST_PAGE_ENTRIES", most);
    is("MOST_REGISTER", usize::from(types::MOST_HEIGHTS) * most * types::ENTRY);
}

#[test]
fn fields_of_the_book_are_where_the_types_have_them() {
    let numbers = numbers();
    let is = |name: &str, value: usize| assert_eq!(numbers[name], value as u64, "{name}");
    is("HEAD_STATIONS", field::N);
    is("HEAD_OWN", field::OWN);
    is("HEAD_FLAGS", field::FLAGS);
    let heights = [field::HEIGHTS, field::CURRENT, field::FINALIZED];
    for (name, of) in ["HEIGHTS", "CURRENT", "SETTLED"].into_iter().zip(heights) {
        is(&format!("HEAD_LONG_{name}"), of.long);
        is(&format!("HEAD_SHORT_{name}"), of.short);
    }
    is("HEAD_PENDING", field::PENDING);
    is("HEAD_EDITION", field::EDITION);
    is("HEAD_WEIGHTS", field::WEIGHTS);
    is("EDITION_UNWEIGHED", types::FIRST_EDITION.into());
    is("EDITION_WEIGHED", types::SECOND_EDITION.into());
    is("EDITION_LONG", types::EDITION.into());
    is("PENDING_AT", Layout::new(1).pending().start);
    is("CONTENTS_AT", Layout::new(1).area(1, Area::Row).start);
    is("ROW", Layout::new(1).area(1, Area::Row).len());
    let body = |height| Layout::new(2).area(height, Area::Held).start;
    is("BODY", body(2) - body(1));
}

/// Of a row the masks are found by certificates that an observer takes.
#[test]
fn fields_of_an_observers_book_are_where_the_types_have_them() {
    let numbers = numbers();
    let is = |name: &str, value: usize| assert_eq!(numbers[name], value as u64, "{name}");
    let row = ObserverLayout::new(3).area(1, ObserverArea::Row);
    is("OBSERVER_ROWS_AT", row.start);
    is("OBSERVER_ROW", row.len());
    let block = Block { height: 1, ..Block::default() };
    let certificates = [
        ("OBSERVER_ROW_PAGE", Frame::BlockCertificate { mask: 7, block }),
        ("OBSERVER_ROW_BLANK", Frame::DummyCertificate { mask: 7, height: 1 }),
        ("OBSERVER_ROW_FINALISE", Frame::FinalizeCertificate { mask: 7, height: 1 }),
    ];
    for (name, frame) in certificates {
        let mut book = ObserverBook::open(reference::Rules::SHA256, 4, 3, &[1; 4]).unwrap();
        book.deliver(&frame.bytes()).unwrap();
        is(name, book.bytes()[row.clone()].iter().position(|byte| *byte == 7).unwrap());
        let state = if name == "OBSERVER_ROW_PAGE" { numbers["STATE_NOTARISED"] } else { 0 };
        assert_eq!(u64::from(book.bytes()[row.start]), state);
    }
}

/// Where a frame or page with this one field set differs from one with no field set.
fn differs<const LENGTH: usize>(with: [u8; LENGTH], without: [u8; LENGTH]) -> u64 {
    with.iter().zip(&without).position(|(one, other)| one != other).unwrap() as u64
}

#[test]
fn fields_of_frames_are_where_the_types_have_them() {
    let numbers = numbers();
    let vote = |signer, height, digest| Frame::BlockVote { signer, height, digest }.bytes();
    let proposal = |block: Block| Frame::Proposal { signer: 0, block }.bytes();
    let mask = |mask| Frame::DummyCertificate { mask, height: 0 }.bytes();
    let plain = vote(0, 0, [0; 32]);
    assert_eq!(numbers["FRAME_KIND"], differs(plain, [0; types::FRAME]));
    assert_eq!(numbers["FRAME_SIGNER"], differs(vote(1, 0, [0; 32]), plain));
    assert_eq!(numbers["FRAME_HEIGHT"], differs(vote(0, 1, [0; 32]), plain));
    assert_eq!(numbers["FRAME_MASK"], differs(mask(1), mask(0)));
    assert_eq!(numbers["FRAME_DIGEST"], differs(vote(0, 0, [1; 32]), plain));
    let page = Block { height: 1, ..Block::default() };
    let without = Frame::Finalize { signer: 0, height: 1 }.bytes();
    let with = proposal(page);
    let at = with.iter().zip(&without).rposition(|(one, other)| one != other).unwrap() as u64;
    assert_eq!(numbers["FRAME_PAGE"] + numbers["PAGE_HEIGHT"], at);
}

#[test]
fn kinds_of_frames_are_those_of_the_types() {
    let (numbers, signer, height, mask) = (numbers(), 0, 1, 1);
    let block = Block::default();
    for (name, frame) in [
        ("PROPOSAL", Frame::Proposal { signer, block: block.clone() }),
        ("PAGE_VOTE", Frame::BlockVote { signer, height, digest: [0; 32] }),
        ("BLANK_VOTE", Frame::DummyVote { signer, height }),
        ("FINALISE", Frame::Finalize { signer, height }),
        ("PAGE_CERTIFICATE", Frame::BlockCertificate { mask, block }),
        ("BLANK_CERTIFICATE", Frame::DummyCertificate { mask, height }),
        ("FINALISE_CERTIFICATE", Frame::FinalizeCertificate { mask, height }),
    ] {
        assert_eq!(numbers[&format!("KIND_{name}")], u64::from(frame.bytes()[0]), "{name}");
    }
}

#[test]
fn fields_of_a_page_are_where_the_types_have_them() {
    let numbers = numbers();
    let none = Block::default();
    let at = |with: Block| differs(with.bytes(), none.bytes());
    assert_eq!(numbers["PAGE_HEIGHT"], at(Block { height: 1, ..none.clone() }));
    assert_eq!(numbers["PAGE_BACK_HEIGHT"], at(Block { parent: 1, ..none.clone() }));
    assert_eq!(numbers["PAGE_BACK_DIGEST"], at(Block { digest: [1; 32], ..none.clone() }));
    let counted = Block { entries: [[0; 16]].into(), ..none.clone() };
    assert_eq!(numbers["PAGE_COUNT"], at(counted.clone()));
    let filled = Block { entries: [[1; 16]].into(), ..none.clone() };
    assert_eq!(numbers["PAGE_ENTRIES"], differs(filled.bytes(), counted.bytes()));
}

#[test]
fn moves_have_their_numbers() {
    let numbers = numbers();
    let height = 1;
    let pass = Move::Pass { height, certificate: Certificate::Block, finalized: true };
    for (name, made) in [
        ("IDLE", Move::Idle),
        ("BLANK_VOTE", Move::Dummy { height }),
        ("SETTLE", Move::Final { height }),
        ("PASS", pass),
        ("PROPOSAL", Move::Offer { height }),
        ("PAGE_VOTE", Move::Vote { height }),
    ] {
        assert_eq!(numbers[&format!("MOVE_{name}")], u64::from(made.number()), "{name}");
    }
}

#[test]
fn interface_is_that_of_the_wrapper() {
    assert_eq!(numbers()["INTERFACE"], mavunilai::INTERFACE);
}

#[test]
#[cfg(feature = "proved")]
fn promises_are_kept() {
    for name in ["promises", "observers", "repeats", "weights", "heights", "packet_each"] {
        let program = word(&format!("mavunilai/tests/c/{name}.c"));
        for language in LANGUAGES {
            let files = [&program, "-x", "none", env!("MAVUNILAI_ARCHIVE"), "-pthread"];
            let printed = prints(language, name, &files);
            let kept = printed.as_ref().is_none_or(|(text, ended)| text.is_empty() && *ended);
            assert!(kept, "{name}: {printed:?}");
        }
    }
}

#[test]
#[cfg(feature = "proved")]
fn example_runs() {
    let expected = "\
blank vote of 0: fresh
blank vote of 1: fresh
blank vote of 2: fresh
move 3 at height 1: 2 frames, certificate 6, finalise 4
current height 2, settled height 0
";
    let files = [&word("example/first_call.c"), "-x", "none", env!("MAVUNILAI_ARCHIVE")];
    let printed = prints(LANGUAGES[0], "first_call", &files);
    assert!(printed.is_none_or(|printed| printed == (expected.to_string(), true)));
}

#[test]
#[cfg(feature = "proved")]
fn observer_example_runs() {
    let block = Block { height: 1, entries: [*b"\0swap A12 to B40"].into(), ..Block::default() };
    let frames = [
        Frame::BlockCertificate { mask: 7, block }.bytes(),
        Frame::FinalizeCertificate { mask: 13, height: 1 }.bytes(),
        Frame::DummyVote { signer: 0, height: 1 }.bytes(),
        Frame::FinalizeCertificate { mask: 12, height: 1 }.bytes(),
    ];
    let expected = "\
frame 1: fresh
frame 2: fresh
frame 3: refused with 16: the frame is no certificate, and an observer takes no other
frame 4: refused with 9: the certificate's signers are no quorum
move 2: settled height 1
settled height 1, 16 bytes of register
.swap A12 to B40
";
    let files = [&word("example/observer.c"), "-x", "none", env!("MAVUNILAI_ARCHIVE")];
    let printed = prints_of(LANGUAGES[0], "observer", &files, frames.as_flattened());
    assert!(printed.is_none_or(|printed| printed == (expected.to_string(), true)));
}
