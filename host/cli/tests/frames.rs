//! `frame` and `show frame`: every kind made out of words and told in words.

mod common;

use common::{fine, refused, run};
use types::{Block, Frame};

/// The digest of the page of the tests.
fn digest() -> [u8; 32] {
    reference::sha256::digest(&page().bytes())
}

/// A page at height 3 on page 1.
fn page() -> Block {
    let entries = [*b"swap A1 to B2   ", [0xee; 16]].into();
    Block { height: 3, parent: 1, digest: [7; 32], entries }
}

/// The words that describe the page.
fn page_words() -> String {
    let (digest, entry) = ("07".repeat(32), "ee".repeat(16));
    let text = "73776170204131".to_string() + "20746f204232202020";
    format!("--height 3 --back 1 --back-digest {digest} --entry {text} --entry {entry}")
}

/// Every kind: the words, and the frame that they mean.
fn kinds() -> Vec<(String, Frame)> {
    let page_hex: String = page().bytes().iter().map(|byte| format!("{byte:02x}")).collect();
    let digest_hex: String = digest().iter().map(|byte| format!("{byte:02x}")).collect();
    let vote = Frame::BlockVote { signer: 2, height: 3, digest: digest() };
    let certificate = Frame::BlockCertificate { mask: 7, block: page() };
    vec![
        (
            format!("proposal --signer 1 {}", page_words()),
            Frame::Proposal { signer: 1, block: page() },
        ),
        (
            format!("proposal --signer 1 --page {page_hex}"),
            Frame::Proposal { signer: 1, block: page() },
        ),
        (format!("page-vote --signer 2 --height 3 --digest {digest_hex}"), vote.clone()),
        (format!("page-vote --signer 2 {}", page_words()), vote),
        ("blank-vote --signer 0 --height 1".into(), Frame::DummyVote { signer: 0, height: 1 }),
        ("finalise --signer 15 --height 63".into(), Frame::Finalize { signer: 15, height: 63 }),
        (format!("page-certificate --signers 0,1,2 {}", page_words()), certificate),
        (
            "blank-certificate --mask 7 --height 2".into(),
            Frame::DummyCertificate { mask: 7, height: 2 },
        ),
        (
            "finalise-certificate --signers 15,0 --height 2".into(),
            Frame::FinalizeCertificate { mask: 0x8001, height: 2 },
        ),
    ]
}

#[test]
fn every_kind_is_made() {
    for (words, frame) in kinds() {
        assert_eq!(fine(&format!("frame {words}"), &[]), frame.bytes(), "{words}");
        let hex = String::from_utf8(fine(&format!("frame {words} --hex"), &[])).unwrap();
        let expected: String = frame.bytes().iter().map(|byte| format!("{byte:02x}")).collect();
        assert_eq!(hex, expected + "\n", "{words}");
    }
}

#[test]
fn every_kind_is_shown_from_bytes_and_from_digits() {
    for (words, frame) in kinds() {
        let shown = fine("show frame -", &frame.bytes());
        let digits = fine(&format!("frame {words} --hex"), &[]);
        assert_eq!(fine("show frame -", &digits), shown, "{words}");
        assert!(String::from_utf8(shown)
            .unwrap()
            .contains(&format!("(kind {})", frame.bytes()[0])));
    }
    let shown = run("show frame -", &kinds()[6].1.bytes()).text();
    let lines: Vec<&str> = shown.lines().collect();
    assert_eq!(lines[..3], ["page certificate (kind 5)", "signers 0 1 2 (mask 7)", "height 3"]);
    assert_eq!(lines[4], format!("back height 1, back digest {}", "07".repeat(32)));
    assert_eq!(lines[6], "  7377617020413120746f204232202020  \"swap A1 to B2   \"");
}

#[test]
fn a_value_may_stand_behind_an_equals_sign() {
    let frame = Frame::DummyVote { signer: 0, height: 1 };
    assert_eq!(fine("frame blank-vote --signer=0 --height=1", &[]), frame.bytes());
    let words = ["frame", "proposal", "--signer", "0", "--height=1", "--entry=a=b"];
    let bytes = common::run_words(&words, &[]).output;
    assert_eq!(&bytes[96..112], b"a=b             ");
    refused("frame blank-vote --signer=0 --height=1 --hex=yes", &[], "--hex takes no value");
    refused("frame blank-vote --signer= --height=1", &[], "no number");
}

#[test]
fn options_that_would_be_ignored_are_errors() {
    let page = "00".repeat(176);
    let proposal = format!("frame proposal --signer 0 --page {page}");
    refused(&format!("{proposal} --height 1"), &[], "beside --page, --height says nothing");
    refused(&format!("{proposal} --entry a"), &[], "beside --page, --entry says nothing");
    let vote = format!("frame page-vote --signer 0 --height 1 --digest {}", "00".repeat(32));
    refused(&format!("{vote} --back 0"), &[], "beside --digest, --back says nothing");
    let certificate = "frame blank-certificate --height 1 --mask 7 --signers 0,1";
    refused(certificate, &[], "beside --mask, --signers says nothing");
}

#[test]
fn entries_are_counted_in_bytes() {
    let made = |entry: &str| {
        common::run_words(
            &["frame", "proposal", "--signer", "0", "--height", "1", "--entry", entry],
            &[],
        )
    };
    let eight = "é".repeat(8);
    assert_eq!(&made(&eight).output[96..112], eight.as_bytes());
    assert_eq!(
        made(&"é".repeat(9)).complaint,
        "mavunilai: entry 'ééééééééé': its 18 bytes are more than 16 bytes of text (a letter may have more than \
         one), and are not 32 hexadecimal digits\n"
    );
    assert!(made(&"no digits, 32 letters".repeat(2)[..32]).complaint.contains("its 32 bytes"));
}

#[test]
fn short_entries_are_filled_up_alike_by_tests_frames() {
    let root = std::path::PathBuf::from(env!("CARGO_MANIFEST_DIR")).join("../..");
    let file = common::folder("frames").join("proposal.txt");
    std::fs::write(&file, "proposal signer 1 height 1 entry 'swap A1' entry plot\n").unwrap();
    let made =
        std::process::Command::new("python3").arg(root.join("tests/frames")).arg(&file).output();
    let words =
        ["frame", "proposal", "--signer=1", "--height=1", "--entry=swap A1", "--entry=plot"];
    assert_eq!(made.unwrap().stdout, common::run_words(&words, &[]).output);
}

#[test]
fn digits_may_be_wrapped_and_frames_may_follow_one_another() {
    let digits =
        String::from_utf8(fine("frame blank-vote --signer 0 --height 1 --hex", &[])).unwrap();
    let one = fine("show frame -", digits.as_bytes());
    let letters: Vec<char> = digits.trim().chars().collect();
    let lines: Vec<String> = letters.chunks(61).map(|line| line.iter().collect()).collect();
    assert_eq!(fine("show frame -", (lines.join("\r\n") + "\n\n").as_bytes()), one);
    let two = "blank vote (kind 3)\nsigner 0\nheight 1\n\nfinalise (kind 4)\nsigner 1\nheight 2\n";
    let other = fine("frame finalise --signer 1 --height 2 --hex", &[]);
    let both = [digits.as_bytes(), &other].concat();
    assert_eq!(String::from_utf8(fine("show frame -", &both)).unwrap(), two);
    let shortened = b"030001+00*221\n040102+00*221\n";
    assert_eq!(String::from_utf8(fine("show frame -", shortened)).unwrap(), two);
    let mut bytes =
        [Frame::DummyVote { signer: 0, height: 1 }, Frame::Finalize { signer: 1, height: 2 }]
            .map(|frame| frame.bytes())
            .concat();
    assert_eq!(String::from_utf8(fine("show frame -", &bytes)).unwrap(), two);
    bytes[224] = 9;
    refused("show frame -", &bytes, "frame 2: 9 is no kind");
    bytes.pop();
    refused("show frame -", &bytes, "224 bytes, these are 447");
}

#[test]
fn bad_words_get_a_sentence() {
    refused("frame", &[], "one kind of frame");
    refused("frame dummy-vote --signer 0 --height 1", &[], "no kind of frame");
    refused("frame blank-vote --signer 0", &[], "--height is missing");
    refused("frame blank-vote --signer x --height 1", &[], "no number");
    refused("frame blank-vote --signer 256 --height 1", &[], "no number");
    refused("frame blank-vote --height 1 --signer", &[], "needs a value");
    refused("frame blank-vote --signer 0 --signer 1 --height 1", &[], "more than once");
    refused("frame blank-vote --signer 0 --height 1 --mask 7", &[], "has no --mask");
    refused("frame blank-vote --signer 0 --height 1 --colour red", &[], "not known here");
    refused("frame blank-certificate --height 1", &[], "--signers or --mask");
    refused("frame blank-certificate --height 1 --signers 16", &[], "above 15");
    refused("frame blank-certificate --height 1 --mask 65536", &[], "no number");
    refused("frame page-vote --signer 0 --height 1 --digest 00", &[], "32 bytes are needed");
    refused("frame proposal --signer 0 --height 2 --back 1", &[], "--back-digest");
    refused("frame proposal --signer 0 --height 1 --entry 12345678901234567", &[], "its 17 bytes");
    refused("frame proposal --signer 0 --height 1 --entry=", &[], "an entry is empty");
    let many = " --entry a".repeat(9);
    refused(&format!("frame proposal --signer 0 --height 1{many}"), &[], "eight entries");
}

#[test]
fn strange_bytes_get_a_sentence() {
    refused("show frame -", &[0; 223], "224 bytes, these are 223");
    refused("show frame -", &[], "224 bytes, these are 0");
    refused("show frame -", &[0; 224], "0 is no kind");
    refused("show frame -", b"abc", "the last digit of its bytes has no second one");
    let mut frame = Frame::DummyVote { signer: 0, height: 1 }.bytes();
    frame[100] = 1;
    refused("show frame -", &frame, "not zero");
    let page = Block { digest: [1; 32], ..Block { height: 1, ..Block::default() } };
    let frame = Frame::Proposal { signer: 0, block: page };
    refused("show frame -", &frame.bytes(), "not well formed");
    refused("show frame /no/such/file", &[], "cannot be read");
}
