//! Outputs that keep nothing: frames are not printed there, and a sentence that cannot be said ends nothing.

mod common;

use common::{fine, folder, list};
use std::fs::{read, write};
use std::path::Path;
use std::process::Command;
use types::{Block, Book, Frame};

/// Outputs that take all and keep nothing; what is closed is one of them.
const NOWHERE: [&str; 3] = [">&-", "> /dev/null", "> /dev/zero"];

/// The path of a book that can be passed on a blank: station 2 of 4 with two heights, alone in a folder of this name.
fn book(name: &str) -> String {
    let mut book = Book::open(reference::Rules::SHA256, 4, 2, &[1; 4], &[0, 0]).unwrap();
    for signer in [0, 1, 3] {
        book.deliver(&Frame::DummyVote { signer, height: 1 }.bytes()).unwrap();
    }
    let alone = format!("outputs-{name}");
    std::fs::remove_dir_all(folder(&alone)).unwrap();
    let path = folder(&alone).join("book");
    write(&path, book.bytes()).unwrap();
    path.to_str().unwrap().to_string()
}

/// Runs the command as a shell does, with redirections; its status, output and complaint.
fn shell(words: &str) -> (i32, String, String) {
    bash(&format!("{} {words}", env!("CARGO_BIN_EXE_mavunilai")), Path::new("."))
}

/// Runs a line in a folder.
fn bash(line: &str, folder: &Path) -> (i32, String, String) {
    let ended = Command::new("bash").args(["-c", line]).current_dir(folder).output().unwrap();
    let text = |bytes| String::from_utf8(bytes).unwrap();
    (ended.status.code().unwrap(), text(ended.stdout), text(ended.stderr))
}

/// Whether frames wait beside a book.
fn waits(book: &str) -> bool {
    Path::new(&format!("{book}.frames")).exists()
}

/// A book whose frames wait, after an output that was full.
fn waiting(name: &str) -> String {
    let book = book(name);
    assert_eq!(shell(&format!("call {book} move > /dev/full")).0, 2);
    assert!(waits(&book));
    book
}

#[test]
fn no_move_is_made_whose_frames_would_be_lost() {
    let book = book("lost");
    let before = read(&book).unwrap();
    for (call, output) in ["move", "run"].iter().flat_map(|call| NOWHERE.map(|to| (call, to))) {
        let (status, _, complaint) = shell(&format!("call {book} {call} {output}"));
        assert_eq!(status, 2, "{call} {output}");
        let sentence = "mavunilai: the output is closed or the null device, where frames are lost: name a file with \
                        --out, or give the output a reader; no move was made\n";
        assert_eq!(complaint, sentence, "{call} {output}");
        assert!(read(&book).unwrap() == before && !waits(&book), "{call} {output}");
    }
    assert!(shell(&format!("call {book} move")).1.starts_with("pass 1 6 4\n06"));
}

#[test]
fn frames_that_wait_go_on_waiting_where_they_would_be_lost() {
    let book = waiting("waiting");
    let (before, frames) = (read(&book).unwrap(), read(format!("{book}.frames")).unwrap());
    let vote = folder("outputs").join("vote");
    write(&vote, Frame::DummyVote { signer: 0, height: 2 }.bytes()).unwrap();
    let vote = vote.to_str().unwrap();
    let calls = ["move", "run", "signal 2", "submit 'swap A1 to B2'"].map(str::to_string);
    let calls = calls.into_iter().chain(["deliver", "packet"].map(|call| format!("{call} {vote}")));
    for (call, output) in calls.flat_map(|call| NOWHERE.map(|to| (call.clone(), to))) {
        let (status, _, complaint) = shell(&format!("call {book} {call} {output}"));
        assert_eq!(status, 2, "{call} {output}");
        assert!(complaint.contains("--out"), "{complaint}");
        assert!(complaint.ends_with("waiting/book.frames for the next call\n"), "{complaint}");
        assert_eq!(read(&book).unwrap(), before, "{call} {output}");
        assert_eq!(read(format!("{book}.frames")).unwrap(), frames, "{call} {output}");
    }
    let (status, output, _) = shell(&format!("call {book} signal 2"));
    let lines: Vec<&str> = output.lines().collect();
    assert_eq!((status, lines.len(), lines[0], lines[3]), (0, 4, "unsent", "done"));
}

#[test]
fn calls_that_print_no_frames_may_print_nowhere() {
    for output in NOWHERE {
        let (book, pile) = (book("answers"), folder("outputs").join("pile"));
        let pile = pile.to_str().unwrap();
        _ = std::fs::remove_file(pile);
        for call in ["submit 'swap A1 to B2'", "size", "certificates", &format!("run --out {pile}")]
        {
            let ended = shell(&format!("call {book} {call} {output}"));
            assert_eq!(ended, (0, String::new(), String::new()), "{call} {output}");
        }
        assert_eq!(std::fs::read_to_string(pile).unwrap().lines().count(), 2);
    }
}

/// The file of the frames that wait as docs/HOST.md has it, and what it says to do where it is cut.
#[test]
fn whole_lines_of_a_cut_file_can_still_be_sent() {
    let book = book("cut");
    assert_eq!(shell(&format!("call {book} run > /dev/full")).0, 2);
    let (bytes, file) = (read(&book).unwrap(), format!("{book}.frames"));
    let text = std::fs::read_to_string(&file).unwrap();
    let lines: Vec<&str> = text.lines().collect();
    let digest: String =
        reference::sha256::digest(&bytes).iter().map(|byte| format!("{byte:02x}")).collect();
    assert_eq!(lines[..2], ["mavunilai frames 1".to_string(), format!("book {digest}")]);
    assert_eq!((lines.len(), lines[4], text.ends_with("\nend\n")), (5, "end", true));
    write(&file, &text[..700]).unwrap();
    for call in ["move", "run", "signal 2", "submit 'swap A1 to B2'", "deliver /dev/null"] {
        let (status, output, complaint) = shell(&format!("call {book} {call}"));
        assert_eq!((status, output.as_str()), (2, ""), "{call}");
        assert!(
            complaint.ends_with("cut/book.frames holds something else than frames\n"),
            "{complaint}"
        );
    }
    assert!(read(&book).unwrap() == bytes);
    assert!(shell(&format!("call {book} certificates")).1.starts_with(lines[2]));
    let page = std::fs::read_to_string(list("../docs/HOST.md")).unwrap();
    let told = page.lines().filter_map(|line| line.strip_prefix("    "));
    let told: Vec<&str> = told.filter(|line| line.contains("b.frames")).collect();
    let line = told.join("; ").replace("b.frames", "book.frames");
    assert_eq!((told.len(), bash(&line, Path::new(&book).parent().unwrap()).0), (2, 0), "{line}");
    let (status, output, _) = shell(&format!("call {book} run"));
    assert_eq!((status, output), (0, format!("unsent\n{}\nidle\n", lines[2])));
    assert!(!waits(&book) && read(&book).unwrap() == bytes);
    let again = shell("frame finalise --signer 2 --height 1 --hex").1;
    assert_eq!(again.trim_end(), lines[3]);
}

/// An output that is open for reading alone takes no byte, though nothing is wrong with its number.
#[test]
fn an_output_that_cannot_be_written_is_an_error() {
    let book = book("reading");
    for (words, said) in [
        (format!("call {book} move"), "; the frames wait in "),
        (format!("call {book} size"), "the output cannot be written"),
        ("frame blank-vote --signer 0 --height 1".to_string(), "the output cannot be written"),
    ] {
        let (status, _, complaint) = shell(&format!("{words} 1< {}", list("season.txt")));
        assert_eq!(status, 2, "{words}");
        assert!(complaint.contains(said), "{complaint}");
    }
    assert!(waits(&book));
    assert!(shell(&format!("call {book} move")).1.starts_with("unsent\n06"));
}

/// Each kind of command with something to say on the standard error: its status is the same where that is full.
#[test]
fn a_full_standard_error_changes_no_status() {
    let proposals = folder("outputs").join("proposals");
    let proposal = |byte| {
        let block = Block { height: 1, entries: [[byte; 16]].into(), ..Block::default() };
        Frame::Proposal { signer: 0, block }.bytes()
    };
    write(&proposals, [proposal(1), proposal(2)].concat()).unwrap();
    let (proposals, watch) = (proposals.to_str().unwrap(), folder("outputs").join("watch"));
    let watch = watch.to_str().unwrap();
    fine(&format!("observer {watch} open --n 4 --heights 2 --force"), &[]);
    for (status, words) in [
        (2, "".to_string()),
        (2, "dance".to_string()),
        (2, "help dance".to_string()),
        (2, "--version now".to_string()),
        (2, "frame dance".to_string()),
        (2, "show frame /dev/null".to_string()),
        (2, "show book /dev/null".to_string()),
        (2, "show books /dev/null".to_string()),
        (3, "open - --n 4 --own 4 --roll 0".to_string()),
        (3, format!("call {} signal 7", book("signal"))),
        (0, format!("call {} deliver {proposals}", book("deliver"))),
        (0, format!("call {} packet {proposals}", book("packet"))),
        (2, format!("call {} move > /dev/full", book("move"))),
        (2, format!("call {} run > /dev/null", book("run"))),
        (2, format!("call {} size > /dev/full", book("size"))),
        (3, format!("observer {watch} deliver {proposals}")),
        (2, "replay /dev/null".to_string()),
        (1, format!("replay <(sed 's/= fresh/= known/' {})", list("season.txt"))),
        (2, "record /dev/null".to_string()),
        (2, "rehearsal now".to_string()),
        (1, "try -- true".to_string()),
        (2, "answer < <(echo dance)".to_string()),
        (1, format!("diff {} {watch}", book("diff"))),
    ] {
        assert_eq!(shell(&format!("{words} 2> /dev/full")).0, status, "{words}");
    }
}
