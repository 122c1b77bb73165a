//! `host/example/four-stations.sh`: four stations and an observer with pipes between them, as the README shows it.

mod common;

use common::{fine, folder};
use std::path::PathBuf;
use std::process::{Command, Output};

/// A file of the repository.
fn file(name: &str) -> PathBuf {
    PathBuf::from(env!("CARGO_MANIFEST_DIR")).join("../..").join(name)
}

/// Runs the script with words on the command that is tested.
fn script(words: &[&str]) -> Output {
    let mut command = Command::new(file("host/example/four-stations.sh"));
    command.args(words).env("MAVUNILAI", env!("CARGO_BIN_EXE_mavunilai"));
    command.output().unwrap()
}

/// The lines of the block of the README that shows what the script prints.
fn shown() -> Vec<String> {
    let page = std::fs::read_to_string(file("README.md")).unwrap();
    let block = page.split("```").find(|block| block.contains("station 0 files"));
    block.unwrap().trim().lines().map(str::to_string).collect()
}

#[test]
fn it_is_the_first_command_of_the_readme() {
    let page = std::fs::read_to_string(file("README.md")).unwrap();
    let first = page.lines().find_map(|line| line.strip_prefix("    "));
    assert_eq!(first, Some("host/example/four-stations.sh"));
}

/// Whether the lines are these, with any lines between where `..` stands alone.
fn agrees(printed: &[&str], shown: &[String]) -> bool {
    match shown.split_first() {
        None => printed.is_empty(),
        Some((line, rest)) if line == ".." => {
            (0..=printed.len()).any(|skipped| agrees(&printed[skipped..], rest))
        }
        Some((line, rest)) => printed
            .split_first()
            .is_some_and(|(first, behind)| first == line && agrees(behind, rest)),
    }
}

#[test]
fn four_stations_and_an_observer_read_one_register() {
    let kept = folder("four_stations").join("kept");
    _ = std::fs::remove_dir_all(&kept);
    let ended = script(&[kept.to_str().unwrap()]);
    let printed = String::from_utf8(ended.stdout).unwrap();
    let complaint = String::from_utf8(ended.stderr).unwrap();
    assert_eq!((ended.status.code(), complaint.as_str()), (Some(0), ""), "{printed}");
    let version = String::from_utf8(fine("--version", &[])).unwrap();
    let moves = printed.strip_prefix(&version).unwrap();
    assert!(agrees(&moves.lines().collect::<Vec<_>>(), &shown()), "{printed}");
    for command in (0..4).map(|station| format!("call {}/station{station}", kept.display())) {
        let read = String::from_utf8(fine(&format!("{command} read"), &[])).unwrap();
        for entry in ["swap A12 to B40", "seed lot 7 to 3", "undo A12 to B40", "plot C7 fallow"] {
            assert!(read.contains(entry), "{command}: {read}");
        }
        let watch = fine(&format!("observer {}/watch read", kept.display()), &[]);
        assert_eq!(watch, read.as_bytes(), "{command}");
    }
    let again = script(&[kept.to_str().unwrap()]);
    assert_eq!(again.status.code(), Some(2));
}

/// A large partner and three small ones come to the same register; the large one passes height 1 by its own vote.
#[test]
fn stations_of_unequal_weight_read_one_register() {
    let kept = folder("four_stations").join("weighed");
    _ = std::fs::remove_dir_all(&kept);
    let ended = script(&["--weights=10,1,1,1", kept.to_str().unwrap()]);
    let printed = String::from_utf8(ended.stdout).unwrap();
    let complaint = String::from_utf8(ended.stderr).unwrap();
    assert_eq!((ended.status.code(), complaint.as_str()), (Some(0), ""), "{printed}");
    assert!(printed.contains("\nstation 0: offer 1, vote 1, pass 1 5 4, final 1\n"), "{printed}");
    for name in ["station3", "watch"] {
        let shown = fine(&format!("show book {}/{name}", kept.display()), &[]);
        let shown = String::from_utf8(shown).unwrap();
        assert!(shown.contains("\nThe stations weigh 10,1,1,1; a quorum weighs 9 or more of 13.\n"));
    }
}

#[test]
fn words_that_are_not_understood_end_the_script() {
    let words = [(&["--help"][..], 0), (&["--quick"], 2), (&["one", "two"], 2)];
    for (words, status) in words.into_iter().chain([(&["--weights=1,1,0,1"][..], 3)]) {
        assert_eq!(script(words).status.code(), Some(status), "{words:?}");
    }
}
