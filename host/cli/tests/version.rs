//! The version: one number, the last request that has landed, the same wherever it is told.

mod common;

use common::fine;
use std::path::{Path, PathBuf};

/// A file of the repository.
fn file(name: &str) -> PathBuf {
    Path::new(env!("CARGO_MANIFEST_DIR")).join("../..").join(name)
}

/// The last request that has landed, as its note is named: 2.5 of `2.5-filed-twice.md`.
fn last_landed() -> (u32, u32) {
    let names = std::fs::read_dir(file("docs/landings")).unwrap();
    let requests = names.filter_map(|name| {
        let name = name.unwrap().file_name().into_string().ok()?;
        let (document, request) = name.split_once('-')?.0.split_once('.')?;
        Some((document.parse().ok()?, request.parse().ok()?))
    });
    requests.max().unwrap()
}

#[test]
fn the_version_is_told() {
    let (document, request) = last_landed();
    let name =
        if cfg!(feature = "proved") { "the proved replica" } else { "the reference replica" };
    let interface = types::packing::INTERFACE;
    let expected = format!(
        "mavunilai 0.{document}.{request}, request {document}.{request}, interface {interface}, with {name}\n"
    );
    assert_eq!(String::from_utf8(fine("--version", &[])).unwrap(), expected);
}

/// The newest entry of the page of changes is that of this version and interface.
#[test]
fn the_page_of_changes_begins_with_it() {
    let page = std::fs::read_to_string(file("docs/CHANGES.md")).unwrap();
    let newest = page.lines().find_map(|line| line.strip_prefix("## ")).unwrap();
    let (version, interface) = (env!("CARGO_PKG_VERSION"), types::packing::INTERFACE);
    assert!(newest.starts_with(&format!("{version}, interface {interface}: ")), "{newest}");
}

/// Every package of the workspace has the workspace's version, which cargo and the lock file tell.
#[test]
fn all_packages_have_it() {
    let lock = std::fs::read_to_string(file("host/Cargo.lock")).unwrap();
    let versions: Vec<_> =
        lock.lines().filter_map(|line| line.strip_prefix("version = ")).collect();
    // The first is that of the lock file's own format.
    let expected = format!("\"{}\"", env!("CARGO_PKG_VERSION"));
    assert!(versions.len() > 1 && versions.iter().skip(1).all(|version| *version == expected));
}
