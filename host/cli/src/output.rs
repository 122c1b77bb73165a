//! The standard output: written at once, and never taken for a place that keeps frames where it is none.

use crate::problem::Problem;
use std::fs::File;
use std::io::{stdout, Result, Write};
use std::os::fd::AsFd;
use std::os::unix::fs::{FileTypeExt, MetadataExt};

/// The numbers of the devices that take all bytes and keep none: null, zero, random and urandom.
const NOWHERE: [u64; 4] = [0x103, 0x105, 0x108, 0x109];

/// Writes bytes at once. The standard library's own output takes one that cannot be written at all for one that
/// swallows everything, so it is not asked.
pub fn write(bytes: &[u8]) -> Result<()> {
    descriptor()?.write_all(bytes)
}

/// Prints a text at once; a file that standard output is sent to is synced.
pub fn print(text: &str) -> std::result::Result<(), Problem> {
    let synced = || match descriptor()? {
        file if file.metadata()?.is_file() => file.sync_all(),
        _ => Ok(()),
    };
    write(text.as_bytes()).and_then(|()| synced()).map_err(|error| failed(&error))
}

/// An error if frames that are printed would be lost: the output is a device that keeps nothing. One that is closed is
/// the null device by now, since the program's start has put that in its place.
pub fn keeps_frames() -> std::result::Result<(), Problem> {
    let found =
        descriptor().and_then(|output| output.metadata()).map_err(|error| failed(&error))?;
    match found.file_type().is_char_device() && NOWHERE.contains(&found.rdev()) {
        false => Ok(()),
        true => Err(Problem::input(
            "the output is closed or the null device, where frames are lost: name a file with --out, or give the \
             output a reader",
        )),
    }
}

/// The standard output as a file.
fn descriptor() -> Result<File> {
    stdout().as_fd().try_clone_to_owned().map(File::from)
}

/// The sentence about an output that fails.
fn failed(error: &std::io::Error) -> Problem {
    Problem::input(format!("the output cannot be written: {error}"))
}
