//! The folder of `--evidence`: for each pair of frames a file with their digits, and one that tells them in words.

use crate::problem::Problem;
use crate::words::hex;
use crate::{evidence, show_frame};
use reference::sha256;
use std::fs::{self, File, OpenOptions};
use std::io::{ErrorKind, Result, Write};
use std::path::{Path, PathBuf};
use types::{height_at, Evidence, FRAME_HEIGHT};

/// A folder that takes files.
#[derive(Clone, Debug)]
pub struct Folder {
    path: PathBuf,
}

impl Folder {
    /// Makes the folder if it is missing, and tries whether it takes a file.
    pub fn ready(path: &str) -> std::result::Result<Folder, Problem> {
        let folder = Folder { path: PathBuf::from(path) };
        let made = match fs::create_dir(&folder.path) {
            Err(error) if error.kind() == ErrorKind::AlreadyExists => Ok(()),
            made => made.and_then(|()| folder.path.canonicalize()).and_then(|path| {
                path.parent().map_or(Ok(()), |above| File::open(above)?.sync_all())
            }),
        };
        let tried = made.and_then(|()| {
            let new = folder.path.join(new_name("tried"));
            write(&new, b"mavunilai\n")?;
            fs::remove_file(new)
        });
        tried.map_err(|error| Problem::input(format!("{path} takes no evidence: {error}")))?;
        Ok(folder)
    }

    /// Keeps two frames that contradict each other in two files, and gives the name of that with the digits. What was
    /// kept before stays: the same pair has the same names and the same bytes.
    pub fn keep(&self, evidence: &Evidence) -> std::result::Result<String, Problem> {
        let digits = format!("{}\n{}\n", hex(&evidence.frame), hex(&evidence.kept));
        let name = name(evidence, digits.as_bytes());
        self.put(&format!("{name}.hex"), digits.as_bytes())?;
        self.put(&format!("{name}.txt"), text(evidence, &name).as_bytes())?;
        Ok(self.path.join(format!("{name}.hex")).display().to_string())
    }

    /// Syncs the names of the files.
    pub fn sync(&self) -> std::result::Result<(), Problem> {
        let synced = File::open(&self.path).and_then(|folder| folder.sync_all());
        synced.map_err(|error| failed(&self.path, error))
    }

    /// Puts a synced file of this name into the folder, whole or not at all, unless it is there.
    fn put(&self, name: &str, bytes: &[u8]) -> std::result::Result<(), Problem> {
        let path = self.path.join(name);
        match fs::read(&path) {
            Ok(there) if there == bytes => return Ok(()),
            Ok(_) => {
                let path = path.display();
                return Err(Problem::input(format!("{path} is there and holds other evidence")));
            }
            Err(error) if error.kind() == ErrorKind::NotFound => {}
            Err(error) => return Err(failed(&path, error)),
        }
        let new = self.path.join(new_name(name));
        let put = write(&new, bytes).and_then(|()| fs::rename(&new, &path));
        put.map_err(|error| failed(&path, error))
    }
}

/// The name of the two files: height, kind and signer, and a part of the SHA-256 of the digits, by which pairs that
/// share these have names of their own.
fn name(evidence: &Evidence, digits: &[u8]) -> String {
    let [kind, signer, ..] = evidence.frame;
    let height = height_at(&evidence.frame, FRAME_HEIGHT);
    let what = match kind {
        1 => format!("proposals-of-{signer}"),
        2 => format!("page-votes-of-{signer}"),
        _ => "page-certificates".to_string(),
    };
    let digest = hex(sha256::digest(digits).get(..8).unwrap_or(&[]));
    format!("height-{height}-{what}-{digest}")
}

/// The pair in words. It depends on the two frames alone, so that the same pair has the same text from any book.
fn text(evidence: &Evidence, name: &str) -> String {
    let shown = |frame| show_frame::text(frame).unwrap_or_else(|problem| problem.sentence + "\n");
    let sentence = evidence::sentence(evidence);
    format!(
        "Evidence: {sentence}.\n\n\
         The frame that was delivered, the first of {name}.hex:\n\n{}\n\
         What the book has against it, the second:\n\n{}\n\
         Neither frame has a signature: add those that you keep, or this is a claim of yours alone.\n",
        shown(&evidence.frame),
        shown(&evidence.kept)
    )
}

/// A name for a file that is being written, which no other process uses.
fn new_name(name: &str) -> String {
    format!("{name}.{}.new", std::process::id())
}

/// Writes a file and syncs it; what an earlier process of the same number left goes.
fn write(path: &Path, bytes: &[u8]) -> Result<()> {
    let mut file = OpenOptions::new().create(true).truncate(true).write(true).open(path)?;
    file.write_all(bytes)?;
    file.sync_all()
}

/// The file system failed.
fn failed(path: &Path, error: std::io::Error) -> Problem {
    Problem::input(format!("{} cannot be kept: {error}", path.display()))
}
