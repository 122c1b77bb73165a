//! A file that is replaced as a whole, and the files beside it.

use crate::{Error, Files, Holder};
use std::io::ErrorKind;
use std::path::{Path, PathBuf};
use types::{book_length, MOST_HEIGHTS};

/// The ending of the file of the frames that wait.
pub const FRAMES: &str = ".frames";

/// The ending of the file of what the station has said.
pub const SAID: &str = ".said";

/// The ending of the file that is locked.
const LOCK: &str = ".lock";

/// The ending of a file that is being written.
const NEW: &str = ".new";

/// The endings of the files beside one that is replaced.
const BESIDE: [&str; 4] = [LOCK, NEW, FRAMES, SAID];

/// A file, by its one path, in a file system.
#[derive(Clone, Debug)]
pub struct Place<F> {
    pub files: F,
    pub path: PathBuf,
}

impl<F: Files> Place<F> {
    /// The place of a file, whichever path leads to it. A name as of a file beside another is refused: that other
    /// file would remove it when it is replaced.
    pub fn resolve(files: F, path: &Path) -> Result<Place<F>, Error> {
        let path = files.resolve(path).map_err(Error::files("read", path))?;
        let name = path.as_os_str().as_encoded_bytes();
        if BESIDE.iter().any(|ending| name.ends_with(ending.as_bytes())) {
            return Err(Error::Reserved(path));
        }
        Ok(Place { files, path })
    }

    /// The bytes of a book; a file that is longer than any book gives one byte too many.
    pub fn read_book(&self) -> Result<Vec<u8>, Error> {
        let bytes = self.read(book_length(MOST_HEIGHTS).saturating_add(1))?;
        let missing = || std::io::Error::from(ErrorKind::NotFound);
        bytes.ok_or_else(|| Error::files("read", &self.path)(missing()))
    }

    /// The file beside it with this ending.
    pub fn beside(&self, ending: &str) -> PathBuf {
        let mut name = self.path.clone().into_os_string();
        name.push(ending);
        name.into()
    }

    /// Waits for the lock. What is locked is another file than the one that is replaced, since a lock does not
    /// follow a name, and it is never removed, since one who waits has it open already.
    pub fn lock(&self) -> Result<F::Lock, Error> {
        let path = self.beside(LOCK);
        self.files.lock(&path, &self.path).map_err(|error| match error.kind() {
            ErrorKind::WouldBlock => {
                let holder = self.files.holder(&path).ok().flatten();
                Error::Locked { path, holder: holder.unwrap_or(Holder { process: None }) }
            }
            _ => Error::files("locked", &path)(error),
        })
    }

    /// Who has it locked; none if nobody has.
    pub fn holder(&self) -> Result<Option<Holder>, Error> {
        let path = self.beside(LOCK);
        self.files.holder(&path).map_err(Error::files("looked at", &path))
    }

    /// The file's first bytes, none if it is not there.
    pub fn read(&self, most: usize) -> Result<Option<Vec<u8>>, Error> {
        self.files.read(&self.path, most).map_err(Error::files("read", &self.path))
    }

    /// The first bytes of the file beside it with this ending, none if that is not there.
    pub fn read_beside(&self, ending: &str, most: usize) -> Result<Option<Vec<u8>>, Error> {
        let path = self.beside(ending);
        self.files.read(&path, most).map_err(Error::files("read", &path))
    }

    /// Writes a synced file that is to have the name with this ending, and is called otherwise until it is renamed.
    pub fn write_new(&self, ending: &str, bytes: &[u8]) -> Result<PathBuf, Error> {
        let new = self.beside(&format!("{ending}{NEW}"));
        self.files.write(&new, bytes, &self.path).map_err(Error::files("written", &new))?;
        Ok(new)
    }

    /// Gives the file that was written the name with this ending.
    pub fn rename_new(&self, new: &Path, ending: &str) -> Result<(), Error> {
        let path = self.beside(ending);
        self.files.rename(new, &path).map_err(Error::files("written", &path))
    }

    /// Replaces the file. All names in the folder are synced before and after: what was put beside it is there for
    /// certain if the new bytes are, and these are there for certain in the end.
    pub fn replace(&self, bytes: &[u8]) -> Result<(), Error> {
        let new = self.write_new("", bytes)?;
        self.sync_folder()?;
        self.rename_new(&new, "")?;
        self.sync_folder()
    }

    /// Syncs the names of the folder.
    pub fn sync_folder(&self) -> Result<(), Error> {
        self.files.sync_folder(&self.path).map_err(Error::files("synced", &self.path))
    }

    /// Removes the file beside it with this ending, if it is there.
    pub fn remove_beside(&self, ending: &str) -> Result<(), Error> {
        let path = self.beside(ending);
        self.files.remove(&path).map_err(Error::files("removed", &path))
    }
}
