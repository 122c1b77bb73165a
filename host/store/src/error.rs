//! Why a book in a file did not do what it was asked.

use crate::{Holder, Statement};
use std::fmt;
use std::io;
use std::path::{Path, PathBuf};
use types::{Height, Refusal};

/// What went wrong. Only a refusal comes from the replica; the book is then as it was.
#[derive(Debug)]
pub enum Error {
    /// The replica refused.
    Refused(Refusal),
    /// Frames wait to be sent and acknowledged; nothing was done.
    Unsent,
    /// An earlier call could not be committed; the book must be opened again.
    Stale,
    /// The name is no longer that of the file that was opened, or that file has other bytes now: it was renamed,
    /// removed or replaced. Before the commit nothing was written; after it the frames wait beside the old name.
    Moved(PathBuf),
    /// The call would have said what contradicts a statement that has left the station; nothing was written.
    Contradiction {
        /// The height.
        height: Height,
        /// What the station has said of it.
        said: Statement,
        /// What it would say now.
        now: Statement,
    },
    /// The file of what the station has said is damaged, or of another season or station than the book.
    Said(PathBuf),
    /// Another process has the lock, and the time to wait is over.
    Locked {
        /// The file that is locked.
        path: PathBuf,
        /// Who has it.
        holder: Holder,
    },
    /// There is a file already, and it is not to be overwritten.
    Exists(PathBuf),
    /// The file beside a book is not one that this crate wrote, or the file to hand frames to holds other things.
    Foreign(PathBuf),
    /// The frames were to be handed to the book itself.
    Own(PathBuf),
    /// The name is one that a file beside a book may have, and would be written over.
    Reserved(PathBuf),
    /// The file system failed.
    Files {
        /// The file.
        path: PathBuf,
        /// What could not be done, as `read`.
        what: &'static str,
        /// What the system says.
        error: io::Error,
    },
}

impl Error {
    /// Names the file and what could not be done.
    pub(crate) fn files(what: &'static str, path: &Path) -> impl FnOnce(io::Error) -> Error {
        let path = path.to_path_buf();
        move |error| Error::Files { path, what, error }
    }
}

impl From<Refusal> for Error {
    fn from(refusal: Refusal) -> Error {
        Error::Refused(refusal)
    }
}

impl fmt::Display for Error {
    fn fmt(&self, to: &mut fmt::Formatter<'_>) -> fmt::Result {
        match self {
            Error::Refused(refusal) => {
                write!(to, "refused with {}: {refusal}", refusal.number())
            }
            Error::Unsent => write!(to, "frames of an earlier move wait to be sent"),
            Error::Stale => write!(to, "an earlier call was not committed; open the book again"),
            Error::Moved(path) => {
                let path = path.display();
                let how = "renamed, removed or replaced, or has a second name";
                write!(to, "{path} is no longer the book that was opened: it was {how}")
            }
            Error::Contradiction { height, said, now } => {
                write!(
                    to,
                    "height {height}: the station has said {said}, and would say {now} now; "
                )?;
                write!(to, "nothing was written; is the book an older copy?")
            }
            Error::Said(path) => {
                let path = path.display();
                write!(to, "{path} is damaged, or of another season or station than the book")
            }
            Error::Locked { path, holder } => {
                write!(to, "{} is locked, {holder} has it", path.display())
            }
            Error::Exists(path) => write!(to, "{} is there already", path.display()),
            Error::Foreign(path) => {
                write!(to, "{} holds something else than frames", path.display())
            }
            Error::Own(path) => {
                write!(to, "{} is the book itself, and takes no frames", path.display())
            }
            Error::Reserved(path) => {
                let path = path.display();
                write!(
                    to,
                    "{path} has the name of a file beside a book (.lock, .new, .frames, .said)"
                )
            }
            Error::Files { path, what, error } => {
                write!(to, "{} cannot be {what}: {error}", path.display())
            }
        }
    }
}

impl std::error::Error for Error {
    fn source(&self) -> Option<&(dyn std::error::Error + 'static)> {
        match self {
            Error::Files { error, .. } => Some(error),
            _ => None,
        }
    }
}
