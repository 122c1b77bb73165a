//! What a book in a file asks of the file system, as a trait: tests put one below it that fails and forgets.

use std::fmt::{self, Debug, Display};
use std::io::Result;
use std::path::{Path, PathBuf};

/// The operations on files. Only what is synced outlives the machine; a rename is whole or has not happened.
pub trait Files {
    /// A lock on a file, given back when it is dropped, and when the process ends.
    type Lock: Debug;

    /// A file that is open and locked, whatever becomes of its name; given back as a lock is.
    type Held: Debug;

    /// The one path of a file, whatever links lead to it. The file may be missing, its folder may not; what is no
    /// plain file, or has a second name in a folder, is an error.
    fn resolve(&self, path: &Path) -> Result<PathBuf>;

    /// Locks a file, which is made if it is missing, and then belongs to whom the file `like` belongs to; waits while
    /// another process has it, and answers [`std::io::ErrorKind::WouldBlock`] where it waits no longer.
    fn lock(&self, path: &Path, like: &Path) -> Result<Self::Lock>;

    /// Who has a file locked that [`Files::lock`] locks; none if nobody has.
    fn holder(&self, path: &Path) -> Result<Option<Holder>>;

    /// Opens the file of a name and locks the file itself, so that the lock stays with it under another name; none if
    /// there is no such file. Waits as [`Files::lock`] does.
    fn hold(&self, path: &Path) -> Result<Option<Self::Held>>;

    /// Whether a name is that of this very file, which has no other.
    fn is(&self, held: &Self::Held, path: &Path) -> Result<bool>;

    /// Whether a file whose name was given to another one has a name all the same; none if the file system does not
    /// tell. A file may be made and removed at the path for that.
    fn has_name(&self, held: &Self::Held, free: &Path) -> Result<Option<bool>>;

    /// Empties a file, whatever its name is.
    fn empty(&self, held: &Self::Held) -> Result<()>;

    /// The first bytes of a file, at most so many; none if there is no such file.
    fn read(&self, path: &Path, most: usize) -> Result<Option<Vec<u8>>>;

    /// Makes a file with these bytes, in place of one that is there, and syncs it. Whose it is, and who may read and
    /// write it, is as with the file `like`, if there is one, as far as the system lets this process.
    fn write(&self, path: &Path, bytes: &[u8], like: &Path) -> Result<()>;

    /// Gives a file another name in its folder; a file that had the name is gone.
    fn rename(&self, from: &Path, to: &Path) -> Result<()>;

    /// Syncs the names in the folder of a file.
    fn sync_folder(&self, path: &Path) -> Result<()>;

    /// Removes a file, if it is there.
    fn remove(&self, path: &Path) -> Result<()>;
}

/// Who has a file locked.
#[derive(Clone, Copy, Debug, PartialEq, Eq)]
pub struct Holder {
    /// The number of the process, where it left one.
    pub process: Option<u32>,
}

impl Display for Holder {
    fn fmt(&self, to: &mut fmt::Formatter<'_>) -> fmt::Result {
        match self.process {
            Some(number) => write!(to, "process {number}"),
            None => write!(to, "another process"),
        }
    }
}
