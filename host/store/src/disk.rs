//! The files of the machine.

use crate::flock::{self, Signed};
use crate::{Files, Holder, Patience};
use std::fs::{self, File, OpenOptions};
use std::io::{Error, ErrorKind, Read, Result, Write};
use std::os::unix::fs::{fchown, MetadataExt};
use std::path::{Path, PathBuf};

/// The file system of the machine. Locks are those of `flock`: they bind all who use this crate, and nobody else.
#[derive(Clone, Copy, Debug, Default)]
pub struct Disk {
    /// How long a lock that another process has is waited for.
    pub patience: Patience,
}

impl Files for Disk {
    type Lock = Signed;
    type Held = File;

    fn resolve(&self, path: &Path) -> Result<PathBuf> {
        if let Some(missing) = missing(path)? {
            return Ok(missing);
        }
        let found = fs::metadata(path)?;
        if !found.is_file() {
            return Err(Error::new(ErrorKind::InvalidInput, "it is no plain file"));
        }
        if found.nlink() > 1 {
            let sentence = "it has a second name (a hard link), which would keep the old bytes";
            return Err(Error::new(ErrorKind::InvalidInput, sentence));
        }
        path.canonicalize()
    }

    fn lock(&self, path: &Path, like: &Path) -> Result<Signed> {
        let file = match create(path, like) {
            Err(error) if error.kind() == ErrorKind::AlreadyExists => open_to_lock(path)?,
            created => created?,
        };
        belong(&file, like)?;
        flock::wait(&file, path, self.patience, || flock::holder(path))?;
        Ok(Signed::new(file))
    }

    fn holder(&self, path: &Path) -> Result<Option<Holder>> {
        flock::holder(path)
    }

    fn hold(&self, path: &Path) -> Result<Option<File>> {
        loop {
            let Some(file) = found(open_to_lock(path))? else {
                return Ok(None);
            };
            let unknown = || Ok(Some(Holder { process: None }));
            flock::wait(&file, path, self.patience, unknown)?;
            // Who had it may have replaced it meanwhile.
            if is_file(&file, path)? {
                return Ok(Some(file));
            }
        }
    }

    fn is(&self, held: &File, path: &Path) -> Result<bool> {
        Ok(is_file(held, path)? && held.metadata()?.nlink() == 1)
    }

    fn has_name(&self, held: &File, free: &Path) -> Result<Option<bool>> {
        if held.metadata()?.nlink() == 0 {
            return Ok(Some(false));
        }
        // Some file systems keep a name for a file that is open: then they do so for one that is surely removed.
        let removed = create(free, free)?;
        self.remove(free)?;
        Ok((removed.metadata()?.nlink() == 0).then_some(true))
    }

    fn empty(&self, held: &File) -> Result<()> {
        held.set_len(0)
    }

    fn read(&self, path: &Path, most: usize) -> Result<Option<Vec<u8>>> {
        let Some(file) = found(File::open(path))? else {
            return Ok(None);
        };
        let mut bytes = Vec::new();
        file.take(most as u64).read_to_end(&mut bytes)?;
        Ok(Some(bytes))
    }

    fn write(&self, path: &Path, bytes: &[u8], like: &Path) -> Result<()> {
        self.remove(path)?;
        let mut file = create(path, like)?;
        file.write_all(bytes)?;
        file.sync_all()
    }

    fn rename(&self, from: &Path, to: &Path) -> Result<()> {
        fs::rename(from, to)
    }

    fn sync_folder(&self, path: &Path) -> Result<()> {
        File::open(folder(path))?.sync_all()
    }

    fn remove(&self, path: &Path) -> Result<()> {
        found(fs::remove_file(path)).map(|_| ())
    }
}

/// None where the error is that there is no such file.
pub fn found<T>(outcome: Result<T>) -> Result<Option<T>> {
    match outcome {
        Err(error) if error.kind() == ErrorKind::NotFound => Ok(None),
        outcome => outcome.map(Some),
    }
}

/// Makes a file that belongs to whom another one belongs to and is as private, if that is there.
fn create(path: &Path, like: &Path) -> Result<File> {
    let file = OpenOptions::new().create_new(true).write(true).open(path)?;
    belong(&file, like)?;
    if let Some(like) = found(fs::metadata(like))? {
        file.set_permissions(like.permissions())?;
    }
    Ok(file)
}

/// Opens a file to lock it, only to read where it may not be written: it can be locked then too.
fn open_to_lock(path: &Path) -> Result<File> {
    match OpenOptions::new().write(true).open(path) {
        Err(error) if error.kind() == ErrorKind::PermissionDenied => {
            File::open(path).map_err(|_| error)
        }
        opened => opened,
    }
}

/// Whether a name is that of an open file, itself and no link.
fn is_file(file: &File, path: &Path) -> Result<bool> {
    let Some(named) = found(fs::symlink_metadata(path))? else {
        return Ok(false);
    };
    let opened = file.metadata()?;
    Ok((named.dev(), named.ino()) == (opened.dev(), opened.ino()))
}

/// Lets a file belong to the user and the group of another one, if that is there. Only the administrator may give both;
/// others give the group if they are in it, else it stays theirs.
fn belong(file: &File, like: &Path) -> Result<()> {
    let (Some(like), own) = (found(fs::metadata(like))?, file.metadata()?) else {
        return Ok(());
    };
    if (like.uid(), like.gid()) != (own.uid(), own.gid()) {
        let given = fchown(file, Some(like.uid()), Some(like.gid()));
        _ = given.or_else(|_| fchown(file, None, Some(like.gid())));
    }
    Ok(())
}

/// The folder of a file.
fn folder(path: &Path) -> &Path {
    path.parent().filter(|folder| !folder.as_os_str().is_empty()).unwrap_or(Path::new("."))
}

/// The path of a file that is not there, in a folder that is; none if there is something of that name.
fn missing(path: &Path) -> Result<Option<PathBuf>> {
    if found(fs::symlink_metadata(path))?.is_some() {
        return Ok(None);
    }
    let unnamed = || Error::new(ErrorKind::InvalidInput, "it has no name");
    let name = path.file_name().ok_or_else(unnamed)?;
    Ok(Some(folder(path).canonicalize()?.join(name)))
}
