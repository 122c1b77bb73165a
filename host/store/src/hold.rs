//! A book's place while it is open: two locks, and a look before each renaming whether the book is still there.
//!
//! `b.lock` keeps those away who use the same name. The file of the book itself is locked too, and that lock goes with
//! it when it is renamed: who opens it by another name waits. A new book is locked before it gets the name, so that
//! there is no moment without. Before a name beside the book or the book's own is given to another file, the book's
//! name must be that of the very file that was opened; else nothing is renamed and the call ends with
//! [`Error::Moved`].
//!
//! What remains is the moment between the last look and the renaming of the book, two system calls in a row. Whether
//! somebody renamed the book in that moment shows in the old file: it has a name still. Then the renaming is taken back
//! before anything leaves, and the call ends like the others. There are two books only if the process or the machine
//! ends between the two renamings. Where the file system does not tell whether a file has a name, the old one is
//! emptied, so that nobody goes on with it.

use crate::place::{Place, FRAMES, SAID};
use crate::{Error, Files, Holder};
use std::io::ErrorKind;
use std::path::Path;

/// The place of an open book.
#[derive(Debug)]
pub struct Hold<F: Files> {
    pub place: Place<F>,
    file: F::Held,
    _lock: F::Lock,
}

impl<F: Files> Hold<F> {
    /// Locks a book that is there, and reads it.
    pub fn open(files: F, path: &Path) -> Result<(Hold<F>, Vec<u8>), Error> {
        let place = Place::resolve(files, path)?;
        place.read_book()?;
        let lock = place.lock()?;
        let file = held(&place, &place.path)?;
        let hold = Hold { place, file, _lock: lock };
        let bytes = hold.place.read_book()?;
        hold.look()?;
        Ok((hold, bytes))
    }

    /// Puts a book in a file that is not there yet. What an earlier book of this name has said is not forgotten so.
    pub fn create(files: F, path: &Path, bytes: &[u8]) -> Result<Hold<F>, Error> {
        let place = Place::resolve(files, path)?;
        free(&place)?;
        let lock = place.lock()?;
        free(&place)?;
        begin(place, lock, bytes, free)
    }

    /// Puts a book in the place of what was there. What an earlier one has said goes before it, the frames that wait go
    /// after it: whenever the process ends, no frame of the book that is there is lost, and none is held against what
    /// another one said.
    pub fn overwrite(files: F, path: &Path, bytes: &[u8]) -> Result<Hold<F>, Error> {
        let place = Place::resolve(files, path)?;
        let lock = place.lock()?;
        begin(place, lock, bytes, |place| place.remove_beside(SAID))
    }

    /// Whether the name is still that of the file that was opened, with these bytes.
    pub fn look_for(&self, bytes: &[u8]) -> Result<(), Error> {
        self.look()?;
        let there = self.place.read(bytes.len().saturating_add(1))?;
        (there.as_deref() == Some(bytes)).then_some(()).ok_or_else(|| self.moved())
    }

    /// Whether the name is still that of the file that was opened.
    fn look(&self) -> Result<(), Error> {
        let Place { files, path } = &self.place;
        let same = files.is(&self.file, path).map_err(Error::files("read", path))?;
        same.then_some(()).ok_or_else(|| self.moved())
    }

    /// The error that it is not.
    fn moved(&self) -> Error {
        Error::Moved(self.place.path.clone())
    }

    /// Puts a synced file beside the book, by a name that still has to be synced.
    pub fn put_beside(&self, ending: &str, bytes: &[u8]) -> Result<(), Error> {
        self.look()?;
        let new = self.place.write_new(ending, bytes)?;
        self.look()?;
        self.place.rename_new(&new, ending)
    }

    /// Removes the file beside the book with this ending, if it is there.
    pub fn remove_beside(&self, ending: &str) -> Result<(), Error> {
        self.look()?;
        self.place.remove_beside(ending)
    }

    /// Replaces the book. All names in the folder are synced before and after: what was put beside it is there for
    /// certain if the new bytes are, and these are there for certain in the end.
    pub fn replace(&mut self, bytes: &[u8]) -> Result<(), Error> {
        let place = &self.place;
        let new = place.write_new("", bytes)?;
        let file = held(place, &new)?;
        place.sync_folder()?;
        self.look()?;
        place.rename_new(&new, "")?;
        let named = place.files.has_name(&self.file, &new);
        let named = named.map_err(Error::files("read", &place.path))?;
        if named == Some(true) {
            return self.take_back(&file, &new);
        }
        place.sync_folder()?;
        if named.is_none() {
            empty(place, &self.file)?;
        }
        self.file = file;
        Ok(())
    }

    /// Takes back the renaming of a new book, since the old one has another name: that is the book.
    fn take_back(&self, file: &F::Held, new: &Path) -> Result<(), Error> {
        let Place { files, path } = &self.place;
        if files.is(file, path).map_err(Error::files("read", path))? {
            files.rename(path, new).map_err(Error::files("renamed", path))?;
        } else {
            empty(&self.place, file)?;
        }
        self.place.sync_folder()?;
        Err(self.moved())
    }
}

/// Empties a file that was the book, or was to be.
fn empty<F: Files>(place: &Place<F>, file: &F::Held) -> Result<(), Error> {
    place.files.empty(file).map_err(Error::files("emptied", &place.path))
}

/// Opens and locks the file of a name that should be there.
fn held<F: Files>(place: &Place<F>, path: &Path) -> Result<F::Held, Error> {
    match place.files.hold(path) {
        Ok(Some(file)) => Ok(file),
        Ok(None) => Err(Error::Moved(path.to_path_buf())),
        Err(error) if error.kind() == ErrorKind::WouldBlock => {
            Err(Error::Locked { path: path.to_path_buf(), holder: Holder { process: None } })
        }
        Err(error) => Err(Error::files("locked", path)(error)),
    }
}

/// Whether there is neither a book nor word of what an earlier one has said.
fn free<F: Files>(place: &Place<F>) -> Result<(), Error> {
    if place.read(0)?.is_some() {
        return Err(Error::Exists(place.path.clone()));
    }
    match place.read_beside(SAID, 0)? {
        Some(_) => Err(Error::Exists(place.beside(SAID))),
        None => Ok(()),
    }
}

/// Puts the first bytes of a book there, once the place is cleared. Frames that waited belong to another book: they go
/// after it has gone, so that they are not lost while it is there.
fn begin<F: Files>(
    place: Place<F>,
    lock: F::Lock,
    bytes: &[u8],
    clear: impl Fn(&Place<F>) -> Result<(), Error>,
) -> Result<Hold<F>, Error> {
    let new = place.write_new("", bytes)?;
    let file = held(&place, &new)?;
    clear(&place)?;
    place.sync_folder()?;
    clear(&place)?;
    place.rename_new(&new, "")?;
    place.sync_folder()?;
    place.remove_beside(FRAMES)?;
    Ok(Hold { place, file, _lock: lock })
}
