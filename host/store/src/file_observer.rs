//! An observer's book in a file.

use crate::hold::Hold;
use crate::{Disk, Error, Files};
use std::path::Path;
use types::{Calls, Delivered, Move, ObserverBook, Refusal};

/// An observer's book that is kept in a file and locked until this value is dropped. An observer says nothing, so that
/// no frames wait beside it; but what a call answers is in the file, and synced, when it returns. A call that returns
/// an error of [`Error::Files`] may be committed, which who opens the book again will see; one on a book that was
/// renamed, removed or replaced meanwhile ends with [`Error::Moved`].
#[derive(Debug)]
pub struct FileObserver<C, F: Files = Disk> {
    book: ObserverBook<C>,
    stale: bool,
    hold: Hold<F>,
}

impl<C: Calls + Clone> FileObserver<C> {
    /// Keeps a new book in a file that is not there yet.
    pub fn create(book: ObserverBook<C>, path: impl AsRef<Path>) -> Result<Self, Error> {
        FileObserver::create_in(Disk::default(), book, path.as_ref())
    }

    /// Keeps a book in a file in place of what was there.
    pub fn overwrite(book: ObserverBook<C>, path: impl AsRef<Path>) -> Result<Self, Error> {
        FileObserver::overwrite_in(Disk::default(), book, path.as_ref())
    }

    /// Opens the book in a file; waits while another has it open.
    pub fn open(calls: C, path: impl AsRef<Path>) -> Result<Self, Error> {
        FileObserver::open_in(Disk::default(), calls, path.as_ref())
    }
}

impl<C: Calls + Clone, F: Files> FileObserver<C, F> {
    /// [`FileObserver::create`] in another file system.
    pub fn create_in(files: F, book: ObserverBook<C>, path: &Path) -> Result<Self, Error> {
        let hold = Hold::create(files, path, book.bytes())?;
        Ok(FileObserver { book, stale: false, hold })
    }

    /// [`FileObserver::overwrite`] in another file system.
    pub fn overwrite_in(files: F, book: ObserverBook<C>, path: &Path) -> Result<Self, Error> {
        let hold = Hold::overwrite(files, path, book.bytes())?;
        Ok(FileObserver { book, stale: false, hold })
    }

    /// [`FileObserver::open`] in another file system, or with another patience: [`Disk`] has one.
    pub fn open_in(files: F, calls: C, path: &Path) -> Result<Self, Error> {
        let (hold, bytes) = Hold::open(files, path)?;
        let book = ObserverBook::from_bytes(calls, bytes)?;
        // Who had it before may have ended between renaming and syncing: nothing is answered from a name that is not.
        hold.place.sync_folder()?;
        Ok(FileObserver { book, stale: false, hold })
    }

    /// The book as it is in the file, for everything that changes nothing.
    pub fn book(&self) -> &ObserverBook<C> {
        &self.book
    }

    /// Takes a certificate whose signatures hold.
    pub fn deliver(&mut self, frame: &[u8]) -> Result<Delivered, Error> {
        self.change(|book| Ok(book.deliver(frame)?))
    }

    /// Takes certificates whose signatures hold, in order and in one commit, and tells of each what became of it: who
    /// opens the book after the process or the machine has ended finds it as it was before them or after them.
    pub fn deliver_all<B: AsRef<[u8]>>(
        &mut self,
        frames: &[B],
    ) -> Result<Vec<Result<Delivered, Refusal>>, Error> {
        self.change(|book| Ok(frames.iter().map(|frame| book.deliver(frame.as_ref())).collect()))
    }

    /// Lets the settled height follow the certificates.
    pub fn make_move(&mut self) -> Result<Move, Error> {
        self.change(|book| Ok(book.make_move()?))
    }

    /// Makes calls on a copy, and commits it if it changed.
    fn change<A>(
        &mut self,
        calls: impl FnOnce(&mut ObserverBook<C>) -> Result<A, Error>,
    ) -> Result<A, Error> {
        if self.stale {
            return Err(Error::Stale);
        }
        let mut book = self.book.clone();
        let answer = calls(&mut book)?;
        if book.bytes() != self.book.bytes() {
            self.stale = true;
            self.hold.look_for(self.book.bytes())?;
            self.hold.replace(book.bytes())?;
            (self.stale, self.book) = (false, book);
        }
        Ok(answer)
    }
}
