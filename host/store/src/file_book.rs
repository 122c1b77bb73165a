//! A book in a file.

use crate::beside::{outbox_at, said_at};
use crate::hold::Hold;
use crate::outbox::Outbox;
use crate::place::{Place, FRAMES, SAID};
use crate::{pile, Disk, Error, Files, Said};
use std::path::Path;
use types::{Book, Calls, Counts, Delivered, Height, Move, Written, ENTRY, FRAME};

/// A book that is kept in a file and locked until this value is dropped. Every call that changes the book is
/// committed when it returns; one that returns an error of [`Error::Files`] may be, which who opens the book again
/// will see. One that would contradict what has left the station ends with [`Error::Contradiction`], and one on a book
/// that was renamed, removed or replaced meanwhile with [`Error::Moved`].
#[derive(Debug)]
pub struct FileBook<C, F: Files = Disk> {
    book: Book<C>,
    unsent: Written,
    said: Said,
    /// Whether `said` is what stands beside the book.
    recorded: bool,
    stale: bool,
    hold: Hold<F>,
}

/// The bytes of a book in a file, without a lock: they are whole and synced, but may be old by the time they are
/// looked at.
pub fn read(path: impl AsRef<Path>) -> Result<Vec<u8>, Error> {
    read_in(Disk::default(), path.as_ref())
}

/// [`read`] in another file system.
pub fn read_in<F: Files>(files: F, path: &Path) -> Result<Vec<u8>, Error> {
    let place = Place::resolve(files, path)?;
    let bytes = place.read_book()?;
    // Who has it open may be between renaming and syncing: nothing is answered from a name that is not synced.
    place.sync_folder()?;
    Ok(bytes)
}

impl<C: Calls + Clone> FileBook<C> {
    /// Keeps a new book in a file that is not there yet, and has no word beside it of what an earlier book said.
    pub fn create(book: Book<C>, path: impl AsRef<Path>) -> Result<FileBook<C>, Error> {
        FileBook::create_in(Disk::default(), book, path.as_ref())
    }

    /// Keeps a book in a file in place of what was there, frames that wait and word of what was said included: for a
    /// new season.
    pub fn overwrite(book: Book<C>, path: impl AsRef<Path>) -> Result<FileBook<C>, Error> {
        FileBook::overwrite_in(Disk::default(), book, path.as_ref())
    }

    /// Opens the book in a file; waits while another has it open. What [`FileBook::unsent`] gives is to be sent
    /// first.
    pub fn open(calls: C, path: impl AsRef<Path>) -> Result<FileBook<C>, Error> {
        FileBook::open_in(Disk::default(), calls, path.as_ref())
    }
}

impl<C: Calls + Clone, F: Files> FileBook<C, F> {
    /// [`FileBook::create`] in another file system.
    pub fn create_in(files: F, book: Book<C>, path: &Path) -> Result<FileBook<C, F>, Error> {
        let hold = Hold::create(files, path, book.bytes())?;
        Ok(FileBook::new(book, hold, None))
    }

    /// [`FileBook::overwrite`] in another file system.
    pub fn overwrite_in(files: F, book: Book<C>, path: &Path) -> Result<FileBook<C, F>, Error> {
        let hold = Hold::overwrite(files, path, book.bytes())?;
        Ok(FileBook::new(book, hold, None))
    }

    /// [`FileBook::open`] in another file system, or with another patience: [`Disk`] has one.
    pub fn open_in(files: F, calls: C, path: &Path) -> Result<FileBook<C, F>, Error> {
        let (hold, bytes) = Hold::open(files, path)?;
        let book = Book::from_bytes(calls, bytes)?;
        // Who had it before may have ended between renaming and syncing: nothing is answered from a name that is not.
        hold.place.sync_folder()?;
        let said = said_at(&hold.place)?;
        if said.as_ref().is_some_and(|said| !said.is_of(&book)) {
            return Err(Error::Said(hold.place.beside(SAID)));
        }
        let frames = waiting(&hold, book.bytes())?;
        let mut opened = FileBook::new(book, hold, said);
        if !frames.is_empty() {
            let said = opened.said.after(&frames, opened.book.own())?;
            opened.record(said)?;
            opened.unsent = frames;
        }
        Ok(opened)
    }

    /// A book with nothing to send; what it has said it shows itself where nothing is beside it.
    fn new(book: Book<C>, hold: Hold<F>, said: Option<Said>) -> FileBook<C, F> {
        let recorded = said.is_some();
        let said = said.unwrap_or_else(|| Said::shown_by(&book));
        FileBook { book, unsent: Vec::new(), said, recorded, stale: false, hold }
    }

    /// The book as it is in the file, for everything that changes nothing.
    pub fn book(&self) -> &Book<C> {
        &self.book
    }

    /// What has left the station, or is [`FileBook::unsent`] and may.
    pub fn said(&self) -> &Said {
        &self.said
    }

    /// The frames that are to be sent: the book that cast them is synced. Until they are acknowledged no call is
    /// made.
    pub fn unsent(&self) -> &[[u8; FRAME]] {
        &self.unsent
    }

    /// Acknowledges that the frames are sent, or are in other hands that will not lose them.
    pub fn sent(&mut self) -> Result<(), Error> {
        if !self.unsent.is_empty() {
            let removed = self.hold.remove_beside(FRAMES);
            self.stale |= matches!(removed, Err(Error::Moved(_)));
            removed?;
            self.unsent.clear();
        }
        Ok(())
    }

    /// Adds the unsent frames to a file, as lines of digits, syncs it and acknowledges them. The file is replaced as
    /// a whole, and locked meanwhile by one of its name with `.lock` behind it. Without frames it is only looked at.
    pub fn hand_to(&mut self, path: impl AsRef<Path>) -> Result<(), Error>
    where
        F: Clone,
    {
        let pile = Place::resolve(self.hold.place.files.clone(), path.as_ref())?;
        if pile.path == self.hold.place.path {
            return Err(Error::Own(pile.path));
        }
        pile::append(&pile, &self.unsent)?;
        self.sent()
    }

    /// Takes a frame whose signatures hold.
    pub fn deliver(&mut self, frame: &[u8]) -> Result<Delivered, Error> {
        self.change(|book| Ok((book.deliver(frame)?, Vec::new())))
    }

    /// Takes a packet of frames whose signatures hold, in order and in one commit: who opens the book after the process
    /// or the machine has ended finds it as it was before the packet or after it, never between two frames.
    pub fn deliver_packet(&mut self, packet: &[u8]) -> Result<Counts, Error> {
        self.change(|book| Ok((book.deliver_packet(packet)?, Vec::new())))
    }

    /// Tells that the timer of a height fired.
    pub fn signal(&mut self, height: Height) -> Result<(), Error> {
        self.change(|book| Ok((book.signal(height)?, Vec::new())))
    }

    /// Adds a pending entry.
    pub fn submit(&mut self, entry: &[u8; ENTRY]) -> Result<(), Error> {
        self.change(|book| Ok((book.submit(entry)?, Vec::new())))
    }

    /// Makes the first move that applies. Its frames are [`FileBook::unsent`] now; they are to be delivered here too.
    pub fn make_move(&mut self) -> Result<Move, Error> {
        self.change(|book| Ok(book.make_move()?))
    }

    /// Makes the first move that applies and delivers its frames here, in one commit, so that no end of the process
    /// comes between the two. A frame of its own that the book refuses is not taken, and is to be sent all the same.
    pub fn move_and_take(&mut self) -> Result<Move, Error> {
        self.change(|book| {
            let (made, frames) = book.make_move()?;
            frames.iter().for_each(|frame| _ = book.deliver(frame));
            Ok((made, frames))
        })
    }

    /// Makes calls on a copy, and commits it with the frames that they wrote.
    fn change<A>(
        &mut self,
        calls: impl FnOnce(&mut Book<C>) -> Result<(A, Written), Error>,
    ) -> Result<A, Error> {
        if self.stale {
            return Err(Error::Stale);
        }
        if !self.unsent.is_empty() {
            return Err(Error::Unsent);
        }
        let mut book = self.book.clone();
        let (answer, frames) = calls(&mut book)?;
        if frames.is_empty() && book.bytes() == self.book.bytes() {
            return Ok(answer);
        }
        let said = self.said.after(&frames, book.own())?;
        self.stale = true;
        self.commit(&book, &frames)?;
        if !frames.is_empty() {
            self.record(said)?;
        }
        (self.stale, self.book, self.unsent) = (false, book, frames);
        Ok(answer)
    }

    /// The order of the page above: the frames beside the book, then the book.
    fn commit(&mut self, book: &Book<C>, frames: &[[u8; FRAME]]) -> Result<(), Error> {
        self.hold.look_for(self.book.bytes())?;
        if !frames.is_empty() {
            let outbox = Outbox::new(book.bytes(), frames);
            self.hold.put_beside(FRAMES, outbox.text().as_bytes())?;
        }
        self.hold.replace(book.bytes())
    }

    /// Keeps what the station has said, synced, before it leaves.
    fn record(&mut self, said: Said) -> Result<(), Error> {
        if !self.recorded || said != self.said {
            self.hold.put_beside(SAID, said.text().as_bytes())?;
            self.hold.place.sync_folder()?;
            (self.said, self.recorded) = (said, true);
        }
        Ok(())
    }
}

/// The frames that an earlier life left beside this book. Those of another book were never cast: they are dropped.
fn waiting<F: Files>(hold: &Hold<F>, book: &[u8]) -> Result<Written, Error> {
    match outbox_at(&hold.place)? {
        Some(outbox) if outbox.names(book) => return Ok(outbox.frames),
        Some(_) => hold.remove_beside(FRAMES)?,
        None => {}
    }
    Ok(Vec::new())
}
