//! What stands beside a book: the frames that wait, what the station has said, and who has the lock.

use crate::outbox::Outbox;
use crate::place::{Place, FRAMES, SAID};
use crate::{Disk, Error, Files, Holder, Said};
use std::path::Path;
use types::Written;

/// So many bytes at most are read of the frames that wait, and of what was said.
const MOST_FRAMES: usize = 1 << 12;
const MOST_SAID: usize = 1 << 20;

/// Who has the book in a file open to change it; none if nobody has. By the time that it is told it may be old.
pub fn holder(path: impl AsRef<Path>) -> Result<Option<Holder>, Error> {
    Place::resolve(Disk::default(), path.as_ref())?.holder()
}

/// What the station of the book in a file has said, without a lock; none if nothing was kept beside the book yet.
pub fn said(path: impl AsRef<Path>) -> Result<Option<Said>, Error> {
    said_in(Disk::default(), path.as_ref())
}

/// [`said`] in another file system.
pub fn said_in<F: Files>(files: F, path: &Path) -> Result<Option<Said>, Error> {
    said_at(&Place::resolve(files, path)?)
}

/// The frames that wait beside the book in a file, without a lock: those that are to be sent before the next call.
pub fn waiting(path: impl AsRef<Path>) -> Result<Written, Error> {
    let place = Place::resolve(Disk::default(), path.as_ref())?;
    let outbox = outbox_at(&place)?;
    let book = place.read_book()?;
    Ok(outbox.filter(|outbox| outbox.names(&book)).map_or_else(Vec::new, |outbox| outbox.frames))
}

/// What was said by the book of a place; none if nothing was kept.
pub fn said_at<F: Files>(place: &Place<F>) -> Result<Option<Said>, Error> {
    let text = place.read_beside(SAID, MOST_SAID)?;
    let wrong = || Error::Said(place.beside(SAID));
    text.map(|text| Said::parse(&text).ok_or_else(wrong)).transpose()
}

/// The frames beside a book, of whichever book they are; none if there is no such file.
pub fn outbox_at<F: Files>(place: &Place<F>) -> Result<Option<Outbox>, Error> {
    let text = place.read_beside(FRAMES, MOST_FRAMES)?;
    let wrong = || Error::Foreign(place.beside(FRAMES));
    text.map(|text| Outbox::parse(&text).ok_or_else(wrong)).transpose()
}
