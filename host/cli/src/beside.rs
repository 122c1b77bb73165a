//! What stands beside a book in a file: frames that wait, what the station has said, and who has the lock.

use crate::chosen::REPLICA;
use crate::station::behind_link;
use crate::words::count;
use store::{Error, Holder, Said, Statement};
use types::{field, Book, Calls, Height};

/// What stands beside a book.
#[derive(Clone, Debug)]
pub struct Beside {
    pub frames: Frames,
    pub said: Fence,
    pub holder: Option<Holder>,
}

/// The file of the frames that wait.
#[derive(Clone, Debug, PartialEq, Eq)]
pub enum Frames {
    /// There are none.
    None,
    /// So many wait for the next call, which hands them on.
    Wait(usize),
    /// Those of a call that was never committed; the next call removes them.
    Uncommitted,
    /// The file is cut, or holds something else.
    Damaged(String),
}

/// The file of what the station has said, held against its book.
#[derive(Clone, Debug, PartialEq, Eq)]
pub enum Fence {
    /// There is none.
    None,
    /// The book knows of so many statements.
    Agrees(usize),
    /// The station has said what the book does not know of.
    Older(Height, Statement),
    /// The book shows another statement than the station has said.
    Contradicts(Height, Statement),
    /// The file is damaged or of another book, or the book is not sound.
    Unread(String),
}

/// What the station of the book in a file has said; to be read before the book, which is written first.
pub type Kept = Result<Option<Said>, Error>;

/// What stands beside the book in a file, whose bytes these are, read after what was said. Nothing is locked, so a call
/// may go on meanwhile: frames count as waiting for nobody only if they still do after nobody was found to have the
/// book.
pub fn of(file: &str, said: Kept, bytes: &[u8]) -> Beside {
    let holder = || store::holder(file).ok().flatten();
    let said = fence(file, said, bytes);
    match (frames(file), holder()) {
        (Frames::Wait(_), None) => Beside { frames: frames(file), said, holder: holder() },
        (frames, holder) => Beside { frames, said, holder },
    }
}

/// The frames beside a book.
fn frames(file: &str) -> Frames {
    let path = format!("{}.frames", behind_link(file));
    match store::waiting(file) {
        Ok(frames) if !frames.is_empty() => Frames::Wait(frames.len()),
        Ok(_) if std::fs::symlink_metadata(path).is_ok() => Frames::Uncommitted,
        Ok(_) => Frames::None,
        Err(error) => Frames::Damaged(error.to_string()),
    }
}

/// What the station has said, held against its book.
fn fence(file: &str, said: Kept, bytes: &[u8]) -> Fence {
    let said = match said {
        Ok(None) => return Fence::None,
        Ok(Some(said)) => said,
        Err(error) => return Fence::Unread(error.to_string()),
    };
    match Book::from_bytes(REPLICA, bytes.to_vec()) {
        Err(_) => Fence::Unread("the book is not sound".to_string()),
        Ok(book) if !said.is_of(&book) => {
            Fence::Unread(Error::Said(format!("{file}.said").into()).to_string())
        }
        Ok(book) => compared(&said, &book),
    }
}

/// Holds a book against what its station has said.
fn compared(said: &Said, book: &Book<impl Calls>) -> Fence {
    let shown = Said::shown_by(book);
    let against = |(height, one): &(Height, Statement)| {
        shown.of_height(*height).any(|other| one.contradicts(other))
    };
    if let Some((height, one)) = said.statements().find(against) {
        return Fence::Contradicts(height, one);
    }
    match said.statements().find(|(height, one)| is_ahead(book, *height, *one)) {
        Some((height, one)) => Fence::Older(height, one),
        None => Fence::Agrees(said.statements().count()),
    }
}

/// Whether a station at this book's place cannot have said this yet: it is of a height above the current one, or of the
/// current one, and no flag says so. A finalise comes with the pass.
fn is_ahead(book: &Book<impl Calls>, height: Height, statement: Statement) -> bool {
    let flags = book.bytes().get(field::FLAGS).copied().unwrap_or(0);
    let cast = match statement {
        Statement::DummyVote => flags & 2 != 0,
        Statement::BlockVote(_) => flags & 4 != 0,
        Statement::Proposal(_) => flags & 8 != 0,
        Statement::Finalize => false,
    };
    height > book.current() || (height == book.current() && !cast)
}

impl Beside {
    /// The first thing that a person should look at; none if all is well.
    pub fn trouble(&self) -> Option<String> {
        match (&self.said, &self.frames) {
            (Fence::Older(..), _) => {
                Some("this book is older than what the station has said".to_string())
            }
            (Fence::Contradicts(..), _) => {
                Some("this book contradicts what the station has said".to_string())
            }
            (Fence::Unread(why), _) => Some(why.clone()),
            (_, Frames::Damaged(why)) => Some(why.clone()),
            (_, Frames::Wait(frames)) if self.holder.is_none() => {
                Some(format!("{} to be sent", count(*frames, "frame waits", "frames wait")))
            }
            _ => None,
        }
    }

    /// The lines about it, for a book of this name.
    pub fn lines(&self, file: &str) -> [String; 3] {
        let file = behind_link(file);
        let frames = match &self.frames {
            Frames::None => "none wait".to_string(),
            Frames::Wait(number) => format!("{number} in {file}.frames, which the next call sends"),
            Frames::Uncommitted => {
                format!(
                    "{file}.frames is of a call that was not committed; the next call removes it"
                )
            }
            Frames::Damaged(why) => why.clone(),
        };
        let said = match &self.said {
            Fence::None => "nothing is kept".to_string(),
            Fence::Agrees(number) => {
                format!("{}, and the book agrees", count(*number, "statement", "statements"))
            }
            Fence::Older(height, one) => {
                format!(
                    "{one} of height {height}, of which the book does not know: it is an older one"
                )
            }
            Fence::Contradicts(height, one) => {
                format!("{one} of height {height}, and the book has another")
            }
            Fence::Unread(why) => why.clone(),
        };
        let lock = match self.holder {
            None => "nobody has it".to_string(),
            Some(holder) => format!("{holder} has it"),
        };
        [format!("frames: {frames}"), format!("said: {said}"), format!("lock: {lock}")]
    }
}
