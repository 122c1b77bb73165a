//! A book in a file: locked while it is open, each call committed together with the frames that it wrote.
//!
//! Two rules hold, whenever the process or the machine ends. A frame leaves only after the book that cast it is
//! synced: else the station could forget what it said, and say another thing. And once that book is synced its
//! frames are not lost: they wait in a file beside the book until they are acknowledged. Frames may go out twice,
//! which is harmless.
//!
//! Beside a book `b` there are `b.lock`, which processes lock and which stays; `b.said`, what has left the station;
//! `b.frames` while frames wait; `b.new`, `b.frames.new` and `b.said.new`, which are being written, and of no account
//! after a crash. So no book has a name that ends as theirs. The order of a call that writes frames:
//!
//! 1. its frames are held against [`Said`]: one that contradicts what the station has said ends the call;
//! 2. `b.frames` is written and synced; it names the book after the call by its SHA-256;
//! 3. the new book is written to `b.new` and synced, and the folder is synced;
//! 4. `b.new` is renamed to `b`, which is the commit, and the folder is synced;
//! 5. `b.said` is replaced by one that has these frames too, and the folder is synced;
//! 6. the frames are handed to the caller, who sends them and acknowledges: `b.frames` goes.
//!
//! Who opens the book finds `b.frames` of an earlier life: frames of the book that is there go through steps 5 and 6
//! first, those of another book were never cast, and are dropped. An end between 4 and 5 loses no frame therefore, and
//! what is in `b.said` has been cast: recorded before the commit, it could stop a station that never said it.
//!
//! Before each renaming `b` must be the very file that was opened, else the call ends with [`Error::Moved`], and the
//! value makes no call any more. The file itself is locked beside `b.lock`, so that who opens it by another name waits.
//!
//! ```
//! # let folder = std::env::temp_dir().join(format!("store{}", std::process::id()));
//! # std::fs::create_dir_all(&folder).unwrap();
//! # let path = folder.join("book");
//! # fn send(_: &[[u8; types::FRAME]]) {}
//! use store::FileBook;
//! // Over the proved replica: mavunilai::Proved in place of the reference.
//! let new = types::Book::open(reference::Rules::SHA256, 1, 0, &[1; 1], &[0, 0])?;
//! FileBook::create(new, &path)?;
//!
//! let mut book = FileBook::open(reference::Rules::SHA256, &path)?;
//! send(book.unsent());
//! book.sent()?;
//! book.submit(b"\0swap A12 to B40")?;
//! while book.move_and_take()? != types::Move::Idle {
//!     send(book.unsent());
//!     book.sent()?;
//! }
//! assert_eq!(book.book().log()?.len(), 1);
//! # std::fs::remove_dir_all(&folder).unwrap();
//! # Ok::<(), store::Error>(())
//! ```
//!
//! An observer's book is kept by [`FileObserver`] in the same way. It writes no frames, so there is no `b.frames` and
//! no `b.said`, and a call is steps 3 and 4: what it answers is synced before it is told.
//!
//! A lock that another process has is waited for. [`Disk`] has a [`Patience`] for `open_in` and the like, which may end
//! the waiting with [`Error::Locked`]; [`holder`], [`said`] and [`waiting`] tell what is beside a book without a lock.

#![warn(clippy::indexing_slicing, clippy::arithmetic_side_effects)]
#![warn(clippy::unwrap_used, clippy::expect_used, clippy::panic)]

mod beside;
mod digits;
mod disk;
mod error;
mod file_book;
mod file_observer;
mod files;
mod flock;
mod hold;
mod outbox;
mod patience;
mod pile;
mod place;
mod said;
mod statement;

pub use beside::{holder, said, said_in, waiting};
pub use disk::Disk;
pub use error::Error;
pub use file_book::{read, read_in, FileBook};
pub use file_observer::FileObserver;
pub use files::{Files, Holder};
pub use patience::Patience;
pub use said::Said;
pub use statement::Statement;
