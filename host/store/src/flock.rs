//! Locks of the machine: waiting for one, and the number of the process that has it.

use crate::disk::found;
use crate::{Holder, Patience};
use std::fs::{File, TryLockError};
use std::io::{ErrorKind, Read, Result, Write};
use std::path::Path;
use std::time::{Duration, Instant};

/// How long a lock is waited for before it is told who has it.
const QUIET: Duration = Duration::from_secs(2);

/// How long to wait between two looks: short at first, since most calls are.
const LOOKS: [Duration; 2] = [Duration::from_millis(1), Duration::from_millis(20)];

/// Waits until the file is locked for this process; who has it meanwhile is asked for if it takes long.
pub fn wait(
    file: &File,
    path: &Path,
    patience: Patience,
    holder: impl Fn() -> Result<Option<Holder>>,
) -> Result<()> {
    let (begun, mut told) = (Instant::now(), false);
    loop {
        match file.try_lock() {
            Ok(()) => return Ok(()),
            Err(TryLockError::Error(error)) => return Err(error),
            Err(TryLockError::WouldBlock) => {}
        }
        let waited = begun.elapsed();
        if patience.longest.is_some_and(|longest| waited >= longest) {
            return Err(ErrorKind::WouldBlock.into());
        }
        if waited >= QUIET && !told {
            let unknown = Some(Holder { process: None });
            if let Some(holder) = holder().unwrap_or(unknown) {
                told = true;
                (patience.tell)(path, holder);
            }
        }
        let [short, long] = LOOKS;
        let look = if waited < long { short } else { long };
        let left = patience.longest.map(|longest| longest.saturating_sub(waited));
        std::thread::sleep(left.map_or(look, |left| left.min(look)));
    }
}

/// A lock of this process. Its number stands in the file as long, if that may be written; the lock holds all the same.
#[derive(Debug)]
pub struct Signed(File);

impl Signed {
    /// Signs a file that is locked.
    pub fn new(mut file: File) -> Signed {
        _ = file.set_len(0).and_then(|()| writeln!(file, "{}", std::process::id()));
        Signed(file)
    }
}

impl Drop for Signed {
    fn drop(&mut self) {
        _ = self.0.set_len(0);
    }
}

/// Who has the file locked; none if nobody has. What a process left there that has ended is not taken for an answer,
/// since its lock ended with it.
pub fn holder(path: &Path) -> Result<Option<Holder>> {
    let Some(file) = found(File::open(path))? else {
        return Ok(None);
    };
    match file.try_lock_shared() {
        Ok(()) => Ok(None),
        Err(TryLockError::Error(error)) => Err(error),
        Err(TryLockError::WouldBlock) => {
            let mut text = String::new();
            let read = file.take(16).read_to_string(&mut text);
            let process = read.ok().and_then(|_| text.trim_end().parse().ok());
            Ok(Some(Holder { process }))
        }
    }
}
