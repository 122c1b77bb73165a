//! A file system that keeps what is synced, may lose the rest, and can end the process at any step.
//!
//! Every name and every file has a history since it was last synced. When the machine ends, each name becomes any
//! one of its history, whatever becomes of the others, and each file has any contents of its own, or a part of the
//! last.

use super::random::Random;
use std::cell::RefCell;
use std::collections::BTreeMap;
use std::io::{Error, Result};
use std::path::{Path, PathBuf};
use std::rc::Rc;
use store::{Files, Holder};

/// How a step comes to grief.
#[derive(Clone, Copy, Debug, PartialEq, Eq)]
pub enum Fault {
    /// The process ends before it; files stay as all can see them.
    Process,
    /// The machine ends before it; what was not synced may be lost.
    Machine,
    /// The step is not done, and says so.
    Refusal,
}

/// A step that is left out in silence, to see whether a test notices.
#[derive(Clone, Copy, Debug, PartialEq, Eq)]
pub enum Forgotten {
    /// Files are not synced.
    Files,
    /// Folders are not synced.
    Folders,
}

/// What somebody else does to a name while a process works with it.
#[derive(Clone, Debug)]
pub enum Meddling {
    /// Gives the file another name.
    Rename(PathBuf),
    /// Removes the name.
    Remove,
    /// Puts another file there, with these bytes.
    Replace(Vec<u8>),
    /// Writes these bytes into the file.
    Rewrite(Vec<u8>),
}

#[derive(Debug, Default)]
struct State {
    contents: Vec<Vec<Vec<u8>>>,
    names: BTreeMap<PathBuf, Vec<Option<usize>>>,
    locked: Vec<PathBuf>,
    held: Vec<usize>,
    silent: bool,
    meddling: Option<(usize, PathBuf, Meddling)>,
    steps: usize,
    fault: Option<(usize, Fault)>,
    dead: bool,
    forgotten: Option<Forgotten>,
}

impl State {
    /// Before each step: whether it is still to be done.
    fn step(&mut self) -> Result<()> {
        self.steps += 1;
        if self.meddling.as_ref().is_some_and(|(at, ..)| self.steps > *at) {
            self.meddle();
        }
        if let Some((at, fault)) = self.fault.filter(|(at, _)| self.steps > *at) {
            let now = self.steps == at + 1;
            self.dead |= now && fault != Fault::Refusal;
            if now || self.dead {
                return Err(Error::other(format!("{fault:?} at step {at}")));
            }
        }
        Ok(())
    }

    /// Somebody does what he was to do.
    fn meddle(&mut self) {
        let Some((_, path, meddling)) = self.meddling.take() else {
            return;
        };
        let file = self.file(&path);
        match (meddling, file) {
            (Meddling::Rename(to), Some(_)) => {
                self.name(&to, file);
                self.name(&path, None);
            }
            (Meddling::Remove, _) => self.name(&path, None),
            (Meddling::Replace(bytes), _) => {
                self.contents.push(vec![bytes]);
                self.name(&path, Some(self.contents.len() - 1));
            }
            (Meddling::Rewrite(bytes), Some(file)) => self.contents[file].push(bytes),
            (Meddling::Rename(_) | Meddling::Rewrite(_), None) => {}
        }
    }

    /// The file of a name.
    fn file(&self, path: &Path) -> Option<usize> {
        self.names.get(path).and_then(|history| *history.last().unwrap())
    }

    /// Gives a name to a file, or to none.
    fn name(&mut self, path: &Path, file: Option<usize>) {
        self.names.entry(path.to_path_buf()).or_insert_with(|| vec![None]).push(file);
    }
}

/// The file system; copies are of the same one.
#[derive(Clone, Debug, Default)]
pub struct Fake(Rc<RefCell<State>>);

/// A lock of it.
#[derive(Debug)]
pub struct Lock(Fake, PathBuf);

impl Drop for Lock {
    fn drop(&mut self) {
        self.0 .0.borrow_mut().locked.retain(|path| *path != self.1);
    }
}

/// A file of it that is open.
#[derive(Debug)]
pub struct Held(Fake, usize);

impl Drop for Held {
    fn drop(&mut self) {
        self.0 .0.borrow_mut().held.retain(|file| *file != self.1);
    }
}

impl Fake {
    /// One that leaves steps out.
    pub fn forgetting(forgotten: Option<Forgotten>) -> Fake {
        let files = Fake::default();
        files.0.borrow_mut().forgotten = forgotten;
        files
    }

    /// Comes to grief after so many more steps.
    pub fn fault(&self, steps: usize, fault: Fault) {
        let mut state = self.0.borrow_mut();
        state.fault = Some((state.steps + steps, fault));
    }

    /// Does not tell whether a file has a name.
    pub fn be_silent(&self) {
        self.0.borrow_mut().silent = true;
    }

    /// Somebody meddles with a name before one more step is done, after so many.
    pub fn meddle(&self, steps: usize, path: &Path, meddling: Meddling) {
        let mut state = self.0.borrow_mut();
        state.meddling = Some((state.steps + steps, path.to_path_buf(), meddling));
    }

    /// Puts a synced file there from outside, or takes it away.
    pub fn put(&self, path: &Path, bytes: Option<Vec<u8>>) {
        let mut state = self.0.borrow_mut();
        let file = bytes.map(|bytes| {
            state.contents.push(vec![bytes]);
            state.contents.len() - 1
        });
        state.names.insert(path.to_path_buf(), vec![file]);
    }

    /// Whether somebody was to meddle and has not yet; he never will.
    pub fn left_alone(&self) -> bool {
        self.0.borrow_mut().meddling.take().is_some()
    }

    /// Whether the fault has come; a new life begins, after the end of the machine with what is left.
    pub fn revive(&self, random: &mut Random) -> bool {
        let mut state = self.0.borrow_mut();
        let Some((at, fault)) = state.fault.take() else {
            return false;
        };
        state.dead = false;
        if state.steps > at && fault == Fault::Machine {
            lose(&mut state, random);
        }
        state.steps > at
    }

    /// The bytes of a file, looked at from outside; none if it is not there.
    pub fn bytes(&self, path: &Path) -> Option<Vec<u8>> {
        let state = self.0.borrow();
        state.file(path).map(|file| state.contents[file].last().unwrap().clone())
    }

    /// The text of a file that is there, looked at from outside.
    pub fn text(&self, path: &Path) -> String {
        String::from_utf8(self.bytes(path).unwrap()).unwrap()
    }

    /// Whether the name and the bytes of a file are synced, and are these.
    pub fn synced(&self, path: &Path, bytes: &[u8]) -> bool {
        let state = self.0.borrow();
        let file = |history: &Vec<Option<usize>>| history[0].filter(|_| history.len() == 1);
        let contents = state.names.get(path).and_then(file).map(|file| &state.contents[file]);
        contents.is_some_and(|history| history.len() == 1 && history[0] == bytes)
    }
}

/// The machine ends: every name and every file is any of what it was since it was synced.
fn lose(state: &mut State, random: &mut Random) {
    for history in state.names.values_mut() {
        *history = vec![history[random.below(history.len())]];
    }
    for history in &mut state.contents {
        let mut last = history[random.below(history.len())].clone();
        if history.len() > 1 && random.below(2) == 0 {
            last.truncate(random.below(last.len() + 1));
        }
        *history = vec![last];
    }
}

impl Files for Fake {
    type Lock = Lock;
    type Held = Held;

    fn resolve(&self, path: &Path) -> Result<PathBuf> {
        Ok(path.to_path_buf())
    }

    fn lock(&self, path: &Path, _: &Path) -> Result<Lock> {
        let mut state = self.0.borrow_mut();
        state.step()?;
        assert!(!state.locked.contains(&path.to_path_buf()), "a lock is taken twice");
        state.locked.push(path.to_path_buf());
        Ok(Lock(self.clone(), path.to_path_buf()))
    }

    fn holder(&self, path: &Path) -> Result<Option<Holder>> {
        let locked = self.0.borrow().locked.contains(&path.to_path_buf());
        Ok(locked.then_some(Holder { process: None }))
    }

    fn hold(&self, path: &Path) -> Result<Option<Held>> {
        let mut state = self.0.borrow_mut();
        state.step()?;
        let Some(file) = state.file(path) else {
            return Ok(None);
        };
        assert!(!state.held.contains(&file), "a file is locked twice");
        state.held.push(file);
        Ok(Some(Held(self.clone(), file)))
    }

    fn is(&self, held: &Held, path: &Path) -> Result<bool> {
        let mut state = self.0.borrow_mut();
        state.step()?;
        Ok(state.file(path) == Some(held.1))
    }

    fn has_name(&self, held: &Held, _: &Path) -> Result<Option<bool>> {
        let mut state = self.0.borrow_mut();
        state.step()?;
        let named = |history: &Vec<_>| *history.last().unwrap() == Some(held.1);
        Ok((!state.silent).then_some(state.names.values().any(named)))
    }

    fn empty(&self, held: &Held) -> Result<()> {
        let mut state = self.0.borrow_mut();
        state.step()?;
        state.contents[held.1].push(Vec::new());
        Ok(())
    }

    fn read(&self, path: &Path, most: usize) -> Result<Option<Vec<u8>>> {
        let mut state = self.0.borrow_mut();
        state.step()?;
        let bytes = state.file(path).map(|file| state.contents[file].last().unwrap());
        Ok(bytes.map(|bytes| bytes[..bytes.len().min(most)].to_vec()))
    }

    fn write(&self, path: &Path, bytes: &[u8], _: &Path) -> Result<()> {
        let mut state = self.0.borrow_mut();
        state.step()?;
        let file = state.contents.len();
        state.contents.push(vec![Vec::new()]);
        state.name(path, Some(file));
        for end in [bytes.len() / 2, bytes.len()] {
            state.step()?;
            state.contents[file].push(bytes[..end].to_vec());
        }
        state.step()?;
        if state.forgotten != Some(Forgotten::Files) {
            state.contents[file] = vec![bytes.to_vec()];
        }
        Ok(())
    }

    fn rename(&self, from: &Path, to: &Path) -> Result<()> {
        let mut state = self.0.borrow_mut();
        state.step()?;
        let file = state.file(from);
        assert!(file.is_some(), "no file to rename");
        state.name(to, file);
        state.name(from, None);
        Ok(())
    }

    fn sync_folder(&self, _: &Path) -> Result<()> {
        let mut state = self.0.borrow_mut();
        state.step()?;
        if state.forgotten != Some(Forgotten::Folders) {
            for history in state.names.values_mut() {
                history.drain(..history.len() - 1);
            }
        }
        Ok(())
    }

    fn remove(&self, path: &Path) -> Result<()> {
        let mut state = self.0.borrow_mut();
        state.step()?;
        if state.file(path).is_some() {
            state.name(path, None);
        }
        Ok(())
    }
}
