//! The pages, votes and entries of a sound book, a station's or an observer's, read from its bytes.

use crate::words::{count, members, short};
use reference::sha256;
use std::collections::BTreeSet;
use types::{field, head_height, is_observers, Area, Block, Height, Layout, BLOCK, ENTRY};
use types::{ObserverArea, ObserverLayout};

/// A page with its digest.
#[derive(Clone, Debug, PartialEq, Eq)]
pub struct Page {
    pub digest: [u8; 32],
    pub block: Block,
}

impl Page {
    /// The first digits of its digest.
    pub fn short(&self) -> String {
        short(&self.digest)
    }

    /// The page in a few words.
    pub fn told(&self) -> String {
        let entries = count(self.block.entries.len(), "entry", "entries");
        format!("{} on {}, {entries}", self.short(), self.block.parent)
    }
}

/// The bytes of an area of a height, none where the book is an observer's and has no such area.
fn area(book: &[u8], height: Height, area: Area) -> &[u8] {
    let heights = head_height(book, field::HEIGHTS);
    let observers = ObserverLayout::new(heights);
    let range = match (is_observers(book), area) {
        (false, _) => Layout::new(heights).area(height, area),
        (true, Area::Row) => observers.area(height, ObserverArea::Row),
        (true, Area::Notarized) => observers.area(height, ObserverArea::Notarized),
        (true, Area::Held | Area::Votes) => 0..0,
    };
    book.get(range).unwrap_or(&[])
}

/// The state of a height; an observer's row begins with it, a station's with the leader.
fn state(book: &[u8], height: Height) -> u8 {
    let at = if is_observers(book) { 0 } else { 1 };
    area(book, height, Area::Row).get(at).copied().unwrap_or(0)
}

/// The held proposal or the notarised page of a height, if it has one.
pub fn page(book: &[u8], height: Height, which: Area) -> Option<Page> {
    let bit = if which == Area::Held { 1 } else { 2 };
    let state = state(book, height);
    let bytes: &[u8; BLOCK] = area(book, height, which).try_into().ok()?;
    let page = Page { digest: sha256::digest(bytes), block: Block::parts(bytes) };
    (state & bit != 0).then_some(page)
}

/// The page votes that are kept: each station with the digest that it voted for.
pub fn kept_votes(book: &[u8], height: Height, voters: u16) -> Vec<(u32, [u8; 32])> {
    let digests = area(book, height, Area::Votes).as_chunks::<32>().0;
    let votes = (0..).zip(digests.iter().copied());
    votes.filter(|(station, _)| 1_u16.checked_shl(*station).unwrap_or(0) & voters != 0).collect()
}

/// The stations whose kept page votes are for this digest, as a mask.
pub fn voters_for(book: &[u8], height: Height, voters: u16, digest: &[u8; 32]) -> u16 {
    let votes = kept_votes(book, height, voters).into_iter().filter(|(_, of)| of == digest);
    votes.fold(0, |mask, (station, _)| mask | 1_u16.checked_shl(station).unwrap_or(0))
}

/// Who voted for which digest, as `0 1 for 3fa2c9d1; 2 for 77ab0122`; `-` if nobody did.
pub fn votes(book: &[u8], height: Height, voters: u16) -> String {
    let mut groups: Vec<([u8; 32], u16)> = Vec::new();
    for (station, digest) in kept_votes(book, height, voters) {
        let bit = 1_u16.checked_shl(station).unwrap_or(0);
        match groups.iter_mut().find(|(of, _)| *of == digest) {
            Some((_, mask)) => *mask |= bit,
            None => groups.push((digest, bit)),
        }
    }
    let told =
        groups.iter().map(|(digest, mask)| format!("{} for {}", members(*mask), short(digest)));
    let told: Vec<String> = told.collect();
    if told.is_empty() {
        return "-".to_string();
    }
    told.join("; ")
}

/// The heights whose pages are in the register: the chain that ends at the settled height.
pub fn register(book: &[u8]) -> BTreeSet<Height> {
    let mut heights = BTreeSet::new();
    let mut height = head_height(book, field::FINALIZED);
    while let Some(page) = page(book, height, Area::Notarized) {
        heights.insert(height);
        if page.block.parent >= height {
            break;
        }
        height = page.block.parent;
    }
    heights
}

/// The entries that the register does not count, because an earlier one of its chain equals them: each by the height of
/// its page and its place there.
pub fn filed_before(book: &[u8], register: &BTreeSet<Height>) -> BTreeSet<(Height, usize)> {
    let pages =
        register.iter().filter_map(|height| Some((*height, page(book, *height, Area::Notarized)?)));
    let (mut filed, mut repeats) = (BTreeSet::new(), BTreeSet::new());
    for (height, page) in pages {
        let entries = page.block.entries.into_iter().enumerate();
        repeats
            .extend(entries.filter(|(_, entry)| !filed.insert(*entry)).map(|(at, _)| (height, at)));
    }
    repeats
}

/// The pending entries of a book that has so many.
pub fn pending(book: &[u8], count: u8) -> Vec<[u8; ENTRY]> {
    let places = book.get(Layout::new(0).pending()).unwrap_or(&[]).as_chunks::<ENTRY>().0;
    places.iter().take(count.into()).copied().collect()
}
