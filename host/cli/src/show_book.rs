//! A book in words: its head, a table of heights, its entries, and why the current height is where it is.

use crate::pages::{self, Page};
use crate::problem::Problem;
use crate::words::{count, entry};
use crate::{show_observer, table, unsound, weighed, why};
use reference::inspect::{inspect, AtHeight, Inspection};
use std::collections::BTreeSet;
use types::refusal::meaning;
use types::{field, is_observers, Area, Height};

/// The lines about a book, a station's or an observer's.
pub fn text(bytes: &[u8]) -> Result<String, Problem> {
    if is_observers(bytes) {
        return show_observer::text(bytes);
    }
    let book = told(bytes)?;
    let mut rows = vec![HEADINGS.map(str::to_string).to_vec()];
    let register = pages::register(bytes);
    rows.extend((1..).zip(&book.heights).map(|(height, slot)| {
        let listed = register.contains(&height);
        row(&book, bytes, height, slot, listed)
    }));
    let parts = [
        vec![
            head(&book, bytes),
            weighed::sentence(&book.weights),
            String::new(),
            table::print(&rows),
        ],
        pending(&book, bytes),
        entries(bytes, Height::try_from(book.heights.len()).unwrap_or(Height::MAX), &register),
        why::lines(&book, bytes),
    ];
    Ok(parts.concat().join("\n") + "\n")
}

/// What a book tells; a sentence about the first rule that it breaks, if it is not sound.
pub fn told(bytes: &[u8]) -> Result<Inspection, Problem> {
    inspect(bytes).map_err(|number| not_sound(bytes, number))
}

/// The sentence about bytes that are refused with this number.
pub fn not_sound(bytes: &[u8], number: u8) -> Problem {
    let (length, why) = (bytes.len(), unsound::reason(bytes).unwrap_or_default());
    let meaning = meaning(number);
    Problem::input(format!("refused with {number}: {meaning} ({length} bytes): {why}"))
}

/// The first line.
fn head(book: &Inspection, bytes: &[u8]) -> String {
    format!(
        "Book of station {} of {}, edition {}: {}, settled height {}, {}.",
        book.own,
        book.n,
        edition(bytes),
        count(book.heights.len(), "height", "heights"),
        book.finalized,
        count(book.pending.into(), "pending entry", "pending entries"),
    )
}

/// The edition of a book.
pub fn edition(bytes: &[u8]) -> u8 {
    bytes.get(field::EDITION).copied().unwrap_or(0)
}

/// The headings of the table.
const HEADINGS: [&str; 12] = [
    "height",
    "leader",
    "proposal",
    "page votes",
    "page",
    "page certificate",
    "blank",
    "finalise",
    "linked",
    "settled",
    "in register",
    "",
];

/// The row of a height.
fn row(
    book: &Inspection,
    bytes: &[u8],
    height: Height,
    slot: &AtHeight,
    listed: bool,
) -> Vec<String> {
    let page = |area| pages::page(bytes, height, area).map_or("-".to_string(), |page| page.told());
    let yes = |yes: bool| if yes { "yes" } else { "-" }.to_string();
    let [certificate, blank, finalise] = slot.masks;
    let quorum = if slot.dummy { " (quorum)" } else { "" };
    let members = |mask| weighed::members(&book.weights, mask);
    let certificate = if slot.notarized.is_some() { members(certificate) } else { "-".to_string() };
    let mark = if height == book.current { "<- current" } else { "" };
    vec![
        height.to_string(),
        slot.leader.to_string(),
        page(Area::Held),
        pages::votes(bytes, height, slot.voters),
        page(Area::Notarized),
        certificate,
        format!("{}{quorum}", members(blank)),
        members(finalise),
        yes(slot.linked),
        yes(slot.finalized),
        yes(listed),
        mark.to_string(),
    ]
}

/// The pending entries.
fn pending(book: &Inspection, bytes: &[u8]) -> Vec<String> {
    let entries = pages::pending(bytes, book.pending);
    let lines: Vec<String> = entries.iter().map(|bytes| format!("  {}", entry(bytes))).collect();
    match lines.is_empty() {
        true => Vec::new(),
        false => [vec!["Pending entries:".to_string()], lines, vec![String::new()]].concat(),
    }
}

/// The entries of all pages that have some, height by height; a page that is held and notarised stands once. Of those
/// in the register the ones are marked that it does not count, as an earlier one equals them.
pub fn entries(bytes: &[u8], last: Height, register: &BTreeSet<Height>) -> Vec<String> {
    let mut lines = Vec::new();
    let repeats = pages::filed_before(bytes, register);
    let of = |height: Height| {
        let places = repeats.range((height, 0)..=(height, usize::MAX));
        places.map(|(_, at)| *at).collect::<Vec<usize>>()
    };
    for height in 1..=last {
        let [held, notarized] =
            [Area::Held, Area::Notarized].map(|area| pages::page(bytes, height, area));
        let held = held.filter(|held| notarized.as_ref() != Some(held));
        let listed = if register.contains(&height) { ", in the register" } else { "" };
        let (proposal, page) =
            (format!("height {height}, proposal"), format!("height {height}, page"));
        lines.extend(held.iter().flat_map(|held| page_lines(&proposal, held, "", &[])));
        let repeats = of(height);
        lines.extend(notarized.iter().flat_map(|one| page_lines(&page, one, listed, &repeats)));
    }
    match lines.is_empty() {
        true => Vec::new(),
        false => [vec!["Entries of pages:".to_string()], lines, vec![String::new()]].concat(),
    }
}

/// The entries of a page, if it has some, with a mark at those places that repeat an entry.
fn page_lines(what: &str, page: &Page, listed: &str, repeats: &[usize]) -> Vec<String> {
    if page.block.entries.is_empty() {
        return Vec::new();
    }
    let first = format!("  {what} {}{listed}:", page.short());
    let mark = |at: usize| if repeats.contains(&at) { " (filed before)" } else { "" };
    let entries = page.block.entries.iter().enumerate();
    let entries = entries.map(|(at, bytes)| format!("    {}{}", entry(bytes), mark(at)));
    [vec![first], entries.collect()].concat()
}
