//! Books of several stations and observers side by side: one row for each height, one column for each book.

use crate::problem::Problem;
use crate::words::count;
use crate::{files, pages, register, show_book, show_observer, table, weighed};
use std::collections::BTreeSet;
use types::{is_observers, Area, Height, Weights};

/// What a book says of a height.
struct Slot {
    dummy: bool,
    linked: bool,
    finalized: bool,
}

/// What a station's book has and an observer's has not.
struct Station {
    own: u8,
    current: Height,
    pending: u8,
    roll: Vec<u8>,
}

/// A book with the name of its file.
struct Shown {
    name: String,
    bytes: Vec<u8>,
    n: u8,
    weights: Weights,
    finalized: Height,
    station: Option<Station>,
    heights: Vec<Slot>,
    register: BTreeSet<Height>,
}

/// The lines about books.
pub fn text(names: &[String]) -> Result<String, Problem> {
    let books = names.iter().map(|name| read(name)).collect::<Result<Vec<_>, _>>()?;
    let Some(first) = books.first() else {
        return Err(Problem::input("the files of books are missing"));
    };
    let station = books.iter().find(|book| book.station.is_some()).unwrap_or(first);
    books.iter().try_for_each(|book| fits(station, book))?;
    let mut lines = vec![head(first, books.len()), weighed::sentence(&first.weights)];
    lines.extend(books.iter().map(line));
    lines.push(String::new());
    lines.push(table::print(&rows(station, &books)));
    lines.push(registers(&books));
    Ok(lines.join("\n") + "\n")
}

/// Reads a book of either kind.
fn read(name: &str) -> Result<Shown, Problem> {
    let bytes = files::read_bytes(name)?;
    let read = if is_observers(&bytes) { observer(name, bytes) } else { station(name, bytes) };
    read.map_err(|problem| Problem { sentence: format!("{name}: {}", problem.sentence), ..problem })
}

/// A station's book.
fn station(name: &str, bytes: Vec<u8>) -> Result<Shown, Problem> {
    let told = show_book::told(&bytes)?;
    let slots = told.heights.iter().map(|height| Slot {
        dummy: height.dummy,
        linked: height.linked,
        finalized: height.finalized,
    });
    let roll = told.heights.iter().map(|height| height.leader).collect();
    let station = Station { own: told.own, current: told.current, pending: told.pending, roll };
    Ok(Shown {
        name: name.to_string(),
        n: told.n,
        weights: told.weights,
        finalized: told.finalized,
        station: Some(station),
        heights: slots.collect(),
        register: pages::register(&bytes),
        bytes,
    })
}

/// An observer's book.
fn observer(name: &str, bytes: Vec<u8>) -> Result<Shown, Problem> {
    let told = show_observer::told(&bytes)?;
    let slots = told.heights.iter().map(|height| Slot {
        dummy: height.dummy,
        linked: height.linked,
        finalized: height.finalized,
    });
    Ok(Shown {
        name: name.to_string(),
        n: told.n,
        weights: told.weights,
        finalized: told.finalized,
        station: None,
        heights: slots.collect(),
        register: pages::register(&bytes),
        bytes,
    })
}

/// Whether two books are of one season: the same n, weights and H, and the same roll where both are stations'. Weights
/// are compared as they are read, so that an edition 1 goes with weights of 1.
fn fits(one: &Shown, two: &Shown) -> Result<(), Problem> {
    let rolls = [one, two].map(|book| book.station.as_ref().map(|station| &station.roll));
    let weights = || {
        let [one, two] = [one, two].map(|book| weighed::list(&book.weights));
        format!("weights: {one} and {two}")
    };
    let what = [
        (one.n != two.n, "number of stations".to_string()),
        (one.weights != two.weights, weights()),
        (one.heights.len() != two.heights.len(), "number of heights".to_string()),
        (rolls.iter().all(Option::is_some) && rolls[0] != rolls[1], "roll".to_string()),
    ];
    match what.into_iter().find(|(differs, _)| *differs) {
        Some((_, what)) => {
            Err(Problem::input(format!("{} and {} have not the same {what}", one.name, two.name)))
        }
        None => Ok(()),
    }
}

/// The first line.
fn head(first: &Shown, number: usize) -> String {
    let (books, n) = (count(number, "book", "books"), first.n);
    let heights = count(first.heights.len(), "height", "heights");
    format!("{books} of {n} stations: {heights}.")
}

/// A line about a book as a whole.
fn line(book: &Shown) -> String {
    let (settled, edition) = (book.finalized, show_book::edition(&book.bytes));
    let Some(station) = &book.station else {
        return format!("Observer ({}), edition {edition}: settled height {settled}.", book.name);
    };
    let current = match usize::from(station.current) > book.heights.len() {
        true => "all heights passed".to_string(),
        false => format!("current height {}", station.current),
    };
    let pending = count(station.pending.into(), "pending entry", "pending entries");
    let own = station.own;
    let name = &book.name;
    format!(
        "Station {own} ({name}), edition {edition}: {current}, settled height {settled}, {pending}."
    )
}

/// The table; leaders are told by a station's book, if there is one. An observer has no number, so it has its file.
fn rows(first: &Shown, books: &[Shown]) -> Vec<Vec<String>> {
    let column = |book: &Shown| match &book.station {
        Some(station) => format!("station {}", station.own),
        None => format!("observer {}", book.name),
    };
    let mut heading = vec!["height".to_string(), "leader".to_string()];
    heading.extend(books.iter().map(column));
    let mut rows = vec![heading];
    for (before, height) in (1..).take(first.heights.len()).enumerate() {
        let leader = first.station.as_ref().and_then(|station| station.roll.get(before));
        let leader = leader.map_or("-".to_string(), u8::to_string);
        let mut row = vec![height.to_string(), leader];
        row.extend(books.iter().map(|book| cell(book, height)));
        rows.push(row);
    }
    rows
}

/// What a book has at a height.
fn cell(book: &Shown, height: Height) -> String {
    let slot = book.heights.get(usize::from(height).saturating_sub(1));
    let short = |area| pages::page(&book.bytes, height, area).map(|page| page.short());
    let page = slot.and_then(|slot| {
        Some(format!("page {}{}", short(Area::Notarized)?, rank(book, height, slot)))
    });
    let blank = slot.filter(|slot| slot.dummy).map(|_| "blank".to_string());
    let held = short(Area::Held).filter(|_| page.is_none()).map(|page| format!("proposal {page}"));
    let parts: Vec<String> = [page, held, blank].into_iter().flatten().collect();
    let told = if parts.is_empty() { "-".to_string() } else { parts.join(", ") };
    match book.station.as_ref().is_some_and(|station| station.current == height) {
        true => format!("{told} <-"),
        false => told,
    }
}

/// How far a notarised page has come.
fn rank(book: &Shown, height: Height, slot: &Slot) -> &'static str {
    match () {
        () if book.register.contains(&height) => " in register",
        () if slot.finalized => " settled",
        () if slot.linked => " linked",
        () => " not linked",
    }
}

/// Whether of any two registers one begins the other.
fn registers(books: &[Shown]) -> String {
    let logs: Vec<Vec<u8>> =
        books.iter().map(|book| register::read(&book.bytes).unwrap_or_default()).collect();
    let mut pairs = (0..).zip(&logs).flat_map(|(at, one)| {
        logs.iter().enumerate().skip(at).map(move |(other, two)| (at, other, one, two))
    });
    let fork = pairs.find(|(_, _, one, two)| !one.starts_with(two) && !two.starts_with(one));
    let name = |at: usize| books.get(at).map_or("", |book| book.name.as_str());
    match fork {
        Some((one, two, ..)) => format!("THE REGISTERS FORK: {} and {}.", name(one), name(two)),
        None => "Of any two registers one begins the other.".to_string(),
    }
}
