//! An observer's book in words: its head, a table of heights, the entries of its pages, and the next move.

use crate::chosen::REPLICA;
use crate::pages;
use crate::problem::Problem;
use crate::words::count;
use crate::{show_book, table, weighed};
use reference::inspect::{inspect_observer, ObservedHeight, ObserverInspection};
use types::{Area, Calls, Height};

/// The lines about an observer's book.
pub fn text(bytes: &[u8]) -> Result<String, Problem> {
    let book = told(bytes)?;
    let register = pages::register(bytes);
    let mut rows = vec![HEADINGS.map(str::to_string).to_vec()];
    rows.extend((1..).zip(&book.heights).map(|(height, slot)| {
        let listed = register.contains(&height);
        row(&book, bytes, height, slot, listed)
    }));
    let last = Height::try_from(book.heights.len()).unwrap_or(Height::MAX);
    let parts = [
        vec![
            head(&book, bytes),
            weighed::sentence(&book.weights),
            String::new(),
            table::print(&rows),
        ],
        show_book::entries(bytes, last, &register),
        vec![next_move(bytes)],
    ];
    Ok(parts.concat().join("\n") + "\n")
}

/// What an observer's book tells; a sentence about the first rule that it breaks, if it is not sound.
pub fn told(bytes: &[u8]) -> Result<ObserverInspection, Problem> {
    inspect_observer(bytes).map_err(|number| show_book::not_sound(bytes, number))
}

/// The first line.
fn head(book: &ObserverInspection, bytes: &[u8]) -> String {
    format!(
        "Observer's book of {}, edition {}: {}, settled height {}.",
        count(book.n.into(), "station", "stations"),
        show_book::edition(bytes),
        count(book.heights.len(), "height", "heights"),
        book.finalized,
    )
}

/// The headings of the table.
const HEADINGS: [&str; 8] =
    ["height", "page", "page certificate", "blank", "finalise", "linked", "settled", "in register"];

/// The row of a height.
fn row(
    book: &ObserverInspection,
    bytes: &[u8],
    height: Height,
    slot: &ObservedHeight,
    listed: bool,
) -> Vec<String> {
    let members = |mask| weighed::members(&book.weights, mask);
    let page = pages::page(bytes, height, Area::Notarized);
    let yes = |yes: bool| if yes { "yes" } else { "-" }.to_string();
    let [certificate, blank, finalise] = slot.masks;
    let quorum = if slot.dummy { " (quorum)" } else { "" };
    vec![
        height.to_string(),
        page.as_ref().map_or("-".to_string(), |page| page.told()),
        if page.is_some() { members(certificate) } else { "-".to_string() },
        format!("{}{quorum}", members(blank)),
        members(finalise),
        yes(slot.linked),
        yes(slot.finalized),
        yes(listed),
    ]
}

/// What a move of the replica at hand would do, tried on a copy.
fn next_move(bytes: &[u8]) -> String {
    match Calls::observer_move(&REPLICA, &mut bytes.to_vec()) {
        Ok(made) => format!("The next move is: {made}."),
        Err(number) => format!("A move is refused with {number}."),
    }
}
