//! Why the current height of a book is where it is, and what the next move will be.

use crate::chosen::REPLICA;
use crate::words::count;
use crate::{pages, weighed};
use reference::inspect::{AtHeight, Inspection};
use types::{Area, Calls, Height, FRAME};

/// The lines about the current height.
pub fn lines(book: &Inspection, bytes: &[u8]) -> Vec<String> {
    let mut lines = Vec::new();
    match book.heights.get(usize::from(book.current).saturating_sub(1)) {
        None => lines.push("All heights are passed; only settling is left.".to_string()),
        Some(slot) => {
            lines.push(place(book.current));
            lines.push(flags(book.flags));
            lines.push(page(book, bytes, slot));
            lines.push(blank(book, slot));
        }
    }
    lines.push(next_move(bytes));
    lines
}

/// Where the station is.
fn place(current: Height) -> String {
    match current {
        1 => "The current height is 1: none is passed yet.".to_string(),
        _ => format!("The current height is {current}: those below it are passed."),
    }
}

/// What happened at this height so far.
fn flags(flags: u8) -> String {
    let names = exchange::words::flags(flags);
    match names.is_empty() {
        true => "Done at this height so far: nothing, and the timer has not fired.".to_string(),
        false => format!("Done at this height so far: {}.", names.join(", ")),
    }
}

/// Whether the page lets the station pass, and if not why.
fn page(book: &Inspection, bytes: &[u8], slot: &AtHeight) -> String {
    let votes = count(slot.voters.count_ones() as usize, "page vote is", "page votes are");
    match (slot.notarized, slot.held) {
        (Some(_), _) if slot.linked => {
            "Its page is notarised and linked: it can be passed.".to_string()
        }
        (Some((back, _)), _) => {
            format!("Its page is notarised but does not stand: {}.", gap(book, back))
        }
        (None, Some((back, _))) => {
            let stands = match slot.held_extends {
                true => "stands".to_string(),
                false => format!("does not stand ({})", gap(book, back)),
            };
            let of_page = pages::page(bytes, book.current, Area::Held).map_or(0, |page| {
                pages::voters_for(bytes, book.current, slot.voters, &page.digest)
            });
            let weigh = weighed::beside_quorum(&book.weights, of_page);
            format!(
                "A proposal is held and {stands}; its page is not notarised: {votes} kept, and those for this page \
                 weigh {weigh}."
            )
        }
        (None, None) => format!("No proposal is held and no page is notarised; {votes} kept."),
    }
}

/// Why a page of the current height on this back height does not stand.
fn gap(book: &Inspection, back: Height) -> String {
    let slot = |height: Height| book.heights.get(usize::from(height).saturating_sub(1));
    if back > 0 && !slot(back).is_some_and(|slot| slot.linked) {
        return format!("its back height {back} is not linked");
    }
    let mut between = back.saturating_add(1)..book.current;
    match between.find(|height| !slot(*height).is_some_and(|slot| slot.dummy)) {
        Some(height) => {
            format!("height {height} between it and its back height {back} is not blank")
        }
        None => format!("its back digest is not that of page {back}"),
    }
}

/// Whether the blank lets the station pass, and if not why.
fn blank(book: &Inspection, slot: &AtHeight) -> String {
    let [_, mask, _] = slot.masks;
    match (slot.dummy, book.parent) {
        (false, _) => {
            let weigh = weighed::beside_quorum(&book.weights, mask);
            format!("It is not blank: its blank votes weigh {weigh}.")
        }
        (true, None) => {
            "It is blank, but no chain ends just below it, so it cannot be passed yet.".to_string()
        }
        (true, Some(_)) => {
            "It is blank, and a chain ends just below it: it can be passed.".to_string()
        }
    }
}

/// What a move of the replica at hand would do, tried on a copy.
fn next_move(bytes: &[u8]) -> String {
    let mut copy = bytes.to_vec();
    let made = Calls::make_move(&REPLICA, &mut copy, &mut [0; 2 * FRAME]);
    match made {
        Ok(made) => format!("The next move is: {made}."),
        Err(number) => format!("A move is refused with {number}."),
    }
}
