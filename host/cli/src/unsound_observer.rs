//! Why an observer's book is not sound: the first byte that breaks a rule.

use crate::unsound::{at, few_finalises, no_quorum, page, zeros, Fault};
use crate::unsound_setting;
use reference::inspect::inspect_observer;
use types::{field, head_height, mask_at, put_head_height, Height};
use types::{ObserverArea, ObserverLayout, MOST_REPLICAS};

/// What is wrong with bytes of the length of an observer's book with the heights that its head says.
pub fn fault(book: &[u8]) -> Option<Fault> {
    let heights = head_height(book, field::HEIGHTS);
    head(book)
        .or_else(|| (1..=heights).find_map(|height| row(book, heights, height)))
        .or_else(|| settled(book))
}

/// What is wrong with the head; its edition, which is known, and the settled height aside.
fn head(book: &[u8]) -> Option<Fault> {
    let n = at(book, field::N);
    if !(1..=MOST_REPLICAS).contains(&n) {
        return Some((field::N, format!("n is {n}, not 1 to {MOST_REPLICAS}")));
    }
    let single = [field::OWN, field::FLAGS, field::PENDING];
    let of_stations = single.into_iter().chain(field::CURRENT.place(book));
    let unused = of_stations.filter(|byte| at(book, *byte) != 0).min().map(|byte| {
        let value = at(book, byte);
        (byte, format!("it is {value}, and must be zero in an observer's book"))
    });
    unused.or_else(|| unsound_setting::fault(book))
}

/// What is wrong with a height by itself.
fn row(book: &[u8], heights: Height, height: Height) -> Option<Fault> {
    let layout = ObserverLayout::new(heights);
    let [row, notarized] =
        [ObserverArea::Row, ObserverArea::Notarized].map(|area| layout.area(height, area).start);
    let (n, state) = (at(book, field::N), at(book, row));
    let place = |offset: usize| row.saturating_add(offset);
    if ![0, 2].contains(&state) {
        return Some((row, format!("the state is {state}, neither 0 nor 2")));
    }
    let strange = |offset: &usize| mask_at(book, place(*offset)).checked_shr(n.into()) > Some(0);
    if let Some(offset) = [2, 4, 6].into_iter().find(strange) {
        let rule = format!("the mask has a bit that is not below n, which is {n}");
        return Some((place(offset), rule));
    }
    let short = if state == 2 { no_quorum(book, mask_at(book, place(2))) } else { None };
    let quorum = || short.map(|rule| (place(2), rule));
    zeros(book, place(1)..place(2))
        .or_else(|| if state == 2 { page(book, height, notarized) } else { None })
        .or_else(quorum)
}

/// What is wrong with the settled height of a book in which all else is right.
fn settled(book: &[u8]) -> Option<Fault> {
    let settled = head_height(book, field::FINALIZED);
    let mut copy = book.to_vec();
    put_head_height(&mut copy, field::FINALIZED, 0);
    let told = inspect_observer(&copy).ok()?;
    let rule = match told.heights.get(usize::from(settled).checked_sub(1)?) {
        Some(height) if height.finalized => return None,
        None => format!("the settled height is {settled}, above the last one"),
        Some(height) if !height.linked => {
            format!("height {settled} is not settled: it is not linked")
        }
        Some(height) => {
            let [.., finalises] = height.masks;
            few_finalises(book, settled, finalises)
        }
    };
    Some((field::FINALIZED.place(book).start, rule))
}
