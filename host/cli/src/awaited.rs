//! What a book waits for, in a few words.

use crate::chosen::REPLICA;
use crate::{pages, weighed};
use reference::inspect::{AtHeight, Inspection};
use types::{Area, Calls, Move, FRAME};

/// What a station's book waits for: a move, if one applies; else what would let it pass the current height.
pub fn station(told: &Inspection, bytes: &[u8]) -> String {
    let made = Calls::make_move(&REPLICA, &mut bytes.to_vec(), &mut [0; 2 * FRAME]);
    let slot = told.heights.get(usize::from(told.current).saturating_sub(1));
    match (made, slot) {
        (Ok(Move::Idle) | Err(_), None) => "nothing, all heights are passed".to_string(),
        (Ok(Move::Idle) | Err(_), Some(slot)) => at_height(told, bytes, slot),
        (Ok(made), _) => format!("a move ({made})"),
    }
}

/// What would let a station pass its current height.
fn at_height(told: &Inspection, bytes: &[u8], slot: &AtHeight) -> String {
    let weigh = |mask| format!("weigh {}", weighed::beside_quorum(&told.weights, mask));
    let [_, blank, _] = slot.masks;
    let height = told.current;
    let held = pages::page(bytes, height, Area::Held);
    let for_held = |page: &pages::Page| pages::voters_for(bytes, height, slot.voters, &page.digest);
    let page = match held {
        None if slot.notarized.is_none() => match slot.leader == told.own {
            true => "delivery of its own proposal".to_string(),
            false => format!("the proposal of station {}", slot.leader),
        },
        Some(page) if slot.notarized.is_none() && slot.held_extends => {
            format!("page votes ({})", weigh(for_held(&page)))
        }
        _ => format!("certificates below height {height}"),
    };
    let other = match told.flags & 1 {
        0 => "the timer".to_string(),
        _ => format!("blank votes ({})", weigh(blank)),
    };
    format!("{page} or {other}")
}

/// What an observer's book waits for.
pub fn observer(bytes: &[u8]) -> String {
    match Calls::observer_move(&REPLICA, &mut bytes.to_vec()) {
        Ok(Move::Idle) | Err(_) => "certificates".to_string(),
        Ok(made) => format!("a move ({made})"),
    }
}
