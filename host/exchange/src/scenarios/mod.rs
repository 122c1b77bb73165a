//! The lists of the folder `exchange/`, as programs that record them.

mod books;
mod corners;
mod edges;
mod editions;
mod heads;
mod heights;
mod long;
mod moves;
mod observer_books;
mod observer_chains;
mod observers;
mod orders;
mod packets;
mod parts;
mod refusals;
mod rehearsal;
mod repeats;
mod repeats_pool;
mod season;
mod tallies;
mod two_pages;
mod unequal;
mod vectors;
mod weights;

use crate::{List, Recorder};
use types::Calls;

pub use vectors::vectors;

/// The names of the lists; each is a file of the folder with `.txt` behind it.
pub const NAMES: [&str; 15] = [
    "refusals",
    "orders",
    "moves",
    "corners",
    "tallies",
    "repeats",
    "rehearsal",
    "season",
    "books",
    "observers",
    "weights",
    "editions",
    "heights",
    "long",
    "unequal",
];

/// Records a list by its name.
pub fn record(name: &str, calls: impl Calls) -> Option<List> {
    let mut to = Recorder::new(calls);
    match name {
        "refusals" => refusals::run(&mut to),
        "orders" => orders::run(&mut to),
        "moves" => moves::run(&mut to),
        "corners" => corners::run(&mut to),
        "tallies" => tallies::run(&mut to),
        "repeats" => repeats::run(&mut to),
        "rehearsal" => rehearsal::run(&mut to),
        "season" => season::run(&mut to),
        "books" => books::run(&mut to),
        "observers" => observers::run(&mut to),
        "weights" => weights::run(&mut to),
        "editions" => editions::run(&mut to),
        "heights" => heights::run(&mut to),
        "long" => long::run(&mut to),
        "unequal" => unequal::run(&mut to),
        _ => return None,
    }
    Some(to.into_list())
}
