//! Exchange files: lists of calls with the expected answers and the digests of all buffers, as plain text.
//!
//! docs/EXCHANGE.md describes the format, and the lines that `mavunilai try` exchanges with a program. A list is
//! replayed against any [`types::Calls`], and recorded from one.

#![warn(clippy::indexing_slicing, clippy::arithmetic_side_effects)]
#![warn(clippy::unwrap_used, clippy::expect_used, clippy::panic)]

mod answer;
pub mod bytes;
mod call;
mod colliding;
mod failure;
pub mod fields;
mod line;
mod list;
mod observer_call;
mod recorder;
mod replay;
pub mod request;
pub mod scenarios;

mod stage;
mod tally;
pub mod words;

pub use answer::Answer;
pub use call::Call;
pub use colliding::{colliding, place_in_filter};
pub use failure::{Failure, Unmet};
pub use line::{Expected, Line};
pub use list::{List, Problem, HEADING};
pub use observer_call::ObserverCall;
pub use recorder::{equal_weights, Recorder};
pub use replay::{record, record_in_full, replay, replay_until, Replayed};
pub use stage::Stage;
pub use tally::Tally;
