//! Measures two replicas side by side: every call, a station's and an observer's, on empty and on full books, at few
//! and at many heights, registers whose entries differ, agree or collide, and packets beside single deliveries.
//!
//! Both replicas make the same call on copies of the same book, in rounds that alternate. What counts is the ratio of
//! the medians, so that a busy machine disturbs both alike.

#![warn(clippy::unwrap_used, clippy::expect_used, clippy::panic)]

mod case;
mod cases;
mod measure;
mod median;
mod observer_cases;
mod packet_case;
mod packet_table;
mod register_cases;
mod run;
mod station;
mod table;

pub use case::Case;
pub use cases::cases;
pub use measure::{measure, Measured};
pub use packet_case::{packet_cases, PacketCase};
pub use packet_table::{measure_packet, PacketMeasured, LENGTHS};
pub use register_cases::register_cases;
pub use run::{run, Options};
pub use station::{Fill, Size};
