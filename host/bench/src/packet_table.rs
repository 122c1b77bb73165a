//! Times packets beside single deliveries of their frames and beside the reference, in rounds that alternate.

use crate::median::median;
use crate::packet_case::{one_by_one, packet_cases, PacketCase};
use crate::station::Size;
use crate::table::markdown;
use std::hint::black_box;
use std::time::Instant;
use types::{Calls, Counts, FRAME};

/// The numbers of frames in a packet.
pub const LENGTHS: [usize; 4] = [1, 10, 100, 400];

/// The heading of the table.
const HEADING: [&str; 7] = [
    "n",
    "call",
    "fresh, known, refused",
    "microseconds",
    "a frame",
    "single deliveries : packet",
    "reference's packet : ours",
];

/// What one round says, in nanoseconds.
#[derive(Clone, Copy, Debug)]
struct Times {
    packet: f64,
    singles: f64,
    reference: f64,
}

/// Medians over all rounds.
#[derive(Clone, Copy, Debug)]
pub struct PacketMeasured {
    /// Nanoseconds of the packet on the first replica.
    pub packet: f64,
    /// How many times as long single deliveries of its frames take, on the same replica.
    pub singles: f64,
    /// How many times as long the packet takes on the reference.
    pub reference: f64,
}

/// The table of all packets whose name has a text in it; none if no name has.
pub fn packet_table<A: Calls, B: Calls>(
    ours: &A,
    reference: &B,
    sizes: &[Size],
    rounds: usize,
    only: &str,
) -> Result<Option<String>, String> {
    let mut rows = Vec::new();
    for size in sizes {
        let cases = packet_cases(*size, &LENGTHS)?;
        for case in cases.iter().filter(|case| case.name.contains(only)) {
            let measured = measure_packet(ours, reference, case, rounds)?;
            rows.push(row(case, &measured));
        }
    }
    Ok((!rows.is_empty()).then(|| markdown(&HEADING, &rows)))
}

/// The cells of a packet.
fn row(case: &PacketCase, measured: &PacketMeasured) -> Vec<String> {
    let PacketMeasured { packet, singles, reference } = measured;
    let Counts { fresh, known, refused } = case.counts;
    let frames = case.packet.len().checked_div(FRAME).unwrap_or(1) as f64;
    vec![
        case.n.to_string(),
        case.name.clone(),
        format!("{fresh}, {known}, {refused}"),
        format!("{:.2}", packet / 1000.0),
        format!("{:.2}", packet / 1000.0 / frames),
        format!("{singles:.2}"),
        format!("{reference:.2}"),
    ]
}

/// Times so many rounds, after a check that all three come to the same.
pub fn measure_packet<A: Calls, B: Calls>(
    ours: &A,
    reference: &B,
    case: &PacketCase,
    rounds: usize,
) -> Result<PacketMeasured, String> {
    case.check(ours, reference)?;
    let mut book = case.book.clone();
    let rounds: Vec<Times> =
        (0..rounds).map(|number| round(ours, reference, case, &mut book, number)).collect();
    let of = |figure: &dyn Fn(&Times) -> f64| {
        let mut figures: Vec<f64> = rounds.iter().map(figure).collect();
        median(&mut figures).ok_or("no round was measured")
    };
    Ok(PacketMeasured {
        packet: of(&|times| times.packet)?,
        singles: of(&|times| times.singles / times.packet)?,
        reference: of(&|times| times.reference / times.packet)?,
    })
}

/// One round; which of the three begins changes from round to round.
fn round<A: Calls, B: Calls>(
    ours: &A,
    reference: &B,
    case: &PacketCase,
    book: &mut [u8],
    number: usize,
) -> Times {
    let mut times = Times { packet: 0.0, singles: 0.0, reference: 0.0 };
    let packet = &case.packet;
    for turn in 0..3 {
        book.copy_from_slice(&case.book);
        match number.saturating_add(turn).checked_rem(3) {
            Some(0) => times.packet = time(|| ours.packet(black_box(book), black_box(packet))),
            Some(1) => {
                times.singles = time(|| one_by_one(ours, black_box(book), black_box(packet)));
            }
            _ => times.reference = time(|| reference.packet(black_box(book), black_box(packet))),
        }
    }
    times
}

/// The nanoseconds that something takes.
fn time<T>(what: impl FnOnce() -> T) -> f64 {
    let start = Instant::now();
    black_box(what());
    start.elapsed().as_nanos() as f64
}
