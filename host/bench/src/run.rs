//! The whole measurement, printed as tables for docs/PERFORMANCE.md.

use crate::packet_table::packet_table;
use crate::table::markdown;
use crate::{cases, measure, register_cases, Case, Fill, Measured, Size};
use types::{Calls, Height, ENTRY, MOST_ENTRIES, MOST_REPLICAS, MOST_SHORT_HEIGHTS};

/// The heights of the small and of the large book.
const HEIGHTS: [Height; 2] = [8, MOST_SHORT_HEIGHTS];

/// The length of the longest log of the large book: what Read is lent.
pub const LONGEST_LOG: usize = MOST_SHORT_HEIGHTS as usize * MOST_ENTRIES as usize * ENTRY;

/// The numbers of replicas, a table each.
const REPLICAS: [u8; 2] = [4, MOST_REPLICAS];

/// The heading of a table.
const HEADING: [&str; 7] =
    ["call", "empty, H 8", "empty, H 63", "growth", "full, H 8", "full, H 63", "growth"];

/// The heading of the table of registers.
const REGISTERS: [&str; 4] = ["call", "H 8", "H 63", "growth"];

/// Packets take long, so that one round in so many is enough for them.
const SHARE: usize = 10;

/// What to measure, and how long.
#[derive(Clone, Debug)]
pub struct Options {
    /// Rounds of each case.
    pub rounds: usize,
    /// Only cases whose name has this in it.
    pub only: String,
}

/// Measures all cases that the options name and prints a table for each number of replicas, one of registers and one of
/// packets.
pub fn run<A: Calls, B: Calls>(ours: &A, reference: &B, options: &Options) -> Result<(), String> {
    for n in REPLICAS {
        let empty = half(ours, reference, options, n, Fill::Empty)?;
        let full = half(ours, reference, options, n, Fill::Full)?;
        let rows: Vec<_> = empty.into_iter().zip(full).map(joined).collect();
        if !rows.is_empty() {
            println!("n {n}:\n\n{}", markdown(&HEADING, &rows));
        }
    }
    let registers =
        both_sizes(|heights| register_cases(Size { n: REPLICAS[0], heights }), &options.only)?;
    let rows = measured(ours, reference, options, &registers)?;
    if !rows.is_empty() {
        let rows: Vec<_> = rows.into_iter().map(|row| row.to_vec()).collect();
        println!("registers:\n\n{}", markdown(&REGISTERS, &rows));
    }
    let sizes = REPLICAS.map(|n| Size { n, heights: MOST_SHORT_HEIGHTS });
    let rounds = options.rounds.div_ceil(SHARE);
    let packets = packet_table(ours, reference, &sizes, rounds, &options.only)?;
    packets.iter().for_each(|table| println!("packets:\n\n{table}"));
    Ok(())
}

/// The cases for one filling: of each the name, the ratios at few and at many heights, and the growth.
fn half<A: Calls, B: Calls>(
    ours: &A,
    reference: &B,
    options: &Options,
    n: u8,
    fill: Fill,
) -> Result<Vec<[String; 4]>, String> {
    let cases = both_sizes(|heights| cases(Size { n, heights }, fill), &options.only)?;
    measured(ours, reference, options, &cases)
}

/// Measures cases: of each the name, the ratios at few and at many heights, and the growth.
fn measured<A: Calls, B: Calls>(
    ours: &A,
    reference: &B,
    options: &Options,
    cases: &[[Case; 2]],
) -> Result<Vec<[String; 4]>, String> {
    let rows = cases.iter().map(|sizes| {
        let measured = measure(ours, reference, sizes, options.rounds)?;
        Ok(row(sizes[0].name, &measured))
    });
    rows.collect()
}

/// Each wanted case, on the small book and on the large one.
fn both_sizes(
    cases: impl Fn(Height) -> Result<Vec<Case>, String>,
    only: &str,
) -> Result<Vec<[Case; 2]>, String> {
    let [few, many] = HEIGHTS.map(cases);
    let both = few?.into_iter().zip(many?).map(|(few, many)| [few, many]);
    Ok(both.filter(|[case, _]| case.name.contains(only)).collect())
}

/// The name, the ratios, each with our time in microseconds, and the growth, with the reference's.
fn row(name: &str, measured: &Measured) -> [String; 4] {
    let Measured { ratios, times, growth } = measured;
    let cell = |size: usize| format!("{:.2} ({:.2})", ratios[size], times[size] / 1000.0);
    [name.to_string(), cell(0), cell(1), format!("{:.1} ({:.1})", growth[0], growth[1])]
}

/// A whole row out of its halves, with the name once.
fn joined((empty, full): ([String; 4], [String; 4])) -> Vec<String> {
    empty.into_iter().chain(full.into_iter().skip(1)).collect()
}
