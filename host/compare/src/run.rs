//! A whole comparison: so many calls from a seed, half on single books and half in networks.

use crate::network::Network;
use crate::Random;
use crate::{observer_single, single, Difference, Halt, Pair, Report, Second, Stop};
use types::Calls;

/// From this many calls on everything must have occurred.
pub const LARGE: u64 = 100_000;

/// One in so many lists is on an observer's book.
const OBSERVERS: u64 = 5;

/// Events between two checks of the logs.
const BETWEEN: u64 = 100;

/// Makes at least so many calls on both replicas. A sentence about the first difference is the error.
pub fn run<A: Calls, B: Calls>(one: A, two: B, seed: u64, count: u64) -> Result<Report, String> {
    let report = walk(&mut Pair::new(one, two), seed, count).map_err(|stop| stop.to_string())?;
    match report.missing() {
        missing if count >= LARGE && !missing.is_empty() => {
            Err(format!("seed {seed}: never occurred: {}\n{report}", missing.join(", ")))
        }
        _ => Ok(report),
    }
}

/// Makes calls on a pair until there are so many, or the pair has enough, or the two differ.
pub fn walk<A: Calls, B: Second>(
    pair: &mut Pair<A, B>,
    seed: u64,
    count: u64,
) -> Result<Report, Box<Stop>> {
    let mut report = Report { seed, ..Report::default() };
    let mut part: u64 = 0;
    while pair.tally().calls() < count {
        let mut random = Random::new(seed.wrapping_mul(0x1_0000_0001).wrapping_add(part));
        part = part.wrapping_add(1);
        pair.part(format!("seed {seed}, part {part}"));
        let outcome = match report.networks < report.lists / 20 {
            true => network(pair, &mut random, &mut report),
            false => {
                report.lists += 1;
                match part % OBSERVERS {
                    0 if pair.has_observers() => observer_single::list(pair, &mut random),
                    _ => single::list(pair, &mut random).map(|()| None),
                }
            }
        };
        match outcome {
            Ok(None) => {}
            Err(Halt::Enough) => break,
            Ok(Some(sentence)) => return Err(stop(pair, sentence.to_string(), None)),
            Err(Halt::Differs(found)) => {
                return Err(stop(pair, found.sentence.clone(), Some(found)))
            }
        }
    }
    report.tally = pair.tally().clone();
    report.kinds = pair.kinds.clone();
    Ok(report)
}

/// What is wrong, with the place where it was found.
fn stop<A: Calls, B: Second>(
    pair: &Pair<A, B>,
    sentence: String,
    difference: Option<Box<Difference>>,
) -> Box<Stop> {
    let (case, call) = (pair.case().to_string(), pair.tally().calls());
    Box::new(Stop { case, call, sentence, difference })
}

/// Runs one network and checks its logs time and again; a sentence if they are not as they must be.
fn network<A: Calls, B: Second>(
    pair: &mut Pair<A, B>,
    random: &mut Random,
    report: &mut Report,
) -> Result<Option<&'static str>, Halt> {
    let events = random.below(3000).saturating_add(200);
    let mut network = Network::open(pair, random)?;
    for event in 1..=events {
        network.event()?;
        if event % BETWEEN == 0 || event == events {
            if let Some(sentence) = network.check()? {
                return Ok(Some(sentence));
            }
        }
    }
    report.networks += 1;
    report.with_dishonest += u64::from(network.honest < network.n);
    report.with_log += u64::from(network.logs.iter().any(|log| !log.is_empty()));
    report.held_together += network.held_together;
    Ok(None)
}
