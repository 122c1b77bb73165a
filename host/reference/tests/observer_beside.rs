//! An observer beside a replica: the same certificates in the same order, and in a network what all of them read.

use crate::common::observer::*;
use crate::common::random::Random;
use crate::common::*;

/// Certificates for four heights that often fit and often do not: blocks on blocks of the list, masks of any sort.
fn certificate(random: &mut Random, n: u8, blocks: &mut Vec<Block>) -> FrameBytes {
    let height = (random.below(6)) as Height;
    let quorum = (1_u32 << n) - 1;
    let mask = match random.below(8) {
        0 => random.byte().into(),
        1 => 0,
        _ => (quorum & !(1 << random.below(n.into()))) as u16,
    };
    match random.below(5) {
        0 => dummy_certificate(mask, height),
        1 => finalize_certificate(mask, height),
        _ => {
            let below: Vec<Block> =
                blocks.iter().filter(|below| height_in(&below[..2]) < height).copied().collect();
            let entries = [0; 3].map(|_| entry(random.below(9) as u8));
            let block = match below.is_empty() || random.one_in(3) {
                true => block(height, 0, ZERO, &entries),
                false => block_on(height, &below[random.below(below.len())], &entries),
            };
            blocks.push(block);
            block_certificate(mask, &block)
        }
    }
}

/// Delivers a list to both; answers and logs are compared all along.
fn side_by_side(seed: u64) -> (usize, [usize; 11]) {
    let mut random = Random::new(seed);
    let n = [1, 4, 5][random.below(3)];
    let leaders: Vec<u8> = (0..4).map(|_| random.below(n.into()) as u8).collect();
    let mut station = new_book(n.into(), 0, &leaders);
    let mut observer = new_observer(n.into(), 4);
    let (mut blocks, mut refused) = (Vec::new(), [0; 11]);
    for _ in 0..60 {
        let frame = certificate(&mut random, n, &mut blocks);
        let answer = RULES.deliver(&mut station, &frame);
        assert_eq!(RULES.observer_deliver(&mut observer, &frame), answer);
        refused[usize::from(answer.err().unwrap_or(0))] += 1;
        if random.one_in(4) {
            moves(&mut station);
        }
        if random.one_in(4) {
            observer_moves(&mut observer);
        }
    }
    moves(&mut station);
    observer_moves(&mut observer);
    let log = log_of(&station);
    assert_eq!(observed_log(&observer), log);
    assert_eq!(observer[FINALIZED], station[FINALIZED]);
    (log.len(), refused)
}

#[test]
fn the_same_certificates_give_the_same_log() {
    let (mut lengths, mut refused) = (Vec::new(), [0; 11]);
    for seed in 0..400 {
        let (length, numbers) = side_by_side(seed);
        lengths.push(length);
        refused.iter_mut().zip(numbers).for_each(|(all, more)| *all += more);
    }
    assert!(lengths.iter().filter(|length| **length >= 64).count() > 30, "{lengths:?}");
    assert!([0, 4, 5, 6, 9, 10].iter().all(|number| refused[*number] > 20), "{refused:?}");
}

/// A replica alone goes through its heights; an observer with fewer, as many and more heights gets all that it writes
/// and all that fetch gives, and refuses what is no certificate.
#[test]
fn an_observer_of_other_heights_reads_a_beginning() {
    for (heights, entries) in [(2, 2), (5, 5), (9, 5)] {
        let mut station = new_book(1, 0, &[0; 5]);
        let mut observer = new_observer(1, heights);
        for tag in 1..=5 {
            RULES.submit(&mut station, &entry(tag)).unwrap();
            while one_round(&mut station, &mut observer) {}
            assert!(log_of(&station).starts_with(&observed_log(&observer)));
        }
        let log = (1..=entries).flat_map(entry).collect::<Vec<u8>>();
        assert_eq!(observed_log(&observer), log);
    }
}

/// One move of the replica, whose frames both get, until its height is passed; whether more may follow.
fn one_round(station: &mut Vec<u8>, observer: &mut [u8]) -> bool {
    let (made, reply) = one_move(station);
    let pass = matches!(made, reference::Move::Pass { .. });
    for frame in reply.chunks(224).filter(|frame| frame[0] != 0 && frame[0] != 0xaa) {
        RULES.deliver(station, frame).unwrap();
        let answer = RULES.observer_deliver(observer, frame);
        assert_eq!(answer == Err(16), frame[0] < 5);
    }
    for kind in 5..=7 {
        let (mut frame, height) = ([0; 224], u64::from(station[CURRENT]) - 1);
        if RULES.fetch(station, kind, height, &mut frame).is_ok() {
            let answer = RULES.observer_deliver(observer, &frame);
            assert!(answer.is_ok() || answer == Err(6), "{answer:?}");
        }
    }
    moves_of_settling(station);
    observer_moves(observer);
    !pass && made != reference::Move::Idle
}

/// Makes move 2 of the replica while it is the next one.
fn moves_of_settling(station: &mut Vec<u8>) {
    let mut copy = station.clone();
    while let (reference::Move::Final { .. }, _) = one_move(&mut copy) {
        station.clone_from(&copy);
    }
}
