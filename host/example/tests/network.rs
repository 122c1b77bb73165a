//! The example hosts in networks of four processes over pipes: in Rust, and with the library in C and two of each.
//!
//! The test is the network: it carries each line that a station says to all others. It also plays the station that is
//! away, and ends one and begins it again.

mod common;

use common::{digits, Network, Program, Setting};
use mavunilai::store::FileBook;
use mavunilai::{Block, Book, Frame, Move};
use std::time::Duration;

/// The entries that every station is handed.
const ENTRIES: [[u8; 16]; 3] =
    [*b"\0swap A12 to B40", *b"\x01seed lot 7 to 3", *b"\x02plot C7 fallow "];

/// The programs that a network is made of: all of one kind, and mixed.
fn casts() -> Vec<[Program; 4]> {
    let rust = Program::rust();
    match Program::c() {
        None => vec![[&rust; 4].map(Program::clone)],
        Some(c) => vec![
            [&rust; 4].map(Program::clone),
            [&c; 4].map(Program::clone),
            [&c, &rust, &rust, &c].map(Program::clone),
        ],
    }
}

/// Leaders of so many heights, in turn from a first one on.
fn turns(first: u8, heights: u8) -> Vec<u8> {
    (0..heights).map(|height| (first + height) % 4).collect()
}

/// A network of stations that weigh the same.
fn setting(name: String, leaders: Vec<u8>, delta: u64) -> Setting {
    Setting { name, weights: [1; 4], leaders, delta }
}

/// Waits until the stations have all entries in their registers; they are the same, in the same order.
fn agree(network: &mut Network, stations: &[usize]) {
    network.carry(|registers| {
        stations.iter().all(|station| registers[*station].len() >= ENTRIES.len())
    });
    let registers: Vec<_> = stations.iter().map(|station| network.register(*station)).collect();
    assert!(registers.iter().all(|register| *register == registers[0]), "{registers:?}");
    let mut settled = registers[0].to_vec();
    settled.sort();
    assert_eq!(settled, ENTRIES.map(|entry| digits(&entry)));
}

#[test]
fn four_stations_agree() {
    for (at, cast) in casts().iter().enumerate() {
        let setting = setting(format!("agree{at}"), turns(0, 12), 5000);
        let mut network = Network::new(setting, cast);
        (0..4).for_each(|station| network.begin(station, &ENTRIES));
        agree(&mut network, &[0, 1, 2, 3]);
        (0..4).for_each(|station| assert_eq!(network.evidence(station), ""));
        network.end();
    }
}

/// The first leader is away: its height goes blank by the timers, and the others go on.
#[test]
fn three_stations_go_on_by_their_timers() {
    for (at, cast) in casts().iter().enumerate() {
        let setting = setting(format!("away{at}"), turns(3, 24), 400);
        let mut network = Network::new(setting, cast);
        (0..3).for_each(|station| network.begin(station, &ENTRIES));
        agree(&mut network, &[0, 1, 2]);
        network.end();
    }
}

/// A large partner and one small one are a quorum, 4 of 6, though two others, the first leader among them, are away.
#[test]
fn two_stations_of_enough_weight_go_on() {
    for (at, cast) in casts().iter().enumerate() {
        let equal = setting(format!("weight{at}"), turns(2, 24), 400);
        let mut network = Network::new(Setting { weights: [3, 1, 1, 1], ..equal }, cast);
        (0..2).for_each(|station| network.begin(station, &ENTRIES));
        agree(&mut network, &[0, 1]);
        network.end();
    }
}

/// A station is killed as soon as an entry is settled anywhere, and begins again with its book once the others have
/// passed all heights and say nothing more: all that it missed it gets by the certificates that they send it then.
#[test]
fn a_station_that_was_killed_catches_up() {
    for (at, cast) in casts().iter().enumerate() {
        let setting = setting(format!("killed{at}"), turns(0, 12), 200);
        let mut network = Network::new(setting, cast);
        (0..4).for_each(|station| network.begin(station, &ENTRIES));
        network.carry(|registers| registers.iter().any(|register| !register.is_empty()));
        network.kill(3);
        network.carry_until_silent(Duration::from_secs(2));
        // In the mixed network the other program takes the book over.
        network.recast(3, &cast[1]);
        network.begin(3, &ENTRIES);
        agree(&mut network, &[0, 1, 2, 3]);
        network.carry_until_silent(Duration::from_secs(1));
        network.end();
        for station in 0..4 {
            let book = FileBook::open(reference::Rules::SHA256, network.file("book", station));
            assert_eq!(book.unwrap().book().current(), 13, "{station}");
        }
    }
}

/// A station that ended between its commit and its sending sends what waits beside the book first of all.
#[test]
fn frames_that_wait_go_out_first() {
    for (at, cast) in casts().iter().enumerate() {
        let setting = setting(format!("waiting{at}"), turns(0, 12), 5000);
        let mut network = Network::new(setting, cast);
        let book = Book::open(reference::Rules::SHA256, 4, 0, &[1; 4], &turns(0, 12)).unwrap();
        let mut book = FileBook::create(book, network.file("book", 0)).unwrap();
        assert_eq!(book.move_and_take().unwrap(), Move::Offer { height: 1 });
        let waits = digits(&book.unsent()[0]);
        drop(book);
        network.begin(0, &[]);
        assert_eq!(network.hear(), format!("frame {waits}"));
        assert_eq!(network.hear(), "hello");
        network.end();
        let left = FileBook::open(reference::Rules::SHA256, network.file("book", 0)).unwrap();
        assert!(left.unsent().is_empty());
    }
}

/// The absent station, played here, proposes two pages of its height and votes for two pages of another.
#[test]
fn evidence_is_kept() {
    let signer = 3;
    let page = |byte| Block { height: 1, entries: [[byte; 16]].into(), ..Block::default() };
    let proposals = [1, 2].map(|byte| Frame::Proposal { signer, block: page(byte) }.bytes());
    let vote = |byte| Frame::BlockVote { signer, height: 9, digest: [byte; 32] }.bytes();
    let votes = [1, 2].map(vote);
    for (at, cast) in casts().iter().enumerate() {
        let setting = setting(format!("evidence{at}"), turns(3, 24), 400);
        let mut network = Network::new(setting, cast);
        (0..3).for_each(|station| network.begin(station, &ENTRIES));
        for frame in proposals.iter().chain(&votes) {
            network.say(0, &format!("frame {}", digits(frame)));
        }
        network.carry(|registers| registers[..3].iter().all(|register| register.len() >= 3));
        let kept = ["second page", "refused with 8"].into_iter().zip([proposals[1], votes[1]]);
        let kept: Vec<_> =
            kept.map(|(what, frame)| format!("{what} {}\n", digits(&frame))).collect();
        assert_eq!(network.evidence(0), kept.concat());
        network.end();
    }
}
