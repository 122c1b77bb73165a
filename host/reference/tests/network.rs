//! Networks with random delivery, timers and equivocating replicas: honest logs never part.

use crate::common::random::Random;
use crate::common::*;
use reference::{is_quorum, Move};

const LAST: Height = 12;

/// A network in which the last few replicas are dishonest and act as one.
struct Network {
    random: Random,
    n: u8,
    weights: Vec<u16>,
    honest: u8,
    leaders: Vec<u8>,
    books: Vec<Vec<u8>>,
    logs: Vec<Vec<u8>>,
    wire: Vec<(usize, FrameBytes)>,
    spoken: Vec<FrameBytes>,
    blocks: Vec<Block>,
    /// How often two proposals of one leader fired a timer.
    fired: usize,
}

impl Network {
    /// The first replicas are honest; one in two networks of equal weights has a book of edition 1.
    fn new(seed: u64, weights: &[u16], honest: u8) -> Network {
        let mut random = Random::new(seed);
        let n = weights.len() as u8;
        let leaders: Vec<u8> = (0..LAST).map(|_| random.below(n.into()) as u8).collect();
        let equal = weights.iter().all(|&weight| weight == 1);
        let book = |own: u8| {
            let book = weighed_book(weights, own.into(), &leaders);
            let first = equal && own == 0 && seed.is_multiple_of(2);
            if first {
                first_edition(&book)
            } else {
                book
            }
        };
        let books = (0..honest).map(book).collect();
        let logs = vec![Vec::new(); honest.into()];
        let (wire, spoken, blocks) = (Vec::new(), Vec::new(), Vec::new());
        let weights = weights.to_vec();
        Network { random, n, weights, honest, leaders, books, logs, wire, spoken, blocks, fired: 0 }
    }

    fn any_honest(&mut self) -> usize {
        self.random.below(self.honest.into())
    }

    /// An honest replica says something to all, itself among them.
    fn say(&mut self, frame: FrameBytes) {
        if frame[0] < 5 {
            self.spoken.push(frame);
        }
        if frame[0] == 1 {
            self.blocks.push(frame[48..].try_into().unwrap());
        }
        (0..self.books.len()).for_each(|to| self.wire.push((to, frame)));
    }

    /// Something is sent to some of the honest ones only.
    fn whisper(&mut self, frame: FrameBytes) {
        for to in 0..self.books.len() {
            if self.random.one_in(2) {
                self.wire.push((to, frame));
            }
        }
    }

    /// One frame arrives, in no order; some are lost and some come twice.
    fn arrive(&mut self) {
        if self.wire.is_empty() || self.random.one_in(200) {
            return;
        }
        let at = self.random.below(self.wire.len());
        let (to, frame) = match self.random.one_in(20) {
            true => self.wire[at],
            false => self.wire.swap_remove(at),
        };
        let flags = self.books[to][FLAGS];
        let answer = RULES.deliver(&mut self.books[to], &frame);
        self.fired += usize::from(self.books[to][FLAGS] != flags);
        let by_dishonest = frame[0] < 5 && frame[1] >= self.honest;
        assert!(answer.is_ok() || by_dishonest && answer == Err(8), "{answer:?}");
    }

    /// An honest replica moves, and its host sends what it wrote.
    fn step(&mut self, replica: usize) -> Move {
        let (made, reply) = one_move(&mut self.books[replica]);
        if matches!(made, Move::Pass { .. } | Move::Offer { .. }) {
            self.send_certificates(replica);
        }
        for frame in reply.chunks(224).filter(|frame| frame[0] != 0 && frame[0] != 0xaa) {
            self.say(frame.try_into().unwrap());
        }
        made
    }

    fn send_certificates(&mut self, replica: usize) {
        for (height, kind) in
            (1..=u64::from(LAST)).flat_map(|height| [(height, 5), (height, 6), (height, 7)])
        {
            let mut frame = [0; 224];
            if RULES.fetch(&self.books[replica], kind, height, &mut frame).is_ok() {
                self.say(frame);
            }
        }
    }

    /// The dishonest ones say one thing here and another there.
    fn mischief(&mut self) {
        let seen = self.any_honest();
        let span = usize::from(self.books[seen][CURRENT]) + 1;
        let height = 1 + self.random.below(span.min(LAST.into())) as Height;
        let signer = self.honest + self.random.below((self.n - self.honest).into()) as u8;
        match self.random.below(6) {
            0 => self.equivocate(height, seen),
            1 | 2 => self.vote_for_all(signer, height),
            3 => self.whisper(dummy_vote(signer, height)),
            4 => self.whisper(finalize(signer, height)),
            _ => self.certify(height),
        }
    }

    /// Two proposals for one height, if a dishonest replica leads it.
    fn equivocate(&mut self, height: Height, seen: usize) {
        let leader = self.leaders[usize::from(height) - 1];
        if leader < self.honest {
            return;
        }
        let (parent, digest) = self.some_parent(height, seen);
        for _ in 0..2 {
            let tag = self.random.byte();
            let block = block(height, parent, digest, &[entry(tag)]);
            self.blocks.push(block);
            self.whisper(proposal(leader, &block));
        }
    }

    /// Any certified block below a height, as an honest book has it.
    fn some_parent(&mut self, height: Height, seen: usize) -> (Height, [u8; 32]) {
        let parent = self.random.below(height.into()) as Height;
        let mut frame = [0; 224];
        match RULES.fetch(&self.books[seen], 5, parent.into(), &mut frame) {
            Ok(()) => (parent, reference::sha256::digest(&frame[48..])),
            Err(_) => (0, ZERO),
        }
    }

    /// A vote of one signer for every block of a height, each to some.
    fn vote_for_all(&mut self, signer: u8, height: Height) {
        let blocks = self.blocks.clone();
        for block in blocks.iter().filter(|block| height_in(&block[..2]) == height) {
            self.whisper(vote_for(signer, block));
        }
    }

    /// All certificates of a height that true statements and dishonest ones allow.
    fn certify(&mut self, height: Height) {
        let blocks = self.blocks.clone();
        for block in blocks.iter().filter(|block| height_in(&block[..2]) == height) {
            let mask = self.mask(|frame| frame[..] == vote_for(frame[1], block)[..]);
            self.whisper_if_quorum(block_certificate(mask, block), mask);
        }
        let mask = self.mask(|frame| frame[0] == 3 && height_in(&frame[2..4]) == height);
        self.whisper_if_quorum(dummy_certificate(mask, height), mask);
        let mask = self.mask(|frame| frame[0] == 4 && height_in(&frame[2..4]) == height);
        self.whisper_if_quorum(finalize_certificate(mask, height), mask);
    }

    fn mask(&self, says: impl Fn(&FrameBytes) -> bool) -> u16 {
        let dishonest = (self.honest..self.n).fold(0, |mask, signer| mask | 1 << signer);
        let signers = self.spoken.iter().filter(|frame| says(frame)).map(|frame| frame[1]);
        signers.fold(dishonest, |mask, signer| mask | 1 << signer)
    }

    fn whisper_if_quorum(&mut self, frame: FrameBytes, mask: u16) {
        if is_quorum(mask, &self.weights) {
            self.whisper(frame);
        }
    }

    /// No log shrinks, and of two logs one begins the other.
    fn check(&mut self) {
        for (book, log) in self.books.iter().zip(&mut self.logs) {
            let now = log_of(book);
            assert!(now.starts_with(log));
            *log = now;
        }
        for (one, two) in
            self.logs.iter().flat_map(|one| self.logs.iter().map(move |two| (one, two)))
        {
            assert!(one.starts_with(two) || two.starts_with(one));
        }
    }

    /// Something happens somewhere.
    fn event(&mut self) {
        let replica = self.any_honest();
        match self.random.below(20) {
            0..=10 => self.arrive(),
            11..=15 => _ = self.step(replica),
            16 if self.random.one_in(12) => {
                let height = self.books[replica][CURRENT].into();
                _ = RULES.signal(&mut self.books[replica], height);
            }
            17 => {
                let tag = self.random.byte();
                _ = RULES.submit(&mut self.books[replica], &entry(tag));
            }
            18 if self.honest < self.n => self.mischief(),
            _ => {}
        }
    }
}

/// Runs a few networks of these weights, whose last replicas are dishonest; returns the lengths of all logs at the end. Timers are fired by two proposals of one leader
/// where a replica is dishonest, and nowhere else.
fn run(weights: &[u16], honest: u8, seeds: std::ops::Range<u64>, events: usize) -> Vec<usize> {
    let dishonest: u16 = weights[honest.into()..].iter().sum();
    assert!(3 * dishonest < weights.iter().sum());
    let (mut lengths, mut fired) = (Vec::new(), 0);
    for seed in seeds {
        let mut network = Network::new(seed, weights, honest);
        for event in 0..events {
            network.event();
            if event % 100 == 99 {
                network.check();
            }
        }
        network.check();
        lengths.extend(network.logs.iter().map(Vec::len));
        fired += network.fired;
    }
    assert_eq!(fired > 0, usize::from(honest) < weights.len(), "{fired}");
    lengths
}

#[test]
fn four_with_one_equivocating() {
    let lengths = run(&[1; 4], 3, 1..41, 3000);
    let some = lengths.iter().filter(|&&length| length > 0).count();
    assert!(some > lengths.len() / 2, "{lengths:?}");
}

#[test]
fn seven_with_two_equivocating() {
    let lengths = run(&[1; 7], 5, 1..9, 6000);
    assert!(lengths.iter().any(|&length| length > 0), "{lengths:?}");
}

#[test]
fn all_honest_or_alone() {
    for n in [1, 2, 4] {
        let lengths = run(&vec![1; n.into()], n, 1..9, 3000);
        assert!(lengths.iter().any(|&length| length > 0), "{lengths:?}");
    }
}

/// Half of the stations are dishonest, and weigh less than a third: two large ones and two small ones against four.
#[test]
fn many_small_ones_equivocating() {
    let lengths = run(&[10, 10, 6, 4, 4, 4, 4, 2], 4, 1..13, 6000);
    assert!(lengths.iter().any(|&length| length > 0), "{lengths:?}");
}

/// One station weighs two thirds: it goes on alone, whatever three of the others say.
#[test]
fn one_that_is_a_quorum_alone() {
    let lengths = run(&[9, 1, 1, 1], 1, 1..9, 3000);
    assert!(lengths.iter().all(|&length| length > 0), "{lengths:?}");
}
