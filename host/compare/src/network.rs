//! A network of replicas and observers: what the honest ones do and say, and the check that no two logs fork.

use crate::books::{any_heights, any_replicas};
use crate::frames::any_entry;
use crate::weight_kinds::singles;
use crate::weights::{any_weights, some_edition};
use crate::Random;
use crate::{repeat_kinds, Halt, Pair, Second};
use exchange::{Answer, Call};
use reference::is_quorum;
use types::{book_length, field, head_height, weight_bytes, Weights};
use types::{Block, Calls, Counts, Delivered, Frame, Height, Move};
use types::{BLOCK, EDITION, ENTRY, FIRST_EDITION, FRAME, SECOND_EDITION};

/// The replicas and what is under way between them. The last few replicas are dishonest and have no book here.
pub struct Network<'a, A, B> {
    pub pair: &'a mut Pair<A, B>,
    pub random: &'a mut Random,
    pub n: u8,
    /// What each replica weighs.
    pub weights: Vec<u16>,
    pub honest: u8,
    pub leaders: Vec<u8>,
    pub books: Vec<Vec<u8>>,
    /// The books of observers.
    pub observers: Vec<Vec<u8>>,
    /// The logs of the honest replicas, then those of the observers.
    pub logs: Vec<Vec<u8>>,
    /// Frames on their way, each to a replica or, by the numbers after theirs, to an observer.
    pub wire: Vec<(usize, [u8; FRAME])>,
    /// All statements of honest replicas.
    pub spoken: Vec<[u8; FRAME]>,
    /// All blocks that anyone proposed.
    pub blocks: Vec<Block>,
    /// Which replicas had nothing to do and heard nothing since.
    pub idle: Vec<bool>,
    /// Pairs of logs that were compared, both not empty.
    pub held_together: u64,
}

/// Nothing, or why it ends here.
pub type Outcome = Result<(), Halt>;

/// Weights for the replicas of a network; every other time the small ones are the last, which are the dishonest.
fn network_weights(random: &mut Random, n: u8) -> Vec<u16> {
    let mut weights = any_weights(random, n);
    if random.one_in(2) {
        weights.sort_unstable_by(|one, two| two.cmp(one));
    }
    weights
}

/// How many of the last replicas weigh less than a third of all together.
fn most_dishonest(weights: &[u16]) -> u8 {
    let total: u32 = weights.iter().map(|weight| u32::from(*weight)).sum();
    let sums = weights.iter().rev().scan(0_u32, |sum, weight| {
        *sum = sum.saturating_add(u32::from(*weight));
        Some(*sum)
    });
    sums.take_while(|sum| sum.saturating_mul(3) < total)
        .fold(0, |count: u8, _| count.saturating_add(1))
}

impl<'a, A: Calls, B: Second> Network<'a, A, B> {
    /// Opens the honest books over junk; the dishonest replicas weigh less than a third.
    pub fn open(
        pair: &'a mut Pair<A, B>,
        random: &'a mut Random,
    ) -> Result<Network<'a, A, B>, Halt> {
        let n = if random.one_in(3) { 4 } else { any_replicas(random) };
        let weights = network_weights(random, n);
        let bound = most_dishonest(&weights).saturating_add(1);
        let dishonest = random.byte_below(bound).max(random.byte_below(bound));
        let honest = n.saturating_sub(dishonest);
        let heights = any_heights(random).max(3);
        pair.begin(&format!("a network of {n} stations, {dishonest} of them dishonest"));
        let leaders: Vec<u8> = (0..heights).map(|_| random.byte_below(n)).collect();
        let (books, observers, logs) = (Vec::new(), Vec::new(), vec![Vec::new(); honest.into()]);
        let (wire, spoken, blocks) = Default::default();
        let mut network = Network {
            pair,
            random,
            n,
            weights,
            honest,
            leaders,
            books,
            observers,
            logs,
            wire,
            spoken,
            blocks,
            idle: vec![false; honest.into()],
            held_together: 0,
        };
        for own in 0..honest {
            network.open_book(own, heights)?;
        }
        network.open_observers(heights)?;
        network.see_weights();
        Ok(network)
    }

    /// Counts what the network is by the weights of its replicas.
    fn see_weights(&mut self) {
        let all = Weights::of(self.books.first().map_or(&[], |book| book));
        let by_number = self.n.saturating_sub(self.honest).saturating_mul(3) >= self.n;
        let alone = singles(&all).any(|mask| is_quorum(mask, &self.weights));
        let edition =
            |edition| self.books.iter().any(|book| book.get(field::EDITION) == Some(&edition));
        let told = [
            (self.honest < self.n, "with dishonest stations"),
            (self.weights.iter().any(|weight| *weight != 1), "unequal weights"),
            (self.n > 1 && alone, "one station of several is a quorum alone"),
            (by_number, "a third or more are dishonest by number, not by weight"),
            (edition(FIRST_EDITION) && edition(EDITION), "books of editions 1 and 3"),
            (edition(SECOND_EDITION) && edition(EDITION), "books of editions 2 and 3"),
        ];
        told.into_iter().filter(|(is, _)| *is).for_each(|(_, name)| self.saw(name));
    }

    /// Counts something that happened in the network.
    pub fn saw(&mut self, name: &str) {
        self.pair.kinds.saw(&format!("network: {name}"));
    }

    /// Opens the book of one replica.
    fn open_book(&mut self, own: u8, heights: Height) -> Outcome {
        let mut book = vec![0; book_length(heights)];
        self.random.fill(&mut book);
        let (n, own, heights) = (self.n.into(), own.into(), heights.into());
        let (weights, leaders) = (weight_bytes(&self.weights), self.leaders.clone());
        let open = Call::Open { n, own, heights, weights, leaders };
        self.pair.make(&open, &mut book, &mut [])?;
        some_edition(self.random, &mut book);
        self.books.push(book);
        Ok(())
    }

    /// Makes a call on a replica's book.
    pub fn call(&mut self, replica: usize, call: &Call, buffer: &mut [u8]) -> Result<Answer, Halt> {
        let Some(book) = self.books.get_mut(replica) else {
            return Ok(Answer::Done);
        };
        let fired = |book: &[u8]| book.get(field::FLAGS).is_some_and(|flags| flags & 1 != 0);
        let before = fired(book);
        let answer = self.pair.make(call, book, buffer)?;
        let takes = matches!(call, Call::Deliver { .. } | Call::Packet { .. });
        if takes && !before && fired(book) {
            self.saw("a leader's two pages fire a timer");
        }
        match answer {
            Answer::Delivered(Delivered::Known) | Answer::Counted(Counts { fresh: 0, .. }) => {}
            Answer::Delivered(_) | Answer::Counted(_) | Answer::Done | Answer::Moved(_) => {
                self.idle[replica] = answer == Answer::Moved(Move::Idle);
            }
            _ => {}
        }
        Ok(answer)
    }

    /// Something happens somewhere.
    pub fn event(&mut self) -> Outcome {
        let replica = self.random.index(self.books.len());
        match self.random.below(21) {
            0 if self.random.one_in(4) => self.arrive_together(replica),
            0..=10 => self.arrive(),
            11..=16 if self.idle[replica] && !self.random.one_in(6) => Ok(()),
            11..=16 => self.step(replica),
            17 if self.random.one_in(12) => {
                let height = head_height(&self.books[replica], field::CURRENT).into();
                self.told(replica, &Call::Signal { height }, "the timer of a station fires")
            }
            18 => {
                let entry = any_entry(self.random).to_vec();
                self.told(replica, &Call::Submit { entry }, "an entry is submitted")
            }
            19 if self.honest < self.n => {
                self.mischief();
                Ok(())
            }
            20 => self.follow(),
            _ => Ok(()),
        }
    }

    /// A call that the host makes of its own, counted by this name if it is not refused.
    fn told(&mut self, replica: usize, call: &Call, name: &str) -> Outcome {
        if self.call(replica, call, &mut [])? == Answer::Done {
            self.saw(name);
        }
        Ok(())
    }

    /// One frame arrives, in no order; some are lost and some come twice.
    fn arrive(&mut self) -> Outcome {
        if self.wire.is_empty() {
            return Ok(());
        }
        let at = self.random.index(self.wire.len());
        let (replica, frame) = match self.random.one_in(20) {
            true => {
                self.saw("frame comes again");
                self.wire[at]
            }
            false => self.wire.swap_remove(at),
        };
        if self.random.one_in(100) {
            self.saw("frame lost");
            return Ok(());
        }
        if let Some(observer) = replica.checked_sub(self.books.len()) {
            return self.hear(observer, &frame);
        }
        self.call(replica, &Call::Deliver { frame: frame.to_vec() }, &mut []).map(|_| ())
    }

    /// Frames for a replica arrive as one packet, as where it was off the line.
    fn arrive_together(&mut self, replica: usize) -> Outcome {
        let most = self.random.index(40).saturating_add(1).saturating_mul(FRAME);
        let mut packet = Vec::new();
        self.wire.retain(|(to, frame)| {
            let taken = *to == replica && packet.len() < most;
            packet.extend(frame.iter().filter(|_| taken));
            !taken
        });
        if packet.is_empty() {
            return Ok(());
        }
        self.saw("frames come in a packet");
        self.call(replica, &Call::Packet { packet }, &mut []).map(|_| ())
    }

    /// A replica moves, and its host sends what it wrote.
    fn step(&mut self, replica: usize) -> Outcome {
        let mut reply = [[0xaa; FRAME]; 2];
        let answer = self.call(replica, &Call::Move, reply.as_flattened_mut())?;
        let Answer::Moved(made) = answer else {
            return Ok(());
        };
        if matches!(made, Move::Pass { .. } | Move::Offer { .. }) && self.random.one_in(3) {
            self.send_certificates(replica)?;
        }
        reply.into_iter().take(made.frames()).for_each(|frame| self.say(frame));
        Ok(())
    }

    /// Sends all that fetch gives of heights not far below the current one.
    fn send_certificates(&mut self, replica: usize) -> Outcome {
        let current = u64::from(head_height(&self.books[replica], field::CURRENT));
        for height in current.saturating_sub(3)..=current {
            for kind in 5..=7 {
                let mut frame = [0; FRAME];
                let answer = self.call(replica, &Call::Fetch { kind, height }, &mut frame)?;
                if answer == Answer::Done {
                    self.saw("a certificate fetched and sent");
                    self.say(frame);
                }
            }
        }
        Ok(())
    }

    /// An honest replica says something to all, itself among them, and certificates to observers too.
    fn say(&mut self, frame: [u8; FRAME]) {
        if frame[0] < 5 {
            self.spoken.push(frame);
        }
        if let (1, Some(block)) = (frame[0], frame.last_chunk::<BLOCK>()) {
            self.blocks.push(Block::parts(block));
        }
        let all = self.listeners(&frame);
        self.wire.extend(all.map(|listener| (listener, frame)));
    }

    /// Something is sent to some of the honest replicas and observers only.
    pub fn whisper(&mut self, frame: &Frame) {
        let frame = frame.bytes();
        for listener in self.listeners(&frame) {
            if self.random.one_in(2) {
                self.wire.push((listener, frame));
            }
        }
    }

    /// The log that a replica reads.
    fn read(&mut self, replica: usize, buffer: &mut [u8]) -> Result<Vec<u8>, Halt> {
        let Answer::Part(length) = self.call(replica, &Call::Read, buffer)? else {
            return Ok(Vec::new());
        };
        Ok(buffer[..usize::try_from(length).unwrap_or(0)].to_vec())
    }

    /// Counts a log of so many bytes that is shorter than what its chain carries.
    fn see_repeats(&mut self, reader: usize, length: usize) {
        let carried = match reader.checked_sub(self.books.len()) {
            Some(observer) => self.observers.get(observer).map(|book| repeat_kinds::observed(book)),
            None => self.books.get(reader).map(|book| repeat_kinds::carried(book)),
        };
        if carried.is_some_and(|carried| carried.len().saturating_mul(ENTRY) > length) {
            self.saw("a log leaves out a repeat");
        }
    }

    /// The length of the longest log that a replica, or an observer of a few heights more, may have.
    fn longest_log(&self) -> usize {
        self.leaders.len().saturating_add(16).saturating_mul(8 * ENTRY)
    }

    /// Reads all logs, observers' too: none may have shrunk, and of any two one must begin the other. An entry that a
    /// chain repeats stands in them once.
    pub fn check(&mut self) -> Result<Option<&'static str>, Halt> {
        let mut buffer = vec![0xbb; self.longest_log()];
        for reader in 0..self.logs.len() {
            let log = match reader.checked_sub(self.books.len()) {
                Some(observer) => self.observed(observer, &mut buffer)?,
                None => self.read(reader, &mut buffer)?,
            };
            if !log.starts_with(&self.logs[reader]) {
                return Ok(Some("a log does not begin with what it was before"));
            }
            if log.len() > self.logs[reader].len() {
                self.see_repeats(reader, log.len());
            }
            self.logs[reader] = log;
        }
        let pairs = self
            .logs
            .iter()
            .enumerate()
            .flat_map(|(at, one)| self.logs[at + 1..].iter().map(move |two| (one, two)));
        for (one, two) in pairs {
            if !one.starts_with(two) && !two.starts_with(one) {
                return Ok(Some("two honest logs fork"));
            }
            self.held_together += u64::from(!one.is_empty() && !two.is_empty());
        }
        Ok(None)
    }
}
