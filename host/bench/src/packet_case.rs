//! Packets to measure: what a station gets that was off the line, on a full book, and what its answer must be.

use crate::station::{Size, Station};
use reference::Rules;
use types::{Calls, Counts, Delivered, Frame, FRAME};

/// A packet on a book.
#[derive(Clone, Debug)]
pub struct PacketCase {
    /// The packet in words.
    pub name: String,
    /// The number of replicas.
    pub n: u8,
    /// The book before the packet.
    pub book: Vec<u8>,
    /// The frames, one behind the other.
    pub packet: Vec<u8>,
    /// The counts that it must have.
    pub counts: Counts,
}

/// A packet for each number of frames, on a book whose last height is open, above settled ones.
pub fn packet_cases(size: Size, lengths: &[usize]) -> Result<Vec<PacketCase>, String> {
    let book = Station::settled(size, size.heights.saturating_sub(1), None)?.book;
    let heard = heard(size)?;
    let case = |count: usize| {
        let packet: Vec<u8> = spread(&heard, count).flat_map(Frame::bytes).collect();
        let counts = one_by_one(&Rules::SHA256, &mut book.clone(), &packet);
        let noun = if count == 1 { "frame" } else { "frames" };
        let name = format!("Packet of {count} {noun}");
        PacketCase { name, n: size.n, book: book.clone(), packet, counts }
    };
    Ok(lengths.iter().map(|count| case(*count)).collect())
}

/// What others say of all heights, from the first: most of it a full book knows already.
fn heard(size: Size) -> Result<Vec<Frame>, String> {
    let mut station = Station::open(size, None)?;
    let mut frames = Vec::new();
    for _ in 0..size.heights {
        frames.extend(heard_at(&station));
        station.settle_next()?;
    }
    Ok(frames)
}

/// The frames of the next height: a full book knows all but the blank votes, and at some heights a second digest of a
/// voter is refused.
fn heard_at(station: &Station) -> Vec<Frame> {
    let (height, mask) = (station.next(), station.everyone());
    let blank = |signer| Frame::DummyVote { signer, height };
    let mut frames = vec![
        Frame::BlockCertificate { mask, block: station.block() },
        blank(0),
        station.vote(1),
        Frame::FinalizeCertificate { mask, height },
        blank(1),
        station.proposal(),
        Frame::Finalize { signer: 0, height },
    ];
    if height.is_multiple_of(8) {
        frames.push(Frame::BlockVote { signer: 2, height, digest: [7; 32] });
    }
    frames
}

/// So many of the frames, evenly from the first to the last heights, in order.
fn spread(frames: &[Frame], count: usize) -> impl Iterator<Item = &Frame> {
    let place = move |at: usize| at.saturating_mul(frames.len()).checked_div(count);
    (0..count).filter_map(place).filter_map(|at| frames.get(at))
}

/// Delivers the frames of a packet one by one, and counts what becomes of them.
pub fn one_by_one(calls: &impl Calls, book: &mut [u8], packet: &[u8]) -> Counts {
    let mut counts = Counts::default();
    for frame in packet.chunks(FRAME) {
        let count = match calls.deliver(book, frame) {
            Ok(Delivered::Fresh) => &mut counts.fresh,
            Ok(Delivered::Known) => &mut counts.known,
            Err(_) => &mut counts.refused,
        };
        *count = count.saturating_add(1);
    }
    counts
}

impl PacketCase {
    /// Delivers the packet once on each replica, and on the first its frames one by one: the counts must be those
    /// expected, and all bytes afterwards the same.
    pub fn check<A: Calls, B: Calls>(&self, ours: &A, reference: &B) -> Result<(), String> {
        let [mut one, mut two, mut three] = [(); 3].map(|()| self.book.clone());
        let answers = [
            ours.packet(&mut one, &self.packet),
            Ok(one_by_one(ours, &mut two, &self.packet)),
            reference.packet(&mut three, &self.packet),
        ];
        if answers != [Ok(self.counts); 3] {
            return Err(format!("{}: {answers:?}, not '{}'", self.name, self.counts));
        }
        match one == two && two == three {
            true => Ok(()),
            false => Err(format!("{}: other bytes are left", self.name)),
        }
    }
}
