//! The station whose book is measured: a run of the reference brings the book where a case needs it.

use reference::{sha256, Rules};
use types::{book_length, field, head_height, height_bytes, weight_bytes, Weights};
use types::{Block, Calls, Entries, Frame, Height, Move, ENTRY, FRAME, MOST_ENTRIES};

/// How large a book is.
#[derive(Clone, Copy, Debug, PartialEq, Eq)]
pub struct Size {
    /// The number of replicas.
    pub n: u8,
    /// The number of heights.
    pub heights: Height,
}

/// How much of a book is used.
#[derive(Clone, Copy, Debug, PartialEq, Eq)]
pub enum Fill {
    /// Newly opened.
    Empty,
    /// A chain of blocks through all heights, each with eight entries, all votes and all finalizes; 31 entries pending.
    Full,
}

/// A book under way. The replica's own number is the last one.
#[derive(Clone, Debug)]
pub struct Station {
    /// The book's bytes.
    pub book: Vec<u8>,
    size: Size,
    chain: Height,
    digest: [u8; 32],
}

impl Station {
    /// Opens a book. The other replicas lead by turns; at `led` the replica leads itself.
    pub fn open(size: Size, led: Option<Height>) -> Result<Station, String> {
        let mut book = vec![0; book_length(size.heights)];
        let leaders = leaders(size, led);
        let own = u64::from(size.n.saturating_sub(1));
        let (n, heights) = (size.n.into(), size.heights.into());
        let weights = weight_bytes(&vec![1; size.n.into()]);
        Calls::open(&Rules::SHA256, &mut book, n, own, heights, &weights, &leaders)
            .map_err(refused)?;
        Ok(Station { book, size, chain: 0, digest: [0; 32] })
    }

    /// A book whose first heights are settled and passed, with a pool to match the filling.
    pub fn settled(size: Size, count: Height, led: Option<Height>) -> Result<Station, String> {
        let mut station = Station::open(size, led)?;
        for _ in 0..count {
            station.settle_next()?;
            station.pass_chain()?;
        }
        match count {
            0 => Ok(station),
            _ => station.with_pool(31),
        }
    }

    /// A book where every page but the first names page 1 with a wrong digest, so that none of them stands. Every
    /// height has all finalizes, and all dummy votes too if the book is full. No move is left.
    pub fn forked(size: Size, fill: Fill) -> Result<Station, String> {
        let mut station = Station::open(size, None)?;
        let mask = station.everyone();
        for height in 1..=size.heights {
            let (parent, digest) = if height == 1 { (0, [0; 32]) } else { (1, [1; 32]) };
            let block = Block { height, parent, digest, entries: [].into() };
            station.take(&Frame::BlockCertificate { mask, block })?;
            station.take(&Frame::FinalizeCertificate { mask, height })?;
            if fill == Fill::Full {
                station.take(&Frame::DummyCertificate { mask, height })?;
            }
        }
        while station.make_move()? != Move::Idle {}
        Ok(station)
    }

    /// All replicas.
    pub fn everyone(&self) -> u16 {
        u16::MAX >> 16_u8.saturating_sub(self.size.n).min(15)
    }

    /// The next height of the chain.
    pub fn next(&self) -> Height {
        self.chain.saturating_add(1)
    }

    /// The next block of the chain, with entries that no other block has.
    pub fn block(&self) -> Block {
        let height = self.next();
        let all: Vec<_> = (0..MOST_ENTRIES).map(|place| entry(height, place)).collect();
        let entries = Entries::first_of(&all);
        Block { height, parent: self.chain, digest: self.digest, entries }
    }

    /// The proposal of that block by its leader.
    pub fn proposal(&self) -> Frame {
        Frame::Proposal { signer: leader(self.size, self.next()), block: self.block() }
    }

    /// A second proposal of its leader, of a block with fewer entries.
    pub fn second_proposal(&self) -> Frame {
        let mut block = self.block();
        block.entries = Entries::first_of(block.entries.get(..1).unwrap_or(&[]));
        Frame::Proposal { signer: leader(self.size, self.next()), block }
    }

    /// A replica's vote for that block.
    pub fn vote(&self, signer: u8) -> Frame {
        let digest = sha256::digest(&self.block().bytes());
        Frame::BlockVote { signer, height: self.next(), digest }
    }

    /// Delivers frames that the book must take.
    pub fn deliver(mut self, frames: &[Frame]) -> Result<Station, String> {
        for frame in frames {
            self.take(frame)?;
        }
        Ok(self)
    }

    /// Delivers the votes of the first replicas, one less than a quorum.
    pub fn almost_notarized(self) -> Result<Station, String> {
        let fewer = Weights::equal(self.size.n).needed().saturating_sub(1);
        let votes = (1..self.size.n).take(fewer as usize).map(|signer| self.vote(signer));
        let votes: Vec<Frame> = votes.collect();
        self.deliver(&votes)
    }

    /// The timer of the current height fires.
    pub fn signal(mut self) -> Result<Station, String> {
        let height = self.next().into();
        Calls::signal(&Rules::SHA256, &mut self.book, height).map_err(refused)?;
        Ok(self)
    }

    /// Submits entries that no block has.
    pub fn with_pool(mut self, count: u8) -> Result<Station, String> {
        for place in 0..count {
            let entry = entry(0, place);
            Calls::submit(&Rules::SHA256, &mut self.book, &entry).map_err(refused)?;
        }
        Ok(self)
    }

    /// Delivers all that settles the next height, and no more.
    pub fn settle_next(&mut self) -> Result<(), String> {
        let votes = (0..self.size.n).map(|signer| self.vote(signer));
        let frames: Vec<Frame> = [self.proposal()].into_iter().chain(votes).collect();
        let digest = sha256::digest(&self.block().bytes());
        for frame in &frames {
            self.take(frame)?;
        }
        let height = self.next();
        self.take(&Frame::FinalizeCertificate { mask: self.everyone(), height })?;
        (self.chain, self.digest) = (height, digest);
        Ok(())
    }

    /// Delivers one frame.
    fn take(&mut self, frame: &Frame) -> Result<(), String> {
        let answer = Calls::deliver(&Rules::SHA256, &mut self.book, &frame.bytes());
        answer.map(|_| ()).map_err(refused)
    }

    /// Moves until the chain's last height is passed.
    fn pass_chain(&mut self) -> Result<(), String> {
        while head_height(&self.book, field::CURRENT) <= self.chain {
            if self.make_move()? == Move::Idle {
                return Err(format!("the run is stuck at height {}", self.chain));
            }
        }
        Ok(())
    }

    /// Makes one move.
    fn make_move(&mut self) -> Result<Move, String> {
        let mut reply = [0; 2 * FRAME];
        Calls::make_move(&Rules::SHA256, &mut self.book, &mut reply).map_err(refused)
    }
}

/// An entry of a block, or a pending one where the height is 0; no two are alike. The first byte is 0 to 3.
pub fn entry(height: Height, place: u8) -> [u8; ENTRY] {
    let mut entry = *b"\0swap plot     .";
    entry[0] = place % 4;
    entry[10..12].copy_from_slice(&height_bytes(height));
    entry[12] = place;
    entry
}

/// The leader of a height among all replicas but the last.
fn leader(size: Size, height: Height) -> u8 {
    let others = u64::from(size.n.saturating_sub(1));
    let turn = u64::from(height).checked_rem(others).unwrap_or(0);
    u8::try_from(turn).unwrap_or(0)
}

/// The leaders of all heights.
fn leaders(size: Size, led: Option<Height>) -> Vec<u8> {
    let own = size.n.saturating_sub(1);
    let choose = |height| if led == Some(height) { own } else { leader(size, height) };
    (1..=size.heights).map(choose).collect()
}

/// The sentence about a refusal that a run never meets.
fn refused(number: u8) -> String {
    format!("a run that prepares a book was refused with {number}")
}
