//! What the dishonest replicas of a network do: two proposals, two votes, certificates sent to some only, entries that
//! the chain carries already.

use crate::frames::any_entry;
use crate::network::Network;
use crate::Second;
use reference::{is_quorum, sha256};
use types::{field, head_height, height_at, Block, Calls, Entries, Frame, Height};
use types::{ENTRY, FRAME_HEIGHT};

impl<A: Calls, B: Second> Network<'_, A, B> {
    /// One act of the dishonest replicas, at a height near an honest one's.
    pub fn mischief(&mut self) {
        let seen = self.random.index(self.books.len());
        let last = Height::try_from(self.leaders.len()).unwrap_or(Height::MAX);
        let near = head_height(&self.books[seen], field::CURRENT).saturating_add(1).min(last);
        let height = self.random.height_below(near).saturating_add(1).max(near.saturating_sub(2));
        let signer = self.honest + self.random.byte_below(self.n - self.honest);
        match self.random.below(8) {
            0 => self.equivocate(height),
            6 | 7 => self.carry_again(height),
            1 | 2 => self.vote_for_all(signer, height),
            3 => {
                self.saw("a dishonest blank vote");
                self.whisper(&Frame::DummyVote { signer, height });
            }
            4 => {
                self.saw("a dishonest finalise");
                self.whisper(&Frame::Finalize { signer, height });
            }
            _ => self.certify(height),
        }
    }

    /// Two proposals for one height, if a dishonest replica leads it.
    fn equivocate(&mut self, height: Height) {
        let leader = self.leaders.get(usize::from(height).wrapping_sub(1)).copied().unwrap_or(0);
        if leader < self.honest {
            return;
        }
        self.saw("two proposals for one height");
        let below: Vec<Block> =
            self.blocks.iter().filter(|block| block.height < height).cloned().collect();
        let recent = below.len().saturating_sub(6);
        let parent = self.random.pick(&below[recent..]).cloned();
        for _ in 0..2 {
            let entries: Vec<_> = (0..=self.random.below(3)).map(|_| self.some_entry()).collect();
            let entries = Entries::first_of(&entries);
            let mut block = Block { height, entries, ..Block::default() };
            if let Some(parent) = &parent {
                block.parent = parent.height;
                block.digest = sha256::digest(&parent.bytes());
            }
            self.blocks.push(block.clone());
            self.whisper(&Frame::Proposal { signer: leader, block });
        }
    }

    /// One proposal for a height, sent to all, that may carry entries again, if a dishonest replica leads the height
    /// and nothing was proposed for it.
    fn carry_again(&mut self, height: Height) {
        let leader = self.leaders.get(usize::from(height).wrapping_sub(1)).copied().unwrap_or(0);
        if leader < self.honest || !self.blocks_at(height).is_empty() {
            return;
        }
        let below = self.blocks.iter().filter(|block| block.height < height);
        let Some(parent) = below.max_by_key(|block| block.height) else { return };
        let (parent, digest) = (parent.height, sha256::digest(&parent.bytes()));
        let entries = [0; 3].map(|_| self.some_entry()).into();
        let block = Block { height, parent, digest, entries };
        self.blocks.push(block.clone());
        let frame = Frame::Proposal { signer: leader, block }.bytes();
        let all = self.listeners(&frame);
        self.wire.extend(all.map(|listener| (listener, frame)));
    }

    /// An entry for a dishonest proposal: every other time one that some block carries already.
    fn some_entry(&mut self) -> [u8; ENTRY] {
        let block = self.random.pick(&self.blocks).filter(|block| !block.entries.is_empty());
        let entries = block.map_or(&[][..], |block| &block.entries);
        let entry = self.random.pick(entries).copied();
        match entry.filter(|_| self.random.one_in(2)) {
            Some(entry) => {
                self.saw("a dishonest proposal carries an entry again");
                entry
            }
            None => any_entry(self.random),
        }
    }

    /// A vote of one signer for every block of a height, each to some.
    fn vote_for_all(&mut self, signer: u8, height: Height) {
        for block in self.blocks_at(height) {
            let digest = sha256::digest(&block.bytes());
            self.saw("a dishonest vote for each page of a height");
            self.whisper(&Frame::BlockVote { signer, height, digest });
        }
    }

    /// All certificates of a height that true statements and dishonest ones allow.
    fn certify(&mut self, height: Height) {
        for block in self.blocks_at(height) {
            let digest = sha256::digest(&block.bytes());
            let mask = self.mask(2, height, Some(&digest));
            self.whisper_if_quorum(mask, Frame::BlockCertificate { mask, block });
        }
        let mask = self.mask(3, height, None);
        self.whisper_if_quorum(mask, Frame::DummyCertificate { mask, height });
        let mask = self.mask(4, height, None);
        self.whisper_if_quorum(mask, Frame::FinalizeCertificate { mask, height });
    }

    /// The blocks that were proposed for a height.
    fn blocks_at(&self, height: Height) -> Vec<Block> {
        self.blocks.iter().filter(|block| block.height == height).cloned().collect()
    }

    /// Who can be said to state this: the honest who did, and all dishonest ones.
    fn mask(&self, kind: u8, height: Height, digest: Option<&[u8; 32]>) -> u16 {
        let states = |frame: &&[u8; 224]| {
            (frame[0], height_at(&frame[..], FRAME_HEIGHT)) == (kind, height)
                && digest.is_none_or(|digest| frame[16..48] == *digest)
        };
        let honest = self.spoken.iter().filter(states).map(|frame| frame[1]);
        honest.chain(self.honest..self.n).fold(0, |mask, signer| mask | 1 << signer)
    }

    /// Sends a certificate to some, if its mask is a quorum, or is one by the number of its stations alone.
    fn whisper_if_quorum(&mut self, mask: u16, frame: Frame) {
        if is_quorum(mask, &self.weights) {
            self.saw("a certificate sent to some only");
            self.whisper(&frame);
        } else if is_quorum(mask, &vec![1; self.n.into()]) {
            self.saw("a certificate of a quorum by number alone is sent");
            self.whisper(&frame);
        }
    }
}
