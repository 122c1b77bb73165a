//! Deliver: taking one frame into the book.

use crate::block::Block;
use crate::frame::{Frame, Statement};
use crate::height::Height;
use crate::state::{Slot, State, HELD, NOTARIZED, TIMER_FIRED};
use crate::weights::Weights;
use crate::{quorum, refusal, Delivered, Digest, Rules};

impl Rules {
    /// Takes a frame whose signatures the host has checked. A second proposal of the current height's leader is no
    /// refusal: it fires the timer.
    ///
    /// Refuses with 1, 4, 6, 5, 7, 9, 8, 10 in this order.
    pub fn deliver(&self, book: &mut [u8], frame: &[u8]) -> Result<Delivered, u8> {
        let mut state = self.sound(book)?;
        let answer = self.deliver_to(&mut state, frame)?;
        state.store(book);
        Ok(answer)
    }

    /// Takes a frame into the state of a sound book; a refused one changes nothing.
    pub(crate) fn deliver_to(&self, state: &mut State, frame: &[u8]) -> Result<Delivered, u8> {
        let frame = Frame::read(frame).ok_or(refusal::MALFORMED)?;
        admit(state, &frame)?;
        state.take(&frame, self.digest)
    }
}

/// What a frame must fulfil by the numbers and leaders of the book alone: refusals 6, 5, 7, 9.
fn admit(state: &State, frame: &Frame) -> Result<(), u8> {
    let slot = state.slot(frame.height).ok_or(refusal::NO_SUCH_HEIGHT)?;
    match frame.statement {
        Statement::Proposal { signer, .. }
        | Statement::BlockVote { signer, .. }
        | Statement::DummyVote { signer }
        | Statement::Finalize { signer } => {
            require(signer < state.head.n, refusal::NO_SUCH_REPLICA)?;
            let proposes = matches!(frame.statement, Statement::Proposal { .. });
            require(!proposes || signer == slot.leader, refusal::NOT_LEADER)
        }
        Statement::BlockCertificate { mask, .. }
        | Statement::DummyCertificate { mask }
        | Statement::FinalizeCertificate { mask } => {
            require(quorum::is_within(mask, state.head.n), refusal::NO_SUCH_REPLICA)?;
            require(quorum::is_quorum(mask, &state.head.weights), refusal::NO_QUORUM)
        }
    }
}

/// The refusal unless the condition holds.
pub(crate) fn require(condition: bool, refusal: u8) -> Result<(), u8> {
    condition.then_some(()).ok_or(refusal)
}

impl State {
    /// Takes an admitted frame; refuses with 8 or 10 before anything is changed.
    fn take(&mut self, frame: &Frame, digest: Digest) -> Result<Delivered, u8> {
        let weights = self.head.weights;
        let slot = self.slot_mut(frame.height).ok_or(refusal::NO_SUCH_HEIGHT)?;
        match frame.statement {
            Statement::Proposal { block, .. } => self.take_proposal(frame.height, block, digest),
            Statement::BlockVote { signer, digest: vote } => {
                slot.take_vote(signer, vote, &weights, digest)
            }
            Statement::DummyVote { signer } => Ok(join(&mut slot.dummies, quorum::only(signer))),
            Statement::Finalize { signer } => Ok(join(&mut slot.finalizes, quorum::only(signer))),
            Statement::BlockCertificate { mask, block } => slot.take_certificate(mask, block),
            Statement::DummyCertificate { mask } => Ok(join(&mut slot.dummies, mask)),
            Statement::FinalizeCertificate { mask } => Ok(join(&mut slot.finalizes, mask)),
        }
    }

    /// Takes a proposal of the leader: the first is held, the same again is known, and by another one the leader
    /// equivocates. It is compared with the held proposal alone, whatever block is notarized.
    fn take_proposal(
        &mut self,
        height: Height,
        block: &Block,
        digest: Digest,
    ) -> Result<Delivered, u8> {
        let weights = self.head.weights;
        let slot = self.slot_mut(height).ok_or(refusal::NO_SUCH_HEIGHT)?;
        match slot.held().map(|held| held == block) {
            None => Ok(slot.hold(block, &weights, digest)),
            Some(true) => Ok(Delivered::Known),
            Some(false) => self.leader_equivocates(height),
        }
    }

    /// The leader of a height said two things. At the current height this fires the timer, as footnote 10 of the
    /// paper allows: flag 1 is added, nothing else changes, and it is known where the timer had fired before. At every
    /// other height, and at all of them once the last is passed, the second proposal is refused and forgotten.
    fn leader_equivocates(&mut self, height: Height) -> Result<Delivered, u8> {
        require(height == self.head.current, refusal::CONFLICT)?;
        if self.has(TIMER_FIRED) {
            return Ok(Delivered::Known);
        }
        self.head.flags |= TIMER_FIRED;
        Ok(Delivered::Fresh)
    }
}

impl Slot {
    /// Holds the first proposal.
    fn hold(&mut self, block: &Block, weights: &Weights, digest: Digest) -> Delivered {
        self.proposal = *block;
        self.marks |= HELD;
        self.tally(weights, digest);
        Delivered::Fresh
    }

    /// Keeps the first vote of a signer.
    fn take_vote(
        &mut self,
        signer: u8,
        vote: &[u8; 32],
        weights: &Weights,
        digest: Digest,
    ) -> Result<Delivered, u8> {
        if let Some(kept) = self.vote(signer) {
            return known_if(kept == vote, refusal::CONFLICT);
        }
        let place = self.votes.get_mut(usize::from(signer)).ok_or(refusal::NO_SUCH_REPLICA)?;
        *place = *vote;
        self.voters |= quorum::only(signer);
        self.tally(weights, digest);
        Ok(Delivered::Fresh)
    }

    /// Takes over the first certified block, with its mask.
    fn take_certificate(&mut self, mask: u16, block: &Block) -> Result<Delivered, u8> {
        if let Some(notarized) = self.notarized() {
            return known_if(notarized == block, refusal::OTHER_BLOCK);
        }
        self.notarize(*block, mask);
        Ok(Delivered::Fresh)
    }

    /// Notarizes the held proposal once a quorum voted for it, unless a block is notarized already.
    fn tally(&mut self, weights: &Weights, digest: Digest) {
        let (None, Some(&held)) = (self.notarized(), self.held()) else {
            return;
        };
        let wanted = digest(&held);
        let agrees = |&replica: &u8| self.vote(replica).is_some_and(|vote| *vote == wanted);
        let replicas = (0..).zip(weights).map(|(replica, _)| replica);
        let mask = replicas.filter(agrees).map(quorum::only).fold(0, |all, one| all | one);
        if quorum::is_quorum(mask, weights) {
            self.notarize(held, mask);
        }
    }

    /// Sets the notarized block and the mask of those who certify it.
    fn notarize(&mut self, block: Block, mask: u16) {
        self.block = block;
        self.certificate = mask;
        self.marks |= NOTARIZED;
    }
}

/// Adds members to a mask; known if all were members before.
pub(crate) fn join(mask: &mut u16, more: u16) -> Delivered {
    let before = *mask;
    *mask |= more;
    if *mask == before {
        Delivered::Known
    } else {
        Delivered::Fresh
    }
}

/// Known for what is kept already, else the refusal.
pub(crate) fn known_if(same: bool, refusal: u8) -> Result<Delivered, u8> {
    require(same, refusal).map(|()| Delivered::Known)
}
