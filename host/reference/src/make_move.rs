//! Move: the first of the five moves that applies.

use crate::block;
use crate::frame::{Frame, FrameBytes, Statement, FRAME};
use crate::height::Height;
use crate::state::{State, BLOCK_VOTED, DUMMY_VOTED, PROPOSED, TIMER_FIRED};
use crate::{refusal, Certificate, Move, Rules};

impl Rules {
    /// Makes one move and writes its frames to the front of the reply: one for votes and proposals,
    /// two for a pass, none otherwise.
    ///
    /// Refuses with 1, 3 in this order.
    pub fn make_move(&self, book: &mut [u8], reply: &mut [u8]) -> Result<Move, u8> {
        let mut state = self.sound(book)?;
        let (first, rest) = reply.split_first_chunk_mut::<FRAME>().ok_or(refusal::SHORT_REPLY)?;
        let second = rest.first_chunk_mut::<FRAME>().ok_or(refusal::SHORT_REPLY)?;
        let made = self
            .vote_dummy(&mut state, first)
            .or_else(|| self.finalize(&mut state))
            .or_else(|| self.pass(&mut state, first, second))
            .or_else(|| self.offer(&mut state, first))
            .or_else(|| self.vote_block(&mut state, first));
        state.store(book);
        Ok(made.unwrap_or(Move::Idle))
    }

    /// Move 1: after the timer, one vote for the dummy block.
    fn vote_dummy(&self, state: &mut State, first: &mut FrameBytes) -> Option<Move> {
        let height = state.open_height()?;
        if !state.has(TIMER_FIRED) || state.has(DUMMY_VOTED) {
            return None;
        }
        Frame { height, statement: Statement::DummyVote { signer: state.head.own } }.write(first);
        state.head.flags |= DUMMY_VOTED;
        Some(Move::Dummy { height })
    }

    /// Move 2: the finalized height follows the book, wherever the current height is.
    fn finalize(&self, state: &mut State) -> Option<Move> {
        let height = self.chain(state).largest_finalized();
        if height <= state.head.finalized {
            return None;
        }
        state.head.finalized = height;
        Some(Move::Final { height })
    }

    /// Move 3: on to the next height, with the certificate for this one and, before the timer, a
    /// finalize.
    fn pass(
        &self,
        state: &mut State,
        first: &mut FrameBytes,
        second: &mut FrameBytes,
    ) -> Option<Move> {
        let height = state.open_height()?;
        let certificate = self.certificate_to_pass(state, height)?;
        state.certificate(certificate.kind(), height)?.write(first);
        let finalized = !state.has(TIMER_FIRED);
        if finalized {
            Frame { height, statement: Statement::Finalize { signer: state.head.own } }
                .write(second);
        } else {
            second.fill(0);
        }
        state.head.current = height.saturating_add(1);
        state.head.flags = 0;
        Some(Move::Pass { height, certificate, finalized })
    }

    /// The certificate that ends a height; the block's goes before the dummy's.
    fn certificate_to_pass(&self, state: &State, height: Height) -> Option<Certificate> {
        let chain = self.chain(state);
        if chain.is_linked(height) {
            return Some(Certificate::Block);
        }
        (chain.is_dummy(height) && chain.parent_for(height).is_some()).then_some(Certificate::Dummy)
    }

    /// Move 4: the leader's proposal, on the chain with the highest parent.
    fn offer(&self, state: &mut State, first: &mut FrameBytes) -> Option<Move> {
        let height = state.open_height()?;
        if state.slot(height)?.leader != state.head.own || state.has(PROPOSED) {
            return None;
        }
        let chain = self.chain(state);
        let parent = chain.parent_for(height)?;
        let carried = chain.entries(parent);
        let entries = state.pending().filter(|entry| !carried.contains(entry));
        let block = block::compose(height, parent, &chain.digest_at(parent)?, entries);
        let statement = Statement::Proposal { signer: state.head.own, block: &block };
        Frame { height, statement }.write(first);
        state.head.flags |= PROPOSED;
        Some(Move::Offer { height })
    }

    /// Move 5: one vote for the held proposal, if it sits on a chain of the book.
    fn vote_block(&self, state: &mut State, first: &mut FrameBytes) -> Option<Move> {
        let height = state.open_height()?;
        let held = state.slot(height)?.held()?;
        if state.has(BLOCK_VOTED) || !self.chain(state).extends(held, height) {
            return None;
        }
        let digest = &(self.digest)(held);
        Frame { height, statement: Statement::BlockVote { signer: state.head.own, digest } }
            .write(first);
        state.head.flags |= BLOCK_VOTED;
        Some(Move::Vote { height })
    }
}

impl State {
    /// The current height, unless the last one is passed already.
    fn open_height(&self) -> Option<Height> {
        (self.head.current <= self.head.heights).then_some(self.head.current)
    }
}
