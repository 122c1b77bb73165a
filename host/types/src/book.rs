//! A book that owns its bytes, over any implementation of the calls.

use crate::refusal::Refusal;
use crate::{
    book_length, field, head_height, held_block, is_second_block, weight_bytes, Area, Calls,
    Counts, Delivered, Height, Layout, Move, Weights, BLOCK, ENTRY, FRAME,
};

/// The bytes of a book together with the replica that works on them.
#[derive(Clone, Debug)]
pub struct Book<C> {
    calls: C,
    bytes: Vec<u8>,
}

/// The frames that a move wrote, in order: none, one or two.
pub type Written = Vec<[u8; FRAME]>;

impl<C: Calls> Book<C> {
    /// A new book for replica `own` of `n`; the weights are one for each replica, the leaders one for each height.
    pub fn open(
        calls: C,
        n: u64,
        own: u64,
        weights: &[u16],
        leaders: &[u8],
    ) -> Result<Book<C>, Refusal> {
        let heights = Height::try_from(leaders.len()).unwrap_or(Height::MAX);
        let mut bytes = vec![0; book_length(heights)];
        let weights = weight_bytes(weights);
        let opened = calls.open(&mut bytes, n, own, leaders.len() as u64, &weights, leaders);
        opened.map_err(Refusal::of)?;
        Ok(Book { calls, bytes })
    }

    /// A book kept elsewhere, as bytes; [`Refusal::Unsound`] if they are no sound book.
    pub fn from_bytes(calls: C, bytes: Vec<u8>) -> Result<Book<C>, Refusal> {
        calls.size(&bytes).map_err(Refusal::of)?;
        Ok(Book { calls, bytes })
    }

    /// The bytes of the book, to be kept.
    pub fn bytes(&self) -> &[u8] {
        &self.bytes
    }

    /// The number of replicas.
    pub fn n(&self) -> u8 {
        self.byte(field::N)
    }

    /// The replica's own number, below n.
    pub fn own(&self) -> u8 {
        self.byte(field::OWN)
    }

    /// The weights of the replicas as read: all 1 in a book of the first edition.
    pub fn weights(&self) -> Weights {
        Weights::of(&self.bytes)
    }

    /// The number of heights, H.
    pub fn heights(&self) -> Height {
        head_height(&self.bytes, field::HEIGHTS)
    }

    /// The current height, c: the one whose timer is to run; one above the last once all are passed.
    pub fn current(&self) -> Height {
        head_height(&self.bytes, field::CURRENT)
    }

    /// The finalized height, g (document 01: settled height).
    pub fn finalized(&self) -> Height {
        head_height(&self.bytes, field::FINALIZED)
    }

    /// The leader of a height; none for a height that the book does not have.
    pub fn leader(&self, height: Height) -> Option<u8> {
        let row = Layout::new(self.heights()).area(height, Area::Row);
        (1..=self.heights()).contains(&height).then(|| self.byte(row.start))
    }

    /// The pending entries, the oldest first.
    pub fn pending(&self) -> &[[u8; ENTRY]] {
        let places = self.bytes.get(Layout::new(self.heights()).pending()).unwrap_or(&[]);
        let places = places.as_chunks::<ENTRY>().0;
        places.get(..self.byte(field::PENDING).into()).unwrap_or(places)
    }

    /// A byte of the book; 0 past the end.
    fn byte(&self, at: usize) -> u8 {
        self.bytes.get(at).copied().unwrap_or(0)
    }

    /// The block of the proposal that is held at a height, if one is.
    pub fn held(&self, height: Height) -> Option<&[u8; BLOCK]> {
        held_block(&self.bytes, height)
    }

    /// Whether a frame is a proposal of another block than the one that is held at its height: of a frame that
    /// [`Book::deliver`] took, or refused with 8, that the leader said two things. The frame is evidence against him.
    /// Of the frames of a packet ask after [`Book::deliver_packet`], which may bring the first block itself.
    pub fn is_second_block(&self, frame: &[u8]) -> bool {
        is_second_block(&self.bytes, frame)
    }

    /// Takes a frame whose signatures hold. A second block of the current height's leader fires the timer.
    pub fn deliver(&mut self, frame: &[u8]) -> Result<Delivered, Refusal> {
        self.calls.deliver(&mut self.bytes, frame).map_err(Refusal::of)
    }

    /// Takes a packet of frames whose signatures hold, one behind the other, in order. A frame that is refused at its
    /// turn is counted, and the rest goes on.
    pub fn deliver_packet(&mut self, packet: &[u8]) -> Result<Counts, Refusal> {
        self.calls.packet(&mut self.bytes, packet).map_err(Refusal::of)
    }

    /// Makes the first move that applies; the frames are to be sent, and delivered here as well.
    pub fn make_move(&mut self) -> Result<(Move, Written), Refusal> {
        let mut reply = [[0; FRAME]; 2];
        let made = self.calls.make_move(&mut self.bytes, reply.as_flattened_mut());
        let made = made.map_err(Refusal::of)?;
        Ok((made, reply.into_iter().take(made.frames()).collect()))
    }

    /// Tells that the timer of a height fired.
    pub fn signal(&mut self, height: Height) -> Result<(), Refusal> {
        self.calls.signal(&mut self.bytes, height.into()).map_err(Refusal::of)
    }

    /// Adds a pending entry.
    pub fn submit(&mut self, entry: &[u8; ENTRY]) -> Result<(), Refusal> {
        self.calls.submit(&mut self.bytes, entry).map_err(Refusal::of)
    }

    /// The log as a list of entries (document 01: the register): each entry of the settled chain once, at its first
    /// place.
    pub fn log(&self) -> Result<Vec<[u8; ENTRY]>, Refusal> {
        let size = self.calls.size(&self.bytes).map_err(Refusal::of)?;
        let size = usize::try_from(size).unwrap_or(0);
        let mut buffer = vec![0; size];
        let part = usize::try_from(self.calls.read(&self.bytes, &mut buffer)).unwrap_or(0);
        buffer.truncate(part);
        Ok(buffer.as_chunks::<ENTRY>().0.to_vec())
    }

    /// The certificate of kind 5, 6 or 7 of a height.
    pub fn fetch(&self, kind: u64, height: Height) -> Result<[u8; FRAME], Refusal> {
        let mut reply = [0; FRAME];
        self.calls.fetch(&self.bytes, kind, height.into(), &mut reply).map_err(Refusal::of)?;
        Ok(reply)
    }

    /// All certificates that the book holds: what goes out with each pass and each proposal.
    pub fn certificates(&self) -> Written {
        let wanted =
            (1..=self.heights()).flat_map(|height| [(5, height), (6, height), (7, height)]);
        wanted.filter_map(|(kind, height)| self.fetch(kind, height).ok()).collect()
    }
}
