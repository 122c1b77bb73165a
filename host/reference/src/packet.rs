//! Packet: many frames in one call, each delivered by itself.

use crate::frame::FRAME;
use crate::{refusal, Counts, Delivered, Rules};

impl Rules {
    /// Delivers the frames of a packet in order and counts what became of them. A refused frame is
    /// counted and changes nothing; those after it are delivered all the same.
    ///
    /// Refuses with 1, 15 in this order, before any frame.
    pub fn packet(&self, book: &mut [u8], packet: &[u8]) -> Result<Counts, u8> {
        let mut state = self.sound(book)?;
        let (frames, stray) = packet.as_chunks::<FRAME>();
        if !stray.is_empty() {
            return Err(refusal::UNEVEN_PACKET);
        }
        let mut counts = Counts::default();
        for frame in frames {
            let count = match self.deliver_to(&mut state, frame) {
                Ok(Delivered::Fresh) => &mut counts.fresh,
                Ok(Delivered::Known) => &mut counts.known,
                Err(_) => &mut counts.refused,
            };
            *count = count.saturating_add(1);
        }
        state.store(book);
        Ok(counts)
    }
}
