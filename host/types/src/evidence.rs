//! A frame that contradicts what a book has, with the frame that states what the book has.

use crate::{
    field, head_height, height_at, held_block, is_observers, is_second_block, mask_at, Area, Block,
    Delivered, Frame, Height, Layout, ObserverArea, ObserverLayout, Refusal, FRAME, FRAME_HEIGHT,
};
use std::ops::Range;

/// Two frames that contradict each other. Signed, they are evidence against who signed both: the leader of two
/// proposals, the voter of two blocks, or whoever is in the masks of two block certificates.
#[derive(Clone, Debug, PartialEq, Eq)]
pub struct Evidence {
    /// The frame that was delivered.
    pub frame: [u8; FRAME],
    /// What the book has against it: the held proposal, the kept block vote, or the certificate of the notarized block.
    pub kept: [u8; FRAME],
}

/// What became of one frame.
#[derive(Clone, Debug, PartialEq, Eq)]
pub struct Answered {
    /// The answer of deliver.
    pub answer: Result<Delivered, Refusal>,
    /// What the frame contradicts, if it does.
    pub evidence: Option<Evidence>,
}

impl Evidence {
    /// The evidence that a frame is over a book, a replica's or an observer's, which gave it this answer. A refusal 8
    /// or 10 always has some; of the frames that are not refused a second proposal at the current height has. The book
    /// may be that before the call or after it: what it has against a frame is never replaced.
    pub fn of(book: &[u8], frame: &[u8], answer: Result<Delivered, Refusal>) -> Option<Evidence> {
        let frame: &[u8; FRAME] = frame.try_into().ok()?;
        let height = height_at(frame, FRAME_HEIGHT);
        let [kind, signer, ..] = *frame;
        let kept = match (kind, answer) {
            (1, Ok(_) | Err(Refusal::OtherKept)) if is_second_block(book, frame) => {
                Frame::Proposal { signer, block: Block::parts(held_block(book, height)?) }
            }
            (2, Err(Refusal::OtherKept)) => {
                Frame::BlockVote { signer, height, digest: vote(book, height, signer)? }
            }
            (5, Err(Refusal::OtherNotarized)) => certificate(book, height)?,
            _ => return None,
        };
        Some(Evidence { frame: *frame, kept: kept.bytes() })
    }
}

/// The digest that a replica's book keeps as a signer's vote.
fn vote(book: &[u8], height: Height, signer: u8) -> Option<[u8; 32]> {
    let votes = Layout::new(head_height(book, field::HEIGHTS)).area(height, Area::Votes);
    book.get(votes)?.as_chunks::<32>().0.get(usize::from(signer)).copied()
}

/// The certificate of the notarized block of a height, whichever book it is; fetch gives a replica's.
fn certificate(book: &[u8], height: Height) -> Option<Frame> {
    let [row, notarized] = rows(book, height);
    let mask = mask_at(book.get(row)?, 2);
    let block = Block::parts(book.get(notarized)?.try_into().ok()?);
    Some(Frame::BlockCertificate { mask, block })
}

/// Where a book has the row and the notarized block of a height. Both kinds of row have the mask at one place.
fn rows(book: &[u8], height: Height) -> [Range<usize>; 2] {
    let heights = head_height(book, field::HEIGHTS);
    match is_observers(book) {
        true => [ObserverArea::Row, ObserverArea::Notarized]
            .map(|area| ObserverLayout::new(heights).area(height, area)),
        false => [Area::Row, Area::Notarized].map(|area| Layout::new(heights).area(height, area)),
    }
}
