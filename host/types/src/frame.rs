//! Frames as values, one case for each kind, and their 224 bytes.

use crate::{height_at, put_height, Block, Height, BLOCK};

/// The length of a frame in bytes.
pub const FRAME: usize = 224;

/// Where a frame has its height.
pub const FRAME_HEIGHT: usize = 2;

/// What a frame states. Any value can be written; whether it is taken is the replica's to judge.
#[derive(Clone, Debug, PartialEq, Eq)]
#[allow(missing_docs)] // the fields are named as in document 01's table
pub enum Frame {
    /// Kind 1.
    Proposal { signer: u8, block: Block },
    /// Kind 2.
    BlockVote { signer: u8, height: Height, digest: [u8; 32] },
    /// Kind 3.
    DummyVote { signer: u8, height: Height },
    /// Kind 4.
    Finalize { signer: u8, height: Height },
    /// Kind 5.
    BlockCertificate { mask: u16, block: Block },
    /// Kind 6.
    DummyCertificate { mask: u16, height: Height },
    /// Kind 7.
    FinalizeCertificate { mask: u16, height: Height },
}

impl Frame {
    /// The 224 bytes.
    pub fn bytes(&self) -> [u8; FRAME] {
        match self {
            Frame::Proposal { signer, block } => {
                with_block(head(1, *signer, block.height, 0), block)
            }
            Frame::BlockVote { signer, height, digest } => {
                let mut frame = head(2, *signer, *height, 0);
                frame[16..48].copy_from_slice(digest);
                frame
            }
            Frame::DummyVote { signer, height } => head(3, *signer, *height, 0),
            Frame::Finalize { signer, height } => head(4, *signer, *height, 0),
            Frame::BlockCertificate { mask, block } => {
                with_block(head(5, 0, block.height, *mask), block)
            }
            Frame::DummyCertificate { mask, height } => head(6, 0, *height, *mask),
            Frame::FinalizeCertificate { mask, height } => head(7, 0, *height, *mask),
        }
    }

    /// The frame whose bytes these are; none if no value of this type has them.
    pub fn parts(bytes: &[u8; FRAME]) -> Option<Frame> {
        let [kind, signer, _, _, low, high, ..] = *bytes;
        let height = height_at(bytes, FRAME_HEIGHT);
        let mask = u16::from_le_bytes([low, high]);
        let block = || Some(Block::parts(bytes.last_chunk::<BLOCK>()?));
        let frame = match kind {
            1 => Frame::Proposal { signer, block: block()? },
            2 => {
                let digest = *bytes.get(16..48)?.as_array()?;
                Frame::BlockVote { signer, height, digest }
            }
            3 => Frame::DummyVote { signer, height },
            4 => Frame::Finalize { signer, height },
            5 => Frame::BlockCertificate { mask, block: block()? },
            6 => Frame::DummyCertificate { mask, height },
            7 => Frame::FinalizeCertificate { mask, height },
            _ => return None,
        };
        (frame.bytes() == *bytes).then_some(frame)
    }
}

/// A frame with the fields before the digest; the rest is zero.
fn head(kind: u8, signer: u8, height: Height, mask: u16) -> [u8; FRAME] {
    let mut frame = [0; FRAME];
    frame[..2].copy_from_slice(&[kind, signer]);
    put_height(&mut frame, FRAME_HEIGHT, height);
    frame[4..6].copy_from_slice(&mask.to_le_bytes());
    frame
}

/// The frame with a block at its end.
fn with_block(mut frame: [u8; FRAME], block: &Block) -> [u8; FRAME] {
    frame[48..].copy_from_slice(&block.bytes());
    frame
}

#[cfg(test)]
mod tests {
    use super::*;

    #[test]
    fn every_kind_comes_back() {
        let entries = [[9; 16]; 8].into();
        let block = Block { height: 1000, parent: 256, digest: [7; 32], entries };
        let frames = [
            Frame::Proposal { signer: 1, block: block.clone() },
            Frame::BlockVote { signer: 2, height: 3, digest: [4; 32] },
            Frame::DummyVote { signer: 3, height: 257 },
            Frame::Finalize { signer: 4, height: 5 },
            Frame::BlockCertificate { mask: 0x8001, block },
            Frame::DummyCertificate { mask: 7, height: crate::MOST_HEIGHTS },
            Frame::FinalizeCertificate { mask: 0x700, height: 1 },
        ];
        for (kind, frame) in (1..).zip(frames) {
            let bytes = frame.bytes();
            assert_eq!(bytes[0], kind);
            assert_eq!(Frame::parts(&bytes), Some(frame));
        }
    }

    #[test]
    fn heights_have_two_bytes() {
        let block = Block { height: 1000, parent: 0x0201, ..Block::default() };
        let bytes = Frame::Proposal { signer: 1, block }.bytes();
        assert_eq!(
            (&bytes[..5], &bytes[48..53]),
            (&[1, 1, 0xe8, 3, 0][..], &[0xe8, 3, 1, 2, 0][..])
        );
    }

    #[test]
    fn strange_bytes_have_no_parts() {
        let mut bytes = Frame::DummyVote { signer: 0, height: 1 }.bytes();
        bytes[223] = 1;
        assert_eq!(Frame::parts(&bytes), None);
        assert_eq!(Frame::parts(&[8; FRAME]), None);
    }
}
