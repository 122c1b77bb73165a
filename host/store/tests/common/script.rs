//! What comes to a station: frames of the others, timers and entries, in an order that a seed determines.

use super::random::Random;
use types::{Block, Frame, Height};

/// One thing that comes to the station.
#[derive(Clone, Debug)]
pub enum Input {
    Deliver(Frame),
    Packet(Vec<Frame>),
    Signal(Height),
    Submit([u8; 16]),
}

/// The leaders of the heights; the station is 2 of 4.
pub const LEADERS: [u8; 4] = [0, 2, 1, 2];

/// A script of three others who propose, vote, give up and finalise at each height, not all of them and not in order;
/// leaders may propose two pages.
pub fn script(seed: u64) -> Vec<Input> {
    let mut random = Random::new(seed);
    let mut parent = Block::default();
    let mut script = Vec::new();
    for (height, leader) in (1..).zip(LEADERS) {
        let digest = if height == 1 { [0; 32] } else { sha256::digest(&parent.bytes()) };
        let block = Block { height, parent: height - 1, digest, entries: [].into() };
        script.extend(at_height(height, leader, &block, &mut random));
        parent = block;
    }
    script
}

/// What comes at a height: about three of four things that could.
fn at_height(height: Height, leader: u8, block: &Block, random: &mut Random) -> Vec<Input> {
    let digest = sha256::digest(&block.bytes());
    let [first, _] = types::height_bytes(height % 4);
    let mut inputs = vec![Input::Signal(height), Input::Submit([first; 16])];
    let mut frames = Vec::new();
    if leader != 2 {
        frames.push(Frame::Proposal { signer: leader, block: block.clone() });
        let other = Block { entries: [[first; 16]].into(), ..block.clone() };
        frames.push(Frame::Proposal { signer: leader, block: other });
    }
    for signer in [0, 1, 3] {
        frames.push(Frame::BlockVote { signer, height, digest });
        frames.push(Frame::DummyVote { signer, height });
        frames.push(Frame::Finalize { signer, height });
    }
    inputs.extend(frames.into_iter().map(Input::Deliver));
    inputs.retain(|_| random.below(4) > 0);
    for at in (1..inputs.len()).rev() {
        inputs.swap(at, random.below(at + 1));
    }
    if random.below(3) == 0 {
        gather(&mut inputs, height, random);
    }
    inputs
}

/// Makes one packet of the frames of a height: they come in the place of the last, with one that is refused amid them,
/// and one of them twice.
fn gather(inputs: &mut Vec<Input>, height: Height, random: &mut Random) {
    let mut packet = Vec::new();
    inputs.retain(|input| match input {
        Input::Deliver(frame) => {
            packet.push(frame.clone());
            false
        }
        _ => true,
    });
    packet.insert(random.below(packet.len() + 1), Frame::DummyVote { signer: 9, height });
    packet.push(packet[random.below(packet.len())].clone());
    inputs.push(Input::Packet(packet));
}
