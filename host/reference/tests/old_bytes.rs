//! Frames and blocks up to height 63 have the bytes and the digests that they had before heights had a high byte.

use crate::common::*;
use reference::Move;

/// What was recorded with the replica of the landing before, whose heights had one byte: the frames of each kind, and
/// the digest of them all.
const RECORDED: [usize; 7] = [42, 42, 21, 42, 84, 42, 42];
const RECORDED_DIGEST: &str = "67f571096003e237e3cae4ec758f8e287b7a6ed9d956d254f2dd8c6222cbd3cb";

/// All that a replica alone writes in a season of 63 heights, as one string of bytes: at every third height its timer
/// fires, at the others it proposes two entries, votes and finalizes. In the end all certificates are fetched.
fn season() -> Vec<u8> {
    let mut book = new_book(1, 0, &[0; 63]);
    let mut written = Vec::new();
    for height in 1..=63 {
        if height % 3 == 0 {
            RULES.signal(&mut book, height).unwrap();
        } else {
            let tags = [2 * height as u8, 2 * height as u8 + 1];
            tags.iter().for_each(|tag| RULES.submit(&mut book, &entry(*tag)).unwrap());
        }
        loop {
            let (made, reply) = one_move(&mut book);
            let frames: Vec<&[u8]> = reply.chunks(224).take(made.frames()).collect();
            frames.iter().for_each(|frame| _ = RULES.deliver(&mut book, frame).unwrap());
            written.extend(frames.concat());
            if made == Move::Idle || matches!(made, Move::Pass { .. }) {
                break;
            }
        }
    }
    for (kind, height) in (1..=63).flat_map(|height| [(5, height), (6, height), (7, height)]) {
        let mut reply = [0; 224];
        if RULES.fetch(&book, kind, height, &mut reply).is_ok() {
            written.extend(reply);
        }
    }
    written
}

#[test]
fn a_season_of_63_heights() {
    let written = season();
    let kinds: Vec<u8> = written.chunks(224).map(|frame| frame[0]).collect();
    let counts: Vec<usize> =
        (1..=7).map(|kind| kinds.iter().filter(|other| **other == kind).count()).collect();
    assert_eq!(counts, RECORDED);
    let digest = reference::sha256::digest(&written);
    let hex: String = digest.iter().map(|byte| format!("{byte:02x}")).collect();
    assert_eq!(hex, RECORDED_DIGEST);
}
