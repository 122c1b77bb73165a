//! The kinds of second pages, of a leader who says two things, that a large comparison must have had.

use crate::frames::{area, byte};
use exchange::Answer;
use reference::inspect::{inspect, AtHeight};
use std::cmp::Ordering;
use types::{field, head_height, height_at, is_second_block, Area, Delivered, BLOCK, FRAME_HEIGHT};

/// The names of all kinds but those by flags.
pub const NAMES: [&str; 11] = [
    "two pages: at c, known",
    ABOVE,
    BELOW,
    PAST_ALL,
    "two pages: fires with no page of c notarised",
    "two pages: fires with c linked",
    "two pages: fires with c settled",
    "two pages: fires with c blank",
    "two pages: fires with a page of c notarised that does not stand",
    "two pages: fires by the notarised page, another one held",
    "two pages: fires in the leader's own book",
];

const ABOVE: &str = "two pages: above c, refused";
const BELOW: &str = "two pages: below c, refused";
const PAST_ALL: &str = "two pages: past the last height, refused";

/// The names of the kinds by the flags that are set when a second page fires the timer.
pub fn by_flags() -> impl Iterator<Item = String> {
    (0..16).step_by(2).map(fires_with)
}

/// A second page that fires the timer when these flags are set.
fn fires_with(flags: u8) -> String {
    format!("two pages: fires with flags {flags:>2}")
}

/// The kinds of a frame that was delivered to a book, which is as it was before: none if it is no second page, or is
/// refused for another reason.
pub fn kinds(book: &[u8], frame: &[u8], answer: Answer) -> Vec<String> {
    if !is_second_block(book, frame) {
        return Vec::new();
    }
    let [current, last] = [field::CURRENT, field::HEIGHTS].map(|at| head_height(book, at));
    let place = height_at(frame, FRAME_HEIGHT).cmp(&current);
    match (answer, place) {
        (Answer::Delivered(Delivered::Fresh), Ordering::Equal) => fires(book, frame),
        (Answer::Delivered(Delivered::Known), Ordering::Equal) => vec![NAMES[0].to_string()],
        (Answer::Deny(8), _) if current > last => vec![PAST_ALL.to_string()],
        (Answer::Deny(8), Ordering::Greater) => vec![ABOVE.to_string()],
        (Answer::Deny(8), Ordering::Less) => vec![BELOW.to_string()],
        _ => Vec::new(),
    }
}

/// The kinds of a second page that fires the timer of a book.
fn fires(book: &[u8], frame: &[u8]) -> Vec<String> {
    let Ok(told) = inspect(book) else { return Vec::new() };
    let current = usize::from(told.current).saturating_sub(1);
    let Some(at) = told.heights.get(current) else { return Vec::new() };
    let named = sorts(book, frame, at, told.own == at.leader);
    let mut kinds = vec![fires_with(byte(book, field::FLAGS))];
    kinds.extend(
        NAMES
            .into_iter()
            .skip(4)
            .zip(named)
            .filter(|(_, is)| *is)
            .map(|(name, _)| name.to_string()),
    );
    kinds
}

/// Which of the last seven names fit, in their order.
fn sorts(book: &[u8], frame: &[u8], at: &AtHeight, own: bool) -> [bool; 7] {
    let notarized = area(book, height_at(frame, FRAME_HEIGHT), Area::Notarized);
    let is_notarized =
        at.notarized.is_some() && frame.last_chunk::<BLOCK>().is_some_and(|page| page == notarized);
    [
        at.notarized.is_none(),
        at.linked,
        at.finalized,
        at.dummy,
        at.notarized.is_some() && !at.linked,
        is_notarized,
        own,
    ]
}

#[cfg(test)]
mod tests {
    use super::*;
    use reference::Rules;
    use std::collections::BTreeSet;
    use types::{put_head_height, Block, Book, Calls, Frame, Height, ENTRY};

    /// A proposal of station 0.
    fn proposal(height: Height, byte: u8) -> Frame {
        let block = Block { height, entries: [[byte; ENTRY]].into(), ..Block::default() };
        Frame::Proposal { signer: 0, block }
    }

    /// The kinds of the last of these frames, over a book of station `own` with these flags and this current height.
    fn of(own: u64, flags: u8, current: Height, frames: &[Frame]) -> Result<Vec<String>, u8> {
        let mut book = Book::open(Rules::SHA256, 4, own, &[1; 4], &[0, 0])?.bytes().to_vec();
        book[field::FLAGS] = flags;
        put_head_height(&mut book, field::CURRENT, current);
        let mut told = Vec::new();
        for frame in frames {
            let before = book.clone();
            let answer = Calls::deliver(&Rules::SHA256, &mut book, &frame.bytes());
            let answer = answer.map_or_else(Answer::Deny, Answer::Delivered);
            told = kinds(&before, &frame.bytes(), answer);
        }
        Ok(told)
    }

    /// The page of a proposal, certified.
    fn certified(frame: &Frame) -> Frame {
        match frame {
            Frame::Proposal { block, .. } => {
                Frame::BlockCertificate { mask: 7, block: block.clone() }
            }
            other => other.clone(),
        }
    }

    #[test]
    fn each_kind_is_told() -> Result<(), u8> {
        let [one, two, three] = [1, 2, 3].map(|byte| proposal(1, byte));
        let [above, again] = [1, 2].map(|byte| proposal(2, byte));
        let settled = Frame::FinalizeCertificate { mask: 7, height: 1 };
        let blank = Frame::DummyCertificate { mask: 7, height: 1 };
        let block = Block { height: 2, parent: 1, digest: [7; 32], ..Block::default() };
        let in_the_air = Frame::BlockCertificate { mask: 7, block };
        let mut told: BTreeSet<String> = BTreeSet::new();
        for flags in (0..16).step_by(2) {
            told.extend(of(2, flags, 1, &[one.clone(), two.clone()])?);
        }
        told.extend(of(2, 0, 1, &[one.clone(), two.clone(), three])?);
        told.extend(of(2, 0, 1, &[above.clone(), again.clone()])?);
        told.extend(of(2, 0, 2, &[one.clone(), two.clone()])?);
        told.extend(of(2, 0, 3, &[above.clone(), again.clone()])?);
        told.extend(of(0, 0, 1, &[one.clone(), certified(&one), settled, blank, two.clone()])?);
        told.extend(of(2, 0, 2, &[above, in_the_air, again])?);
        told.extend(of(2, 0, 1, &[certified(&two), one.clone(), two])?);
        let all = NAMES.map(str::to_string).into_iter().chain(by_flags());
        assert_eq!(
            all.filter(|name| !told.contains(name)).collect::<Vec<_>>(),
            Vec::<String>::new()
        );
        assert_eq!(of(2, 0, 1, &[one.clone(), one])?, Vec::<String>::new());
        Ok(())
    }
}
