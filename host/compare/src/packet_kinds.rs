//! The kinds of packets that a large comparison must have had, and of which one packet is.

use crate::frames::{area, byte};
use crate::packets::BYTE;
use exchange::Answer;
use reference::Rules;
use types::{height_at, is_second_block, Area, Calls, Delivered, FRAME, FRAME_HEIGHT};

/// The names of all kinds.
pub const NAMES: [&str; 18] = [
    EMPTY,
    MANY,
    "packet: one frame",
    "packet: several frames, all fresh",
    "packet: several frames, all known",
    "packet: several frames, all refused",
    "packet: a refused frame amid good ones",
    "packet: a frame that one before it makes known",
    "packet: a frame that one before it makes refused",
    "packet: a frame that notarises a page by votes",
    "packet: a second page that fires the timer",
    "packet: a second page, the timer fired before",
    "packet: a second page, refused",
    "packet: one byte too few",
    "packet: one byte too many",
    "packet: another uneven length",
    "packet: empty, on a book that is not sound",
    "packet: uneven, on a book that is not sound",
];

const EMPTY: &str = "packet: empty";
const MANY: &str = "packet: more than 255 frames";

/// The kinds of a packet that was delivered to a book, which is as it was before.
pub fn kinds(book: &[u8], packet: &[u8], answer: Answer) -> Vec<&'static str> {
    let stray = packet.len().checked_rem(FRAME).unwrap_or(0);
    match (answer, stray) {
        (Answer::Deny(1), 0) if packet.is_empty() => {
            vec!["packet: empty, on a book that is not sound"]
        }
        (Answer::Deny(1), 0) => vec![],
        (Answer::Deny(1), _) => vec!["packet: uneven, on a book that is not sound"],
        (_, 0) if packet.is_empty() => vec![EMPTY],
        (_, 0) if packet.len() > BYTE.saturating_mul(FRAME) => vec![MANY],
        (_, 0) => of_turns(&turns(book, packet)),
        (_, 1) => vec!["packet: one byte too many"],
        (_, 223) => vec!["packet: one byte too few"],
        _ => vec!["packet: another uneven length"],
    }
}

/// What became of a frame at its turn, what would have over the book before the packet, whether it notarised a page by
/// votes, and whether it was a leader's second page.
struct Turn {
    answer: Result<Delivered, u8>,
    alone: Result<Delivered, u8>,
    notarized: bool,
    second: bool,
}

/// The turns of a packet's frames.
fn turns(book: &[u8], packet: &[u8]) -> Vec<Turn> {
    let mut now = book.to_vec();
    let turn = |frame: &[u8; FRAME]| {
        let has_block =
            |book: &[u8]| byte(area(book, height_at(frame, FRAME_HEIGHT), Area::Row), 1) & 2 != 0;
        let (before, second) = (has_block(&now), is_second_block(&now, frame));
        let answer = Calls::deliver(&Rules::SHA256, &mut now, frame);
        let alone = Calls::deliver(&Rules::SHA256, &mut book.to_vec(), frame);
        let notarized = frame[0] < 5 && !before && has_block(&now);
        Turn { answer, alone, notarized, second }
    };
    packet.as_chunks::<FRAME>().0.iter().map(turn).collect()
}

/// The kinds that the turns show.
fn of_turns(turns: &[Turn]) -> Vec<&'static str> {
    use Delivered::{Fresh, Known};
    let all = |wanted: fn(&Turn) -> bool| turns.len() > 1 && turns.iter().all(wanted);
    let any = |wanted: fn(&Turn) -> bool| turns.iter().any(wanted);
    let good = |turn: &Turn| turn.answer.is_ok();
    let first = turns.iter().position(good).unwrap_or(turns.len());
    let last = turns.iter().rposition(good).unwrap_or(0);
    let amid = turns.iter().take(last).skip(first).any(|turn| !good(turn));
    let kinds = [
        (turns.len() == 1, "packet: one frame"),
        (all(|turn| turn.answer == Ok(Fresh)), "packet: several frames, all fresh"),
        (all(|turn| turn.answer == Ok(Known)), "packet: several frames, all known"),
        (all(|turn| turn.answer.is_err()), "packet: several frames, all refused"),
        (amid, "packet: a refused frame amid good ones"),
        (
            any(|turn| turn.answer == Ok(Known) && turn.alone == Ok(Fresh)),
            "packet: a frame that one before it makes known",
        ),
        (
            any(|turn| turn.answer.is_err() && turn.alone.is_ok()),
            "packet: a frame that one before it makes refused",
        ),
        (any(|turn| turn.notarized), "packet: a frame that notarises a page by votes"),
        (
            any(|turn| turn.second && turn.answer == Ok(Fresh)),
            "packet: a second page that fires the timer",
        ),
        (
            any(|turn| turn.second && turn.answer == Ok(Known)),
            "packet: a second page, the timer fired before",
        ),
        (any(|turn| turn.second && turn.answer == Err(8)), "packet: a second page, refused"),
    ];
    kinds.into_iter().filter(|(is, _)| *is).map(|(_, name)| name).collect()
}

#[cfg(test)]
mod tests {
    use super::*;
    use std::collections::BTreeSet;
    use types::{Block, Book, Counts, Frame, ENTRY};

    /// The kinds of these frames over a new book, and of so many bytes behind them.
    fn of(frames: &[Frame], stray: usize) -> Vec<&'static str> {
        let book =
            Book::open(Rules::SHA256, 4, 2, &[1; 4], &[0, 1]).map(|book| book.bytes().to_vec());
        let mut book = book.unwrap_or_default();
        let mut packet: Vec<u8> = frames.iter().flat_map(Frame::bytes).collect();
        packet.resize(packet.len() + stray, 0);
        let before = book.clone();
        let answer = Calls::packet(&Rules::SHA256, &mut book, &packet);
        kinds(&before, &packet, answer.map_or_else(Answer::Deny, Answer::Counted))
    }

    #[test]
    fn each_kind_is_told() {
        let block = Block { height: 1, ..Block::default() };
        let digest = reference::sha256::digest(&block.bytes());
        let vote = |signer, digest| Frame::BlockVote { signer, height: 1, digest };
        let blank = |signer| Frame::DummyVote { signer, height: 1 };
        let [good, bad] = [blank(0), blank(9)];
        let votes = [0, 1, 2].map(|signer| vote(signer, digest));
        let round = [&votes[..], &[Frame::Proposal { signer: 0, block }]].concat();
        let mut told: BTreeSet<&str> = BTreeSet::new();
        told.extend(of(&[], 0));
        told.extend(of(&vec![good.clone(); 256], 0));
        told.extend(of(&[good.clone(), bad.clone(), good.clone()], 0));
        told.extend(of(&[bad.clone(), bad.clone()], 0));
        told.extend(of(&[vote(1, [1; 32]), vote(1, [2; 32])], 0));
        told.extend(of(&round, 0));
        let pages = |signer, height| {
            let page = |byte| Block { height, entries: [[byte; ENTRY]].into(), ..Block::default() };
            [1, 2, 2].map(|byte| Frame::Proposal { signer, block: page(byte) })
        };
        told.extend([pages(0, 1), pages(1, 2)].iter().flat_map(|frames| of(frames, 0)));
        [(1, 0), (1, 1), (1, 223), (1, 9)]
            .into_iter()
            .for_each(|(count, stray)| told.extend(of(&vec![good.clone(); count], stray)));
        let unsound = |packet: &[u8]| kinds(&[], packet, Answer::Deny(1));
        told.extend([unsound(&[]), unsound(&[0]), unsound(&[0; FRAME])].concat());
        let missing: Vec<_> = NAMES.into_iter().filter(|name| !told.contains(name)).collect();
        assert_eq!(missing, ["packet: several frames, all known"]);
        assert_eq!(of(&[good, bad], 0), Vec::<&str>::new());
        assert_eq!(kinds(&[], &[], Answer::Counted(Counts::default())), [EMPTY]);
    }
}
