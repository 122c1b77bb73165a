//! The next call on a single book, with the length of the buffer lent to it.

use crate::books::any_arguments;
use crate::frames::{any_entry, any_frame_bytes, any_height};
use crate::long_books::longest_log;
use crate::observer_single::any_observer_call;
use crate::packets::any_packet;
use crate::weights::weights_to_open;
use crate::{repeat_kinds, Random};
use exchange::Call;
use reference::Rules;
use types::{book_length, field, head_height, Calls, ENTRY, MOST_HEIGHTS};

/// Lengths of replies far from the limits of move and fetch.
const LENGTHS: [usize; 8] = [0, 1, 32, 256, 400, 600, 671, 672];

/// One height more than a book may have.
const TOO_MANY: u64 = MOST_HEIGHTS as u64 + 1;

/// Frames that came before, and how often one came again.
#[derive(Default)]
pub struct Recent {
    frames: Vec<Vec<u8>>,
    /// How often a frame came again.
    pub repeats: u64,
}

/// A call and the length of its reply or buffer.
pub fn any_call(random: &mut Random, book: &[u8], recent: &mut Recent) -> (Call, usize) {
    match random.below(32) {
        0..=13 => (Call::Deliver { frame: frame(random, book, recent) }, 0),
        14 | 15 => (Call::Packet { packet: any_packet(random, book) }, 0),
        16..=23 => (Call::Move, limited(random, 448)),
        24 | 25 => (Call::Signal { height: signal_height(random, book) }, 0),
        26 | 27 => (Call::Submit { entry: entry(random) }, 0),
        28 => (Call::Size, 0),
        29 => (Call::Read, reading_length(random, book)),
        30 => any_fetch(random, book),
        _ if random.one_in(8) => (any_open(random, book), 0),
        _ if random.one_in(8) => {
            let (call, length) = any_observer_call(random, book);
            (Call::Observer(call), length)
        }
        _ => (Call::Read, longest_log(book)),
    }
}

/// The least length of a reply mostly, now and then any one near it or near the other call's, or one far off.
fn limited(random: &mut Random, least: usize) -> usize {
    match random.below(16) {
        0 => least.saturating_add(random.index(17)).saturating_sub(8),
        1 => least.saturating_add(random.index(3)).saturating_sub(1),
        2 => random.pick(&LENGTHS).copied().unwrap_or(least),
        3 if random.one_in(2) => 672_usize.saturating_sub(least),
        _ => least,
    }
}

/// A certificate to fetch; sometimes kind, height and reply are wrong together.
fn any_fetch(random: &mut Random, book: &[u8]) -> (Call, usize) {
    if !random.one_in(4) {
        let (kind, height) = (kind(random), number(random, book));
        return (Call::Fetch { kind, height }, limited(random, 224));
    }
    let last = u64::from(head_height(book, field::HEIGHTS));
    let kind = *random.pick(&[4, 5, 6, 7, 8]).unwrap_or(&4);
    let height = *random.pick(&[0, 1, last, last + 1]).unwrap_or(&0);
    (Call::Fetch { kind, height }, *random.pick(&[0, 223, 224]).unwrap_or(&0))
}

/// A new frame, or one that came before.
fn frame(random: &mut Random, book: &[u8], recent: &mut Recent) -> Vec<u8> {
    if random.one_in(6) {
        if let Some(frame) = random.pick(&recent.frames) {
            recent.repeats = recent.repeats.saturating_add(1);
            return frame.clone();
        }
    }
    let frame = any_frame_bytes(random, book);
    if recent.frames.len() < 8 {
        recent.frames.push(frame.clone());
    } else {
        let at = random.index(recent.frames.len());
        recent.frames[at].clone_from(&frame);
    }
    frame
}

/// The current height mostly.
fn signal_height(random: &mut Random, book: &[u8]) -> u64 {
    match random.one_in(3) {
        true => number(random, book),
        false => head_height(book, field::CURRENT).into(),
    }
}

/// A height as an argument; seldom a number that no two bytes hold, of which the low ones may be a height.
fn number(random: &mut Random, book: &[u8]) -> u64 {
    let height = u64::from(any_height(random, book));
    match random.one_in(24) {
        true => height | random.pick(&[1 << 8, 1 << 16, 1 << 32, 1 << 63]).copied().unwrap_or(0),
        false => height,
    }
}

/// A kind to fetch.
fn kind(random: &mut Random) -> u64 {
    match random.one_in(12) {
        true => *random.pick(&[0, 1, 4, 8, 255, 261, u64::MAX]).unwrap_or(&0),
        false => random.below(3).saturating_add(5),
    }
}

/// An entry, now and then one that nobody has seen, seldom of another length.
fn entry(random: &mut Random) -> Vec<u8> {
    let mut entry = any_entry(random).to_vec();
    if random.one_in(4) {
        any_sixteen_bytes(random, &mut entry);
    }
    if random.one_in(24) {
        entry.resize(*random.pick(&[0, 1, 15, 17, 32]).unwrap_or(&0), 0);
    }
    entry
}

/// Bytes that nobody has seen; of every other such entry the first one is 0 to 3.
fn any_sixteen_bytes(random: &mut Random, entry: &mut [u8]) {
    random.fill(entry);
    let odd = entry.last().is_some_and(|byte| byte % 2 == 1);
    entry.iter_mut().take(usize::from(odd)).for_each(|first| *first %= 4);
}

/// A length around that of the log, or around that which it would have with its repeats.
fn reading_length(random: &mut Random, book: &[u8]) -> usize {
    let size = Calls::size(&Rules::SHA256, book).unwrap_or(0);
    near_size(random, usize::try_from(size).unwrap_or(0), repeat_kinds::carried(book).len())
}

/// A length around the size of a log, or around that of so many entries.
pub fn near_size(random: &mut Random, size: usize, entries: usize) -> usize {
    let from = if random.one_in(4) { entries.saturating_mul(ENTRY) } else { size };
    let more = *random.pick(&[0, 0, 1, 15, 16, 17, 18, 32, 300]).unwrap_or(&0);
    from.saturating_add(more).saturating_sub(16)
}

/// Opening, mostly with arguments that fit the book's length.
pub fn any_open(random: &mut Random, book: &[u8]) -> Call {
    let (n, own, mut leaders) = any_arguments(random);
    let (mut n, mut own) = (u64::from(n), u64::from(own));
    let fitting = (1..=MOST_HEIGHTS).find(|heights| book_length(*heights) == book.len());
    if let Some(heights) = fitting.filter(|_| !random.one_in(4)) {
        leaders.resize(heights.into(), 0);
    }
    let mut heights = leaders.len() as u64;
    match random.below(12) {
        0 => n = *random.pick(&[0, 17, 256, 260, u64::MAX]).unwrap_or(&0),
        1 => own = *random.pick(&[n, 255, 256, u64::MAX]).unwrap_or(&n),
        2 => {
            heights = *random
                .pick(&[0, TOO_MANY, 256 + heights, 65_536 + heights, u64::MAX])
                .unwrap_or(&0)
        }
        3 => leaders.push(0),
        4 => leaders.truncate(leaders.len().saturating_sub(1)),
        5 => leaders.extend([255; 4]),
        6 => {
            let at = random.index(leaders.len());
            leaders.iter_mut().skip(at).take(1).for_each(|leader| *leader = 16);
        }
        _ => {}
    }
    Call::Open { n, own, heights, weights: weights_to_open(random, n), leaders }
}
