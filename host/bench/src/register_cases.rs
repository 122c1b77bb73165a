//! The cases of registers: their size and a read, on chains of full pages whose entries all differ, all agree, or
//! collide.

use crate::run::LONGEST_LOG;
use crate::station::{entry, Size};
use crate::Case;
use exchange::{colliding, Call, ObserverCall};
use reference::{sha256, Rules};
use types::{Block, Book, Frame, Height, ObserverBook, Refusal, ENTRY, MOST_ENTRIES};

/// What the entries of a chain have to do with one another.
#[derive(Clone, Copy, Debug, PartialEq, Eq)]
enum Entries {
    Differ,
    Agree,
    Collide,
}

/// The names of the cases on a chain: size and read of a station, then of an observer.
type Names = [&'static str; 4];

/// The sorts of chains, each with the names of its cases.
const SORTS: [(Entries, Names); 3] = [
    (
        Entries::Differ,
        [
            "Register size, all entries differ",
            "Read, all entries differ",
            "Observer, register size, all entries differ",
            "Observer, read, all entries differ",
        ],
    ),
    (
        Entries::Agree,
        [
            "Register size, all entries agree",
            "Read, all entries agree",
            "Observer, register size, all entries agree",
            "Observer, read, all entries agree",
        ],
    ),
    (
        Entries::Collide,
        [
            "Register size, entries that collide",
            "Read, entries that collide",
            "Observer, register size, entries that collide",
            "Observer, read, entries that collide",
        ],
    ),
];

impl Entries {
    /// The entry at a place of the page of a height.
    fn at(self, height: Height, place: u8) -> [u8; ENTRY] {
        let before = usize::from(height).saturating_sub(1).saturating_mul(MOST_ENTRIES.into());
        match self {
            Entries::Differ => entry(height, place),
            Entries::Agree => entry(1, 0),
            Entries::Collide => colliding(before.saturating_add(place.into())),
        }
    }

    /// The certificates of a chain of full pages through all heights, and that which settles its last page.
    fn certificates(self, size: Size) -> Vec<Frame> {
        let mask = u16::MAX >> 16_u8.saturating_sub(size.n).min(15);
        let (mut frames, mut digest) = (Vec::new(), [0; 32]);
        for height in 1..=size.heights {
            let all: Vec<_> = (0..MOST_ENTRIES).map(|place| self.at(height, place)).collect();
            let entries = types::Entries::first_of(&all);
            let block = Block { height, parent: height.saturating_sub(1), digest, entries };
            digest = sha256::digest(&block.bytes());
            frames.push(Frame::BlockCertificate { mask, block });
        }
        frames.push(Frame::FinalizeCertificate { mask, height: size.heights });
        frames
    }

    /// The bytes of the register.
    fn bytes(self, heights: Height) -> usize {
        let pages = usize::from(heights).saturating_mul(MOST_ENTRIES.into());
        let entries = if self == Entries::Agree { pages.min(1) } else { pages };
        entries.saturating_mul(ENTRY)
    }
}

/// All cases of registers for a size.
pub fn register_cases(size: Size) -> Result<Vec<Case>, String> {
    let mut cases = Vec::new();
    for (entries, names) in SORTS {
        let refused = |refusal| format!("a register cannot be prepared: {refusal}");
        let [station, observer] = books(size, entries).map_err(refused)?;
        let bytes = entries.bytes(size.heights);
        let (answers, lent) =
            ([format!("size {bytes}"), format!("part {bytes}")], [0, LONGEST_LOG]);
        let (sized, read) = (ObserverCall::Size, ObserverCall::Read);
        let calls = [Call::Size, Call::Read, Call::Observer(sized), Call::Observer(read)];
        let books = [&station, &station, &observer, &observer];
        let ends = lent.into_iter().zip(answers).cycle();
        for (((name, call), book), (lent, answer)) in
            names.into_iter().zip(calls).zip(books).zip(ends)
        {
            cases.push(Case { name, book: book.clone(), call, lent, answer });
        }
    }
    Ok(cases)
}

/// The books of a station and of an observer that have settled such a chain.
fn books(size: Size, entries: Entries) -> Result<[Vec<u8>; 2], Refusal> {
    let leaders = vec![0; size.heights.into()];
    let weights = vec![1; size.n.into()];
    let mut station = Book::open(Rules::SHA256, size.n.into(), 0, &weights, &leaders)?;
    let mut observer = ObserverBook::open(Rules::SHA256, size.n.into(), size.heights, &weights)?;
    for frame in entries.certificates(size) {
        station.deliver(&frame.bytes())?;
        observer.deliver(&frame.bytes())?;
    }
    station.make_move()?;
    observer.make_move()?;
    Ok([station.bytes().to_vec(), observer.bytes().to_vec()])
}
