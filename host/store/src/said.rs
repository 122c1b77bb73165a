//! What a station has said, as it stands beside its book: the last fence before it says another thing.

use crate::{digits, Error, Statement};
use std::collections::BTreeSet;
use types::{mask_at, Area, Book, Calls, Height, Layout, BLOCK, FRAME};

/// The first line.
const HEADING: &str = "mavunilai said 1";

/// The last line: without it the text is not whole.
const END: &str = "end\n";

/// The statements that have left a station in one season, of all heights.
#[derive(Clone, Debug, PartialEq, Eq)]
pub struct Said {
    season: String,
    statements: BTreeSet<(Height, Statement)>,
}

impl Said {
    /// What a book shows that its station has said, where nothing was kept beside it: the flags of the current height
    /// and its own bits and digests. A frame that was never delivered to the book shows in the flags alone, and not
    /// once the height is passed.
    pub fn shown_by<C: Calls>(book: &Book<C>) -> Said {
        let mut said = Said { season: season(book), statements: BTreeSet::new() };
        for height in 1..=book.heights() {
            for statement in shown_at(book, height) {
                said.statements.insert((height, statement));
            }
        }
        said
    }

    /// The station and its roll, as a line.
    pub fn season(&self) -> &str {
        &self.season
    }

    /// The statements, by height.
    pub fn statements(&self) -> impl Iterator<Item = (Height, Statement)> + '_ {
        self.statements.iter().copied()
    }

    /// The statements about a height.
    pub fn of_height(&self, height: Height) -> impl Iterator<Item = Statement> + '_ {
        let all = (height, Statement::FIRST)..=(height, Statement::LAST);
        self.statements.range(all).map(|(_, statement)| *statement)
    }

    /// Whether it is of the season of this book, and of its station.
    pub fn is_of<C: Calls>(&self, book: &Book<C>) -> bool {
        self.season == season(book)
    }

    /// What will have been said after these frames; an error if one contradicts what has been said.
    pub(crate) fn after(&self, frames: &[[u8; FRAME]], own: u8) -> Result<Said, Error> {
        let mut after = self.clone();
        for (height, now) in frames.iter().filter_map(|frame| Statement::of(frame, own)) {
            if let Some(said) = after.of_height(height).find(|said| said.contradicts(now)) {
                return Err(Error::Contradiction { height, said, now });
            }
            after.statements.insert((height, now));
        }
        Ok(after)
    }

    /// The text of the file: a heading, the season, a line for each statement, an end.
    pub(crate) fn text(&self) -> String {
        let line = |(height, statement): (Height, Statement)| format!("{height} {statement}\n");
        let lines: String = self.statements().map(line).collect();
        format!("{HEADING}\n{}\n{lines}{END}", self.season)
    }

    /// What such a text says; none for another.
    pub(crate) fn parse(text: &[u8]) -> Option<Said> {
        let text = std::str::from_utf8(text).ok()?;
        let rest = text.strip_prefix(HEADING)?.strip_prefix('\n')?;
        let (season, rest) = rest.split_once('\n')?;
        let statement = |line: &str| {
            let (height, words) = line.split_once(' ')?;
            Some((height.parse().ok()?, Statement::parse(words)?))
        };
        let statements: Option<_> = rest.strip_suffix(END)?.lines().map(statement).collect();
        let said = Said { season: season.to_string(), statements: statements? };
        (said.text() == text).then_some(said)
    }
}

/// The line of a book's station and season; two seasons with the same roll are not told apart. It has neither weights
/// nor edition: what was said beside a book of edition 1 is of its season still, and binds one of other weights too.
fn season<C: Calls>(book: &Book<C>) -> String {
    let leaders: Vec<u8> = (1..=book.heights()).filter_map(|height| book.leader(height)).collect();
    let roll = digits::print(&sha256::digest(&leaders));
    format!("station {} of {}, {} heights, roll {roll}", book.own(), book.n(), book.heights())
}

/// What a book shows of its own statements at a height.
fn shown_at<C: Calls>(book: &Book<C>, height: Height) -> Vec<Statement> {
    let (bytes, layout) = (book.bytes(), Layout::new(book.heights()));
    let row = layout.area(height, Area::Row).start;
    let own = |at: usize| mask_at(bytes, row.saturating_add(at)) >> book.own() & 1 == 1;
    let flag = |bit| height == book.current() && flags(bytes) & bit != 0;
    let held = book.held(height).map(|block: &[u8; BLOCK]| sha256::digest(block));
    let leads = book.leader(height) == Some(book.own());
    let kept = bytes.get(layout.area(height, Area::Votes)).unwrap_or(&[]).as_chunks::<32>().0;
    let kept = kept.get(usize::from(book.own())).copied().filter(|_| own(VOTERS));
    let voted = kept.or(held.filter(|_| flag(4)));
    let mut shown: Vec<Statement> = Vec::new();
    shown.extend(held.filter(|_| leads).map(Statement::Proposal));
    shown.extend(voted.map(Statement::BlockVote));
    shown.extend((own(DUMMY) || flag(2)).then_some(Statement::DummyVote));
    shown.extend(own(FINALIZE).then_some(Statement::Finalize));
    shown
}

/// Where a row has its masks of dummy voters, of finalizers and of block voters.
const DUMMY: usize = 4;
const FINALIZE: usize = 6;
const VOTERS: usize = 8;

/// The flags of the current height.
fn flags(book: &[u8]) -> u8 {
    book.get(types::field::FLAGS).copied().unwrap_or(0)
}

#[cfg(test)]
mod tests {
    use super::*;

    #[test]
    fn what_was_said_comes_back_and_no_part_of_it_does() {
        let digest = [0x5a; 32];
        let all = [
            Statement::Proposal(digest),
            Statement::BlockVote(digest),
            Statement::DummyVote,
            Statement::Finalize,
        ];
        for count in 0..=all.len() {
            let statements = (1..).zip(all.into_iter().take(count)).collect();
            let said = Said { season: "station 0 of 1".to_string(), statements };
            let text = said.text();
            assert_eq!(Said::parse(text.as_bytes()), Some(said));
            for length in 0..text.len() {
                let part: Vec<u8> = text.bytes().take(length).collect();
                assert_eq!(Said::parse(&part), None, "{length}");
            }
        }
    }

    #[test]
    fn these_and_no_others_contradict_each_other() {
        use Statement::{BlockVote, DummyVote, Finalize, Proposal};
        let all = [Proposal([1; 32]), Proposal([2; 32]), BlockVote([1; 32]), BlockVote([2; 32])];
        let all: Vec<_> = all.into_iter().chain([DummyVote, Finalize]).collect();
        for (at, one) in all.iter().enumerate() {
            for (by, two) in all.iter().enumerate() {
                // The pairs stand beside each other.
                assert_eq!(one.contradicts(*two), at != by && at / 2 == by / 2, "{one} {two}");
            }
        }
    }
}
