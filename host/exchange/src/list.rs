//! A whole list: its heading and its lines, read from text and written to it.

use crate::stage::missing;
use crate::Line;
use std::collections::BTreeSet;
use std::fmt;

/// The first line of every list.
pub const HEADING: &str = "mavunilai exchange 2";

/// The first line of the lists before stations had weights.
const EARLIER_HEADING: &str = "mavunilai exchange 1";

/// A list of lines.
#[derive(Clone, Debug, Default, PartialEq, Eq)]
pub struct List {
    /// The lines after the heading.
    pub lines: Vec<Line>,
}

/// What is wrong, and in which line of the text, counted from 1.
#[derive(Clone, Debug, PartialEq, Eq)]
pub struct Problem {
    /// The number of the line.
    pub line: usize,
    /// A sentence about it.
    pub sentence: String,
}

impl fmt::Display for Problem {
    fn fmt(&self, to: &mut fmt::Formatter<'_>) -> fmt::Result {
        write!(to, "line {}: {}", self.line, self.sentence)
    }
}

impl List {
    /// The list in a text.
    pub fn parse(text: &str) -> Result<List, Problem> {
        let mut lines = (1..).zip(text.lines());
        match lines.next() {
            Some((_, heading)) if heading.trim() == HEADING => {}
            first => {
                let sentence = wrong_heading(first.map_or("", |(_, heading)| heading.trim()));
                return Err(Problem { line: 1, sentence });
            }
        }
        let mut given = BTreeSet::new();
        let parsed = lines.map(|(line, text)| {
            let parsed = Line::parse(text).and_then(|parsed| introduced(parsed, &mut given));
            parsed.map_err(|sentence| Problem { line, sentence })
        });
        Ok(List { lines: parsed.collect::<Result<_, _>>()? })
    }

    /// The name of the case that a line of the text belongs to: the words of the last remark up to it that follows the
    /// heading or an empty line.
    pub fn case(&self, line: usize) -> Option<&str> {
        let mut name = None;
        let mut begins = true;
        for step in self.lines.iter().take(line.saturating_sub(1)) {
            match step {
                Line::Remark(text) if text.is_empty() => begins = true,
                Line::Remark(text) if begins => (name, begins) = (Some(text.as_str()), false),
                _ => begins = false,
            }
        }
        name
    }
}

/// What is wrong with another heading.
fn wrong_heading(heading: &str) -> String {
    let begins = format!("a list begins with the line '{HEADING}'");
    match heading {
        EARLIER_HEADING => {
            let weights = "the lines open and observer-open have the stations' weights behind H";
            format!("{begins}; this one is older: since then {weights}")
        }
        _ => begins,
    }
}

/// The line, if all buffers that it names have been given; a line that gives one adds its name.
fn introduced(line: Line, given: &mut BTreeSet<String>) -> Result<Line, String> {
    match &line {
        Line::Give { name, .. } => _ = given.insert(name.clone()),
        Line::Call { book, buffer, .. } => {
            let mut names = [book, buffer].into_iter().filter(|name| !name.is_empty());
            if let Some(name) = names.find(|name| !given.contains(*name)) {
                return Err(missing(name));
            }
        }
        Line::Remark(_) => {}
    }
    Ok(line)
}

impl fmt::Display for List {
    fn fmt(&self, to: &mut fmt::Formatter<'_>) -> fmt::Result {
        writeln!(to, "{HEADING}")?;
        self.lines.iter().try_for_each(|line| writeln!(to, "{line}"))
    }
}
