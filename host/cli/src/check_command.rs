//! `check`: whether a book in a file is sound, and what stands beside it.

use crate::arguments::Arguments;
use crate::problem::Problem;
use crate::standing::Standing;
use crate::weighed;
use crate::words::count;

/// Prints a line about the book and one about each thing beside it. The status is that of the first trouble: 2 if the
/// file cannot be read, 3 if the book is not sound, 1 for anything beside it.
pub fn run(words: &[String], output: &mut Vec<u8>) -> Result<(), Problem> {
    let arguments = Arguments::sort(words, &[], &[])?;
    let [file] = arguments.plain("the file of a book")?;
    let standing = Standing::of(file)?;
    let book = match &standing.told {
        Ok(told) => {
            let (heights, entries) =
                (count(told.heights.into(), "height", "heights"), told.entries);
            let whose = match told.station {
                Some(own) => format!("station {own} of {}", told.n),
                None => format!("an observer of {}", told.n),
            };
            let entries = count(entries, "entry", "entries");
            let (edition, weights) = (told.edition, weighed::column(&told.weights));
            let settled = told.settled;
            format!(
                "sound, {whose}, edition {edition}, weights {weights}, {heights}, settled height {settled}, {entries}"
            )
        }
        Err(why) => format!("not sound: {why}"),
    };
    let lines = [vec![format!("book: {book}")], standing.beside.lines(file).to_vec()].concat();
    output.extend(format!("{}\n", lines.join("\n")).into_bytes());
    standing.problem().map_or(Ok(()), |problem| {
        Err(Problem { sentence: format!("{file}: {}", problem.sentence), ..problem })
    })
}
