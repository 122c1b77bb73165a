//! `diff`: the fields in which two books differ.

use crate::arguments::Arguments;
use crate::problem::Problem;
use crate::{files, table, words};
use exchange::fields::{differences, Shape};

/// Prints a table of fields, one for each that differs.
pub fn run(words: &[String], output: &mut Vec<u8>) -> Result<(), Problem> {
    let arguments = Arguments::sort(words, &[], &[])?;
    let [one, two] = arguments.plain("the files of two books")?;
    let changes = differences(Shape::Book, &files::read_bytes(one)?, &files::read_bytes(two)?);
    if changes.is_empty() {
        output.extend(format!("{one} and {two} are the same\n").into_bytes());
        return Ok(());
    }
    let mut rows = vec![["field", "byte", one, two].map(str::to_string).to_vec()];
    let row = |change: &exchange::fields::Change| {
        vec![change.place.clone(), change.byte.to_string(), change.one.clone(), change.two.clone()]
    };
    rows.extend(changes.iter().map(row));
    output.extend(table::print(&rows).into_bytes());
    let count = words::count(changes.len(), "field", "fields");
    Err(Problem::difference(format!("{one} and {two} differ in {count}")))
}
