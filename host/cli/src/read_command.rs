//! `read`: the register of a book, each entry with its place, its height and its text.

use crate::arguments::Arguments;
use crate::json::Json;
use crate::problem::Problem;
use crate::{register, table};
use types::{field, head_height};

/// Prints the register of the book in a file, from a height on if one is given.
pub fn run(words: &[String], output: &mut Vec<u8>) -> Result<(), Problem> {
    let arguments = Arguments::sort(words, &["since"], &["json"])?;
    let [file] = arguments.plain("the file of a book")?;
    let since = arguments.value("since")?.map(|_| arguments.height("since")).transpose()?;
    let book = store::read(file)?;
    let mut filed = register::filed(&book)?;
    filed.retain(|entry| since.is_none_or(|since| entry.height >= since));
    let text = match arguments.has("json") {
        true => {
            let settled = Json::number(head_height(&book, field::FINALIZED));
            let entries = Json::list(filed.iter().map(register::Filed::json));
            let book = Json::text(file.as_str());
            format!(
                "{}\n",
                Json::Object(vec![("book", book), ("settled", settled), ("entries", entries)])
            )
        }
        false => {
            let row = |entry: &register::Filed| {
                vec![
                    entry.place.to_string(),
                    entry.height.to_string(),
                    register::text(&entry.entry),
                ]
            };
            let heading = ["place", "height", "text"].map(str::to_string).to_vec();
            table::print(&[vec![heading], filed.iter().map(row).collect()].concat())
        }
    };
    output.extend(text.into_bytes());
    Ok(())
}
