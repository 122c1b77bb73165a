//! The options that describe a page, shared by all frames that carry or name one.

use crate::arguments::Arguments;
use crate::problem::Problem;
use crate::words;
use types::{Block, Entries, Height, BLOCK, ENTRY};

/// The names of these options.
pub const NAMES: [&str; 4] = ["page", "back", "back-digest", "entry"];

/// The page that the options describe, at a height.
pub fn page(arguments: &Arguments, height: Height) -> Result<Block, Problem> {
    let back = match arguments.value("back")? {
        None => 0,
        Some(_) => arguments.height("back")?,
    };
    let digest = match arguments.value("back-digest")? {
        None if back > 0 => return Err(Problem::input("--back needs --back-digest")),
        None => [0; 32],
        Some(text) => words::bytes("back-digest", text)?,
    };
    let entries = arguments.values("entry").map(entry).collect::<Result<Vec<_>, _>>()?;
    let entries = Entries::try_from(entries);
    let entries = entries.map_err(|_| Problem::input("a page has eight entries at most"))?;
    Ok(Block { height, parent: back, digest, entries })
}

/// The page of the options, or the bytes of `--page`, which then say the height.
pub fn page_bytes(arguments: &Arguments) -> Result<[u8; BLOCK], Problem> {
    match arguments.value("page")? {
        Some(text) => {
            arguments.none_beside("page", &["height", "back", "back-digest", "entry"])?;
            words::bytes("page", text)
        }
        None => Ok(page(arguments, arguments.height("height")?)?.bytes()),
    }
}

/// An entry: 32 hexadecimal digits, or text of up to 16 bytes, filled up with blanks.
pub fn entry(text: &str) -> Result<[u8; ENTRY], Problem> {
    if text.len() == 32 && text.chars().all(|digit| digit.is_ascii_hexdigit()) {
        return words::bytes("entry", text);
    }
    if text.len() > ENTRY {
        let length = text.len();
        let sentence = format!(
            "entry '{text}': its {length} bytes are more than 16 bytes of text (a letter may have more than one), and \
             are not 32 hexadecimal digits"
        );
        return Err(Problem::input(sentence));
    }
    if text.is_empty() {
        return Err(Problem::input("an entry is empty; one of blanks can be written as digits"));
    }
    let mut entry = [b' '; ENTRY];
    entry.iter_mut().zip(text.bytes()).for_each(|(to, from)| *to = from);
    Ok(entry)
}
