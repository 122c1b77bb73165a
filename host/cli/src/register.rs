//! The register of a book, a station's or an observer's: each entry with its place and the height of its page.

use crate::chosen::REPLICA;
use crate::json::Json;
use crate::pages;
use crate::problem::Problem;
use crate::show_book::not_sound;
use crate::words::hex;
use std::collections::BTreeMap;
use types::{is_observers, Area, Calls, Height, ENTRY};

/// An entry of the register.
#[derive(Clone, Debug, PartialEq, Eq)]
pub struct Filed {
    /// Its place in the register, from 1 up.
    pub place: usize,
    /// The height of the page at which it counts: the first of the chain that has it.
    pub height: Height,
    pub entry: [u8; ENTRY],
}

impl Filed {
    /// The entry as an object.
    pub fn json(&self) -> Json {
        let mut fields =
            vec![("place", Json::number(self.place)), ("height", Json::number(self.height))];
        fields.extend(entry_fields(&self.entry));
        Json::Object(fields)
    }
}

/// The register that the replica at hand reads, oldest first.
pub fn filed(book: &[u8]) -> Result<Vec<Filed>, Problem> {
    let bytes = read(book).map_err(|number| not_sound(book, number))?;
    let mut heights = BTreeMap::new();
    for height in pages::register(book) {
        let page = pages::page(book, height, Area::Notarized);
        for entry in page.into_iter().flat_map(|page| page.block.entries) {
            heights.entry(entry).or_insert(height);
        }
    }
    let entries = (1..).zip(bytes.as_chunks::<ENTRY>().0);
    let of = |entry| heights.get(entry).copied().unwrap_or(0);
    Ok(entries.map(|(place, entry)| Filed { place, height: of(entry), entry: *entry }).collect())
}

/// The bytes of the register; the number of the refusal if the book is not sound.
pub fn read(book: &[u8]) -> Result<Vec<u8>, u8> {
    let observers = is_observers(book);
    let size = match observers {
        true => Calls::observer_size(&REPLICA, book)?,
        false => Calls::size(&REPLICA, book)?,
    };
    let mut register = vec![0; usize::try_from(size).unwrap_or(0)];
    match observers {
        true => Calls::observer_read(&REPLICA, book, &mut register),
        false => Calls::read(&REPLICA, book, &mut register),
    };
    Ok(register)
}

/// The fields of an entry: its digits, and its text.
pub fn entry_fields(entry: &[u8]) -> [(&'static str, Json); 2] {
    [("hex", Json::Text(hex(entry))), ("text", Json::Text(text(entry)))]
}

/// An entry as text: printable letters as they are, but `\` twice, and any other byte as `\x` and two digits.
pub fn text(entry: &[u8]) -> String {
    let letter = |byte: &u8| match byte {
        b'\\' => "\\\\".to_string(),
        b' '..=b'~' => char::from(*byte).to_string(),
        _ => format!("\\x{byte:02x}"),
    };
    entry.iter().map(letter).collect()
}
