//! The tables of docs/FORMATS.md: for each heading its fields, with their places.

use std::cell::RefCell;
use std::collections::BTreeSet;
use std::ops::Range;

/// One table: the heading that it stands under and its fields in order.
pub struct Table {
    heading: String,
    fields: Vec<(String, Range<usize>)>,
}

/// All tables of the page that have places, and the one of the kinds of frames.
pub struct Formats {
    tables: Vec<Table>,
    /// For kinds 1 to 7, the names of the fields that the kind uses.
    pub kinds: Vec<Vec<String>>,
    /// The fields that were asked for.
    asked: RefCell<BTreeSet<(String, String)>>,
}

impl Formats {
    /// Reads the page.
    pub fn read() -> Formats {
        let path = concat!(env!("CARGO_MANIFEST_DIR"), "/../../docs/FORMATS.md");
        let text = std::fs::read_to_string(path).unwrap();
        let mut tables: Vec<Table> = Vec::new();
        let mut kinds = Vec::new();
        let mut heads: Vec<String> = Vec::new();
        for line in text.lines() {
            if let Some(heading) =
                line.trim_start_matches('#').strip_prefix(' ').filter(|_| line.starts_with("##"))
            {
                tables.push(Table { heading: heading.to_string(), fields: Vec::new() });
            }
            let Some(cells) = cells(line) else {
                heads.clear();
                continue;
            };
            if heads.is_empty() {
                heads = cells;
            } else if heads[0] == "bytes" && !cells[0].starts_with('-') {
                let table = tables.last_mut().unwrap();
                table.fields.push((cells[1].clone(), places(&cells[0])));
            } else if heads[0] == "kind" && !cells[0].starts_with('-') {
                assert_eq!(cells[0], (kinds.len() + 1).to_string());
                let used = (2..cells.len()).filter(|&i| cells[i] == "used");
                kinds.push(used.map(|i| heads[i].clone()).collect());
            }
        }
        Formats { tables, kinds, asked: RefCell::default() }
    }

    /// Where a field of a table is.
    pub fn place(&self, heading: &str, field: &str) -> Range<usize> {
        let mut found = self.table(heading).fields.iter().filter(|(name, _)| name == field);
        let (_, place) = found.next().unwrap_or_else(|| panic!("no '{field}' under '{heading}'"));
        assert!(found.next().is_none(), "'{field}' stands twice under '{heading}'");
        self.asked.borrow_mut().insert((heading.to_string(), field.to_string()));
        place.clone()
    }

    /// Every byte of a table that is called zero.
    pub fn zeros(&self, heading: &str) -> Vec<usize> {
        let fields = self.table(heading).fields.iter();
        fields.filter(|(name, _)| name == "zero").flat_map(|(_, place)| place.clone()).collect()
    }

    /// Each table has every byte once, in order.
    pub fn sizes(&self) {
        let wanted = [
            ("Page", 176),
            ("Frame", 224),
            ("Head", 64),
            ("Head of edition 2", 64),
            ("Head of edition 1", 64),
            ("Row of a height", 16),
            ("Body of a height", 864),
            ("Head of an observer's book", 64),
            ("Head of an observer's book of edition 2", 64),
            ("Head of an observer's book of edition 1", 64),
            ("Row of a height in an observer's book", 8),
        ];
        for (heading, size) in wanted {
            let mut end = 0;
            for (name, place) in &self.table(heading).fields {
                assert_eq!(place.start, end, "{heading}: {name}");
                end = place.end;
            }
            assert_eq!(end, size, "{heading}");
        }
        assert_eq!(self.kinds.len(), 7);
    }

    /// No field is left that nothing asked for and that is not called zero.
    pub fn all_asked(&self) {
        for table in &self.tables {
            for (name, _) in table.fields.iter().filter(|(name, _)| name != "zero") {
                let field = (table.heading.clone(), name.clone());
                assert!(self.asked.borrow().contains(&field), "nothing tries {field:?}");
            }
        }
    }

    fn table(&self, heading: &str) -> &Table {
        let found = self.tables.iter().find(|table| table.heading == heading);
        found.unwrap_or_else(|| panic!("no heading '{heading}'"))
    }
}

/// The cells of a table's line.
fn cells(line: &str) -> Option<Vec<String>> {
    let inner = line.strip_prefix('|')?.strip_suffix('|')?;
    Some(inner.split('|').map(|cell| cell.trim().to_string()).collect())
}

/// `7` or `8–63` as a range.
fn places(cell: &str) -> Range<usize> {
    let mut ends = cell.split('–').map(|end| end.parse::<usize>().unwrap());
    let first = ends.next().unwrap();
    first..ends.next().unwrap_or(first) + 1
}
