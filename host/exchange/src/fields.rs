//! The fields of books, replies and reading buffers by name, and which of them differ.

use crate::{bytes, words};
use std::ops::Range;
use types::{book_length, field, head_height, mask_at, observer_book_length, Height};
use types::{BLOCK, EDITION, ENTRY, FRAME, MOST_PENDING, MOST_REPLICAS};

/// Of bytes that are no field of their own so many are told, from the first that differs.
const MOST_TOLD: usize = 32;

/// Where the head of a book ends.
const HEAD: usize = 64;

/// What bytes stand for.
#[derive(Clone, Copy, Debug, PartialEq, Eq)]
pub enum Shape {
    /// A book, a station's or an observer's: by the number of heights in its head and its length.
    Book,
    /// The reply of move or fetch: frames.
    Reply,
    /// The buffer of read: entries.
    Register,
}

/// A field in which two buffers differ.
#[derive(Clone, Debug, PartialEq, Eq)]
pub struct Change {
    /// Which field it is.
    pub place: String,
    /// Where it begins.
    pub byte: usize,
    /// What the first buffer has there.
    pub one: String,
    /// What the second has there.
    pub two: String,
}

/// How a field is told.
#[derive(Clone, Copy, Debug, PartialEq, Eq)]
enum Sort {
    Number,
    Flags,
    State,
    Mask,
    Entry,
    Digest,
    Bytes,
}

/// A field: its name, its place and how it is told.
#[derive(Clone, Debug)]
struct Field {
    name: String,
    range: Range<usize>,
    sort: Sort,
}

/// The fields in which two buffers differ, each with both values; the length first, if that differs.
pub fn differences(shape: Shape, one: &[u8], two: &[u8]) -> Vec<Change> {
    let mut changes = Vec::new();
    if one.len() != two.len() {
        let [one, two] = [one, two].map(|bytes| words::count(bytes.len(), "byte", "bytes"));
        changes.push(Change { place: "length".to_string(), byte: 0, one, two });
    }
    for field in fields(shape, one, two) {
        let part = |bytes: &[u8]| {
            let end = field.range.end.min(bytes.len());
            bytes.get(field.range.start.min(end)..end).unwrap_or(&[]).to_vec()
        };
        let (one, two) = (part(one), part(two));
        if one != two {
            let same = if field.range.len() > MOST_TOLD { alike(&one, &two) } else { 0 };
            let [one, two] = told(field.sort, rest(&one, same), rest(&two, same));
            let byte = field.range.start.saturating_add(same);
            changes.push(Change { place: field.name, byte, one, two });
        }
    }
    changes
}

/// How many bytes are the same from the beginning.
fn alike(one: &[u8], two: &[u8]) -> usize {
    one.iter().zip(two).take_while(|(one, two)| one == two).count()
}

/// The bytes behind so many.
fn rest(bytes: &[u8], same: usize) -> &[u8] {
    bytes.get(same..).unwrap_or(&[])
}

/// The name and the first byte of the field of a book that a byte belongs to.
pub fn place(book: &[u8], byte: usize) -> Option<(String, usize)> {
    let field = fields(Shape::Book, book, book).into_iter().find(|f| f.range.contains(&byte))?;
    Some((field.name, field.range.start))
}

/// The fields of two buffers of a shape; what is no whole book, frame or entry is bytes alone.
fn fields(shape: Shape, one: &[u8], two: &[u8]) -> Vec<Field> {
    let length = one.len().max(two.len());
    let mut fields = Fields::default();
    let heights = [one, two].map(|book| head_height(book, field::HEIGHTS));
    fields.long = [one, two].iter().any(|book| book.get(field::EDITION) == Some(&EDITION));
    match (shape, heights) {
        (Shape::Book, [h, other]) => match [one.len(), two.len()] {
            lengths if h == other && lengths == [book_length(h); 2] => fields.book(h),
            lengths if h == other && lengths == [observer_book_length(h); 2] => {
                fields.observer_book(h)
            }
            _ => {}
        },
        (Shape::Reply, _) => {
            let names = ["first frame", "second frame"].into_iter().take(length / FRAME);
            names.for_each(|name| fields.frame(name));
        }
        (Shape::Register, _) => {
            let names = (1..=length / ENTRY).map(|at| format!("entry {at}"));
            names.for_each(|name| fields.add(name, ENTRY, Sort::Entry));
        }
    }
    let rest = length.saturating_sub(fields.end);
    fields.add(if fields.end == 0 { "bytes" } else { "bytes behind" }, rest, Sort::Bytes);
    fields.list
}

/// Fields one behind the other.
#[derive(Default)]
struct Fields {
    list: Vec<Field>,
    end: usize,
    /// Whether a head has two bytes for each height.
    long: bool,
}

impl Fields {
    /// Adds a field of so many bytes.
    fn add(&mut self, name: impl Into<String>, length: usize, sort: Sort) {
        let end = self.end.saturating_add(length);
        self.list.push(Field { name: name.into(), range: self.end..end, sort });
        self.end = end;
    }

    /// The fields of a head.
    fn head(&mut self) {
        self.add("number of stations", 1, Sort::Number);
        self.add("own number", 1, Sort::Number);
        match self.long {
            true => self.add("zero before the flags", 1, Sort::Bytes),
            false => self.add("number of heights", 1, Sort::Number),
        }
        self.add("flags of the current height", 1, Sort::Flags);
        match self.long {
            true => self.add("zeros behind the flags", 2, Sort::Bytes),
            false => self.heights_of_head(&["current height", "settled height"], 1),
        }
        self.add("number of pending entries", 1, Sort::Number);
        self.add("edition", 1, Sort::Number);
        (0..MOST_REPLICAS)
            .for_each(|at| self.add(format!("weight of station {at}"), 2, Sort::Number));
        if self.long {
            self.heights_of_head(&["number of heights", "current height", "settled height"], 2);
        }
        self.add("zeros of the head", HEAD.saturating_sub(self.end), Sort::Bytes);
    }

    /// Heights of the head, each of so many bytes.
    fn heights_of_head(&mut self, names: &[&str], length: usize) {
        names.iter().for_each(|name| self.add(*name, length, Sort::Number));
    }

    /// The fields of a book.
    fn book(&mut self, heights: Height) {
        self.head();
        (1..=MOST_PENDING)
            .for_each(|at| self.add(format!("pending place {at}"), ENTRY, Sort::Entry));
        (1..=heights).for_each(|height| self.row(&format!("height {height}")));
        (1..=heights).for_each(|height| self.body(&format!("height {height}")));
    }

    /// The fields of an observer's book; the head has names for its zeros.
    fn observer_book(&mut self, heights: Height) {
        self.head();
        for height in 1..=heights {
            let of = format!("height {height}");
            self.add(format!("{of}, state"), 1, Sort::State);
            self.add(format!("{of}, zero behind the state"), 1, Sort::Bytes);
            self.certificates(&of);
        }
        (1..=heights).for_each(|height| self.page(&format!("height {height}, notarised page")));
    }

    /// The masks of the three certificates of a height, by their names in docs/FORMATS.md, which tables have too.
    fn certificates(&mut self, of: &str) {
        self.add(format!("{of}, page certificate"), 2, Sort::Mask);
        self.add(format!("{of}, blank"), 2, Sort::Mask);
        self.add(format!("{of}, finalise"), 2, Sort::Mask);
    }

    /// The row of a height in the contents.
    fn row(&mut self, of: &str) {
        self.add(format!("{of}, leader"), 1, Sort::Number);
        self.add(format!("{of}, state"), 1, Sort::State);
        self.certificates(of);
        self.add(format!("{of}, page voters"), 2, Sort::Mask);
        self.add(format!("{of}, zeros of the contents"), 6, Sort::Bytes);
    }

    /// The body of a height.
    fn body(&mut self, of: &str) {
        self.page(&format!("{of}, held proposal"));
        self.page(&format!("{of}, notarised page"));
        let stations = 0..MOST_REPLICAS;
        stations.for_each(|at| self.add(format!("{of}, page vote of {at}"), 32, Sort::Digest));
    }

    /// A height of a page or a frame.
    fn height(&mut self, of: &str, name: &str) {
        self.add(format!("{of}, {name}"), 2, Sort::Number);
    }

    /// A page.
    fn page(&mut self, of: &str) {
        let end = self.end.saturating_add(BLOCK);
        self.height(of, "height");
        self.height(of, "back height");
        self.add(format!("{of}, number of entries"), 1, Sort::Number);
        self.add(format!("{of}, zeros behind the number of entries"), 11, Sort::Bytes);
        self.add(format!("{of}, back digest"), 32, Sort::Digest);
        let entries = 1..=end.saturating_sub(self.end) / ENTRY;
        entries.for_each(|at| self.add(format!("{of}, entry {at}"), ENTRY, Sort::Entry));
    }

    /// A frame.
    fn frame(&mut self, of: &str) {
        self.add(format!("{of}, kind"), 1, Sort::Number);
        self.add(format!("{of}, signer"), 1, Sort::Number);
        self.height(of, "height");
        self.add(format!("{of}, mask"), 2, Sort::Mask);
        self.add(format!("{of}, zeros behind the mask"), 10, Sort::Bytes);
        self.add(format!("{of}, digest"), 32, Sort::Digest);
        self.page(&format!("{of}, page"));
    }
}

/// Two values of a field in words.
fn told(sort: Sort, one: &[u8], two: &[u8]) -> [String; 2] {
    let bits = |part: &[u8], names: fn(u8) -> Vec<&'static str>| match part {
        [bits] if names(*bits).is_empty() => bits.to_string(),
        [bits] => format!("{bits} ({})", names(*bits).join(", ")),
        _ => bytes::print(part),
    };
    if sort == Sort::Digest && one.get(..4) != two.get(..4) {
        return [one, two].map(words::short);
    }
    [one, two].map(|part| match (sort, part) {
        (Sort::Number, [number]) => number.to_string(),
        (Sort::Number, [_, _]) => mask_at(part, 0).to_string(),
        (Sort::Flags, _) => bits(part, words::flags),
        (Sort::State, _) => bits(part, words::state),
        (Sort::Mask, [_, _]) => words::members(mask_at(part, 0)),
        (Sort::Entry, [_, ..]) => words::entry(part),
        _ => match part.get(..MOST_TOLD) {
            Some(first) if part.len() > MOST_TOLD => format!("{} ..", bytes::print(first)),
            _ => bytes::print(part),
        },
    })
}

#[cfg(test)]
#[allow(clippy::indexing_slicing, clippy::arithmetic_side_effects)] // a test may panic
#[allow(clippy::unwrap_used, clippy::panic)]
mod tests {
    use super::*;
    use types::{put_head_height, Area, Layout, ObserverArea, ObserverLayout};

    /// Bytes of zeros but for their edition and number of heights.
    fn book(length: usize, edition: u8, heights: Height) -> Vec<u8> {
        let mut book = vec![0; length];
        book[field::EDITION] = edition;
        put_head_height(&mut book, field::HEIGHTS, heights);
        book
    }

    /// An observer's book of zeros but for its edition and number of heights.
    fn observer(edition: u8, heights: Height) -> Vec<u8> {
        book(observer_book_length(heights), edition, heights)
    }

    #[test]
    fn fields_fill_an_observers_book_and_lie_where_its_layout_has_them() {
        for (edition, heights) in [(1, 1), (2, 63), (3, 3), (3, 1000)] {
            let book = observer(edition, heights);
            let fields = fields(Shape::Book, &book, &book);
            let ends: Vec<usize> = fields.iter().map(|field| field.range.end).collect();
            assert!(fields.iter().skip(1).zip(&ends).all(|(field, end)| field.range.start == *end));
            assert_eq!(ends.last(), Some(&book.len()));
            for (area, name) in
                [(ObserverArea::Row, "state"), (ObserverArea::Notarized, "notarised page, height")]
            {
                let at = ObserverLayout::new(heights).area(heights, area).start;
                assert_eq!(place(&book, at), Some((format!("height {heights}, {name}"), at)));
            }
        }
    }

    #[test]
    fn each_changed_field_of_an_observers_book_is_told() {
        let one = observer(3, 2);
        let mut two = one.clone();
        (two[43], two[72], two[73], two[76]) = (1, 2, 9, 7);
        two[64 + 16 + 176] = 2;
        let told: Vec<String> = differences(Shape::Book, &one, &two)
            .iter()
            .map(|c| format!("{} ({}): {} | {}", c.place, c.byte, c.one, c.two))
            .collect();
        assert_eq!(
            told,
            [
                "current height (42): 0 | 256",
                "height 2, state (72): 0 | 2 (page notarised)",
                "height 2, zero behind the state (73): 00 | 09",
                "height 2, blank (76): - | 0 1 2",
                "height 2, notarised page, height (256): 0 | 2",
            ]
        );
    }

    #[test]
    fn fields_fill_a_book_and_lie_where_the_layout_has_them() {
        for (edition, heights) in [(1, 1), (2, 63), (3, 3), (3, 1000)] {
            let book = book(book_length(heights), edition, heights);
            let fields = fields(Shape::Book, &book, &book);
            let ends: Vec<usize> = fields.iter().map(|field| field.range.end).collect();
            assert!(fields.iter().skip(1).zip(&ends).all(|(field, end)| field.range.start == *end));
            assert_eq!(ends.last(), Some(&book.len()));
            let layout = Layout::new(heights);
            for (area, name) in [
                (Area::Row, "leader"),
                (Area::Held, "held proposal, height"),
                (Area::Notarized, "notarised page, height"),
                (Area::Votes, "page vote of 0"),
            ] {
                let at = layout.area(heights, area).start;
                let expected = (format!("height {heights}, {name}"), at);
                assert_eq!(place(&book, at), Some(expected));
            }
        }
    }

    #[test]
    fn each_changed_field_is_told() {
        let one = book(book_length(1), 3, 1);
        let mut two = one.clone();
        two[field::FLAGS] = 3;
        two[576 + 4] = 7;
        two[64..80].copy_from_slice(b"swap A12 to B40 ");
        two[592 + 352..592 + 384].fill(0xab);
        let told: Vec<String> = differences(Shape::Book, &one, &two)
            .iter()
            .map(|c| format!("{} ({}): {} | {}", c.place, c.byte, c.one, c.two))
            .collect();
        assert_eq!(
            told,
            [
                "flags of the current height (3): 0 | 3 (timer fired, blank vote cast)",
                "pending place 1 (64): 00000000000000000000000000000000 | \
                 737761702041313220746f2042343020  \"swap A12 to B40 \"",
                "height 1, blank (580): - | 0 1 2",
                "height 1, page vote of 0 (944): 00000000 | abababab",
            ]
        );
        assert_eq!(differences(Shape::Book, &one, &one), []);
    }

    #[test]
    fn every_byte_of_both_books_and_of_a_reply_counts() {
        let lengths = [book_length(2), observer_book_length(2)].map(|length| (Shape::Book, length));
        let shapes = lengths.into_iter().chain([(Shape::Reply, 449)]);
        for ((shape, length), edition) in shapes.flat_map(|shape| [1, 2, 3].map(|e| (shape, e))) {
            let one = book(length, edition, 2);
            for at in 0..length {
                let mut two = one.clone();
                two[at] ^= 1;
                assert_eq!(differences(shape, &one, &two).len(), 1, "{shape:?} {at}");
            }
        }
        assert_eq!(differences(Shape::Register, &[0; 40], &[1; 40]).len(), 3);
        assert_eq!(differences(Shape::Book, &[0; 3], &[0; 4]).len(), 2);
    }

    #[test]
    fn heads_are_told_by_edition() {
        let names = |edition: u8| {
            let book = book(book_length(1), edition, 1);
            let told = [2, 4, 5, 8, 39, 40, 41, 42, 44, 45, 46, 63];
            told.map(|at| place(&book, at).unwrap())
        };
        let of = |name: &str, at: usize| (name.to_string(), at);
        let [zeros, weights] = [("zeros of the head", 40), ("weight of station 15", 38)];
        let (first, last) = (of("weight of station 0", 8), of(weights.0, weights.1));
        let short = [of("number of heights", 2), of("current height", 4), of("settled height", 5)];
        let rest = [(); 7].map(|()| of(zeros.0, zeros.1));
        let expected: Vec<_> = short.into_iter().chain([first.clone(), last.clone()]).collect();
        assert_eq!([&expected[..], &rest].concat(), names(2));
        let unused = [of("zero before the flags", 2), of("zeros behind the flags", 4)];
        let [h, c, g] = [("number of heights", 40), ("current height", 42), ("settled height", 44)]
            .map(|(name, at)| of(name, at));
        let zeros = of("zeros of the head", 46);
        let [one, two] = unused;
        let heights = [h.clone(), h, c, g.clone(), g, zeros.clone(), zeros];
        assert_eq!([&[one, two.clone(), two, first, last][..], &heights].concat(), names(3));
    }

    #[test]
    fn of_many_bytes_the_first_that_differ_are_told() {
        let (one, mut two) = (vec![0; book_length(1)], vec![0; 1 << 20]);
        two[1000] = 1;
        let changes = differences(Shape::Book, &one, &two);
        let told =
            |at: usize| (changes[at].byte, changes[at].one.as_str(), changes[at].two.as_str());
        assert_eq!(told(0), (0, "1456 bytes", "1048576 bytes"));
        assert_eq!(told(1), (1000, "00*32 ..", "01+00*31 .."));
        assert_eq!(changes.len(), 2);
    }
}
