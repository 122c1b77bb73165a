//! `status`: a row for each book.

use crate::arguments::Arguments;
use crate::beside::Frames;
use crate::json::Json;
use crate::problem::Problem;
use crate::standing::{Standing, Told};
use crate::words::count;
use crate::{table, weighed};

/// The headings of the columns.
const HEADINGS: [&str; 12] = [
    "book",
    "of",
    "n",
    "weights",
    "H",
    "c",
    "g",
    "pending",
    "entries",
    "frames",
    "held by",
    "waits for",
];

/// A book with the name of its file.
type Named<'a> = (&'a str, Result<Standing, Problem>);

/// Prints a row for each book, of whichever kind. The status is that of the worst row.
pub fn run(words: &[String], output: &mut Vec<u8>) -> Result<(), Problem> {
    let arguments = Arguments::sort(words, &[], &["json"])?;
    let files = arguments.words();
    if files.is_empty() {
        return Err(Problem::input("the files of books are missing"));
    }
    let books: Vec<Named> = files.iter().map(|file| (file.as_str(), Standing::of(file))).collect();
    let text = match arguments.has("json") {
        true => books.iter().map(|book| format!("{}\n", object(book))).collect::<String>(),
        false => {
            let heading = HEADINGS.map(str::to_string).to_vec();
            let rows = [vec![heading], books.iter().map(row).collect()].concat();
            format!("{}{}", table::print(&rows), other_weights(&books).unwrap_or_default())
        }
    };
    output.extend(text.into_bytes());
    let statuses = books.iter().filter_map(trouble).map(|problem| problem.status);
    let statuses: Vec<u8> = statuses.collect();
    match statuses.iter().max() {
        None => Ok(()),
        Some(status) => {
            let (troubled, all) = (statuses.len(), count(books.len(), "book", "books"));
            let sentence =
                format!("{troubled} of {all} should be looked at; see `mavunilai check`");
            Err(Problem { status: *status, sentence })
        }
    }
}

/// A line about the first two books that agree in n and H and not in the weights: one of them is not of the others' roll.
/// A book of edition 1 agrees with one in which all weights are 1.
fn other_weights(books: &[Named]) -> Option<String> {
    let sound: Vec<(&str, &Told)> = books.iter().filter_map(sound).collect();
    let (one, two) = (0..).zip(&sound).find_map(|(at, one)| {
        let like = |two: &&(&str, &Told)| (one.1.n, one.1.heights) == (two.1.n, two.1.heights);
        let mut others = sound.iter().skip(at).filter(like);
        Some((one, others.find(|two| two.1.weights != one.1.weights)?))
    })?;
    let [of_one, of_two] = [one, two].map(|(_, told)| weighed::list(&told.weights));
    let differ = format!("{} has the weights {of_one}, and {} has {of_two}", one.0, two.0);
    Some(format!("These books are not of one roll: {differ}.\n"))
}

/// The name of a sound book, and what it tells.
fn sound<'a>((file, book): &'a Named) -> Option<(&'a str, &'a Told)> {
    Some((file, book.as_ref().ok()?.told.as_ref().ok()?))
}

/// What is wrong with a book, if anything is.
fn trouble((_, book): &Named) -> Option<Problem> {
    match book {
        Ok(standing) => standing.problem(),
        Err(problem) => Some(problem.clone()),
    }
}

/// The row of a book.
fn row(book: &Named) -> Vec<String> {
    let (file, standing) = (book.0, book.1.as_ref().ok());
    let wrong = trouble(book).map(|problem| problem.sentence);
    let Some((standing, Ok(told))) = standing.map(|standing| (standing, &standing.told)) else {
        let kind = if standing.is_some() { "not sound" } else { "unreadable" };
        let dashes = vec!["-".to_string(); 9];
        let named = vec![file.to_string(), kind.to_string()];
        return [named, dashes, vec![wrong.unwrap_or_default()]].concat();
    };
    let of_station = |value: String| if told.station.is_some() { value } else { "-".to_string() };
    let frames = match &standing.beside.frames {
        Frames::Wait(number) => number.to_string(),
        Frames::Damaged(_) => "damaged".to_string(),
        Frames::None | Frames::Uncommitted => of_station("0".to_string()),
    };
    let holder = standing.beside.holder.map_or("-".to_string(), |holder| holder.to_string());
    let waits = wrong.map_or(told.waits_for.clone(), |why| format!("a look: {why}"));
    vec![
        file.to_string(),
        told.station.map_or("observer".to_string(), |own| format!("station {own}")),
        told.n.to_string(),
        weighed::column(&told.weights),
        told.heights.to_string(),
        of_station(told.current.to_string()),
        told.settled.to_string(),
        of_station(told.pending.to_string()),
        told.entries.to_string(),
        frames,
        holder,
        waits,
    ]
}

/// The same as an object; a field that says nothing of a book is left out.
fn object(book: &Named) -> Json {
    let standing = book.1.as_ref().ok();
    let told = standing.map(|standing| standing.told.as_ref().ok());
    let kind = match told {
        None => "unreadable",
        Some(None) => "not sound",
        Some(Some(Told { station: None, .. })) => "observer",
        Some(Some(_)) => "station",
    };
    let told = told.flatten();
    let station = told.filter(|told| told.station.is_some());
    let beside = standing.map(|standing| &standing.beside);
    let frames = match beside.map(|beside| &beside.frames) {
        Some(Frames::Wait(number)) => Some(*number),
        Some(Frames::None | Frames::Uncommitted) => station.map(|_| 0),
        Some(Frames::Damaged(_)) | None => None,
    };
    let holder = beside.and_then(|beside| beside.holder).map(|holder| holder.to_string());
    let fields = [
        ("book", Some(Json::text(book.0))),
        ("kind", Some(Json::text(kind))),
        ("own", station.and_then(|told| told.station).map(Json::number)),
        ("edition", told.map(|told| Json::number(told.edition))),
        ("n", told.map(|told| Json::number(told.n))),
        ("weights", told.map(|told| Json::weights(&told.weights))),
        ("heights", told.map(|told| Json::number(told.heights))),
        ("current", station.map(|told| Json::number(told.current))),
        ("settled", told.map(|told| Json::number(told.settled))),
        ("pending", station.map(|told| Json::number(told.pending))),
        ("entries", told.map(|told| Json::number(told.entries))),
        ("frames", frames.map(Json::number)),
        ("held_by", holder.map(Json::Text)),
        ("waits_for", told.map(|told| Json::text(told.waits_for.as_str()))),
        ("problem", trouble(book).map(|problem| Json::Text(problem.sentence))),
    ];
    Json::Object(fields.into_iter().filter_map(|(name, value)| Some((name, value?))).collect())
}
