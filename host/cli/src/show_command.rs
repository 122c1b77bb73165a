//! `show`: frames or books in words.

use crate::arguments::Arguments;
use crate::problem::Problem;
use crate::{files, frame_input, show_book, show_books, show_frame, show_json};

/// Shows what the first word says, out of the files that the others name.
pub fn run(words: &[String], output: &mut Vec<u8>) -> Result<(), Problem> {
    let arguments = Arguments::sort(words, &[], &["json"])?;
    if arguments.has("json") {
        return json(arguments.words(), output);
    }
    let text = match arguments.words() {
        [what, file] if what == "frame" => show_frame::all(&frame_input::read(file)?.all()?)?,
        [what, file] if what == "book" => show_book::text(&files::read_bytes(file)?)?,
        [what, files @ ..] if what == "books" => show_books::text(files)?,
        [what, ..] if !["frame", "book"].contains(&what.as_str()) => {
            let sentence = format!("'{what}' cannot be shown; `frame`, `book` and `books` can");
            return Err(Problem::input(sentence));
        }
        _ => {
            let sentence =
                "expected here: `frame` or `book`, then a file or - for standard input; \
                            or `books` and files";
            return Err(Problem::input(sentence));
        }
    };
    output.extend(text.into_bytes());
    Ok(())
}

/// The same as objects, one to a line: a frame, or a book.
fn json(words: &[String], output: &mut Vec<u8>) -> Result<(), Problem> {
    let objects = match words {
        [what, file] if what == "frame" => {
            let bytes = frame_input::read(file)?.all()?;
            show_frame::all(&bytes)?;
            let frames = bytes.chunks(types::FRAME).map(show_json::frame);
            frames.collect::<Result<Vec<_>, _>>()?
        }
        [what, files @ ..] if what == "books" || (what == "book" && files.len() == 1) => {
            let book = |file: &String| show_json::book(file, &files::read_bytes(file)?);
            files.iter().map(book).collect::<Result<Vec<_>, _>>()?
        }
        _ => return Err(Problem::input("expected here: `frame`, `book` or `books`, then files")),
    };
    objects.iter().for_each(|object| output.extend(format!("{object}\n").into_bytes()));
    Ok(())
}
