//! `open`: keeps a new book in a file.

use crate::arguments::Arguments;
use crate::chosen::REPLICA;
use crate::problem::Problem;
use crate::weights_option::Weighing;
use crate::{waiting, words};
use store::{Error, FileBook};
use types::Book;

/// The options.
const OPTIONS: [&str; 6] = ["n", "own", "weights", "roll", "heights", "wait"];

/// Writes a new book to a file, to one that is there only if it is forced to, or to standard output.
pub fn run(words: &[String], output: &mut Vec<u8>) -> Result<(), Problem> {
    let arguments = Arguments::sort(words, &OPTIONS, &["force"])?;
    let [file] = arguments.plain("the file of the new book, or - for standard output")?;
    let roll = roll(&arguments)?;
    let (n, own) = (arguments.byte("n")?, arguments.byte("own")?);
    let weighing = Weighing::read(&arguments, n)?;
    let book = Book::open(REPLICA, n.into(), own.into(), &weighing.numbers(), &roll)
        .map_err(|refusal| weighing.refused(refusal))?;
    let disk = waiting::disk(&arguments)?;
    let kept = match (file.as_str(), arguments.has("force")) {
        ("-", true) => return Err(Problem::input("standard output needs no --force")),
        ("-", false) => {
            waiting::none(&arguments, "open -")?;
            output.extend_from_slice(book.bytes());
            return Ok(());
        }
        (_, true) => FileBook::overwrite_in(disk, book, file.as_ref()),
        (_, false) => FileBook::create_in(disk, book, file.as_ref()),
    };
    ended(kept.map(|_| ()))
}

/// The leader of each height: those of `--roll`, which `--heights` begins again from the first until there are so many.
fn roll(arguments: &Arguments) -> Result<Vec<u8>, Problem> {
    let roll = words::numbers("roll", arguments.needed("roll")?)?;
    let Some(_) = arguments.value("heights")? else {
        return Ok(roll);
    };
    let heights = usize::from(arguments.height("heights")?);
    if roll.len() > heights {
        let leaders = roll.len();
        return Err(Problem::input(format!(
            "--roll has {leaders} leaders, and --heights is {heights}"
        )));
    }
    Ok(roll.into_iter().cycle().take(heights).collect())
}

/// What became of keeping a new book; where a file is there, or word of what an earlier book said, it says how to begin
/// anew.
pub fn ended(kept: Result<(), Error>) -> Result<(), Problem> {
    match kept {
        Ok(()) => Ok(()),
        Err(error @ Error::Exists(_)) => {
            Err(Problem::input(format!("{error}; --force begins a new book in its place")))
        }
        Err(error) => Err(error.into()),
    }
}
