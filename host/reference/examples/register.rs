//! Makes the calls that standard input names, for tests/register-cost to count their instructions. A line has the kind
//! of book, the call, the length of the buffer, and the book's file; the answer is a line too, the bytes of the
//! register and, of a read, those bytes in hexadecimal digits.

use reference::Rules;
use std::error::Error;
use std::{fs, io};

/// The one function in which instructions are counted.
#[inline(never)]
fn counted(observer: bool, reads: bool, book: &[u8], buffer: &mut [u8]) -> usize {
    let rules = &Rules::SHA256;
    match (observer, reads) {
        (false, false) => rules.size(book).unwrap_or_default(),
        (false, true) => rules.read(book, buffer).len(),
        (true, false) => rules.observer_size(book).unwrap_or_default(),
        (true, true) => rules.observer_read(book, buffer).len(),
    }
}

fn main() -> Result<(), Box<dyn Error>> {
    for line in io::stdin().lines() {
        let line = line?;
        let [kind, call, room, name] = line.split(' ').collect::<Vec<_>>()[..] else {
            return Err("a line must have four words".into());
        };
        let (book, mut buffer, reads) = (fs::read(name)?, vec![0; room.parse()?], call == "read");
        let answer = counted(kind == "observer", reads, &book, &mut buffer);
        let part = buffer.iter().take(if reads { answer } else { 0 });
        println!("{answer} {}", part.map(|byte| format!("{byte:02x}")).collect::<String>());
    }
    Ok(())
}
