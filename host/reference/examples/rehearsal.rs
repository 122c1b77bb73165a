//! Runs the rehearsal from standard input to standard output.

use std::io::{self, BufReader, BufWriter};

fn main() -> io::Result<()> {
    reference::rehearsal::rehearse(BufReader::new(io::stdin()), BufWriter::new(io::stdout()))
}
