//! Reading one line that may not be too long.

use std::io::{BufRead, Read};

/// The most bytes of a line that is read from a program: a call has fewer than half as many.
pub const MOST: usize = 1 << 23;

/// What comes next of a text.
#[derive(Clone, Debug, PartialEq, Eq)]
pub enum Next {
    /// A line, without its end.
    Line(String),
    /// A line that is no text.
    Rubbish,
    /// A line that is too long.
    Long,
    /// Nothing.
    End,
}

/// The next line; what cannot be read is the end.
pub fn next(from: &mut impl BufRead) -> Next {
    let mut line = Vec::new();
    let read = from.take(MOST as u64).read_until(b'\n', &mut line);
    match (read, line.pop()) {
        (Err(_) | Ok(0), _) => return Next::End,
        (Ok(MOST), Some(last)) if last != b'\n' => return Next::Long,
        (_, Some(last)) if last != b'\n' => line.push(last),
        _ => {}
    }
    String::from_utf8(line).map_or(Next::Rubbish, Next::Line)
}

#[cfg(test)]
mod tests {
    use super::*;

    #[test]
    fn lines_come_one_by_one() {
        let mut text: &[u8] = b"one\n\n\xff\nlast";
        let line = |text: &str| Next::Line(text.to_string());
        let found: Vec<Next> = (0..5).map(|_| next(&mut text)).collect();
        assert_eq!(found, [line("one"), line(""), Next::Rubbish, line("last"), Next::End]);
    }

    #[test]
    fn a_line_has_a_limit() {
        let fits = [vec![b'a'; MOST - 1], vec![b'\n']].concat();
        assert_eq!(next(&mut fits.as_slice()), Next::Line("a".repeat(MOST - 1)));
        assert_eq!(next(&mut vec![b'a'; MOST].as_slice()), Next::Long);
    }
}
