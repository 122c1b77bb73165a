//! The help texts of the commands that look at books in files.

pub const READ: &str = "\
mavunilai read BOOK [--since HEIGHT] [--json]

Prints the register of the book in the file BOOK, a station's or an observer's: for each
entry its place from 1 on, the height of the page that filed it, and its text. Bytes that
are no printable letter stand as \\x and two digits, \\ stands twice. With --since only the
entries of that height and those above it: what was new since the last look, if that
found HEIGHT - 1 settled. --json prints an object (docs/JSON.md), with the bytes too.
`mavunilai call BOOK read` makes the bare call and prints its answer.
";

pub const CHECK: &str = "\
mavunilai check BOOK

Looks at the book in the file BOOK and at what stands beside it, locks nothing and changes
nothing. Prints a line each:

  book:    sound, with whose it is, its edition and the stations' weights; or the first
           byte that breaks a rule, and the rule
  frames:  whether frames wait in BOOK.frames, or the file is cut or of no use
  said:    whether the book knows what its station has said (BOOK.said); one that does
           not is an older copy: do not go on with it
  lock:    which process has the book open to change it

The status is 0 if all is well; 1 if the book is sound and something beside it should be
looked at, frames that wait while nobody has the book too; 2 if it cannot be read; 3 if it
is not sound.
";

pub const STATUS: &str = "\
mavunilai status BOOK .. [--json]

A row for each book, of stations and of observers: whose it is, n, the stations'
weights, H, the current height c, the settled height g, pending entries, entries of the
register, frames that wait, who has it open to change it, and what it waits for: a move,
or what would let it pass the current height, with what the votes for that weigh. One
that is not sound, or cannot be read, has its row too. A line below says so if books of
the same n and H have other weights: they are not of one roll. Nothing is locked or
changed. --json prints an object for each (docs/JSON.md). The status is that of the
worst row, as `mavunilai check` counts them.
";
