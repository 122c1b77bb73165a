//! The help texts.

use crate::help_books::{CHECK, READ, STATUS};
use crate::manual;
use crate::problem::Problem;

/// Writes the help text that the words ask for.
pub fn run(words: &[String], output: &mut Vec<u8>) -> Result<(), Problem> {
    match words {
        [] => print("", output),
        [form] if form == "--man" => manual::page(output),
        [form] if form == "--bash" => manual::completions(output),
        [name] => print(name, output),
        _ => Err(Problem::input("expected here: the name of one command")),
    }
}

/// Writes the help text of a command, the common one for no name.
pub fn print(name: &str, output: &mut Vec<u8>) -> Result<(), Problem> {
    let text = match name {
        "" | "help" | "--help" | "-h" => COMMON,
        "frame" => FRAME,
        "show" => SHOW,
        "open" => OPEN,
        "call" => CALL,
        "observer" => OBSERVER,
        "read" => READ,
        "check" => CHECK,
        "status" => STATUS,
        "replay" => REPLAY,
        "record" => RECORD,
        "rehearsal" => REHEARSAL,
        "try" => TRY,
        "answer" => ANSWER,
        "diff" => DIFF,
        _ => return Err(Problem::input(format!("'{name}' is no command; try `mavunilai help`"))),
    };
    output.extend_from_slice(text.as_bytes());
    Ok(())
}

const COMMON: &str = "\
mavunilai COMMAND ..

  frame      make a frame out of words
  show       show a frame or a book in words
  open       keep a new book in a file
  call       make calls on a book that is kept in a file
  observer   follow the register without a vote: calls on an observer's book in a file
  read       print the register of a book: place, height and text of each entry
  check      tell whether a book in a file is sound, and what stands beside it
  status     print a row for each of several books
  replay     make the calls of a list and compare answers and digests
  record     write a list with its answers and digests
  diff       tell the fields in which two books differ
  try        try a replica of your own against this one, with random calls
  answer     answer the calls of `try`
  rehearsal  read frames from standard input, print a line for each event

`mavunilai help COMMAND` tells more; `help --man` prints all of it as a manual page, and
`help --bash` completions for bash. The status is 0 if all is well, 1 if a list does
not come out as expected or `try` or `diff` finds a difference, 2 if words, files or the
output are bad, 3 if the replica refuses the call, 4 if it refuses with 10: two pages of
one height are certified, so stop and compare. A sentence then says why.
The replica is the proved one if this program was built with the cargo feature `proved`,
else the reference; `mavunilai --version` tells which. The value of an option stands
behind it or after =, as in --n=4.
";

const FRAME: &str = "\
mavunilai frame KIND OPTIONS [--hex]

Writes the 224 bytes of a frame, or 448 hexadecimal digits with --hex.

  proposal              --signer S PAGE
  page-vote             --signer S --height H --digest HEX, or --signer S PAGE
  blank-vote            --signer S --height H
  finalise              --signer S --height H
  page-certificate      SIGNERS PAGE
  blank-certificate     SIGNERS --height H
  finalise-certificate  SIGNERS --height H

SIGNERS is --signers 0,1,2 or --mask 7. PAGE is --page HEX with the 176 bytes, or
--height H, if it has a back page --back J --back-digest HEX, and up to eight times
--entry, 32 hexadecimal digits or text of 1 to 16 bytes, which is filled up with
blanks. A page vote for a PAGE is for its digest. Nothing is checked but the form of the
words: frames that a replica refuses can be made too. An option that would be ignored
is an error.

Example: mavunilai frame blank-vote --signer 0 --height 1 --hex
";

const SHOW: &str = "\
mavunilai show frame FILE [--json]
mavunilai show book FILE [--json]
mavunilai show books FILE FILE .. [--json]

Shows frames or books in words; FILE may be - for standard input, and may hold the bytes
as they are or as hexadecimal digits, wrapped over lines or not. A file may have several
frames, one behind the other. A book is shown with its edition, the weights of its
stations and what a quorum weighs, and a table of heights (leader, held proposal, page
votes, notarised page, signers of the page certificate, blank and finalise signers, with
what they weigh together if not each weighs 1, whether it is linked, settled and in the
register), with its pending entries and those of its pages, the reason why the current
height is where it is, and the next move of the replica at hand. An entry of a page in the
register that equals an earlier one of the chain is marked `filed before`: it is not
counted or read again. Pages and votes are named by the first eight digits of the digest.
Of a book that is not sound the first byte is told that breaks a rule. Several books, of
stations with the same roll and of observers, all with the same weights, are shown side by
side: a row for each height, a column for each book, <- at a station's current height. A
book of edition 1 counts as one in which each station weighs 1. A station's column has its
number, an observer's its file. An observer's book is told from a station's by its length
for the number of heights that it says; where neither kind of book has that length for it,
both are named whose length it is. Of frames, FILE may also be what `call` printed. --json
prints an object for each frame or book (docs/JSON.md).
";

const OPEN: &str = "\
mavunilai open FILE --n N --own S --roll L,L,.. [--heights H] [--weights W,W,..]
               [--force] [--wait T]

Keeps a new book in FILE, for station S of N, with one leader L for each height, of which
there may be 1 to 1000, and one weight W for each station, 1 to 1000; each weighs 1 if not
said. With --heights there are H heights, at which the leaders of the roll take turns.
Stations that weigh two thirds of all or more are a quorum, and the register is safe while
the dishonest ones weigh less than a third: the books of all stations and observers must
have the same weights. The book is of edition 3, which a program from before 0.2.7 refuses
with 1. A file that is there is left alone, unless --force begins a new book in its place:
a station that forgets what it said may say another thing, so do this for a new season
only. So too where the book is gone and FILE.said still tells what it said. FILE may be -
for standard output. --wait is as for `call`, with T seconds.

Example: mavunilai open book --n 4 --own 2 --roll 0,1,2
Example: mavunilai open book --n 4 --own 2 --roll 0,1,2,3 --heights 1000
Example: mavunilai open book --n 4 --own 2 --roll 0,1,2 --weights 10,1,1,1
";

const CALL: &str = "\
mavunilai call BOOK deliver FRAMES [--out FILE] [--evidence FOLDER]
mavunilai call BOOK packet FRAMES [--each] [--out FILE] [--evidence FOLDER]
mavunilai call BOOK signal HEIGHT [--out FILE]
mavunilai call BOOK submit ENTRY [--out FILE]
mavunilai call BOOK move [--out FILE]
mavunilai call BOOK run [--out FILE]
mavunilai call BOOK size
mavunilai call BOOK read
mavunilai call BOOK fetch KIND HEIGHT
mavunilai call BOOK certificates
Calls with --out have [--wait SECONDS] too.

Makes a call on the book in the file BOOK, prints the answer in the words of a list
(docs/EXCHANGE.md), and keeps the book in its file if it changed. The frames that move
and fetch write follow as hexadecimal digits, one to a line; read prints the entries.
run moves until idle, and delivers what it writes to the book itself. certificates
prints all that fetch gives, kinds 5, 6 and 7 of each height, as digits and nothing else:
what goes out with each pass and each proposal, and what an observer is given.
FRAMES is a file, or - for standard input, with the bytes or the digits of a frame, or
of several one behind the other (`cat` puts them so), which are delivered in order;
ENTRY is as for `frame`: 32 hexadecimal digits, or text of 1 to 16 bytes, which is
filled up with blanks. A call that is refused changes nothing, says the number and ends
with status 3. deliver keeps the book after each frame; of several each has its line,
with `deny` and a number if refused. packet takes all frames in one call and keeps the
book once; it prints `counts` and how many frames were fresh, known and refused, and with
--each a line for each frame behind it, as deliver does. For refused frames its status is
still 0, but for 10: the packet itself is refused only if its length is not a multiple of
224, or the book is not sound. --json prints each answer as an object (docs/JSON.md);
certificates has none.

Frames that contradict what the book has are evidence against who signed both. deliver and
packet say so on the standard error: two pages of one leader, two page votes of one
station (8), two certified pages of one height (10, status 4: stop and compare). At the
current height a leader's second page is not refused: it fires the timer, with the answer
fresh, or known where it had fired; a signal is refused with 14 then. --evidence keeps
each pair in FOLDER, which is made if it is missing: a file .hex with the digits of the
frame and of what the book has against it, and a file .txt with both in words, synced
before the book changes. Files that are there stay. The signatures are yours to add.

FRAMES may be what move, run, fetch or certificates printed, as it is: lines that are
answers are skipped between frames. A file that begins with a letter, a blank or an end
of line is text; any other is bytes, as a frame's kind, its first byte, is 1 to 7. deliver
takes the whole frames first. Of a cut one behind them, and of the first line of a text
that is neither digits nor an answer, it says so and ends with status 2, or with that of
a refusal before it; packet takes nothing of a text with such a line. No frames are no
error: deliver prints nothing then.

--out adds the frames to FILE, a line for each, in place of printing them. FILE is
synced and replaced as a whole, and holds nothing but such lines. Who sends them moves
FILE away first. Neither BOOK nor FILE may end in .lock, .new, .frames or .said.

A process may end at any time, and others may call at the same time. The book is locked
(BOOK.lock, which stays) from reading to writing, after all input is there; a call waits
while another program has it, says which process that is after two seconds, and gives up
with status 2 after the seconds of --wait. A call whose book was renamed, removed or
replaced meanwhile ends with status 2, and so does one that would contradict what has
left the station (BOOK.said): neither writes a book or a frame.
Frames wait in BOOK.frames from before the book is
replaced until they are printed or in FILE. If that fails the next deliver, packet,
signal, submit, move or run begins with the line `unsent` and these frames; size, read,
fetch and certificates leave them alone. Frames may go out twice, which is harmless. A
pipe has them once it takes them, read or not: --out is safer. Where the standard output
is closed or the null device, and no --out is given, move and run make no move, and
frames that wait go on waiting; an error says so, with status 2. run has the frames of a
move out before it makes the next one, so where it fails those before are out.

Example: mavunilai frame blank-vote --signer 0 --height 1 | mavunilai call book deliver -
Example: mavunilai call one run | mavunilai call other deliver -
";

const OBSERVER: &str = "\
mavunilai observer BOOK open --n N --heights H [--weights W,W,..] [--force] [--wait T]
mavunilai observer BOOK deliver FRAMES [--evidence FOLDER] [--wait T]
mavunilai observer BOOK move [--wait T]
mavunilai observer BOOK size
mavunilai observer BOOK read
mavunilai observer BOOK follow [--since HEIGHT] [--evidence FOLDER] [--wait T]

An observer follows the register of N stations without a vote: it is given certificates,
frames of kinds 5 to 7, settles, and reads. It has no timer and sends nothing. open keeps
a new book in the file BOOK (- is standard output), for H heights, 1 to 1000, and with the
weights W, those of the stations (1 each if not said, as for `mavunilai open`); a file
that is there is left alone unless --force begins anew. deliver takes the frames of the
file FRAMES (- is standard input) in order; `help call` says how they are written, and
what becomes of a cut one and of none. Each has its line, fresh, known, or `deny` and a
number: 16 for a frame that is no certificate. Any refusal makes the status 3, while the
others are taken all the same; 10 makes it 4, and both certificates are kept in FOLDER, as
by `mavunilai call`. move prints `final` and the settled height if it grew, else `idle`;
after deliver one move is enough. size and read print what the register holds by then, an
entry that the chain repeats once. --json prints each answer as an object (docs/JSON.md).

follow goes on reading standard input, a frame in digits on each line, as `certificates`
prints them; answers between them are skipped. It delivers each, moves, and prints each
entry that settles at once: place, height and text, as `mavunilai read` does. With --since
it begins with those that are settled, from that height on. The book is locked for one
frame at a time. A refused frame is said on the standard error and makes the status 3 in
the end; 10 ends it at once. A line that is neither is left out, said, and makes it 2.

What a call prints is synced to the file first, however many frames it was given, and the
book is locked meanwhile (BOOK.lock, which stays); --wait is as for `call`, with T
seconds. A book that was renamed, removed or replaced meanwhile is left alone. Only
deliver certificates whose signatures you have checked, each signer's. `mavunilai call`
does not take an observer's book, nor this command a station's: both refuse with 1.

Example: mavunilai call book certificates | mavunilai observer watch deliver -
";

const REPLAY: &str = "\
mavunilai replay FILE .. [--counts]
mavunilai replay FILE [--stop-at LINE] [--keep FOLDER] [--counts]

Makes the calls of each list (docs/EXCHANGE.md has the format; - is standard input)
and compares every answer and every buffer. At the first difference it says the line,
the case and the fields that differ, and ends with status 1. --counts prints how often
each refusal, move and kind of pass occurred. --stop-at ends behind that line of the
list. --keep writes the buffers to files, as the list left them or the call that differs.

Example: mavunilai replay exchange/season.txt --keep kept; mavunilai show book kept/book0
";

const RECORD: &str = "\
mavunilai record FILE [--full]
mavunilai record --scenario NAME [--full]
mavunilai record --random SEED [--count N] [--full]
mavunilai record --folder FOLDER

Prints the list of FILE (- is standard input) with the answers and digests that the
replica gives now; the calls may stand there without any. --scenario prints a ready list:
refusals, orders, moves, corners, tallies, repeats, rehearsal, season, books, observers,
weights, editions, unequal, heights or long.
--random prints N calls (1000 if not said) as `try` makes them from this seed. With --full
the list has the bytes of the buffers and not their digests. --folder writes all ready
lists there.
";

const REHEARSAL: &str = "\
mavunilai rehearsal < FRAMES

Station 2 of 4, three heights led by 0, 1, 2. Delivers the frames of standard input one
by one, a short last one too, and moves until idle after each. Prints `take` or `same`
with kind, height and signer, or `deny` and a number; then `dummy`, `final`, `pass`,
`offer` and `vote` for the moves.
";

const TRY: &str = "\
mavunilai try [--seed S] [--count N] [--seconds T] [--stations] -- PROGRAM WORDS ..

Starts PROGRAM, a replica of your own, and asks it for N calls (10000 if not said), one
to a line; it answers each with one line. docs/EXCHANGE.md has the form of both. The
seed S (1 if not said) decides the calls: lists on single books, sound, damaged and
others, observers' too, and whole networks with dishonest stations and observers. Every
answer and every byte of the book and of the reply is held against the replica at hand.
At the first difference it says the case and the call, both answers and the fields in
which the books and replies differ, prints a list of that one call that `replay` takes,
and ends with status 1; so it does if PROGRAM ends, prints what is no answer or too much,
or says nothing for T seconds (10 if not said). What PROGRAM writes to its standard error
goes by. With --stations no call of an observer is made, for a replica that has none.

Example: mavunilai try --count 1000 -- mavunilai answer
";

const ANSWER: &str = "\
mavunilai answer < CALLS

Reads a call from each line of standard input and prints a line with its answer, on the
replica at hand: the other side of `mavunilai try`, and a pattern for yours.
";

const DIFF: &str = "\
mavunilai diff BOOK BOOK

Prints the fields in which two books differ, with the byte at which each begins, and
ends with status 1; with status 0 if they are the same. The books need not be sound.
";
