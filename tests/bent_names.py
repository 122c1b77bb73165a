"""Trials of tests/statements-notice: a name that means another thing than the kept text says, which stays as it is.

Each is a form that antt and the front end take, or a part of one; the scripts refuse it, or follow it. An edit is a new
file and its text, or a file, a pattern and what takes its place.
"""

DEMANDS = "demands/specs/Demands.antt"
KEEPING = "call_laws/specs/Keeping.antt"
SIGNAL = "replica/src/signal.rt"
STATE = "protocol/specs/State.antt"
CALL = "protocol/specs/Call.antt"
LISTS = "agreement/specs/Lists.antt"
BEND = "which it would bend: "
LEFT = "what is no import, module, function or type"


def last(file, line):
    """A line behind the imports of a file."""
    return (file, r"\n\n", f"\n{line}\n\n")


def last_ghost(line):
    return (SIGNAL, r"\n\n", f"\n{line}\n\n")


IMPORTS = [
    ("a crate's name for another module, by the last import of the page", BEND + "Rattle",
     [last(DEMANDS, "use Rattle.demands.specs.Bent as Rattle")]),
    ("the same by the first import", BEND + "Rattle",
     [(DEMANDS, r"\nuse Rattle.std", "\nuse Rattle.demands.specs.Bent as Rattle\nuse Rattle.std")]),
    ("the same by `pub use`", BEND + "Rattle",
     [last(DEMANDS, "pub use Rattle.demands.specs.Bent as Rattle")]),
    ("the same by `unfoldable pub use`", BEND + "Rattle",
     [last(DEMANDS, "unfoldable pub use Rattle.demands.specs.Bent as Rattle")]),
    ("the same with the name in quotation marks", "a sign that is not known here",
     [last(DEMANDS, "use Rattle.demands.specs.Bent as «Rattle»")]),
    ("a library of the kit for another module", BEND + "mathlib",
     [last(LISTS, "use Rattle.agreement.specs.Bent as mathlib")]),
    ("a library of the kit for another module, without a word that says so", BEND + "mathlib",
     [last(LISTS, "use Rattle.agreement.specs.mathlib")]),
    ("the crate's own library for another module", BEND + "Rattle",
     [last(CALL, "use Rattle.protocol.specs.Bent as Rattle")]),
    ("a crate's name for another module, in a law that the page rests on", BEND + "Rattle",
     [last("agreement/proofs/Laws/AgreementLaws.antt", "use Rattle.agreement.specs.Bent as Rattle")]),
    ("a definition with a crate's name", BEND + "Rattle",
     [(DEMANDS, r"\Z", "\npub Rattle : ℕ\nRattle = 0\n")]),
    ("an import that goes through another", "an import that begins with no library's name: bent",
     [(DEMANDS, r"use Rattle.agreement.specs.Lists", "use bent.Lists"),
      last(DEMANDS, "use Rattle.demands.specs.Bent as bent")]),
    ("an import behind `package`", "the word `package`",
     [(DEMANDS, r"use Rattle.agreement.specs.Lists", "use package.Rattle.agreement.specs.Lists")]),
    ("a path behind `package`", "the word `package`",
     [(CALL, r"\(read_part digest", "(package.Rattle.protocol.specs.Read.read_part digest")]),
    ("a built-in name, by an import in braces within braces", "an import of another form",
     [last(KEEPING, "use Rattle.call_laws.{specs.Bent.{⊥}}")]),
    ("a built-in name, by an import of all names", "an import of names that the line does not say",
     [last(KEEPING, "use Bent.*")]),
    ("a module below the page, which imports would go through", "a module of its own",
     [last(DEMANDS, "mod mathlib")]),
    ("a definition passed on by a file, with the right to unfold it", "+==== crates/protocol/specs/Other.antt",
     [("protocol/specs/Other.antt", "use Rattle.protocol.specs.Bytes.{Bytes}\n\n"
       "unfoldable pub nothing : (Bytes → Bytes) → Bytes → Bytes → Bytes\nnothing digest book buffer = buffer\n"),
      ("protocol/specs/Passing.antt", "unfoldable pub use Rattle.protocol.specs.Other.{nothing as read_part}\n"),
      ("protocol/specs/Lib.antt", r"\Z", "pub mod Other\npub mod Passing\n"),
      (CALL, r"specs.Read.\{size_call, read_part\}",
       "specs.Read.{size_call}\nuse Rattle.protocol.specs.Passing.{read_part}")]),
    ("a file that passes another definition on, under the name", "+pub use Rattle.sha256_functions.specs.Words",
     [("sha256/specs/Bytes.antt", r"specs.Bytes.\{Bytes\}", "specs.Words.{add as Bytes}")]),
    ("a path that leads into proofs/", "a path that leads to no file of specs/",
     [(CALL, r"\(read_part digest", "(Rattle.wire.proofs.Laws.read_part digest")]),
    ("an import from proofs/, beside its laws", "which is no file of specs/",
     [(CALL, r"specs.Read.\{size_call, read_part\}",
       "specs.Read.{size_call}\nuse Rattle.wire.proofs.Reads.{read_part}")]),
    ("an import from a crate that is neither here nor in the kit", "there is no crates/elsewhere/specs/Read.antt",
     [(CALL, r"specs.Read.\{size_call, read_part\}",
       "specs.Read.{size_call}\nuse Rattle.elsewhere.specs.Read.{read_part}")]),
    ("a module within a folder of specs/", "a folder that is not read",
     [("demands/specs/Bent/specs/Lists.antt", "pub Agreement : Type 0\nAgreement = Unit {0}\n")]),
    ("a file of specs/ with the name of one of specs/Laws", "a name for two files",
     [("witnesses/specs/WitnessLaws.antt", "pub witness : Unit {0}\nwitness = tt\n"),
      ("witnesses/specs/Lib.antt", r"\Z", "pub mod WitnessLaws\n")]),
    ("a file of specs/ with the name of one of proofs/Laws", "a name for two files",
     [("agreement/specs/AgreementLaws.antt", "pub agreement : Unit {0}\nagreement = tt\n"),
      ("agreement/specs/Lib.antt", r"\Z", "pub mod AgreementLaws\n")]),
    ("a name with a letter of another alphabet", "a sign that is not known here",
     [last(DEMANDS, "use Rattle.demands.specs.Bent as R\u0430ttle")]),
]

LAYOUT = [
    ("a way out behind a comment at the margin", "a comment left of what it stands in",
     [(DEMANDS, r"(pub no_fork : Agreement sha256)", r"\1\n-- .. whatever is read\n    ⊎ Unit {0}")]),
    ("the same behind a comment and an empty line", "a comment left of what it stands in",
     [(DEMANDS, r"(pub no_fork : Agreement sha256)", r"\1\n-- .. whatever is read\n\n    ⊎ Unit {0}")]),
    ("the same in a section", "a comment left of what it stands in",
     [("paper/proofs/Laws/IdleLaws.antt", r"(  pub idle_means_no_move : [^=]*)\n(  idle_means)",
       r"\1\n-- .. or not\n      ⊎ Unit {0}\n\2")]),
    ("a statement that closes a bracket at the margin", "+) ⊎ Unit {0}",
     [(DEMANDS, r"pub no_fork : Agreement sha256", "pub no_fork : (Agreement sha256\n) ⊎ Unit {0}")]),
    ("a constructor beside `where`", "a constructor or a field beside `where`",
     [(STATE, r"\Z", "\npub data Two : Type 0 where one two : Two\n")]),
    ("a constructor at another column", "a constructor or a field at another column",
     [(STATE, r"\Z", "\npub data Two : Type 0 where\n    one two : Two\n")]),
    ("a declaration beside the head of its section", "the head of a section that is not read",
     [(STATE, r"\Z", "\nmodule _ (n : ℕ) where pub one : ℕ\n                       one = n\n")]),
    ("an operator that binds otherwise, said over two lines", "a line of another form",
     [("sha256_functions/specs/Words.antt", r"infixl 70 ◌&◌", "infixl 50\n  ◌&◌")]),
    ("a text in quotes", "a text in quotes", [(STATE, r"\Z", "\npub text : String\ntext = \"a -- b\"\n")]),
]

CODE = [
    ("a crate's name for another module, in a file with a contract", BEND + "Rattle",
     [last_ghost("ghost use Rattle.replica.specs.Bent as Rattle;")]),
    ("a library of the kit for another module, there", BEND + "mathlib",
     [last_ghost("ghost use mathlib.Core.List.{Memᴰ};\nghost use Rattle.replica.specs.Bent as mathlib;")]),
    ("a crate's name for another module, below the contract", BEND + "Rattle",
     [(SIGNAL, r"\Z", "\nghost use Rattle.replica.specs.Bent as Rattle;\n")]),
    ("a crate's name for another, of the code", BEND + "answers",
     [last_ghost("use sha256 as answers;")]),
    ("a module with a crate's name", "a module with a crate's name",
     [("replica/src/lib.rt", r"\Z", "mod answers;\n"), ("replica/src/answers.rt", "// Nothing.\n")]),
    ("two imports on a line", "an import of another form",
     [last_ghost("ghost use Rattle.std.specs.Prelude.{leb}; ghost use Rattle.replica.specs.Bent.{⊥};")]),
    ("an import over two lines, in a file with a contract", LEFT,
     [last_ghost("ghost use\n    Rattle.replica.specs.Bent.{⊥};")]),
    ("an import with two spaces", LEFT, [last_ghost("ghost  use Rattle.replica.specs.Bent.{⊥};")]),
    ("an import with its words on two lines", "an import of another form",
     [last_ghost("ghost\nuse Rattle.replica.specs.Bent.{⊥};")]),
    ("an import behind a function", LEFT,
     [(SIGNAL, r"\n}\n\Z", "\n} ghost use Rattle.replica.specs.Bent.{⊥};\n")]),
    ("an import behind `package`, in a file with a contract", "an import that begins with no library's name: package",
     [(SIGNAL, r"ghost use Rattle.protocol", "ghost use package.Rattle.protocol")]),
    ("a method with the contract that its function had", "methods, or a trait",
     [(SIGNAL, r"(// The timer .*\npub fn signal.*)\n((?:    ensures.*\n)+)({\n(?:.*\n)*?}\n)",
       r"\1\n\3\nimpl Answer {\n\1\n\2\3}\n")]),
    ("a public function that is written in another way", LEFT,
     [(SIGNAL, r"\Z", "\npub fn  loosen(height: usize) -> usize {\n    height\n}\n")]),
    ("a contract with a comment, in which a brace would count", "a contract of signal that is not read",
     [(SIGNAL, r"(ensures answer \{ )(done_answer)", r"\1-- }\n    \2")]),
    ("a type that another file passes on", "has a type that is not read",
     [("answers/src/lib.rt", r"\Z", "\npub use refusal::Refusal;\n"),
      (SIGNAL, r"use answers::refusal::Refusal;", "use answers::Refusal;")]),
    ("a function of another crate passed on", "+==== crates/tally/src/",
     [("replica/src/lib.rt", r"\Z", "\npub use tally::voters_for;\n")]),
]

TRIALS = IMPORTS + LAYOUT + CODE
