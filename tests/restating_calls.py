"""How the kept contracts are restated for the prover: each by a function that calls the one which has the contract.

The function has the kept contract, over the kept imports, those from this repository behind `package`; the prover takes
it only where that follows from the contract of the function that it calls. It needs no proof by hand.
"""
import re

from imports import Use, from_libraries, unbent

HEAD = "// Written by tests/restated --write: what docs/statements has of\n// {}.\n"
LIB = "// Written by tests/restated --write: the kept contracts, each of a function that calls the one that has it.\n"
LIB += "#![tactic(auto)]\n\n"
# a signature that fits stands on one line (`rt fmt`)
WIDTH = 100
FUNCTION = re.compile(r"^pub (?:extern \"C\" )?fn (\w+)(?:<[^>]*>)?\(([^)]*)\)", re.M)


def imported(line, crate):
    """A kept import: of antt's names from the libraries, of the code's by the crate's name."""
    if line.startswith("ghost "):
        use = Use(line + ";")
        unbent([use], [], line)
        line = from_libraries(line)
    return line.replace("use crate::", f"use {crate}::") + ";"


def calling(text, path):
    """A kept function with a body that calls it."""
    found = FUNCTION.search(text)
    names = [given.split(":")[0].strip() for given in re.split(r",(?![^\[]*\])", found[2]) if given.strip()]
    bare = text.replace("#[unsafe(no_mangle)]\n", "").replace('extern "C" ', "")
    laid = re.compile(r"^(pub fn \w+\()\n((?:    .*\n)*?)(\).*)$", re.M).search(bare)
    if laid and len(line := laid[1] + " ".join(laid[2].split())[:-1] + laid[3]) <= WIDTH:
        bare = bare.replace(laid[0], line)
    return f"{bare}\n{{\n    {path}::{found[1]}({', '.join(names)})\n}}"


def files(texts, lead):
    """The files of the crate's src/, by name, from the kept contracts of each crate; `lead` says where a file's are."""
    made = {}
    for text in texts:
        parts = re.split(r"^==== (\S+)\n", text, flags=re.M)
        for place, part in zip(parts[1::2], parts[2::2]):
            _, crate, _, file = place.split("/")
            stem, path = file[: -len(".rt")], lead(crate, file[: -len(".rt")])
            imports, _, rest = part.partition("\n\n")
            lines = [imported(line, crate) for line in imports.splitlines() if line]
            ghosts = [line for line in lines if line.startswith("ghost ")]
            others = [line for line in lines if line not in ghosts]
            lines = [*ghosts, *([""] if ghosts and others else []), *others]
            said = [calling(each, path) for each in re.split(r"\n\n+", rest.strip())]
            name = f"{crate}_{'calls' if stem == 'lib' else stem}"
            made[f"{name}.rt"] = HEAD.format(place) + "\n".join(lines) + "\n\n" + "\n\n".join(said) + "\n"
    return {"lib.rt": LIB + "".join(f"pub mod {name[:-3]};\n" for name in sorted(made)), **made}
