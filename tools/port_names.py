#!/usr/bin/env python3
"""Brings this repository's own names to today's spelling, once, after port.py and before any edit by hand.

usage: python3 tools/port_names.py [--list]     at the top of the repository; --list prints the names alone

1. Laws that edits of definitions lean on move from specs/ to proofs/: the folders of MOVED, with their import paths.
2. Definitions, lemmas, fields and aliases: `votersFor` is `voters_for`, `quorums-meet` is `quorums_meet`. A dash stays
   where it joins a name to what is said of it (`wordsBytes-length` is `words_bytes-length`). Types and modules keep
   their spelling, and so does all that is not defined here.
Functions of src/, exported names, strings, inputs and outputs are not touched.
"""

import os
import re
import subprocess
import sys

MOVED = ["protocol", "agreement", "call_laws", "observer_laws", "paper", "answers", "packing"]
WRITTEN = ("restated", "restated_calls")  # written by tests/restated from docs/statements
TOKEN = re.compile(r"[^\s(){}\[\],;.:\"`|@&*]+")
SIGNATURE = re.compile(r"^\s*(?:(?:abbrev|unfoldable|opaque|pub)\s+)*((?:[^\s(){}\[\],;.:\"`]+\s+)+):(?:\s|$)")
KEYWORDS = {"record", "data", "module", "use", "open", "let", "in", "where", "mod", "import", "pub", "abbrev", "unfoldable", "syntax", "infixl", "infixr", "infix", "λ", "→", "ruleset", "instance"}
HUMP = re.compile(r"[a-z0-9][A-Z]")
WORD = re.compile(r"^[A-Za-zα-ωΑ-Ω][\w'\-·≢≡₀-₉α-ωΑ-Ω]*$")


def files(top, *endings):
    for folder, dirs, names in os.walk(top):
        dirs[:] = sorted(d for d in dirs if d not in ("out", ".git", "target"))
        for name in sorted(names):
            if name.endswith(endings):
                yield os.path.join(folder, name)


def read(path):
    with open(path, encoding="utf-8") as f:
        return f.read()


def write(path, text):
    with open(path, "w", encoding="utf-8") as f:
        f.write(text)


def of_a_function(path):
    """Whether a file is the proof of one function, whose names rattle makes."""
    return "/proofs/" in path and (path.endswith("/Proof.antt") or "/Proof/" in path)


def code(line):
    """A line of antt without its comment."""
    at = line.find("--")
    while at > 0 and not line[at - 1].isspace():
        at = line.find("--", at + 1)
    return line if at < 0 else line[:at]


def snake(part):
    return re.sub(r"(?<=[a-z0-9])([A-Z])", lambda m: "_" + m.group(1).lower(), part)


def spelled(name):
    parts = name.split("-")
    humps = [bool(HUMP.search(p)) or p[:1].isupper() for p in parts]
    parts = [p if p[:1].isupper() else snake(p) for p in parts]
    return ("-" if any(humps) else "_").join(parts).replace("·", "-")


def imported(text, own):
    """The names that a file has from elsewhere."""
    found = set()
    for path, names in re.findall(r"(?m)^\s*(?:ghost |pub )*use\s+([^\s{;]+?)\.?\{([^}]*)\}", text):
        if path.startswith("Rattle.") and path.split(".")[1] in own:
            continue
        for item in names.split(","):
            found.add(item.strip().split(" as ")[-1].strip())
    return found


def defined(path):
    found = set()
    text = read(path)
    for line in text.split("\n"):
        m = SIGNATURE.match(code(line))
        if m:
            names = m.group(1).split()
            if not any(n in KEYWORDS for n in names):
                found.update(n for n in names if WORD.match(n))
    for alias in re.findall(r"\bas ([a-z][\w\-']*)", "\n".join(l for l in text.split("\n") if re.match(r"\s*(ghost |pub )*use ", l))):
        found.add(alias)
    return found


def table(own):
    names = set()
    for path in files("crates", ".antt"):
        if not of_a_function(path) and path.split("/")[1] not in WRITTEN:
            names |= defined(path)
    for path in files("crates", ".rt"):
        for alias in re.findall(r"(?m)^\s*ghost use .*?\bas ([a-z][\w\-']*)", read(path)):
            names.add(alias)
    back = {}
    for name in sorted(names):
        back.setdefault(spelled(name), []).append(name)
    to = {}
    for new, old in back.items():
        # a lemma that would have its function's name gets `_lem`
        camel = [n for n in old if HUMP.search(n)]
        first = camel[0] if camel else [n for n in old if "-" not in n][0] if len(old) > 1 else old[0]
        for name in old:
            to[name] = new if name == first else new + "_lem"
    return names, {a: b for a, b in to.items() if a != b}


def turned(text, to, skip, fields_too=True, comments=True):
    def one(m, line):
        word = m.group(0)
        if word not in to or word in skip:
            return word
        if not fields_too and not HUMP.search(word) and m.start() > 0 and line[m.start() - 1] == ".":
            return word
        return to[word]

    lines = []
    for line in text.split("\n"):
        lines.append(TOKEN.sub(lambda m, line=line: one(m, line), line))
    return "\n".join(lines)


def comment_safe(text, to, skip, mark, fields_too=True):
    """As `turned`, but in comments a word with dashes is a name only between backticks."""
    plain = {k: v for k, v in to.items() if "-" not in k}
    lines = []
    for line in text.split("\n"):
        at = line.find(mark)
        while at > 0 and not line[at - 1].isspace():
            at = line.find(mark, at + 1)
        head, tail = (line, "") if at < 0 else (line[:at], line[at:])
        pieces = tail.split("`")
        tail = "`".join(turned(p, to if i % 2 else plain, skip) for i, p in enumerate(pieces))
        lines.append(turned(head, to, skip, fields_too) + tail)
    return "\n".join(lines)


def move_laws():
    for crate in MOVED:
        specs, proofs = f"crates/{crate}/specs", f"crates/{crate}/proofs"
        if not os.path.isdir(f"{specs}/Laws"):
            continue
        os.makedirs(proofs, exist_ok=True)
        for what in ("Laws", "Laws.antt"):
            if os.path.exists(f"{specs}/{what}"):
                subprocess.run(["git", "mv", f"{specs}/{what}", f"{proofs}/{what}"], check=True)
        lib = read(f"{specs}/Lib.antt")
        line = "pub mod Laws\n"
        write(f"{specs}/Lib.antt", lib.replace(line, ""))
        had = read(f"{proofs}/Lib.antt") if os.path.exists(f"{proofs}/Lib.antt") else "-- What is proved of the definitions in specs/: nothing here has to be believed.\n"
        write(f"{proofs}/Lib.antt", had + (line if line not in had else ""))
    paths = [(f"Rattle.{c}.specs.Laws", f"Rattle.{c}.proofs.Laws") for c in MOVED]
    for path in files("crates", ".antt", ".rt"):
        text = read(path)
        new = text
        for a, b in paths:
            new = new.replace(a, b)
        if new != text:
            write(path, new)
    for crate in MOVED:
        for top in (f"crates/{crate}/must-fail", f"tests/edits/{crate}"):
            for path in files(top, ".edit"):
                text = read(path)
                new = text.replace("file: specs/Laws/", "file: proofs/Laws/")
                for a, b in paths:
                    new = new.replace(a, b)
                if new != text:
                    write(path, new)


def main(argv):
    own = set(os.listdir("crates"))
    names, to = table(own)
    back = {}
    for name in names:
        back.setdefault(to.get(name, name), set()).add(name)
    together = {new: old for new, old in back.items() if len(old) > 1}
    for new, old in sorted(together.items()):
        print("falls together:", new, "from", " ".join(sorted(old)), file=sys.stderr)
    if "--list" in argv:
        for name in sorted(to):
            print(f"{name}\t{to[name]}")
        return 0
    if together:
        print("names fall together: give them apart in APART", file=sys.stderr)
        return 1
    move_laws()
    for path in files("crates", ".antt", ".rt"):
        if path.split("/")[1] in WRITTEN:
            continue
        text = read(path)
        skip = imported(text, own)
        if path.endswith(".rt"):
            skip |= {w for w in to if not HUMP.search(w)}
        new = comment_safe(text, to, skip, "//" if path.endswith(".rt") else "--", not of_a_function(path))
        if new != text:
            write(path, new)
    return 0


if __name__ == "__main__":
    raise SystemExit(main(sys.argv[1:]))
