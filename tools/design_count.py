#!/usr/bin/env python3
"""Counts the places of docs/DESIGN-PASS.md in crates/*/src, point by point.

tools/design_count.py [FOLDER] [--list]   counts in FOLDER's crates (this repository's, if none is named); with --list
                                          each place too, as file:line

A place is a line that a pattern of its point fits, of code alone: remarks, contracts and imports for proofs are left
out but where a point is about contracts (5). Twins (2) are functions whose bodies read alike once names and numbers are
left out, of 12 words or more. The crates that tests/restated writes are left out.
"""
import collections
import pathlib
import re
import sys

ROOT = pathlib.Path(__file__).resolve().parent.parent
WRITTEN = ("restated", "restated_calls")
FUNCTION = re.compile(r"^( *)(?:pub(?:\([a-z]+\))? )?(?:extern \"C\" )?fn (\w+)")
CLAUSE = re.compile(r"^ *(requires|ensures)\b")

PATTERNS = {
    "1a own enums with a case for nothing or for a refusal": r"^ *(Refused\(usize\)|Nothing|Not|Unknown|Wrong\(usize\)),$",
    "1b refusals as numbers": r"Refused\(\w+\)|_refusal\(.*\) -> usize|\b(number|clash) == 0|let (number|clash) = \w+_refusal"
        r"|first_refusal\(\w",
    "1c kinds, masks and flags as numbers": r"\bkind(_of|\(frame\))? ?(==|<=|>=) ?\d|\d <= kind|kind: usize"
        r"|fn (flag|set_flag|mask_at|set_mask|join_signers|block_at)\(.*\bk: usize|flag\(book, \d|mask_at\(book, \w+, \d"
        r"|join_signers\(book, h, \d|write_plain\(\w+, \d|block_at\(book, h, \d|=> [56],",
    "1d numbers that stand for nothing": r"usize::MAX|return (16|256);|\{ 256 \}|<= ?16$|^ *16$",
    "3 loops that count by hand": r"^ *while\b",
    "4a words and bytes of a number by hand": r"/ 0x1\w*|% 256\b|256 \*|<< (24|16|8)\b|65536 \* high|wrapping_\w+_u\d",
    "4b fields named twice": r"^ *(\w+): \1,$",
    "4c tests that hand back true or false": r"^ *(true|false)$",
    "6 tables and buffers that go from call to call beside one another": r"\btable: &|\bmemory: &|\broom: &",
    "7 functions that call themselves to stay out of a frame": r"_long\(|with_room\(",
}


def sources(folder):
    for crate in sorted((folder / "crates").iterdir()):
        if crate.name not in WRITTEN and (crate / "src").is_dir():
            for path in sorted((crate / "src").rglob("*.rt")):
                yield crate.name, path


def code_lines(text):
    """The lines of code with their numbers: no remark, no import for proofs, no clause."""
    clause = 0
    for number, line in enumerate(text.splitlines(), 1):
        bare = line.split("//")[0].rstrip()
        if CLAUSE.match(bare) or clause > 0:
            clause += bare.count("{") - bare.count("}")
            continue
        if bare.strip() and not bare.startswith("ghost use"):
            yield number, bare


def bodies(text):
    """Each function's name, line and body."""
    lines = list(code_lines(text))
    for place, (number, line) in enumerate(lines):
        found = FUNCTION.match(line)
        if not found:
            continue
        body, depth, begun = [], 0, False
        for _, later in lines[place:]:
            depth += later.count("{") - later.count("}")
            if begun or "{" in later:
                body.append(later if begun else later[later.index("{"):])
                begun = True
            if begun and depth == 0:
                break
        yield found.group(2), number, " ".join(body)


def shape(body):
    words = re.findall(r"\w+|[^\w\s]", body)
    kept = {"if", "else", "match", "while", "for", "in", "let", "mut", "return", "as", "true", "false", "self"}
    return tuple(word if word in kept or not word[0].isalnum() else "x" for word in words)


def twins(folder):
    shapes = collections.defaultdict(list)
    for crate, path in sources(folder):
        for name, number, body in bodies(path.read_text()):
            words = shape(body)
            if len(words) >= 12:
                shapes[words].append(f"{path.relative_to(folder)}:{number} {name}")
    return [group for group in shapes.values() if len(group) > 1]


def facts(folder):
    """Facts in the requires of three functions or more, by their text, and in how many."""
    seen = collections.Counter()
    for _, path in sources(folder):
        for fact in re.findall(r"requires(?: \w+)? \{ ([^{}]*) \}", path.read_text()):
            seen[re.sub(r"\.(old|now)\b", "", fact)] += 1
    return [(fact, count) for fact, count in seen.most_common() if count > 2]


def main(words):
    listed = "--list" in words
    folders = [pathlib.Path(word).resolve() for word in words if word != "--list"]
    folder = folders[0] if folders else ROOT
    for title, pattern in PATTERNS.items():
        fits = re.compile(pattern)
        places = [f"{path.relative_to(folder)}:{number} {line.strip()}" for _, path in sources(folder)
                  for number, line in code_lines(path.read_text()) if fits.search(line)]
        print(f"{title}: {len(places)}")
        for place in places if listed else ():
            print(f"    {place}")
    groups = twins(folder)
    print(f"2 functions that have a twin: {sum(map(len, groups))} in {len(groups)} groups")
    for group in groups if listed else ():
        print("    " + "\n      = ".join(group))
    repeated = facts(folder)
    print(f"5 facts that three functions or more ask for: {len(repeated)}, {sum(count for _, count in repeated)} times")
    for fact, count in repeated if listed else ():
        print(f"    {count:3} {fact}")


if __name__ == "__main__":
    main(sys.argv[1:])
