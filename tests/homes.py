"""Where edits that must fail stand: how dear their crates are, and which public contracts they bear on."""
import re

from contracts import ITEM, PUBLIC, Crate, public
from specs import Unreadable

# CPU seconds that a crate with edits may take, if docs/seconds.txt makes no exception of it
MOST = 6.0
HEAD = """# CPU seconds, user and system, that a check of each crate takes alone, in the order of crates.txt: on the toolchain
# before today's, but for crates that came since. An edit that must fail costs as much as its crate at most.
# tests/check-seconds writes the seconds; tests/gate-rules holds the file to the crates: one with edits takes 6 at most,
# or its line says how many edits it may have, and why.
"""


def crates(root):
    """The crates of crates.txt, each with those that it rests on."""
    lines = [line.split("#")[0] for line in (root / "crates.txt").read_text().splitlines()]
    return {name.split()[0]: rest.split() for name, sign, rest in (line.partition(":") for line in lines) if sign}


def edits_of(root, crate):
    return sorted((root / "crates" / crate / "must-fail").glob("*.edit"))


def seconds(root):
    """The seconds of each crate as docs/seconds.txt has them, with the exception behind them."""
    path, found = root / "docs" / "seconds.txt", {}
    for line in path.read_text().splitlines() if path.exists() else []:
        m = re.fullmatch(r"(\w+) +(\d+\.\d)(?:  (\d+ edits?: \S.*))?", line)
        if m:
            found[m[1]] = (float(m[2]), m[3] or "")
    return found


def cost(root):
    """The CPU seconds of all proofs and of all edits, by docs/seconds.txt."""
    table = seconds(root).items()
    return sum(took for _, (took, _) in table), sum(took * len(edits_of(root, name)) for name, (took, _) in table)


def dear(root):
    """Crates whose edits cost more than they may, and lines of docs/seconds.txt that are not of the crates."""
    table, listed = seconds(root), crates(root)
    yield from (f"docs/seconds.txt: it has no seconds of {name}" for name in listed if name not in table)
    yield from (f"docs/seconds.txt: {name} is no crate of crates.txt" for name in table if name not in listed)
    for name, (took, exception) in table.items():
        count, may = len(edits_of(root, name)), int((exception or "0").split()[0])
        if took > MOST and count > may:
            yield f"crates/{name}/must-fail: {count} edits at {took} CPU seconds each, and {may} may take above {MOST:g}"
        if exception and (took <= MOST or count < may):
            yield f"docs/seconds.txt: {name} has {count} edits at {took} CPU seconds, and the exception is for {may}"


# ---- the edits of a public contract
ROW = re.compile(r"^\| `([\w:]+)` \| ((?:`[^`]+`(?:, )?)+) \|$", re.M)
CALL = re.compile(r"\b((?:\w+::)*\w+)(?:::<[^<>()]*>)?\(")


class Code:
    """The functions of the crates by crate, file and name, and which a function reaches by its calls."""

    def __init__(self, root):
        self.root, self.crates = root, {}

    def file(self, crate, stem):
        if crate not in self.crates:
            folder = self.root / "crates" / crate
            self.crates[crate] = Crate(folder) if (folder / "src").is_dir() else None
        return self.crates[crate] and self.crates[crate].files.get(stem)

    def function(self, path):
        """The place of the function that a whole path names: crate, file, name."""
        stem = path[1] if len(path) == 3 else "lib"
        file = len(path) in (2, 3) and self.file(path[0], stem)
        if not file:
            return None
        if any(item.sort == "fn" for item in file.find(path[-1])):
            return path[0], stem, path[-1]
        passed = [other for _, public, other, short in file.imports if public and short == path[-1]]
        return self.function([path[0], *(passed[0][1:] if passed[0][0] == "crate" else passed[0])]) if passed else None

    def calls(self, at):
        """The functions that a function calls."""
        crate, stem, name = at
        file = self.file(crate, stem)
        imports = {short: path for _, _, path, short in file.imports}
        for item in file.find(name):
            for path in (called.split("::") for called in CALL.findall(item.body)):
                whole = [*imports.get(path[0], path[:1]), *path[1:]]
                if len(whole) == 1:
                    whole = [crate, stem, *whole] if stem != "lib" else [crate, *whole]
                found = self.function([crate, *whole[1:]] if whole[0] == "crate" else whole)
                if found:
                    yield found

    def reached(self, start):
        seen, todo = set(), [start]
        while todo:
            at = todo.pop()
            if at not in seen:
                seen.add(at)
                todo += self.calls(at)
        return seen


def changed(path):
    """The functions that an edit changes: those in which its old texts stand, or all of a file where it is none's."""
    crate, source, found = path.parts[-3], None, set()
    for line in path.read_text().splitlines():
        sort, _, rest = line.partition(": ")
        if sort == "file":
            source = path.parent.parent / rest
        elif sort == "old" and source.parent.name == "src" and source.exists():
            text = source.read_text()
            starts = [(m.start(), m["name"]) for m in ITEM.finditer(text) if m["sort"] == "fn"]
            above = [name for at, name in starts if at <= text.find(rest)]
            found |= {(crate, source.stem, name) for name in (above[-1:] or [name for _, name in starts])}
    return found


def public_functions(root):
    """The functions for others to call, each with its place and how many edits it must have: a constant one."""
    for name in public(root):
        crate = Crate(root / "crates" / name)
        for path, item in crate.functions().items():
            _, own, _, file = item.file.place.split("/")
            yield path, (own, file.removesuffix(".rt"), item.name), 1 if item.signature.lstrip().startswith("()") else 2


def few_edits(root):
    """Public contracts that fewer than two edits bear on, of those that their row of ACCEPTANCE names.

    An edit bears on a contract where it changes a function that the public one reaches by its calls. A function of a
    static library has the row of the library's function of its name, which it calls."""
    rows = dict(ROW.findall((root / "docs" / "ACCEPTANCE.md").read_text()))
    edits = [path for name in crates(root) for path in edits_of(root, name)]
    named = {f"{path.parts[-3]} {path.stem}": path for path in edits}
    for path in edits:
        named[path.stem] = None if path.stem in named else path
    code = Code(root)
    try:
        functions = list(public_functions(root))
        for name, place, wanted in functions:
            row = rows.get(name, "")
            if place[0] not in PUBLIC:
                row = next((rows[other] for other in rows if other.split("::")[-1] == place[-1]), "")
            found = [named.get(word) for word in dict.fromkeys(re.findall(r"`([^`]+)`", row))]
            reached = code.reached(place)
            bear = [path for path in found if path and changed(path) & reached]
            if len(bear) < max(wanted, len(found)):
                yield f"docs/ACCEPTANCE.md: {name} has {len(bear)} edits that bear on it, of {max(wanted, len(found))}"
    except Unreadable as what:
        yield f"the edits of public contracts cannot be looked at: {what}"
