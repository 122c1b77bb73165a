"""The public functions of a crate with their contracts, and the types of its src/, read from its files.

What is not read here is refused (`Unreadable`): a file of src/ is imports, modules, functions, types, and blocks of
methods (`impl`, `trait`), and nothing is left over. A block's functions and ghost members are read as any other; an
`impl Model` changes what clauses see of its type, and so belongs to the type. Where others can call them, there are no
methods.
"""
import re

from imports import Use, unbent
from words import Unreadable, Words, readable

# the crates whose public functions are for others to call
PUBLIC = ("replica", "observer", "replica_c", "sha256", "sha256_c")


def public(root):
    """These, and the static libraries of crates.txt, which are for programs in other languages to call."""
    path = root / "crates.txt"
    text = path.read_text() if path.exists() else ""
    return (*PUBLIC, *(name for name in re.findall(r"^(\w+) staticlib\b", text, re.M) if name not in PUBLIC))


ITEM = re.compile(
    r"^[ ]*(?:(?P<pub>pub )|pub\((?:crate|super)\) )?(?P<extern>extern \"C\" )?(?P<sort>fn|enum|struct|type|const) (?P<name>\w+)", re.M)
# what may stand above an item; a hint for the prover says nothing of what is promised
HINT = r"[ ]*#\[(?:tactic|cycle|inline)\b[^\[\]]*\]\n"
ATTRIBUTE = rf"{HINT}|[ ]*#\[(?:unsafe\(no_mangle\)|derive\([\w, ]*\)|test)\]\n"
HEAD = re.compile(rf"(?:^(?:[ ]*//.*\n|{ATTRIBUTE}))*\Z", re.M)
CLAUSE = re.compile(r"(?:^|\s)(requires|ensures|ghost|measure|decreases)(\*?)(?:\s+\w+:?)?\s*$")
IMPORT = re.compile(r"^(pub )?use ([\w:]+?)(?:::\{([^{}]*)\})?(?: as (\w+))?;$")
NAMED = re.compile(r"(\w+(?:::\w+)*)(?: as (\w+))?")
OUTER = re.compile(r"^(?:(?:pub )?use [\w:]+::\{[^{};]*\};$|(?:ghost use|(?:pub )?use|(?:pub )?mod) .*"
                   r"|#!\[tactic\([^\[\]]*\)\]$)", re.M)
# methods: of a type, of a trait for a type, of a trait
BLOCK = re.compile(r"^(?P<pub>pub )?(?P<sort>impl|trait)\b(?P<head>[^{;]*)\{", re.M)
MODEL = re.compile(r"(?:<[^<>]*>)?\s*Model for (\w+)")
# what a block has beside functions: an associated type or constant, and ghost members with a value, a type or both
MEMBER = re.compile(r"^[ ]*(?:type \w+(?:(?: =|:) [^;{}]*)?|const \w+: [^;{}]*|(?P<ghost>ghost \w+(?:: \{|(?= = \{)| = \{)))", re.M)
GHOST_FIELD = re.compile(r"^[ ]*(?:pub )?ghost \w+: \{", re.M)
MODULE = re.compile(r"(pub )?mod (\w+);")
LITERAL = re.compile(r"//.*|b?\"(?:\\.|[^\"\\\n])*\"|b?'(?:\\[^\n]|[^'\\\n])'")
# in a signature: each word but a lifetime, a number, and the name of a parameter or a field
TYPE = re.compile(r"(?<![\w':])[A-Za-z_]\w*(?:::\w+)*\b(?!\s*:)")
# what antt and the scripts could divide in different ways: no contract has it
UNREAD = re.compile(r"--|\{-|[\"']|\bpackage\b")

# each file that was read, by its place and its text: a trial changes few of them
READ = {}


def blanked(text):
    """The text with its comments, quoted texts and signs blanked, each place kept; but not the name of C."""
    return LITERAL.sub(lambda m: m[0] if m[0] == '"C"' else re.sub(r"[^\n]", " ", m[0]), text)


def closing(text, at):
    """The place behind the brace that closes the one at `at`."""
    depth = 0
    for i in range(at, len(text)):
        depth += {"{": 1, "}": -1}.get(text[i], 0)
        if depth == 0:
            return i + 1
    raise Unreadable("a brace that nothing closes")


class Item:
    """A function up to its body, with the comment and the attributes above it, or a type."""

    def __init__(self, file, text, bare, m):
        self.file, self.name, self.names, self.sort = file, m["name"], [m["name"]], m["sort"]
        self.public, self.exported = bool(m["pub"]), bool(m["extern"])
        self.clauses, self.types = [], set()
        end = self.function(bare, m.end()) if self.sort == "fn" else self.type_of(bare, m.end())
        self.start = HEAD.search(text, 0, m.start()).start()
        self.whole = re.sub(rf"^{HINT}", "", text[self.start : end], flags=re.M).rstrip()
        self.signature = bare[m.end() : end]
        self.body = bare[end : closing(bare, end)] if self.sort == "fn" and bare[end] == "{" else ""
        self.end = end + len(self.body)
        self.used = Words(" ".join(body for sort, body in self.clauses))

    def function(self, text, at):
        """The signature is the language's own; what stands in a clause's braces is antt's."""
        signature = True
        while True:
            brace = re.compile(r"[{;](?![^\[]*\])").search(text, at).start()
            clause = CLAUSE.search(text[at:brace])
            between = text[at : at + clause.start() if clause else brace]
            if signature:
                self.types.update(TYPE.findall(between))
            elif between.strip():
                self.refuse(between)
            if not clause:
                return brace
            if clause[2]:
                self.refuse(clause[0])
            at, signature = closing(text, brace), False
            self.clauses.append((clause[1], text[brace + 1 : at - 1].strip()))
            if UNREAD.search(self.clauses[-1][1]):
                self.refuse(self.clauses[-1][1])

    def refuse(self, what):
        raise Unreadable(f"{self.file.place}: a contract of {self.name} that is not read: {what.strip()}")

    def type_of(self, text, at):
        """The types of fields, of what a variant carries, of a constant; a ghost field's fact is a clause."""
        end = re.compile(r"[{;](?![^\[\n]*\])").search(text, at).start()
        end = closing(text, end) if text[end] == "{" else end + 1
        text = text[:at] + self.without_facts(text[at:end]) + text[end:]
        variants = r"\w+(?=\s*(?:[,}(]|\{))" if self.sort == "enum" else r"(?!)"
        inner = re.sub(r"\bpub\b(?:\(\w+\))?", "", text[at:end])
        inner = re.sub(r"\([^()]*\)", lambda m: m[0].replace(",", ";").replace(")", ";"), inner)
        self.types.update(TYPE.findall(re.sub(variants, "", inner).partition("=")[0]))
        return end

    def without_facts(self, text):
        """The text of a type with its ghost fields blanked, which are kept as clauses."""
        for m in reversed([*GHOST_FIELD.finditer(text)]):
            end = closing(text, m.end() - 1)
            self.clauses.append(("ghost", text[m.end() : end - 1].strip()))
            text = text[: m.start()] + " " * (end - m.start()) + text[end:].replace(",", " ", 1)
        return text

    def text(self, whole=True):
        return self.whole

    def words(self, whole=True):
        return self.used

    def demands(self):
        """The clauses by which the function asks something of its caller."""
        return [body for sort, body in self.clauses if sort == "requires"]


class Block:
    """Methods: of a type, of a trait for a type, or a trait's own."""

    def __init__(self, file, text, bare, m):
        self.file, self.sort, self.head, self.public = file, m["sort"], " ".join(m["head"].split()), bool(m["pub"])
        self.end = closing(bare, m.end() - 1)
        self.start = HEAD.search(text, 0, m.start()).start()
        self.whole = re.sub(rf"^{HINT}", "", text[self.start : self.end], flags=re.M).rstrip()
        model = MODEL.fullmatch(self.head) if self.sort == "impl" else None
        self.model, self.first, inside = model and model[1], m.start(), bare[m.end() : self.end - 1]
        cut = bare[: self.end - 1]
        self.items = [Item(file, text, cut, one) for one in ITEM.finditer(cut, m.end()) if one["sort"] == "fn"]
        self.facts = []
        self.covered(m.end(), inside)

    def covered(self, at, inside):
        """Functions, associated types and ghost members are the whole block."""
        for item in reversed(self.items):
            inside = inside[: item.start - at] + inside[item.end - at :]
        for m in reversed([*MEMBER.finditer(inside)]):
            end = m.end()
            while m["ghost"] and re.match(r"\s*(?:= )?\{", inside[end - 1 :] if inside[end - 1] == "{" else inside[end:]):
                brace = inside.index("{", end - 1)
                end = closing(inside, brace)
                self.facts.append(inside[brace + 1 : end - 1].strip())
            inside = inside[: m.start()] + inside[end:]
        left = inside.replace(";", " ").split()
        if left:
            raise Unreadable(f"{self.file.place}: what is no member of a block: {' '.join(left[:8])}")


class SourceFile:
    """A file of src/: its imports, the modules that it names, its functions and types, and blocks of methods."""

    def __init__(self, text, place):
        self.place, self.uses, self.imports, self.modules = place, [], [], {}
        readable(text, place)
        bare = blanked(text)
        for line in OUTER.findall(bare):
            self.takes(line.rstrip())
        if re.search(r"^(?:unsafe|[ ]+(?:pub |unsafe )*)(?:impl|trait)\b", bare, re.M):
            raise Unreadable(f"{place}: methods, or a trait, in another form")
        self.blocks = [Block(self, text, bare, m) for m in BLOCK.finditer(bare)]
        self.items = [Item(self, text, bare, m) for m in ITEM.finditer(bare) if not self.in_block(m.start())]
        self.covered(bare)
        for block in self.blocks:
            self.seen_otherwise(block)
        brought = [*(short for *_, short in self.imports), *self.modules, *(item.name for item in self.items)]
        twice = [name for name in brought if brought.count(name) > 1]
        if twice:
            raise Unreadable(f"{place}: two things of one name: {twice[0]}")
        if {"Option", "Result"} & set(brought):
            raise Unreadable(f"{place}: a type of its own with the name of the language's Option or Result")
        unbent(self.uses, [], place)
        for line, _, path, _ in self.imports:
            if path[0] in brought and path[0] not in self.modules:
                raise Unreadable(f"{place}: a name that is the first word of a path, which it would bend: {path[0]}")

    def in_block(self, at):
        return any(block.first <= at < block.end for block in self.blocks)

    def seen_otherwise(self, block):
        """An `impl Model` stands beside its type, whose text it joins."""
        of = [item for item in self.items if item.name == block.model]
        if block.model and len(of) != 1:
            raise Unreadable(f"{self.place}: a model of a type that is not in this file: {block.model}")
        for item in of:
            item.whole += "\n\n" + block.whole
            item.used = Words(" ".join([*(body for _, body in item.clauses), *block.facts]))

    def covered(self, bare):
        """Imports, modules, functions, types and blocks are the whole file."""
        for item in sorted([*self.items, *self.blocks], key=lambda one: one.start, reverse=True):
            bare = bare[: item.start] + bare[item.end :]
        left = OUTER.sub("", bare).split()
        if left:
            raise Unreadable(f"{self.place}: what is no import, module, function or type: {' '.join(left[:8])}")

    def takes(self, line):
        """An import, of antt's names or of the code's, or a module; a hint for the prover is none."""
        if line.startswith("#!"):
            return
        if line.startswith("ghost "):
            self.uses.append(Use(line))
            return
        m, module = IMPORT.match(line), MODULE.fullmatch(line)
        if module:
            self.modules[module[2]] = bool(module[1])
        elif m and not (m[3] is not None and m[4]):
            items = [item.strip() for item in m[3].split(",") if item.strip()] if m[3] is not None else [""]
            for item in items:
                self.brings(m[1] or "", f"{m[2]}::{item}" if item else m[2] + (f" as {m[4]}" if m[4] else ""))
        else:
            raise Unreadable(f"{self.place}: an import of another form: {line}")

    def brings(self, public, item):
        """A name that an import of the code brings, each as if it stood on a line of its own."""
        named = NAMED.fullmatch(item)
        if not named or named[1].split("::")[-1] == "self":
            raise Unreadable(f"{self.place}: an import of another form: {public}use {item};")
        path = named[1].split("::")
        self.imports.append((f"{public}use {item};", bool(public), path, named[2] or path[-1]))

    def find(self, name):
        return [item for item in self.items if item.name == name]

    def passes_on(self, name):
        return None


class Crate:
    """The files of a crate's src/, and which of its functions others can call."""

    def __init__(self, folder):
        self.folder, self.name, self.files = folder, folder.name, {}
        for path in sorted((folder / "src").glob("*.rt")):
            place = f"crates/{self.name}/src/{path.name}"
            text = path.read_text()
            if (place, text) not in READ:
                READ[place, text] = SourceFile(text, place)
            self.files[path.stem] = READ[place, text]
        deeper = [p for p in (folder / "src").glob("*/**/*.rt")]
        if deeper:
            raise Unreadable(f"{deeper[0]}: a file in a folder of src/")
        for file in self.files.values():
            for name in file.modules:
                if name != self.name and (folder.parent / name).is_dir():
                    raise Unreadable(f"{file.place}: a module with a crate's name, whose paths it would bend: {name}")

    def functions(self):
        """Each function that others can call, by its path: of a public module, passed on by one, or exported."""
        root, found = self.files.get("lib"), {}
        if root is None:
            raise Unreadable(f"crates/{self.name}: no src/lib.rt")
        for stem, file in self.files.items():
            if file.blocks:
                raise Unreadable(f"{file.place}: methods, or a trait, in a crate whose calls others make")
            path = [self.name] if stem == "lib" else [self.name, stem]
            open_to_all = stem == "lib" or root.modules.get(stem, False)
            here = [(item.name, item) for item in file.items
                    if item.sort == "fn" and (item.exported or (item.public and open_to_all))]
            for name, item in [*here, *(self.passed_on(file) if open_to_all else ())]:
                key = "::".join([*path, name])
                if found.setdefault(key, item) is not item:
                    raise Unreadable(f"{file.place}: two functions of the path {key}")
        return found

    def passed_on(self, file):
        """The functions that a `pub use` passes on, of a private module or of another crate, by their names here."""
        for line, public, path, short in file.imports:
            if public:
                if path[0] in ("self", "super") and file is not self.files["lib"]:
                    raise Unreadable(f"{file.place}: it passes on a name in another form: {line}")
                yield from (("::".join([short, *rest]), item) for rest, item in self.leads(path, line))

    def leads(self, path, line):
        """Where a path leads: to a function, to the public ones of a module, or to none where it is that of a type."""
        first, *rest = path
        if first not in ("crate", "self") and first not in self.files:
            beside = self.folder.parent / first
            if not (beside / "src").is_dir():
                raise Unreadable(f"crates/{self.name}: it passes on what is in no crate here: {line}")
            return Crate(beside).leads(["crate", *rest], line)
        *module, name = rest if first in ("crate", "self") else path
        if not module and name in self.files:
            return [([item.name], item) for item in self.files[name].items if item.sort == "fn" and item.public]
        file = self.files.get(module[0] if module else "lib")
        found = file.find(name) if file and len(module) < 2 else []
        imports = file.imports if file else []
        passed = [(other, again) for again, public, other, short in imports if public and short == name]
        if not found and len(passed) != 1:
            raise Unreadable(f"crates/{self.name}: it passes on a name that is not found: {line}")
        return [([], item) for item in found if item.sort == "fn"] if found else self.leads(*passed[0])
