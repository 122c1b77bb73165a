"""Files of specs/ and of the kit's libraries, read for their imports, their declarations and the names that they use.

What is not read here is refused (`Unreadable`), so that no form of the language hides a meaning from tests/statements.
"""
import itertools
import re

from imports import Use, unbent
from layout import Layout
from words import Unreadable, Words, readable, uncommented

FIXITY = r" *infix[lr]? \d+ "
MARKS = {"pattern", "unfoldable", "abbrev", "axiom", "pub", "data", "record"}
HEADER = re.compile(r"(?:(?:unfoldable|pub|ghost) )*(?:use|mod)\b")


def outside(line):
    """The words of a line that stand in no bracket."""
    while re.search(r"[({][^(){}]*[)}]", line):
        line = re.sub(r"[({][^(){}]*[)}]", " ", line)
    return re.split(r"[({]", line)[0].split()


def signed(line):
    """The names that a line declares: those before a colon that stands before any `=`."""
    words = outside(uncommented(line))
    names = list(itertools.dropwhile(MARKS.__contains__, words))
    if len(names) == len(words) and (":" not in words or "=" in words[: words.index(":")]):
        return []
    names = names[: names.index(":")] if ":" in names else names
    return [name.strip("«»") for name in names if name != "where"]


class Declaration:
    """A declaration with the comment above it and the parameters of the sections that it stands in."""

    def __init__(self, file, under, indent, comment):
        self.file, self.under, self.indent = file, under, indent
        self.lines, self.names, self.fields, self.fixity = list(comment), [], set(), False
        self.block, self.clauses = False, False

    def opens(self, line):
        """Takes the first line; lines below may declare names too: constructors, fields, a block."""
        self.lines.append(line)
        self.names = signed(line)
        self.block = bool(re.match(r" *(pub )?(data|record|mutual)\b", line))

    def inner(self, line):
        """Constructors, fields, and what a block or a `deriving` declares."""
        names = [line.split()[-1]] if line.split()[0] == "deriving" else signed(line)
        self.names.extend(names)
        if any(re.match(r" *(pub )?record\b", row) for row in self.lines):
            self.fields.update(names)
        return names

    def clause(self, line):
        """Whether a line begins a clause of what is declared, under its name or by an operator's parts."""
        words = outside(uncommented(line))
        left = Words(" ".join(words[: words.index("=")] if "=" in words else []))
        self.clauses = self.clauses or any(left.use(name) for name in self.names)
        return any(left.use(name) for name in self.names)

    def statement(self):
        """The signature alone: of a theorem, whose proof says nothing about what it states."""
        first = next(i for i, line in enumerate(self.lines) if not line.lstrip().startswith("--"))
        inner = " " * (self.indent + 1)
        closing = tuple(" " * self.indent + bracket for bracket in ")}")
        rest = (i for i, line in enumerate(self.lines) if i > first and line and not line.startswith((inner, *closing)))
        return self.lines[: next(rest, len(self.lines))]

    def text(self, whole=True):
        lines = self.lines if whole else self.statement()
        return "\n".join(lines).rstrip()

    def words(self, whole=True):
        """A fixity line may be that of several operators, of which it needs none."""
        if self.fixity:
            return Words("")
        return Words(uncommented("\n".join(self.under) + "\n" + self.text(whole)))


class Passing(Declaration):
    """A line by which a file passes names of another on, as if it declared them."""

    def __init__(self, file, use, line):
        super().__init__(file, [], 0, [])
        self.use, self.lines, self.names = use, [line], list(use.items)

    def words(self, whole=True):
        return Words("")


class SpecFile:
    """A file of definitions: its imports, and its declarations by each name that they bring."""

    def __init__(self, text, place, lenient=False):
        self.lenient, self.place, self.uses, self.all = lenient, place, [], []
        self.declared, self.fields, self.children = {}, {}, set()
        lines = text.splitlines()
        self.layout = None if lenient else Layout(text, place)
        self.parse(lines)
        for declaration in self.all:
            for name in declaration.names:
                known = self.fields if name in declaration.fields else self.declared
                known.setdefault(name, []).append(declaration)
        if not lenient:
            unbent(self.uses, self.declared, place)

    def header(self, line):
        if re.fullmatch(r"(pub )?mod \w+", line):
            self.children.add(line.split()[-1])
        elif not (self.lenient and line.endswith(".*")):
            self.uses.append(Use(line, self.lenient))
            if self.uses[-1].public and not self.lenient:
                self.all.append(Passing(self, self.uses[-1], line))
        if self.children and not self.lenient:
            raise Unreadable(f"{self.place}: a module of its own")

    def parse(self, lines):
        """By indentation: a section's declarations stand at its column, what belongs to one stands deeper."""
        sections, comment, now, at = [(0, [])], [], None, 0
        while at < len(lines):
            line = lines[at]
            at += 1
            indent = len(line) - len(line.lstrip())
            if self.layout:
                self.layout.line(at - 1, sections[-1][0])
            while line and indent < sections[-1][0]:
                sections.pop()
            column, under = sections[-1][0], [row for _, rows in sections for row in rows]
            if not line:
                now and now.lines.append(line)
                now and now.lines.extend(comment)
                comment = []
            elif HEADER.match(line):
                self.header(line)
            elif re.match(r" *module\b", line):
                end, inner = self.section(lines, at - 1)
                sections.append((inner, comment + lines[at - 1 : end]))
                at, comment, now = end, [], None
            elif line.lstrip().startswith("--") and indent == column:
                now = None if now and not now.lines[-1] else now
                comment.append(line)
            elif indent == column and (signed(line) or re.match(FIXITY + r"| *(open |mutual\b)", line)):
                now = self.begun(Declaration(self, under, column, comment), line)
                comment = []
            elif now is not None or not self.lenient:
                self.belongs(now, line, column)
                now.lines.extend(comment + [line])
                comment = []

    def section(self, lines, at):
        """The line behind the head of a section, which ends in `where`, and the column of what stands in it."""
        end = next((i for i in range(at, len(lines)) if uncommented(lines[i]).split()[-1:] == ["where"]), None)
        head = uncommented("\n".join(lines[at : end + 1])) if end is not None else ""
        if not self.lenient and (head.split()[:2] != ["module", "_"] or Words(head).plain >= {"=", "where"}):
            raise Unreadable(f"{self.place}: the head of a section that is not read: {lines[at]}")
        if self.layout and end is not None:
            self.layout.head(at, end)
        last = lines[end or at] if head.split("\n")[-1].strip() == "where" else lines[at]
        return (end or at) + 1, len(last) - len(last.lstrip()) + 2

    def begun(self, now, line):
        """Takes the first line of a declaration. Fixity lines are of each operator that they name."""
        words = line.split()
        now.opens(line)
        self.all.append(now)
        if not self.lenient and {words[0], *now.names[:1]} & {"open", "mutual", "ruleset"}:
            raise Unreadable(f"{self.place}: a form that is not read: {line}")
        if re.match(FIXITY, line):
            now.names, now.fixity = uncommented(line).split()[2:], True
        elif words[0] == "open":
            found = re.search(r"using \((.*)\)", line)
            now.names = [item.split(" as ")[-1].strip() for item in found[1].split(",")] if found else []
        if self.layout:
            self.layout.opened(now, line)
        return now

    def belongs(self, now, line, column):
        """What follows a signature at its column is `unfolding ..`, a clause or its end; the rest stands deeper."""
        indent = len(line) - len(line.lstrip())
        names = now.inner(line) if now is not None and now.block and indent == column + 2 else []
        if self.lenient:
            return
        if now is None or now.indent != column or (now.fixity and not line.lstrip().startswith("--")):
            raise Unreadable(f"{self.place}: a line of another form: {line}")
        if indent > column:
            self.layout.inside(now, line, indent, names)
        elif not re.match(r" *unfolding ", line) and not self.layout.closes(now, line) and not now.clause(line):
            raise Unreadable(f"{self.place}: a line of another form: {line}")

    def find(self, name):
        return self.declared.get(name) or self.fields.get(name) or []

    def passes_on(self, name):
        """Where a name that is not declared here comes from, if an import brings it."""
        return next(((use.module, use.items[name]) for use in self.uses if name in use.items), None)
