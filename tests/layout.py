"""What a line of specs/ may look like, so that tests/specs.py and antt divide a file into the same declarations.

antt passes over comments and goes by columns and brackets; tests/specs.py goes by lines. Where the two could part, the
file is refused: a comment left of what it stands in, a bracket that is open where a declaration begins, a second thing
on a line.
"""
import re

from words import Unreadable, readable, uncommented

UNREAD = re.compile(r"\"|\{-|(?<![^\s(){}.;,@])package(?![^\s(){}.;,@])")


class Layout:
    """The lines of a file, met one after the other, with the brackets that are open."""

    def __init__(self, text, place):
        readable(text, place)
        self.place, self.open, self.before, self.filled = place, 0, 0, None
        self.rows = text.split("\n")
        self.code = [uncommented(row).rstrip() for row in self.rows]
        for row in self.code:
            if UNREAD.search(row):
                self.refuse("a text in quotes, a comment in braces, or the word `package`", row)

    def refuse(self, what, row):
        raise Unreadable(f"{self.place}: {what}: {row.strip()}")

    def line(self, at, column):
        """A line is met, in a section of this column: no comment cuts off what follows it, nor does an open bracket."""
        row, code = self.rows[at], self.code[at]
        indent = len(row) - len(row.lstrip())
        if row and not code:
            below = next((next_row for next_row in self.code[at:] if next_row), "")
            if indent <= column and indent < len(below) - len(below.lstrip()):
                self.refuse("a comment left of what it stands in", row)
        elif indent <= column and self.open and not code.lstrip().startswith((")", "}")):
            self.refuse("a bracket that is open where a line begins anew", row)
        self.before = self.open
        self.count(code)

    def count(self, code):
        self.open += sum(code.count(sign) for sign in "({") - sum(code.count(sign) for sign in ")}")

    def head(self, at, end):
        """The head of a section is one piece: its lines stand deeper, and its one `where` ends it."""
        indent = len(self.rows[at]) - len(self.rows[at].lstrip())
        for row in self.code[at + 1 : end + 1]:
            self.count(row)
            if row and len(row) - len(row.lstrip()) <= indent:
                self.refuse("the head of a section that is not read", row)
        if self.open or " ".join(self.code[at : end + 1]).split().count("where") != 1:
            self.refuse("the head of a section that is not read", self.rows[at])

    def opened(self, now, line):
        """The first line of a declaration; `where` ends it where lines below declare names."""
        self.filled = None
        self.where(now, line)

    def where(self, now, line):
        words = uncommented(line).split()
        if now.block and "where" in words:
            if words[-1] != "where":
                self.refuse("a constructor or a field beside `where`", line)
            self.filled = False

    def inside(self, now, line, indent, names):
        """A line within a declaration: constructors and fields stand two columns deeper, each on a line."""
        if not now.block or not uncommented(line).strip():
            return
        if self.filled is None:
            self.where(now, line)
        elif indent == now.indent + 2 and names:
            self.filled = True
        elif not self.filled or indent == now.indent + 2:
            self.refuse("a constructor or a field at another column", line)

    def closes(self, now, line):
        """A bracket that is open may close at the column; what stands behind it is still of the same piece."""
        return line.lstrip().startswith((")", "}")) and self.before > 0 or now.clauses and line.lstrip().startswith("]")
