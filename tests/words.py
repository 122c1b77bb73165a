"""The signs and the names of the crates' texts: which may stand there, and which names a text uses."""
import re

# beyond those of ASCII, the signs that a text may have: another might look like one of these, or not be seen at all
SIGNS = set("×Σλσᴰᵢ₀₁₂₃₄₅₆₇₈₉₋ₕℓℕ←→↔↦−∙∷≡≢≤⊎⊕⊥¬◌⊤")
# antt's names: any run of characters but these; `a.b` goes through a module or to a field
PART = r"[^\s(){}.;,@\"«»]+"
NAME = r"(?:«[^»]*»|%s)" % PART
WORD = re.compile(r"(?P<field>(?<![^\s(){};,@])\.)?(?P<path>%s(?:\.%s)*)" % (NAME, NAME))
# a comment begins where a name may begin: `a--b` is a name
COMMENT = re.compile(r"(?<![^\s(){}.;,@])--.*")


class Unreadable(Exception):
    """A form that these scripts do not read."""


def readable(text, place):
    """No sign but those that are known: so there is one spelling for a name, and nothing that a reader does not see."""
    for sign in text:
        if not (" " <= sign <= "~" or sign == "\n" or sign in SIGNS):
            raise Unreadable(f"{place}: a sign that is not known here, which may look like another: U+{ord(sign):04X}")


def uncommented(text):
    return COMMENT.sub("", text)


class Words:
    """The names of a text: those that stand by themselves, fields behind a dot, and paths through a module."""

    def __init__(self, text):
        self.plain, self.fields, self.paths = set(), set(), set()
        for m in WORD.finditer(text):
            parts = [part.strip("«»") for part in re.findall(NAME, m["path"])]
            if m["field"]:
                self.fields.update(parts)
                continue
            self.plain.add(parts[0])
            self.fields.update(parts[1:])
            if parts[1:]:
                self.paths.add(tuple(parts))
        self.unsaid()

    def unsaid(self):
        """An operator with a place left open, `(◌≤ n)`, is used too; `do` is written for two that it does not name."""
        for word in [word for word in self.plain if "◌" in word]:
            self.plain.update(piece for piece in word.split("◌") if piece)
        if self.plain & {"do", "←"}:
            self.plain.update((">>=", ">>"))

    def use(self, name):
        """An operator is used under its whole name or by its parts: `◌≡◌` by `≡`."""
        pieces = [piece for piece in name.split("◌") if piece]
        return name in self.plain or bool("◌" in name and pieces and self.plain.issuperset(pieces))
