"""How a kept text is restated for the prover: a statement by its theorem, a definition by an equal one beside it.

What is restated has `-kept` behind its name. Of a theorem it is the kept statement, proved by the theorem. Of a
definition it is the kept text, and that the two are equal is proved by `refl`: each unfolds to the same term. Of a
record it is what makes one of the kept fields, of a data type each kept constructor, and what takes it apart by these.
"""
import re

from words import uncommented

LEMMA = "use mathlib.Core.Path.{◌≡◌ as ◌is-kept◌, refl as by-text}"


def bare(lines):
    return [line for line in lines if uncommented(line).strip()]


def heads(under):
    """The heads of the sections that a text stands in, from the outermost on, without comments."""
    return tuple(filter(None, re.split(r"\n(?= *module _ )", "\n".join(bare(under)))))


def groups(text, opening="("):
    """The brackets of a text that stand in no other, each with what it binds: names and a type."""
    depth, found = 0, []
    for sign in text:
        if sign in "({":
            depth += 1
            if depth == 1:
                found.append([sign, ""])
                continue
        depth -= sign in ")}"
        if depth:
            found[-1][1] += sign
    return [inner for sign, inner in found if sign == opening and ":" in inner.split()]


def bound(text, opening="("):
    """The names that a text binds in round brackets, or in braces."""
    return [name for inner in groups(text, opening) for name in inner.partition(":")[0].split()]


def arrows(text):
    """A type's parts between the arrows that stand in no bracket."""
    depth, found = 0, [""]
    for sign in " ".join(text.split()):
        depth += {"(": 1, "{": 1, ")": -1, "}": -1}.get(sign, 0)
        found[-1] += sign
        if sign == "→" and depth == 0:
            found[-1] = found[-1][:-1].strip()
            found.append("")
    return [part.strip() for part in found]


def typed(lines):
    """Of a record or a data type: its parameters, its sort, and the lines of what it has, each joined."""
    end = next(i for i, line in enumerate(lines) if uncommented(line).split()[-1] == "where")
    words = uncommented(" ".join(lines[: end + 1])).split()[:-1]
    words = words[3:] if words[0] == "pub" else words[2:]
    opened = [len(re.findall(r"[({]", " ".join(words[:i]))) for i in range(len(words))]
    closed = [len(re.findall(r"[)}]", " ".join(words[:i]))) for i in range(len(words))]
    at = next(i for i, word in enumerate(words) if word == ":" and opened[i] == closed[i])
    rows, margin = [], min([len(line) - len(line.lstrip()) for line in lines[end + 1 :]], default=0)
    for line in map(uncommented, lines[end + 1 :]):
        rows += [""] if len(line) - len(line.lstrip()) == margin else []
        rows[-1] = (rows[-1] + " " + line.strip()).strip()
    rows = [row.removeprefix("pub ") for row in rows if not row.startswith("deriving ")]
    return " ".join(words[:at]), " ".join(words[at + 1 :]), rows


def private(one):
    return "pub" not in bare(one.lines)[0].split()


class Text:
    """A kept declaration, restated; `page` is the module that it stands in."""

    def __init__(self, one, fixity=""):
        self.one, self.name, self.margin, self.fixity = one, one.names[0], " " * one.indent, fixity
        self.lines = bare(one.lines)
        self.there = " ".join([f"page.{self.name}", *bound(uncommented("\n".join(one.under)))])

    def kept(self, name):
        """The name of what restates one; an operator's parts have the ending each."""
        return "◌".join(part and part + "-kept" for part in name.split("◌"))

    def signature(self, marks, name):
        """The signature, under another name; of a record or a data type, its type."""
        lines = bare(self.one.statement())
        if self.one.block:
            params, sort, _ = typed(self.lines)
            return f"{self.margin}{marks}{name} : " + " → ".join(filter(None, [params, sort]))
        first = re.sub(r"^ *(?:unfoldable |abbrev |pub )*", self.margin + marks, lines[0])
        return "\n".join([first.replace(self.name, name, 1), *lines[1:]])

    def stands_for(self):
        """The name as it is known in its section, where that takes no arguments."""
        return f"{self.signature('abbrev ', self.name)}\n{self.margin}{self.name} = {self.there}"

    def theorem(self):
        name = self.kept(self.name)
        return f"{self.signature('pub ', name)}\n{self.margin}{name} = {self.there}"

    def definition(self):
        """The whole text under another name, and that it is what it restates."""
        short = "abbrev" in self.lines[0].split()
        kept, text = self.kept(self.name), "\n".join(self.lines)
        text = re.sub(r"^ *(?:unfoldable |abbrev |pub )*", self.margin + ("abbrev " if short else ""), text)
        for part in {self.name, *filter(None, self.name.split("◌"))}:
            text = re.sub(r"(?<![^\s(){};,@])%s(?![^\s(){}.;,@])" % re.escape(part), self.kept(part), text)
        parts = arrows("\n".join(bare(self.one.statement())).partition(":")[2])
        given = [part for part in parts if part.startswith("{")]
        names = [name for part in given for name in bound(part, "{")]
        with_them = "".join(f" {{{name} = {name}}}" for name in names)
        lemma = f"{self.margin}same-{self.name.replace('◌', '')} : " + "".join(part + " → " for part in given)
        lemma += f"{kept}{with_them} is-kept {self.there}{with_them}"
        opened = [] if short else [f"{self.margin}unfolding {kept} page.{self.name}"]
        binds = [f"{self.margin}{self.fixity} {kept}"] if self.fixity else []
        lemma = [lemma, *opened, f"{self.margin}same-{self.name.replace('◌', '')} = by-text"]
        return "\n".join([*binds, text, "", *lemma])

    def record(self):
        """From the kept parameters and fields to the record, which has these and no others."""
        params, _, rows = typed(self.lines)
        fields = [name for row in rows for name in row.partition(":")[0].split()]
        given, kept = bound(params), self.kept(self.name)
        made = "; ".join(f"{field} = x{i}" for i, field in enumerate(fields))
        telescope = " ".join([params, *(f"({row})" for row in rows)]).strip()
        variables = " ".join([*given, *(f"x{i}" for i in range(len(fields)))])
        return (f"{self.margin}{kept} : {telescope} →\n{self.margin}    {' '.join([self.name, *given])}\n"
                f"{self.margin}{kept} {variables} = record {{ {made} }}")

    def data(self):
        """Each kept constructor, and a function that has a case for each."""
        params, sort, rows = typed(self.lines)
        given, found = bound(params), []
        cases = []
        for row in rows:
            names, _, of = row.partition(":")
            for name in names.split():
                kept = f"{self.name}-{name.replace('◌', '')}-kept"
                found.append(f"{self.margin}{kept} : {params + ' → ' if params else ''}{of.strip()}\n"
                             f"{self.margin}{' '.join([kept, *('_' for _ in given)])} = page.{self.name}.{name}")
                taken = [bound(part) or ["_"] for part in arrows(of)[:-1] if not part.startswith("{")]
                cases.append((name, sum(map(len, taken))))
        return "\n\n".join([*found, self.apart(params, given, arrows(sort)[:-1], cases)])

    def apart(self, params, given, places, cases):
        name = f"{self.name}-apart"
        telescope = [params] if params else []
        telescope += [f"(i{at} : {place})" for at, place in enumerate(places)]
        of = " ".join([self.name, *given, *(f"i{at}" for at in range(len(places)))])
        lines = [f"{self.margin}{name} : " + " → ".join([*telescope, of, "Unit {0}"])]
        for case, size in cases:
            taken = " ".join([f"page.{self.name}.{case}", *["_"] * size])
            lines.append(f"{self.margin}{' '.join([name, *['_'] * (len(given) + len(places))])} ({taken}) = tt")
        return "\n".join(lines)

    def passed_on(self):
        """Of a line that passes names on: each is what the line says."""
        lemmas = [f"same-{name} : {name} is-kept page.{name}\nsame-{name} = by-text" for name in self.one.names]
        return "\n\n".join(lemmas)

    def restated(self):
        words = self.lines[0].split()
        if "use" in words[:3]:
            return self.passed_on()
        if "record" in words[:2]:
            return self.record()
        if "data" in words[:2]:
            return self.data()
        return self.theorem() if words[0] == "pub" else self.definition()
