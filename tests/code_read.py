"""The functions of the crates as words and signs, found by the paths that calls name."""
import functools
import re

from specs import Unreadable

TOKEN = re.compile(r"\d\w*|[A-Za-z_]\w*|::|\.\.=?|->|=>|&&|\|\||<<=|>>=|<<|>>|[-+*/%^|&<>=!]=|[^\s\w]")


class Found(Exception):
    """A form that is refused."""


def chosen(tokens):
    """The tokens without the types that a call chooses, as in `f::<K>(x)`: names and nothing else."""
    text, kept = " ".join(tokens), []
    return re.sub(r":: < \w+(?: , \w+)* > (?=\()", "", text).split(" ") if tokens else kept


class Function:
    """A function of the crates: its path, its parameters, and its code as tokens."""

    def __init__(self, path, item):
        self.path, self.item, self.tokens = path, item, chosen(TOKEN.findall(item.body))

    @functools.cached_property
    def types(self):
        names = re.match(r"\s*(?:<[^<>]*>)?\s*\(([^()]*)\)", self.item.signature)
        if not names:
            raise Unreadable(f"{self.item.file.place}: {self.item.name} has a head of another form")
        return dict(re.findall(r"(\w+)\s*:(?!:)\s*([^,]+)", names[1]))

    @property
    def parameters(self):
        return list(self.types)

    def __str__(self):
        return f"{self.item.file.place}: {self.item.name}"


class Code:
    """The functions of the crates, found by the paths that calls name."""

    def __init__(self, library):
        self.library, self.functions = library, {}

    def crate(self, name):
        return self.library.crate(name) if (self.library.crates / name / "src").is_dir() else None

    def at(self, path):
        """The function of a whole path: crate, module (none for the crate's root file), name."""
        crate = self.crate(path[0])
        file = crate and len(path) < 4 and crate.files.get(path[1] if len(path) == 3 else "lib")
        if not file or len(path) < 2:
            return None
        found = [item for item in file.find(path[-1]) if item.sort == "fn"]
        if len(found) == 1:
            key = "::".join(path)
            return self.functions.setdefault(key, Function(key, found[0]))
        passed = [other for _, public, other, short in file.imports if public and short == path[-1]]
        return self.at(self.absolute(passed[0], path)) if len(passed) == 1 else None

    def absolute(self, path, here):
        """A path seen from a function of a crate: through `crate`, by a module of that crate, or by another crate."""
        if path[0] == "crate":
            return [here[0], *path[1:]]
        return [here[0], *path] if path[0] in self.crate(here[0]).files else path

    def called(self, caller, path):
        """The function that a call in another one names."""
        here = caller.path.split("::")
        imports = {short: other for _, _, other, short in caller.item.file.imports}
        if len(path) == 1 and path[0] not in imports:
            return self.at([*here[:-1], path[0]])
        front = imports.get(path[0], [path[0]])
        return self.at(self.absolute([*front, *path[1:]], here))


def refuse(function, what):
    raise Found(f"{function} has {what}")


def arguments(tokens, at):
    """The arguments of the call whose bracket opens at `at`, and the place behind it."""
    depth, start, found = 0, at + 1, []
    for i in range(at, len(tokens)):
        depth += {"(": 1, "[": 1, "{": 1, ")": -1, "]": -1, "}": -1}.get(tokens[i], 0)
        if depth == 0 or (depth == 1 and tokens[i] == ","):
            if i > start:
                found.append(tokens[start:i])
            start = i + 1
        if depth == 0:
            return found, i + 1
    raise Unreadable("a bracket that nothing closes")
