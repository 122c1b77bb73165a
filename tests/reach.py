"""What a statement reaches: the declarations that its text names, then those that their texts name."""
import json
import pathlib
import re
import shutil

from contracts import Crate, SourceFile
from imports import KIT_CRATES
from specs import Passing, SpecFile
from words import Unreadable, readable

# a file of specs/, of specs/Laws or of proofs/Laws; and a type of src/, in lib.rt where no file stands before it
OWN = re.compile(r"Rattle\.(\w+)\.specs\.((?:Laws\.)?(?!Laws\b|declared\b)\w+)|Rattle\.(\w+)\.(proofs\.Laws\.\w+)")
DECLARED = re.compile(r"Rattle\.(\w+)\.specs\.declared\.(?:([a-z]\w*)\.)?([A-Z]\w*)(?:\.TheVariants)?")

# the types that the language has, and words of its signatures
BUILT_IN = set("u8 u16 u32 u64 u128 usize i8 i16 i32 i64 i128 isize bool mut Option Result".split())
# each file of specs/ that was read, by its place and its text: a trial changes few of them
READ = {}


class Library:
    """The files of a repository's crates, and of the kit where that is asked for, by module."""

    def __init__(self, root, kit=False):
        self.crates, self.files, self.sources, self.libraries, self.named = root / "crates", {}, {}, {}, {}
        home = pathlib.Path(shutil.which("rt") or "/opt/rattle/bin/rt").resolve().parent.parent / "rattle"
        self.kit, project = home if kit else None, home / "logic" / "antt-project.json"
        if kit and project.exists():
            for name, folder in json.loads(project.read_text())["mounts"].items():
                of = (project.parent / folder / "antt-project.json").resolve()
                src = json.loads(of.read_text()).get("src", "src") if of.exists() else "."
                self.libraries[name] = of.parent / src

    def crate(self, name):
        if name not in self.sources:
            if not (self.crates / name / "src").is_dir():
                raise Unreadable(f"no crate {name}")
            self.sources[name] = Crate(self.crates / name)
        return self.sources[name]

    def module(self, path):
        """The file of a module; None for one of the kit that is not followed, or is no file of it."""
        if path not in self.files:
            self.files[path] = self.load(path)
        return self.files[path]

    def load(self, path):
        declared, own = DECLARED.fullmatch(path), OWN.fullmatch(path)
        if declared and self.of_kit(path) is None:
            files = self.crate(declared[1]).files
            if (declared[2] or "lib") not in files:
                raise Unreadable(f"{path}, which is no file of src/")
            return files[declared[2] or "lib"]
        if own and self.of_kit(path) is None:
            return self.spec(*filter(None, own.groups()))
        if path.split(".")[0] == "Rattle" and self.of_kit(path) is None:
            raise Unreadable(f"a name of {path}, which is no file of specs/")
        return self.of_libraries(path.split("."))

    def of_kit(self, path):
        """The kit's crate that a path leads into; None where it leads into one of the repository, or is no crate's."""
        words = path.split(".")
        known = words[0] == "Rattle" and len(words) > 2 and words[1] in KIT_CRATES
        return words[1] if known and not (self.crates / words[1]).is_dir() else None

    def of_libraries(self, path):
        """The file of a module of the kit, where that is asked for: its own, or that which a module above passes on."""
        head, rest = path[:1], path[1:]
        if head == ["Rattle"] and self.kit and len(path) > 2:
            at, rest = self.kit / path[1] / path[2], path[3:]
        else:
            at = self.libraries.get(path[0])
        if at is None:
            return None
        files = [at.joinpath(*rest).with_suffix(".antt")] if rest else []
        for file in [*files, at.joinpath(*rest, "Lib.antt")]:
            if file.exists():
                return SpecFile(file.read_text(), f"the kit's {'.'.join(path)}", lenient=True)
        above = self.of_libraries(path[:-1]) if rest else None
        passed = [use.module for use in above.uses if use.alias == path[-1]] if above else []
        return self.module(passed[0]) if passed else None

    def spec(self, crate, name):
        """A file of specs/, of specs/Laws or of proofs/Laws, by its name: `Bytes`, `Laws.BytesLaws`, with `proofs`
        before it where it stands there."""
        top, inner = ("proofs", name.removeprefix("proofs.")) if name.startswith("proofs.") else ("specs", name)
        key = f"Rattle.{crate}.{top}.{inner}"
        if self.files.get(key) is None:
            place = f"crates/{crate}/{top}/{inner.replace('.', '/')}.antt"
            if not self.has(crate, name):
                raise Unreadable(f"there is no {place}")
            *folder, last = inner.split(".")
            named = [each for each in (last, f"Laws.{last}", f"proofs.Laws.{last}") if self.has(crate, each)]
            if folder not in ([], ["Laws"]) or last == "Lib" or named != [name]:
                raise Unreadable(f"{place}: a folder that is not read, or a name for two files")
            self.declared(f"crates/{crate}/{top}/Lib.antt", folder[0] if folder else last)
            if folder:
                self.declared(f"crates/{crate}/{top}/{folder[0]}.antt", last)
            text = (self.crates.parent / place).read_text()
            if (place, text) not in READ:
                READ[place, text] = SpecFile(text, place)
            self.files[key] = READ[place, text]
        return self.files[key]

    def everything(self):
        """Reads every file of specs/, proofs/Laws and src/: what cannot be read is refused, though nothing reaches it.

        The crates `restated` and `restated_calls` are written by tests/restated, and no crate rests on them."""
        for folder in sorted(folder for folder in self.crates.iterdir() if not folder.name.startswith("restated")):
            for path in sorted(folder.glob("specs/**/*.antt")):
                name = ".".join(path.relative_to(folder / "specs").with_suffix("").parts)
                if name not in ("Lib", "Laws"):
                    self.spec(folder.name, name)
            for path in sorted(folder.glob("proofs/Laws/**/*.antt")):
                self.spec(folder.name, ".".join(["proofs", *path.relative_to(folder / "proofs").with_suffix("").parts]))
            if (folder / "src").is_dir():
                self.crate(folder.name)

    def has(self, crate, name):
        top, inner = ("proofs", name.removeprefix("proofs.")) if name.startswith("proofs.") else ("specs", name)
        return (self.crates / crate / top / f"{inner.replace('.', '/')}.antt").exists()

    def law(self, crate, file):
        """The name of a file as modules have it, wherever it stands: in specs/, in specs/Laws or in proofs/Laws."""
        return next((f"{front}{file}" for front in ("Laws.", "proofs.Laws.") if self.has(crate, front + file)), file)

    def declared(self, place, name):
        """Lib.antt, and Laws.antt for that folder, declare their files and hold nothing else: no path is bent.

        In proofs/ a file may be declared for its own crate alone."""
        path = self.crates.parent / place
        text = path.read_text() if path.exists() else ""
        readable(text, place)
        lines = [line for line in text.splitlines() if not line.startswith("--")]
        form = r"((pub )?mod \w+)?" if "/proofs/" in place else r"(pub mod \w+)?"
        if any(not re.fullmatch(form, line) for line in lines) or f"pub mod {name}" not in lines:
            raise Unreadable(f"{place}: it must hold `pub mod {name}`, and such lines alone")

    def found(self, module, name):
        """The declarations of a name, through the modules that pass it on."""
        head, *tail = name.split(".")
        if tail:
            return self.found(f"{module}.{head}", ".".join(tail))
        file, declared = self.module(module), DECLARED.fullmatch(module)
        if file is None:
            return []
        here = file.find(declared[3] if declared and self.of_kit(module) is None else name)
        passed = file.passes_on(name)
        if here or (isinstance(file, SpecFile) and file.lenient and passed is None):
            return here
        if passed is None:
            raise Unreadable(f"{file.place} has no {name}")
        return self.found(*passed)

    def along(self, path):
        """The declarations of a whole path: the longest module that its front names, and the name behind it."""
        for cut in range(len(path) - 1, 0, -1):
            module = ".".join(path[:cut])
            own = OWN.fullmatch(module) if self.of_kit(module) is None else None
            if own and not self.has(*filter(None, own.groups())):
                continue
            declared = DECLARED.fullmatch(module) if self.of_kit(module) is None else None
            if own or declared or self.module_exists(module):
                return self.found(module, path[cut])
        if path[0].startswith("Rattle") and self.of_kit(".".join(path)) is None:
            raise Unreadable(f"a path that leads to no file of specs/: {'.'.join(path)}")
        return []

    def module_exists(self, module):
        own = module.split(".")[0] == "Rattle" and self.of_kit(module) is None
        return not own and self.module(module) is not None


class Reach:
    """The declarations reached from some, in the order in which they are met."""

    def __init__(self, library, start):
        self.library, self.found = library, {}
        queue = list(start)
        while queue:
            declaration, whole = queue.pop(0)
            if self.found.get(declaration) or (declaration in self.found and not whole):
                continue
            self.found[declaration] = whole
            queue += [(other, True) for other in self.named(declaration, whole)[0] if other is not declaration]

    def named(self, declaration, whole):
        """The declarations that a text names, and the imports by which it does, each with the name: found once."""
        if (declaration, whole) not in self.library.named:
            uses = []
            found = self.look(declaration, declaration.words(whole), uses)
            self.library.named[declaration, whole] = list(dict.fromkeys(found)), uses
        return self.library.named[declaration, whole]

    def imports(self, wanted):
        """The import lines that texts of one file use, each with the names that they use of it."""
        found = {}
        for declaration, whole in wanted.items():
            for use, name in self.named(declaration, whole)[1]:
                found.setdefault(use, set()).add(name)
        return found

    def look(self, declaration, words, uses):
        """By imports, by paths, and in the text's own file."""
        file, found = declaration.file, []
        if isinstance(declaration, Passing):
            use = declaration.use
            return [other for name in use.items.values() for other in self.library.found(use.module, name)]
        for use in file.uses:
            for short in use.used(words):
                uses.append((use, short))
                found += self.library.found(use.module, use.items[short])
            for path in use.opened(words) if use.alias else ():
                uses.append((use, None))
                found += self.library.along([*use.module.split("."), *path])
        for path in words.paths:
            if path[0].startswith("Rattle"):
                found += self.library.along(path)
        if isinstance(file, SourceFile):
            return found + self.types(declaration, uses)
        for name, declarations in file.declared.items():
            found += declarations if words.use(name) else []
        for name, declarations in file.fields.items():
            found += declarations if name in words.fields else []
        return found

    def types(self, item, uses):
        """The types of a signature, by the file's imports or its own declarations; none is passed over."""
        file, found = item.file, []
        for word in sorted(item.types - BUILT_IN):
            *path, name = word.split("::")
            for line, _, there, short in file.imports:
                if not path and short == name:
                    uses.append((line.rstrip(";"), None))
                    path, name = there[:-1], there[-1]
            types = [other for other in self.type_at(file, path, name) if other.sort != "fn"]
            if not types:
                raise Unreadable(f"{file.place}: {item.name} has a type that is not read: {word}")
            found += [other for other in types if other is not item]
        return found

    def type_at(self, file, path, name):
        if not path:
            return file.find(name)
        own = file.place.split("/")[1]
        if path[0] in [*(short for *_, short in file.imports), *(item.name for item in file.items)]:
            raise Unreadable(f"{file.place}: a name that is the first word of a path, which it would bend: {path[0]}")
        crate, *module = [own, *path[1:]] if path[0] in ("crate", "self") else path
        if len(module) > 1 or not (self.library.crates / crate / "src").is_dir():
            return []
        at = self.library.crate(crate).files.get(module[-1] if module else "lib")
        return at.find(name) if at else []
