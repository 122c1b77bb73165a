"""Which functions tally votes, by what their contracts say, and the way to them from the calls that others make."""
import re

from code_read import Found, arguments, refuse
from contracts import SourceFile
from reach import Reach
from specs import Words

# the definitions of a tally: who votes for a digest, whether a mask holds enough; and of one kept vote
DEFINED = {"voters": ("Deliver", "voters_for"), "quorum": ("View", "quorum"), "vote": ("State", "vote_of")}
# what functions on the way call besides the way and the tally, by crate: what each is, and the names
BESIDE = {
    "frames": ("what a frame states, and the digest of its block",
               "named_kind frame_height frame_signer frame_signers frame_mask frame_digest frame_block "
               "frame_block_digest"),
    "sha256": ("the digest of the held proposal", "sha256"),
    "book_fields": ("whether there is a proposal, and it; which replicas have voted, for whatever digest",
                    "holds_proposal proposal voter_mask"),
    "wire": ("whether a replica has voted, for whatever digest", "in_mask"),
    "book_changes": ("what is written: a proposal, one vote, the block that is notarized",
                     "set_proposal set_vote notarize_held"),
    "delivery": ("whether votes are awaited, and what frames of other kinds do",
                 "awaits_votes keep_block_certificate join_signers"),
    "contradictions": ("refusals 8 and 10, and a leader's second proposal", "clash_refusal leader_equivocates fire_timer"),
    "observer_delivery": ("what certificates do", "keep_block join_signers"),
    "observer_refusals": ("an observer's refusals", "frame_refusal"),
    "soundness": ("refusal 1", "is_sound"),
    "frame_refusals": ("the other refusals", "read_refusal"),
    "packets": ("how many frames of a packet were fresh, known and refused", "counted"),
    "packing": ("an answer as a number for C", "delivered_number counted_number write_counts"),
}
LISTED = {(crate, name) for crate, (_, names) in BESIDE.items() for name in names.split()}
# these ask for the kept vote of the one replica that signed a frame, to see whether the frame contradicts it
OF_ONE_VOTE = {("contradictions", "vote_agrees"), ("contradictions", "clash_refusal"),
               ("observer_refusals", "frame_refusal")}
# what takes the tally's answer besides what weighs it: it is written as the certificate of the notarized block
WRITES = {("book_changes", "notarize_held")}
# a loop over the frames of a packet, each delivered by itself
LOOPS = {("packets", "deliver_frames")}


def place(path):
    """The crate and the name of a function, by which it is listed."""
    return path.split("::")[0], path.split("::")[-1]


class Contracts:
    """What the `ensures` of a function name, and what they reach through definitions."""

    def __init__(self, library, known):
        self.library, self.reach, self.known, self.defined = library, Reach(library, []), known, {}
        for sort, (file, name) in DEFINED.items():
            found = library.spec("protocol", file).find(name)
            if len(found) != 1:
                raise Found(f"crates/protocol/specs/{file}.antt has no {name}, so nobody can tell what tallies")
            self.defined[sort] = found[0]

    def named(self, item):
        """The declarations that the `ensures` of a function name, by imports and by paths."""
        words, found = Words(" ".join(body for sort, body in item.clauses if sort == "ensures")), []
        for use in item.file.uses:
            for short in use.used(words):
                found += self.library.found(use.module, use.items[short])
            for path in use.opened(words) if use.alias else ():
                found += self.library.along([*use.module.split("."), *path])
        for path in words.paths:
            found += self.library.along(path) if path[0] == "Rattle" else []
        return found

    def below(self, declaration):
        """The sorts of definitions that a declaration reaches; types of the code reach none."""
        if declaration not in self.known:
            found, queue = set(), [declaration]
            while queue:
                other = queue.pop()
                if other not in found and not isinstance(other.file, SourceFile):
                    queue += self.reach.named(other, True)[0]
                found.add(other)
            self.known[declaration] = {sort for sort, there in self.defined.items() if there in found}
        return self.known[declaration]

    def sorts(self, item):
        """The sorts that a contract names, and those that it reaches."""
        if item not in self.known:
            named = self.named(item)
            self.known[item] = ({sort for sort, there in self.defined.items() if there in named},
                                {sort for declaration in named for sort in self.below(declaration)})
        return self.known[item]


class Way:
    """The functions of all crates by their contracts: those that tally, and those on the way to them."""

    def __init__(self, code, known):
        self.code, self.contracts = code, Contracts(code.library, known)
        self.tallies, self.way, self.of_votes = {}, {}, {}
        for path, item in self.methods():
            named, reached = self.contracts.sorts(item)
            if named & {"voters", "quorum"} or "voters" in reached:
                raise Found(f"{path} is a method whose contract speaks of the tally, and methods are not read")
        for path, item in self.every():
            named, reached = self.contracts.sorts(item)
            where = self.tallies if named & {"voters", "quorum"} else self.way if "voters" in reached else None
            if where is None and "vote" in reached:
                where = self.of_votes
            if where is not None:
                where[path] = named

    def every(self):
        """Each function of each crate with its path."""
        # nothing rests on the crates that tests/restated writes
        written = ("restated", "restated_calls")
        for folder in sorted(f for f in self.code.library.crates.glob("*/src") if f.parent.name not in written):
            crate = self.code.crate(folder.parent.name)
            for stem, file in crate.files.items():
                front = [crate.name] if stem == "lib" else [crate.name, stem]
                for item in file.items:
                    if item.sort == "fn":
                        yield "::".join([*front, item.name]), item

    def blocks(self):
        """Each block of methods, with its file's path."""
        written = ("restated", "restated_calls")
        for folder in sorted(f for f in self.code.library.crates.glob("*/src") if f.parent.name not in written):
            for stem, file in self.code.crate(folder.parent.name).files.items():
                yield from (("::".join([folder.parent.name, stem]), block) for block in file.blocks)

    def methods(self):
        """Each function of a block of methods, with its file's path."""
        for path, block in self.blocks():
            yield from ((f"{path}::{item.name}", item) for item in block.items)

    def read(self):
        """Reads the functions on the way; raises what is refused in them."""
        called = set()
        for path in self.way:
            called |= Decider(self, self.code.at(path.split("::"))).called
        for sort in ("voters", "quorum"):
            if not any(sort in self.tallies.get(path, ()) for path in called):
                raise Found(f"no function on the way to the tally calls one whose contract names {DEFINED[sort][1]}")
        for crate, name in sorted(LISTED - {place(path) for path in called}):
            raise Found(f"{crate}::{name} is listed, and no function on the way to the tally calls it")

    def strangers(self, read):
        """Refuses a function whose contract speaks of kept votes, and that is no part of the tally or of the way."""
        for path in self.of_votes:
            if path not in read and place(path) not in OF_ONE_VOTE:
                raise Found(f"{path} has a contract that speaks of kept votes, and is no part of the tally")


class Decider:
    """A function on the way to the tally: it decides, calls what is known, and reads no byte itself."""

    def __init__(self, way, function):
        self.way, self.function, self.tokens = way, function, function.tokens
        self.called, self.answers, self.written = set(), set(), []
        self.signs()
        for at, token in enumerate(self.tokens):
            if re.match(r"[A-Za-z_]", token) and self.tokens[at - 1 : at] not in (["::"], ["."]):
                self.word(at)
        for given in self.written:
            if not any([name] in given for name in self.answers):
                refuse(self.function, "a certificate written that is not what the tally answers")

    def signs(self):
        """No loop, no byte of anything, no call of what is no function."""
        for before, token, after in zip(["", *self.tokens], self.tokens, [*self.tokens[1:], ""]):
            if token in ("while", "loop", "for") and place(self.function.path) not in LOOPS:
                refuse(self.function, f"a loop, `{token}`, on the way to the tally")
            if token == "[" and re.match(r"[\w)\]]", before):
                refuse(self.function, "a byte or a part of a slice read on the way to the tally")
            named = re.match(r"\w", before) and before not in ("if", "return", "in", "match", "unreachable")
            if (token in (")", "]", ">") and after == "(") or (named and token == "!"):
                refuse(self.function, "a call of what is no function")
            if token == "::" and after == "<":
                refuse(self.function, "a call of what is no function")
            if before == "." and re.match(r"\w", token) and after == "(" and token != "len":
                refuse(self.function, f"`.{token}`")

    def word(self, at):
        path, end = [self.tokens[at]], at + 1
        while self.tokens[end : end + 1] == ["::"]:
            path.append(self.tokens[end + 1])
            end += 2
        whole, is_call = "::".join(path), self.tokens[end : end + 1] == ["("]
        if path[-1][0].isupper() or path[0] in ("if", "while", "match", "return", "let", "mut", "else"):
            return
        if not is_call and len(path) > 1:
            refuse(self.function, f"`{whole}`, which is called by nobody")
        if is_call:
            self.call(path, at, end)

    def call(self, path, at, bracket):
        """What is called is the tally, is on the way to it, or is listed, and then says nothing of votes."""
        local = [self.tokens[i + 1 + (self.tokens[i + 1] == "mut")] for i, t in enumerate(self.tokens) if t == "let"]
        function = None if len(path) == 1 and path[0] in local else self.way.code.called(self.function, path)
        if function is None:
            refuse(self.function, f"a call of `{'::'.join(path)}`, which is not found")
        self.called.add(function.path)
        if function.path in self.way.way:
            return
        if function.path in self.way.tallies:
            if "voters" in self.way.tallies[function.path]:
                self.answer(at, arguments(self.tokens, bracket)[1])
            return
        if place(function.path) not in LISTED:
            refuse(self.function, f"a call of `{function.path}`, which is no tally, not on the way to one, not listed")
        if place(function.path) in WRITES:
            self.written.append(arguments(self.tokens, bracket)[0])
        if function.path in self.way.of_votes and place(function.path) not in OF_ONE_VOTE:
            refuse(self.function, f"a call of `{function.path}`, whose contract speaks of kept votes")

    def answer(self, at, end):
        """What the tally answers has a name, and is weighed by a tally and written, as it is, and nothing else."""
        before, name = self.tokens[at - 3 : at], self.tokens[at - 2]
        if before != ["let", name, "="] or self.tokens[end] != ";":
            refuse(self.function, "a tally whose answer is no `let` of its own")
        self.answers.add(name)
        allowed = set()
        for i, token in enumerate(self.tokens):
            if token == "(" and re.match(r"[A-Za-z_]", self.tokens[i - 1]):
                allowed |= self.takes(i, name)
        used = {i for i, token in enumerate(self.tokens) if token == name and i != at - 2}
        if used - allowed:
            refuse(self.function, f"another use of what the tally answers, `{name}`")

    def takes(self, bracket, name):
        """The places of a call's arguments that are this name, if the call is one that may have it."""
        start = bracket - 1
        while self.tokens[start - 1] == "::":
            start -= 2
        function = self.way.code.called(self.function, [t for t in self.tokens[start:bracket] if t != "::"])
        if function is None or not (function.path in self.way.tallies or place(function.path) in WRITES):
            return set()
        end = arguments(self.tokens, bracket)[1]
        return {i for i in range(bracket, end) if self.tokens[i] == name
                and self.tokens[i - 1] in "(," and self.tokens[i + 1] in "),"}
