"""Which functions a function reaches, by the sources, and in which crates these are."""

import re
from collections import defaultdict
from typing import NamedTuple

from lib.crates import reached, used
from lib.program import TOP

# what is matched in a source without its comments and contracts
FUNCTION = re.compile(r"\bfn (\w+)")
IMPL = re.compile(r"^(?:pub )?(impl|trait)\b(.*?)\{", re.MULTILINE | re.DOTALL)
USED = re.compile(r"^(?:pub )?use ([\w:]+)(?:::\{([^}]*)\})?;", re.MULTILINE)
CALL = re.compile(r"(?:\b([A-Z]\w*)(?:::<[^>]*>)?::|(\.)|\b([a-z]\w*)::|(?<![\w.:]))([a-z]\w*)(?:::<[^>]*>)?\(")
# names of std and of the kit, which methods of the crates share
SHARED = {"new", "get", "len", "is_empty", "push", "clear", "take", "find", "next", "now", "write", "read", "flush", "from", "parse", "into"}


class Function(NamedTuple):
    """A function of a crate: the type or the trait of its `impl`, if it has one, and its name."""

    crate: str
    owner: str
    name: str

    def __str__(self):
        return f"{self.owner}::{self.name}" if self.owner else self.name


def block(text, start):
    """Returns the text of the block that opens at `start` or after it, and where it ends."""
    depth, opens = 0, text.index("{", start)
    for place in range(opens, len(text)):
        depth += {"{": 1, "}": -1}.get(text[place], 0)
        if not depth:
            return text[opens:place], place
    raise ValueError(text[start:start + 60])


def plain(path):
    """Returns a source without comments, lengths of arrays, ghost lines and clauses, whose braces aren't blocks."""
    text = re.sub(r"//.*", "", path.read_text(encoding="utf-8"))
    text = re.sub(r"; *[\w:]+\]", "]", text)
    lines, clause = [], 0
    for line in text.split("\n"):
        word = line.split(maxsplit=1)[:1]
        if clause or word and re.fullmatch(r"ghost|requires|ensures\*?", word[0]):
            clause += line.count("{") - line.count("}")
            continue
        lines.append(line)
    return "\n".join(lines)


def owners_of(text):
    """Yields each `impl` and each trait of a text: its own name, the trait that it is of, and where it begins and ends."""
    for found in IMPL.finditer(text):
        kind, head = found[1], re.sub(r"<[^<>]*(?:<[^<>]*>[^<>]*)*>", "", found[2])
        of, _, name = head.partition(" for ")
        _, end = block(text, found.start())
        words = [re.findall(r"\w+", part) for part in (of, name)]
        first, second = (word[-1] if word else "" for word in words)
        yield (second or first, first if second or kind == "trait" else "", found.start(), end)


class Sources:
    """The functions of all crates, with what is called in each."""

    def __init__(self, top):
        crates = used()
        self.reach = reached(crates)
        # the body of each function, what its file imports from which crate, and the words of the file
        self.bodies, self.imports, self.words = {}, {}, {}
        # the free functions of each crate, and the methods of a name, each with its type and its trait
        self.free, self.methods = {}, defaultdict(set)
        for crate in self.reach[top] | {top}:
            for path in sorted((TOP / "crates" / crate / "src").rglob("*.rt")):
                self.read(crate, path)

    def read(self, crate, path):
        """Takes in the functions of a file."""
        text = plain(path)
        imported = {}
        for start, names in USED.findall(text):
            first, *rest = start.split("::")
            for name in re.findall(r"\w+", names) or rest[-1:]:
                imported[name] = crate if first == "crate" else first
        owners, words = list(owners_of(text)), set(re.findall(r"\w+", text))
        for found in FUNCTION.finditer(text):
            semicolon, brace = text.find(";", found.end()), text.find("{", found.end())
            owner = next((it for it in owners if it[2] < found.start() < it[3]), ("", "", 0, 0))
            function = Function(crate, owner[0], found[1])
            has_body = brace != -1 and not -1 < semicolon < brace
            if has_body:
                self.bodies[function] = self.bodies.get(function, "") + block(text, found.end())[0]
                self.imports[function] = imported
                self.words[function] = words
            if not owner[0]:
                self.free[crate, found[1]] = function
            elif has_body:
                self.methods[found[1]].add((owner[0], owner[1], function))

    def methods_of(self, function, of_type, name):
        """Returns the methods that a function calls by a name, of a type or of what the file of the function names."""
        if of_type == "Self":
            of_type = function.owner
        below = {(owner, trait, method) for owner, trait, method in self.methods[name]
                 if method.crate == function.crate or method.crate in self.reach[function.crate] or trait in self.words[function]}
        if of_type:
            return {method for owner, trait, method in below if of_type in (owner, trait)}
        named = {method for owner, trait, method in below if {owner, trait} & self.words[function]}
        return named or ({method for _, _, method in below} if len(below) == 1 else set())

    def called(self, function):
        """Returns the functions of the repository that a function calls, as far as names say it."""
        found = set()
        for of_type, dot, _, name in CALL.findall(self.bodies[function]):
            if name.startswith("law_") or dot and name in SHARED:
                continue
            if dot or of_type:
                found |= self.methods_of(function, of_type, name)
            else:
                crate = self.imports[function].get(name, function.crate)
                found |= {self.free[crate, name]} if (crate, name) in self.free else set()
        return found & self.bodies.keys()

    def reached_from(self, start):
        """Returns each function that a function reaches, with those that call it."""
        callers, waiting = {start: set()}, [start]
        while waiting:
            function = waiting.pop()
            for callee in self.called(function):
                if callee not in callers:
                    callers[callee] = set()
                    waiting.append(callee)
                callers[callee].add(function)
        return callers


def path(start):
    """Returns the lines that say by which functions the way from a function enters each crate from another one."""
    callers = Sources(start.crate).reached_from(start)
    found = defaultdict(set)
    for callee, by in callers.items():
        for caller in by:
            if caller.crate != callee.crate:
                found[caller.crate, callee.crate].add(str(callee))
    highest_first = list(used())[::-1]
    order = sorted(found, key=lambda crossing: [highest_first.index(crate) for crate in crossing])
    return [f"{caller} ──► {callee}: {', '.join(sorted(found[caller, callee]))}" for caller, callee in order]
