"""The crates of crates.txt, copies of them, and their picture in docs/ARCHITECTURE.md."""

import shutil

from lib.program import TOP

# the lowest crate of each half: instructions, and messages of STUN
PROGRAMS, MESSAGES = "insn", "stun"
# the parts of the picture, by whether a crate reaches the one and the other
PARTS = [("below both halves", (False, False)), ("programs", (True, False)), ("messages, and the tables of TURN", (False, True)),
         ("where they meet", (True, True))]


def named():
    """Returns the crates of the repository, each with the libraries that it names, in the order of crates.txt."""
    lines = (TOP / "crates.txt").read_text(encoding="utf-8").splitlines()
    return {name: libraries.split() for name, _, libraries in (line.partition(":") for line in lines if line and line[0] != "#")}


def used():
    """Returns the crates of the repository, each with those of them that it names, in the order of crates.txt."""
    crates = named()
    return {name: [library for library in libraries if library in crates] for name, libraries in crates.items()}


def reached(crates):
    """Returns all that each crate reaches."""
    found = {}
    for name, libraries in crates.items():
        found[name] = set(libraries).union(*(found[library] for library in libraries))
    return found


def copy(names, folder):
    """Copies crates and those below them to a folder, as a repository of their own, without edits and what is built."""
    crates, below = named(), reached(used())
    wanted = set(names).union(*(below[name] for name in names))
    for name in wanted:
        shutil.copytree(TOP / "crates" / name, folder / "crates" / name, ignore=shutil.ignore_patterns("out", "must-fail", "wrong-bodies"))
    lines = [f"{name}: {' '.join(libraries)}\n" for name, libraries in crates.items() if name in wanted]
    (folder / "crates.txt").write_text("".join(lines), encoding="utf-8")
    shutil.copy(TOP / "HANDLES", folder)


def picture():
    """Returns the lines of the picture: each crate with those that it names, without those that it reaches through another one."""
    crates = used()
    reaches = reached(crates)
    lines = []
    for title, part in PARTS:
        lines.append(f"{title}:")
        for name, libraries in crates.items():
            if (PROGRAMS in reaches[name] | {name}, MESSAGES in reaches[name] | {name}) == part:
                nearest = [it for it in libraries if not any(it in reaches[other] for other in libraries)]
                lines.append(f"  {name}" + (f" ──► {', '.join(nearest)}" if nearest else ""))
    return lines
