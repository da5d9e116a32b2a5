"""Tries the wrong bodies that the gate leaves out: the prover has to refuse each.

    tests/wrong_bodies.py [NAME..]

A file of `wrong-bodies/` is an edit as those of `must-fail/` are: of a crate whose proof costs so much that the gate, which
proves a crate with edits once more, isn't to try them, or beyond the eight of a crate that it tries. Here each crate that is
named, or each that has such edits, is proved in a copy of the repository, where they take the place of those that the gate
tries. Both begin with what `rt check` kept of the crate. An edit that is still proved, or that can't be applied or read,
fails, and so does a crate that isn't proved.
"""

import shutil
import subprocess
import sys
import tempfile
from pathlib import Path

from lib.program import TOP, finish

CRATES = TOP / "crates"
EDITS = "wrong-bodies"
REFUSED = ": refused, as it must be"


def edits_of(crate):
    """Returns the edits of a crate that the gate leaves out."""
    return sorted((CRATES / crate / EDITS).glob("*.edit"))


def left_out(folder, names):
    """Returns which names of a folder aren't copied: of a crate what is built, and the edits that the gate tries."""
    return {"out", "must-fail"}.intersection(names) if Path(folder).parent == CRATES else ()


def copy(folder):
    """Copies the repository's crates to a folder, with these edits in the place of those that the gate tries."""
    shutil.copytree(CRATES, folder / "crates", ignore=left_out)
    for name in ("crates.txt", "HANDLES"):
        shutil.copy(TOP / name, folder)
    for edits in folder.glob(f"crates/*/{EDITS}"):
        edits.rename(edits.with_name("must-fail"))


def ran(words, folder):
    """Runs a command in a folder, and returns its status and the lines that it printed to either stream."""
    found = subprocess.run(words, cwd=folder, stdout=subprocess.PIPE, stderr=subprocess.STDOUT, text=True, check=False)
    return found.returncode, found.stdout.splitlines()


def failures_of(crate, folder):
    """Prints which edits of a crate are refused, and yields what is wrong. Of a crate that isn't proved every edit would be."""
    status, lines = ran(["rt", "check"], folder / "crates" / crate)
    if status:
        yield "\n".join([f"{crate} is not proved:", *lines[-20:]])
        return
    status, lines = ran(["rt", "must-fail", crate], folder)
    refused = [line for line in lines if REFUSED in line]
    print(*refused, sep="\n", flush=True)
    if status or len(refused) != len(edits_of(crate)):
        yield "\n".join([f"{crate}: {len(refused)} of {len(edits_of(crate))} edits are refused:",
                         *(line for line in lines if line not in refused)])


def main():
    """Tries the edits of each crate, and returns the exit status."""
    every = sorted(path.parent.name for path in CRATES.glob(f"*/{EDITS}"))
    crates = sys.argv[1:] or every
    for crate in crates:
        if crate not in every:
            sys.exit(f"wrong_bodies: crates/{crate} has no {EDITS}")
    with tempfile.TemporaryDirectory() as name:
        copy(Path(name))
        failures = [failure for crate in crates for failure in failures_of(crate, Path(name))]
    edits = sum(len(edits_of(crate)) for crate in crates)
    return finish(failures, f"wrong bodies: {edits} edits of {len(crates)} crates, {len(failures)} failures")


if __name__ == "__main__":
    sys.exit(main())
