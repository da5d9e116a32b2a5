"""The programs that scripts measure. They are in tests/measuring, and are no crates of the repository."""

import shutil
import subprocess
import sys
import tempfile
from pathlib import Path

from lib.crates import copy, named
from lib.program import TOP

MEASURING = TOP / "tests" / "measuring"
# what the names of code end in there, since the merge gate refuses a file of code that it doesn't prove
STORED = ".txt"


def place(name, folder):
    """Makes a program a crate of a copy of the repository in a folder, with the crates below it, and returns its own folder."""
    libraries = (MEASURING / name / "libraries").read_text(encoding="utf-8").split()
    copy([library for library in libraries if library in named()], folder)
    crate = folder / "crates" / name
    shutil.copytree(MEASURING / name, crate)
    for kind in ("rt", "antt"):
        for path in crate.rglob(f"*.{kind}{STORED}"):
            path.rename(path.with_suffix(""))
    with open(folder / "crates.txt", "a", encoding="utf-8") as lines:
        lines.write(f"{name}: {' '.join(libraries)}\n")
    return crate


def built(name, folder):
    """Proves and builds a program in a copy of the repository, copies it to a folder, and returns its path there.

    The gate's own command does it, over the copy, so it begins with what a gate or a build kept on this machine. It runs the
    program over its files args and stdin too. Where that isn't what stdout has, the script ends.
    """
    with tempfile.TemporaryDirectory() as top:
        crate = place(name, Path(top))
        ran = subprocess.run(["rt", "ci"], cwd=top, capture_output=True, text=True, check=False)
        if ran.returncode:
            sys.exit(f"{name} can't be built:\n{ran.stdout[-2000:]}{ran.stderr[-2000:]}")
        return shutil.copy(crate / "out" / name, folder)
