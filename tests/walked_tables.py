"""Checks rows over two bodies of the tables: the sorted one, and one that walks plain lists.

In a copy of the crate, the files of tests/walked_tables take the place of those of the same names, and the files that
search are emptied. So each worked row of requests and tables is tried over sorted lists and over a body that is
believed at sight. Nothing is proved of the copies. The names end in `.txt`, since the merge gate refuses a file of
code that it doesn't prove.
"""

import re
import subprocess
import sys
import tempfile
from concurrent.futures import ThreadPoolExecutor
from pathlib import Path

from lib.crates import copy
from lib.program import TOP

WALKED = TOP / "tests" / "walked_tables"
ROWS = "rows_turn"
# the files of the crate that search, of which the walked body has none
SEARCHES = ["clients.rt", "search.rt"]
# unproved code is slow, and both copies are compiled at once
WORDS = ["rt", "try", "--steps", "1", "--seconds", "600"]
CHECKED = re.compile(r"^(\d+) rows\n\Z", re.MULTILINE)


def walk(folder):
    """Replaces the body of the tables in a copy by the walked one."""
    texts = {path.stem: path.read_text(encoding="utf-8") for path in WALKED.glob("*.rt.txt")}
    for name, text in (texts | dict.fromkeys(SEARCHES, "")).items():
        path = folder / "crates" / "tables" / "src" / name
        if not path.exists():
            sys.exit(f"walked_tables: tables has no {name}")
        path.write_text(text, encoding="utf-8")


def checked(folder):
    """Checks the rows in a copy, and returns how many there are, and what is wrong, if anything is."""
    where = folder / "crates" / ROWS
    rows = (where / "stdin").read_text(encoding="utf-8")
    ran = subprocess.run(WORDS, cwd=where, input=rows, capture_output=True, text=True, check=False)
    found = CHECKED.search(ran.stdout)
    if ran.returncode or not found:
        return 0, [f"walked_tables: the {folder.name} body: status {ran.returncode}\n{ran.stdout}{ran.stderr}"]
    return int(found[1]), []


def main():
    """Checks the rows over both bodies at once, and returns the exit status."""
    with tempfile.TemporaryDirectory() as name, ThreadPoolExecutor() as pool:
        sorted_body, walked_body = Path(name, "sorted"), Path(name, "walked")
        copy([ROWS], sorted_body)
        copy([ROWS], walked_body)
        walk(walked_body)
        (count, failures), (walked_count, walked_failures) = pool.map(checked, (sorted_body, walked_body))
    failures += walked_failures
    if not failures and not count == walked_count > 0:
        failures.append(f"walked_tables: {count} rows over the sorted body, and {walked_count} over the walked one")
    if failures:
        sys.exit("\n".join(failures))
    print(f"walked_tables: {count} rows of {ROWS} hold over both bodies")
    return 0


if __name__ == "__main__":
    sys.exit(main())
