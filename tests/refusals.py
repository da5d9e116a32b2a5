"""Makes the smallest input for each code of docs/REFUSALS.md, and compares the code that relayd prints of it.

A text that is refused is assembled, bytes and programs are verified, explained, and begin a replay as the program of either side. No
command reads messages: each of theirs has to be, with its code, in the rows of a test.
"""

import os
import pathlib
import re
import sys
import tempfile

from lib.program import TOP, explained, finish, run

ROW = re.compile(r"^\| ([A-Z]\d+) \|.*\|([^|]*)\|$", re.MULTILINE)
# the same of a file or a program, with what explain says
EXPLAINED = re.compile(r"^\| ([EV]\d+) \|.*\| ([^|]+) \|[^|]*\|$", re.MULTILINE)
# a line, or lines in parentheses, and how often they are repeated
LINES = re.compile(r"(?:`([^`]*)`|\(((?:`[^`]*` ?)+)\))(?: ×([\d,]+))?")
TESTED = re.compile(r"^code(?:-of-lifetime)? (\S+) -> (\w+)$", re.MULTILINE)
TEST = TOP / "crates" / "rows_turn" / "stdin"
# the codes of memory and of room, and of a name whose time has passed, for which no input is smallest
WITHOUT = {"L6", "E8", "V19", "S6", "C6"}


def lines_of(cell):
    """Returns the lines of a cell, each as often as it is repeated."""
    lines = []
    for line, group, count in LINES.findall(cell):
        repeated = re.findall("`([^`]*)`", group) or [line]
        lines += repeated * int(count.replace(",", "") or 1)
    return lines


def rows_of_page():
    """Returns each code of the page with the cell of its smallest input."""
    return ROW.findall((TOP / "docs" / "REFUSALS.md").read_text(encoding="utf-8"))


def assembled(folder, lines, file):
    """Writes a program of these lines to a file, and returns what relayd prints to its standard error."""
    text = folder / "text.s"
    text.write_text("".join(f"{line}\n" for line in lines), encoding="utf-8")
    return run(["assemble", text, file])[2]


def refused_programs(folder):
    """Yields each code for which a program is refused, with the bytes of the smallest one."""
    file = folder / "file.bpf"
    for code, cell in rows_of_page():
        if code[0] not in "EV" or code in WITHOUT:
            continue
        if code[0] == "E":
            yield code, bytes.fromhex("".join(lines_of(cell)))
        else:
            assembled(folder, lines_of(cell), file)
            yield code, file.read_bytes()


def failures_of_programs(folder):
    """Yields the programs that are not refused by their code, by themselves and as the program of either side of a relay."""
    file = folder / "program.bpf"
    for code, data in refused_programs(folder):
        file.write_bytes(data)
        ends = {"verify": run(["verify", file])}
        for side in ("--client", "--peer"):
            status, out, err = run(["replay", "--user", "u:p", side, file, os.devnull])
            first, _, rest = err.partition("\n")
            ends[side] = status, out + first.removesuffix(f" in {file}") + "\n", rest
        for name, (status, printed, rest) in ends.items():
            if status != 1 or rest != explained(file) or not re.fullmatch(rf"refused {code}( [a-z0-9 ]+)?\n", printed):
                yield f"{code} by {name}: {status} {printed}{rest}"


def failures_of_explanations(folder):
    """Yields the codes of which `explain` says something else than the page."""
    file = folder / "program.bpf"
    says = dict(EXPLAINED.findall((TOP / "docs" / "REFUSALS.md").read_text(encoding="utf-8")))
    for code, data in refused_programs(folder):
        file.write_bytes(data)
        status, out, err = run(["explain", file])
        found = re.search(rf"refused {code}( [a-z0-9 ]+)?: (.*)\n", out)
        if (status, err) != (1, "") or found is None or found[2] != says.pop(code):
            yield f"{code} explained: {status} {out}{err}"
    if says:
        yield f"not explained: {', '.join(says)}"


def failures_of_rows(folder, rows):
    """Yields the codes of texts and of messages that are not met by their input."""
    rows_of_test = TESTED.findall(TEST.read_text(encoding="utf-8"))
    tested = {code: bytes.fromhex(digits.strip("-")) for digits, code in rows_of_test}
    for code, cell in rows:
        lines = lines_of(cell)
        if code in WITHOUT or code[0] in "EV":
            continue
        if code[0] in "SAC":
            if tested.get(code) != bytes.fromhex("".join(lines)):
                yield f"{code}: other bytes in the rows of {TEST.parent.name}"
            continue
        printed = assembled(folder, lines, folder / "file.bpf")
        if not re.match(rf"refused {code}( |\n)", printed):
            yield f"{code}: {printed}"


def main():
    """Meets every code, and returns the exit status."""
    rows = rows_of_page()
    with tempfile.TemporaryDirectory() as name:
        folder = pathlib.Path(name)
        failures = [*failures_of_rows(folder, rows), *failures_of_programs(folder), *failures_of_explanations(folder)]
    if len(rows) != 47:
        failures.append(f"{len(rows)} codes")
    return finish(failures, f"refusals: {len(rows)} codes, {len(failures)} failures")


if __name__ == "__main__":
    sys.exit(main())
