"""Runs the built relayd on bad files, bad data, bad command lines and outputs that fail.

Each case gives the words, the status and the whole text that relayd has to print to each stream.
"""

import os
import pathlib
import sys
import tempfile

from lib.program import PROGRAM, explained, finish, run

# `mov r0, 2` and `exit`
GOOD = bytes.fromhex("b700000002000000 9500000000000000")
# `mov r0, r2` and `exit`
STUCK = bytes.fromhex("bf20000000000000 9500000000000000")
ACCEPTED = "accepted 2 instructions\n"
TRACED = "0 mov r0, 2\n1 exit\nexit 2\nwindow none\ndestination none\n"
KNOWN = "0 mov r0, 2               ; r1 context\n1 exit                    ; r0 =2; r1 context\n"
COST = "at most 2 steps a run, 2 of 100000 steps of verification, 0 states kept\n"
LONGEST = 65507
# the words, the status, standard output, standard error
CASES = [
    (["verify", "good"], 0, ACCEPTED, ""),
    (["trace", "good"], 0, TRACED, ""),
    (["verify", "stuck"], 1, "refused V5 at 0\n", explained("stuck")),
    (["trace", "stuck"], 1, "0 mov r0, r2\nstuck V5 at 0\n", ""),
    (["verify", "missing"], 3, "", "cannot read missing\n"),
    # a byte that is no UTF-8
    (["verify", "\udcff"], 2, "", "error: a word of the command line is not UTF-8\n"),
    (["trace", "missing"], 3, "", "cannot read missing\n"),
    (["verify", "folder"], 3, "", "cannot read folder\n"),
    (["trace", "folder"], 3, "", "cannot read folder\n"),
    (["explain", "good"], 0, KNOWN, COST),
    (["explain", "good", "--slot", "1"], 0, KNOWN.splitlines(True)[1], ""),
    (["explain", "good", "--slot", "2"], 0, "2 ; no instruction begins here\n", ""),
    (["explain", "stuck"], 1, "0 mov r0, r2              ; refused V5: reads r2, which holds nothing\n", ""),
    (["explain", "stuck", "--slot", "x"], 2, "", "error: invalid value 'x' for '--slot <N>'\n"),
    (["explain", "missing"], 3, "", "cannot read missing\n"),
    (["explain", "folder"], 3, "", "cannot read folder\n"),
    (["explain", "empty"], 1, "refused E1: the file has no bytes\n", ""),
    (["explain", "object"], 1, "refused E6 at 0: a field that is not used is not zero, or one selects nothing\n",
     "an object file: take its .text by llvm-objcopy -O binary --only-section=.text\n"),
    # no bytes, 12 bytes, 5,000 slots
    (["verify", "empty"], 1, "refused E1\n", explained("empty")),
    (["trace", "empty"], 1, "", "refused E1\n"),
    (["verify", "cut"], 1, "refused E2\n", explained("cut")),
    (["trace", "cut"], 1, "", "refused E2\n"),
    (["verify", "long"], 1, "refused E3\n", explained("long")),
    (["trace", "long"], 1, "", "refused E3\n"),
    # an odd number of digits, and a character that is no digit
    (["trace", "good", "--data", "0"], 1, "", "refused data\n"),
    (["trace", "good", "--data", "0g"], 1, "", "refused data\n"),
    (["trace", "good", "--data", "fF"], 0, TRACED, ""),
    (["trace", "good", "--data", ""], 0, TRACED, ""),
    (["trace", "good", "--data", "7f" * LONGEST], 0, TRACED, ""),
    (["trace", "good", "--data", "7f" * (LONGEST + 1)], 1, "", "refused data\n"),
    # a program and its source map in one file
    (["assemble", "text", "out", "--lines", "out"], 2, "", "error: invalid value 'out' for '--lines <MAP>'\n"),
    (["order", "good", "out", "--lines", "out"], 2, "", "error: invalid value 'out' for '--lines <MAP>'\n"),
    # the file is read before the data is tested, and the data is tested before the file is decoded
    (["trace", "missing", "--data", "0"], 3, "", "cannot read missing\n"),
    (["trace", "empty", "--data", "0"], 1, "", "refused data\n"),
]
# the words, the file that is standard input, the status, standard output, standard error
READ = [
    (["verify", "-"], "good", 0, ACCEPTED, ""),
    (["verify", "-"], "empty", 1, "refused E1\n", explained("-")),
    (["verify", "-"], "folder", 3, "", "cannot read -\n"),
    (["explain", "-"], "good", 0, KNOWN, COST),
    (["trace", "-", "--data", "00"], "good", 0, TRACED, ""),
    (["disassemble", "-"], "good", 0, "mov r0, 2\nexit\n", ""),
    (["assemble", "-", "out"], "text", 0, "wrote 16 bytes\n", ""),
    (["assemble", "-", "out"], "good", 3, "", "cannot read -\n"),
    (["order", "-", "out"], "good", 0, "wrote 16 bytes\n", ""),
    (["order", "-", "out"], "empty", 1, "", "refused E1\n"),
    (["order", "-", "out"], "folder", 3, "", "cannot read -\n"),
]
# what the help says of exit statuses
STATUSES = """
The exit status is 0 for success, 1 for a refusal or a run that is stuck, 2 for a wrong command line,
3 for a file, an output or a socket that can't be used, and 4 where memory runs out.
"""
# wrong command lines: the status is 2, and a text goes to standard error alone
WRONG = [
    [],
    ["load", "good"],
    ["verify"],
    ["verify", "good", "good"],
    ["verify", "good", "--data", "00"],
    ["trace", "good", "--data"],
]


def write_files(folder):
    """Writes the files that the cases name."""
    (folder / "good").write_bytes(GOOD)
    (folder / "stuck").write_bytes(STUCK)
    (folder / "empty").write_bytes(b"")
    (folder / "cut").write_bytes(GOOD[:12])
    (folder / "long").write_bytes(bytes(40_000))
    # what every object file begins with
    (folder / "object").write_bytes(b"\x7fELF" + bytes(60))
    (folder / "folder").mkdir()
    (folder / "text").write_text("mov r0, 2\nexit\n")


def shown(words):
    """Returns the words in a line, the long ones cut."""
    return " ".join(word[:20] for word in words)


def failures_of_cases(folder):
    """Yields the cases that do not end as they have to."""
    for words, *wanted in CASES:
        got = run(words, cwd=folder)
        if got != tuple(wanted):
            yield f"{shown(words)}: {got}"


def failures_of_standard_input(folder):
    """Yields the cases that do not end as they have to where standard input is the file."""
    for words, name, *wanted in READ:
        source = os.open(folder / name, os.O_RDONLY)
        got = run(words, cwd=folder, stdin=source)
        os.close(source)
        if got != tuple(wanted):
            yield f"{shown(words)} < {name}: {got}"
    if (folder / "out").read_bytes() != GOOD:
        yield "assemble - out: other bytes"


def failures_of_wrong_lines(folder):
    """Yields the wrong command lines that are not refused."""
    for words in WRONG:
        status, out, err = run(words, cwd=folder)
        if (status, out) != (2, "") or not err:
            yield f"{shown(words)}: {(status, out, err)}"


def failures_of_help(folder):
    """Yields the help where it doesn't say what the exit statuses are."""
    status, out, err = run(["--help"], cwd=folder)
    if (status, err) != (0, "") or STATUSES not in out:
        yield f"--help: {(status, out, err)}"


def with_closed_output(folder, words):
    """Runs relayd with standard output closed from the start."""
    closed = ["-c", 'exec "$0" "$@" >&-', PROGRAM, *words]
    return run(closed, "sh", cwd=folder, stdout=None)


def with_unread_output(folder, words):
    """Runs relayd with a pipe that nobody reads as standard output."""
    read_end, write_end = os.pipe()
    os.close(read_end)
    try:
        return run(words, cwd=folder, stdout=write_end)
    finally:
        os.close(write_end)


def with_full_output(folder, words):
    """Runs relayd with a full device as standard output."""
    with open("/dev/full", "w", encoding="utf-8") as full:
        return run(words, cwd=folder, stdout=full)


def failures_of_output(folder):
    """Yields the failing outputs that are not reported."""
    for words in (["verify", "good"], ["explain", "good"], ["trace", "good"], ["--help"]):
        for end in (with_closed_output, with_unread_output, with_full_output):
            got = end(folder, words)
            if got != (3, None, "cannot write output\n"):
                yield f"{shown(words)} {end.__name__}: {got}"


def main():
    """Runs every case, and returns the exit status."""
    with tempfile.TemporaryDirectory() as name:
        folder = pathlib.Path(name)
        write_files(folder)
        cases = (failures_of_cases, failures_of_standard_input, failures_of_wrong_lines, failures_of_help,
                 failures_of_output)
        failures = [found for case in cases for found in case(folder)]
    return finish(failures, f"files, data and outputs: {len(failures)} failures")


if __name__ == "__main__":
    sys.exit(main())
