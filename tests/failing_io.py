"""Runs the built relayd's `replay` with reads and writes that are short, of every size, or interrupted, with each of them
failing in turn, and with each write in turn taking no byte; and so the writes of `disassemble`, whose text is longer than a buffer.

Short and interrupted ones change nothing. Where a read fails, or a write fails or takes none, the status and the line say which, and
what was written is a beginning of the right answers; where a read fails, it is whole answers. It needs gcc.
"""

import itertools
import os
import pathlib
import subprocess
import sys
import tempfile

from lib.program import PROGRAM, TOP, build, finish, preloadable

EXAMPLES = TOP / "examples"
EVENTS = (EXAMPLES / "session.events").read_bytes()
WORDS = ["replay", "--users", EXAMPLES / "users.txt", "--relay-ip", "203.0.113.1", "-"]
UNREAD, UNWRITTEN = (3, b"cannot read -\n"), (3, b"cannot write output\n")
# bytes a call, in the runs in which each call fails in turn
SIZES = [7, 64, 1_000, 10**9]
# the same of a listing
LISTING_SIZES = [1_000, 10**9]
# how many calls it takes to have one that is not interrupted
CALLS = [2, 5]


def ran(library, words=WORDS, **environment):
    """Runs a command, with the session as its input and the library preloaded. Returns the status with standard error, standard
    output, and the failures.
    """
    read_end, write_end = os.pipe()
    given = {name: str(value) for name, value in environment.items()}
    ended = subprocess.run(
        [PROGRAM, *words], input=EVENTS, stdout=subprocess.PIPE, stderr=subprocess.PIPE, check=False, pass_fds=[write_end],
        env={**os.environ, "LD_PRELOAD": library, "FAIL_REPORT": str(write_end), **given})
    os.close(write_end)
    with open(read_end, "rb") as reported:
        return (ended.returncode, ended.stderr), ended.stdout, len(reported.read())


def failures_of_short(library, answers):
    """Yields the sizes of reads and writes with which a run ends otherwise than with whole ones."""
    for size in range(1, max(len(EVENTS), len(answers)) + 1):
        end, out, _ = ran(library, IO_SHORT=size)
        if (end, out) != ((0, b""), answers):
            yield f"{size} bytes a call: {end}"


def failures_of_interrupted(library, answers):
    """Yields the sizes of reads and writes with which a run ends otherwise where the calls before each are interrupted."""
    for size, calls in itertools.product(SIZES, CALLS):
        end, out, interrupted = ran(library, IO_SHORT=size, IO_INTERRUPT=calls)
        if (end, out) != ((0, b""), answers) or interrupted < 2 * (calls - 1):
            yield f"{size} bytes a call, {interrupted} interrupted: {end}"


def failures_of_failing(library, answers, size, which, wanted, words=WORDS):
    """Yields the calls of a kind that fail with another end than wanted, or after other answers."""
    for number in range(1, 10**9):
        end, out, failed = ran(library, words, IO_SHORT=size, **{which: number})
        if not failed:
            if number == 1:
                yield f"{which} was never made"
            return
        is_whole = out in (b"", answers) or out.endswith(b"\n")
        if end != wanted or not answers.startswith(out) or (which == "FAIL_READ" and not is_whole):
            yield f"{which} {number}, {size} bytes a call: {end}, {out[-40:]}"


def failures_of_listing(library, folder):
    """Yields the writes that end otherwise than wanted of a text of 20,005 bytes, which is written from where it lies."""
    program = folder / "long.bpf"
    program.write_bytes(bytes.fromhex("b700000000000000") * 2000 + bytes.fromhex("9500000000000000"))
    text = b"mov r0, 0\n" * 2000 + b"exit\n"
    for size, which in itertools.product(LISTING_SIZES, ["FAIL_WRITE", "TAKE_NONE"]):
        yield from failures_of_failing(library, text, size, which, UNWRITTEN, ["disassemble", program])


def main():
    """Runs every case, and returns the exit status."""
    build()
    with tempfile.TemporaryDirectory() as folder:
        library = str(preloadable(pathlib.Path(folder), "fail_io"))
        end, answers, _ = ran(library)
        failures = [] if end == (0, b"") and answers else [f"whole reads and writes: {end}"]
        failures += failures_of_short(library, answers)
        failures += failures_of_interrupted(library, answers)
        for size in SIZES:
            failures += failures_of_failing(library, answers, size, "FAIL_READ", UNREAD)
            failures += failures_of_failing(library, answers, size, "FAIL_WRITE", UNWRITTEN)
            failures += failures_of_failing(library, answers, size, "TAKE_NONE", UNWRITTEN)
        failures += failures_of_listing(library, pathlib.Path(folder))
    return finish(failures, f"failing reads and writes: {len(EVENTS)} bytes, {len(failures)} failures")


if __name__ == "__main__":
    sys.exit(main())
