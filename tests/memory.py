"""Runs the built relayd in little memory.

A program with more paths than can be followed is refused by V17 after 100,000 steps. On the way at most
one branch of each of its jumps is pending, and a state is kept only at the targets of jumps: where few paths
lead there, a few megabytes are enough. Where every second step keeps a state, the memory is bounded by the
budget. A verifier that kept more would reach the limit, and print `out of memory`. A long text of blanks,
comments and empty lines is assembled in the memory that holds the text.
"""

import pathlib
import resource
import sys
import tempfile

from lib.program import PROGRAM, build, explained, finish, run

# `ldxdw r2, [r1+0]`, `ldxb r5, [r2-1]`, `mov r0, 0`: a byte of which nothing is known
BYTE = bytes.fromhex("7912000000000000 7125ffff00000000 b700000000000000")
# `jset r5, 1, +1`
JUMP = bytes.fromhex("4505010001000000")
# `mov r3, 0`
MOV = bytes.fromhex("b703000000000000")
EXIT = bytes.fromhex("9500000000000000")
# the bytes that the process may take, its code and its stack included
LIMIT = 16 * 2**20
# the same where every second step keeps a state: 50,000 of about a kilobyte each, in lists that double as they grow
KEPT_LIMIT = 256 * 2**20
# the bytes of a long text, which is read into a buffer that doubles as it grows
TEXT = 64 * 2**20
TEXT_LIMIT = 3 * TEXT + LIMIT
# what long texts are made of
FILLERS = [b" ", b"\n", b"; nothing\n", b"\t; a comment that goes on "]


def over_additions(numbers, moves):
    """Returns a read byte, for each number a jump over its addition to r0, so many moves, and `exit`."""
    jumps = [JUMP + b"\x07\x00\x00\x00" + number.to_bytes(4, "little") for number in numbers]
    return BYTE + b"".join(jumps) + MOV * moves + EXIT


def slot_at_the_end(numbers, moves, budget=100_000):
    """Returns the slot of the step that would pass the budget.

    A state is its slot and the number in r0, and is skipped where the same one was kept at this slot: a number that
    is known covers no other one. States are kept where a jump leads to.
    """
    last = 3 + 2 * len(numbers)
    kept, pending, here = set(), [], (0, 0)
    for _ in range(budget):
        slot, number = here
        if 5 <= slot <= last and slot % 2:
            kept.add(here)
        if 3 <= slot < last and slot % 2:
            pending.append((slot + 2, number))
        adds = 3 <= slot < last and slot % 2 == 0
        ended = slot == last + moves
        if not ended:
            pending.append((slot + 1, number + (numbers[(slot - 4) // 2] if adds else 0)))
        while pending and pending[-1] in kept:
            pending.pop()
        here = pending.pop()
    return here[0]


# 32 paths with 4,000 moves each, which keep few states; and additions of 1, which keep many
CASES = [([1, 2, 4, 8, 16], 4000, LIMIT), ([1] * 2046, 0, KEPT_LIMIT)]


def limit_memory(limit):
    """Limits the current process to so many bytes."""
    resource.setrlimit(resource.RLIMIT_AS, (limit, limit))


def failures_of(path, numbers, moves, limit):
    """Yields what is wrong with the refusal of the program with a jump over each addition."""
    path.write_bytes(over_additions(numbers, moves))
    got = run(["verify", path], PROGRAM, preexec_fn=lambda: limit_memory(limit))
    if got != (1, f"refused V17 at {slot_at_the_end(numbers, moves)}\n", explained(path)):
        yield f"{len(numbers)} jumps: {got}"


def failures_of_texts(folder):
    """Yields what is wrong with long texts that say nothing."""
    source, target = folder / "long.s", folder / "long.bpf"
    for filler in FILLERS:
        source.write_bytes(filler * (TEXT // len(filler)))
        words = ["assemble", source, target]
        got = run(words, PROGRAM, preexec_fn=lambda: limit_memory(TEXT_LIMIT))
        if got != (0, "wrote 0 bytes\n", ""):
            yield f"{filler!r}: {got}"


def main():
    """Runs every case, and returns the exit status."""
    build()
    with tempfile.TemporaryDirectory() as folder:
        path = pathlib.Path(folder) / "jumps.bpf"
        failures = [found for case in CASES for found in failures_of(path, *case)]
        failures += failures_of_texts(pathlib.Path(folder))
    return finish(failures, f"little memory: {len(failures)} failures")


if __name__ == "__main__":
    sys.exit(main())
