"""Searches for programs that take long to verify, by changing one and keeping what takes longer. It is no part of the test command.

    tests/worst_search.py MINUTES [SEED]

A program has a beginning, in which registers and groups of the stack get values, forks that each change one of them, and an end at
which all paths meet. Each turn changes a few of these lines, verifies the program, and keeps it where that took longer. After so
many turns without a longer one the search begins anew. The slowest programs are printed, each with its time, as texts that
`assemble` takes.
"""

import os
import pathlib
import random
import sys
import tempfile
import time

from lib.program import PROGRAM, assembled, build
from worst_programs import BYTES, chain, forks

# turns without a longer one until the search begins anew, the most forks, and the seconds after which a verification is ended
PATIENCE, MOST_FORKS, LONGEST = 60, 15, 30
REGISTERS = (0, 4, 5, 6, 7, 8, 9)
HEAD = ["ldxdw r2, [r1+24]", "ldxdw r3, [r1+32]"]


def register(draw):
    return draw.choice(REGISTERS)


def group(draw):
    return f"[r10-{8 * draw.randrange(1, 65)}]"


# what a line of the beginning may be
BEGINNINGS = [
    lambda draw: [f"mov r{register(draw)}, {draw.choice((0, 1, 1 << draw.randrange(31)))}"],
    lambda draw: [f"ldxdw r{register(draw)}, [r1+24]"],
    lambda draw: (lambda r: [f"ldxdw r{r}, [r1+24]", f"and r{r}, {(1 << draw.randrange(1, 32)) - 1}"])(register(draw)),
    lambda draw: (lambda r: [f"ldxdw r{r}, [r1+24]", f"rsh r{r}, {draw.randrange(1, 64)}"])(register(draw)),
    lambda draw: [f"ldxdw r{register(draw)}, [r1+0]"],
    lambda draw: [f"mov r{register(draw)}, r10"],
    lambda draw: (lambda r, n: [f"ldxdw r{r}, [r1+0]", f"ldxdw r{n}, [r1+24]", f"and r{n}, 255", f"add r{r}, r{n}"])(
        *draw.sample(REGISTERS, 2)),
    lambda draw: [f"stxdw {group(draw)}, r{draw.choice((1, 10))}"],
    lambda draw: [f"stdw {group(draw)}, 0"],
]
# what a fork may do
CHANGES = [
    lambda draw: [f"add r{register(draw)}, {1 << draw.randrange(31)}"],
    lambda draw: [f"mul r{register(draw)}, {draw.choice((2, 3, 5, 7, 11, 13, 17, 19, 23))}"],
    lambda draw: [f"and r{register(draw)}, {draw.randrange(1, 1 << 31)}"],
    lambda draw: [f"mov r{register(draw)}, {draw.randrange(1 << 31)}"],
    lambda draw: [f"mov r{register(draw)}, r{draw.choice((1, 10, *REGISTERS))}"],
    lambda draw: [f"jgt r{register(draw)}, {draw.randrange(1 << 31)}, +0"],
    lambda draw: [f"stb [r10-{draw.randrange(1, BYTES + 1)}], 0"],
    lambda draw: [f"stxdw {group(draw)}, r{draw.choice((1, 10, *REGISTERS))}"],
    lambda draw: [f"ldxdw r{register(draw)}, {group(draw)}"],
]


def begun(draw):
    """Returns a program that is drawn: lines of its beginning, changes of its forks, and how many jumps come at its end."""
    return ([draw.choice(BEGINNINGS)(draw) for _ in range(draw.randrange(2, 20))],
            [draw.choice(CHANGES)(draw) for _ in range(draw.randrange(6, MOST_FORKS + 1))], draw.choice((0, 1, 3, 100)))


def changed(draw, program):
    """Returns a program with a few other lines."""
    beginning, changes, jumps = [*program[0]], [*program[1]], program[2]
    for _ in range(draw.randrange(1, 4)):
        lines, kinds, most = draw.choice(((beginning, BEGINNINGS, 80), (changes, CHANGES, MOST_FORKS)))
        at = draw.randrange(len(lines) + 1)
        if at < len(lines) and draw.random() < 0.7:
            lines[at] = draw.choice((draw.choice(kinds)(draw), draw.choice(lines)))
        elif len(lines) < most:
            lines.insert(at, draw.choice(kinds)(draw))
        elif lines:
            lines.pop(draw.randrange(len(lines)))
    return beginning, changes, draw.choice((jumps, jumps, jumps, 0, 1, 3, 100))


def text(program):
    """Returns the lines of a program: registers that a change may read are set first."""
    beginning, changes, jumps = program
    zero = [f"mov r{number}, 0" for number in REGISTERS]
    return [*HEAD, *zero, *sum(beginning, []), *forks(changes), *chain(jumps), "mov r0, 0", "exit"]


def seconds(folder, program):
    """Returns how long the verification of a program takes, in seconds of the processor."""
    target = assembled(folder, "program", "\n".join(text(program)) + "\n")
    child = os.posix_spawn("/usr/bin/timeout", ["timeout", str(LONGEST), str(PROGRAM), "verify", str(target)], os.environ,
                           file_actions=[(os.POSIX_SPAWN_OPEN, number, "/dev/null", os.O_WRONLY, 0) for number in (1, 2)])
    used = os.wait4(child, 0)[2]
    return used.ru_utime + used.ru_stime


def climbed(draw, folder, end):
    """Returns the slowest program that is found from a drawn one on, with its time, and how many were tried."""
    best, tried, waited = begun(draw), 1, 0
    longest = seconds(folder, best)
    while waited < PATIENCE and time.monotonic() < end:
        other = changed(draw, best)
        took = seconds(folder, other)
        tried, waited = tried + 1, waited + 1
        if took > longest * 1.02:
            best, longest, waited = other, took, 0
    return longest, best, tried


def main():
    """Prints the slowest programs."""
    build()
    minutes, seed = float(sys.argv[1]), int(sys.argv[2]) if len(sys.argv) > 2 else 1
    draw, end = random.Random(seed), time.monotonic() + 60 * minutes
    found, tried = [], 0
    with tempfile.TemporaryDirectory() as name:
        while time.monotonic() < end:
            longest, program, more = climbed(draw, pathlib.Path(name), end)
            found, tried = sorted([*found, (longest, text(program))], reverse=True)[:3], tried + more
            print(f"{longest:.2f} s; the slowest so far {found[0][0]:.2f} s, of {tried:,} programs", flush=True)
    for longest, lines in found:
        print(f"\n# {longest:.2f} s", *lines, sep="\n")
    return 0


if __name__ == "__main__":
    sys.exit(main())
