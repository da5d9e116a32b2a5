"""Prints how fast the built relayd assembles, decodes, verifies and traces. Nothing is asserted.

    tests/speed.py [PROGRAM ..]

The same figures are printed of each PROGRAM, an earlier build of relayd for instance, so that a slowdown is seen.
A figure is the best of several runs, less that of the shortest program, so that the start of the process
isn't counted.
"""

import pathlib
import sys
import tempfile
import time

from lib.program import PROGRAM, build, run

ROUNDS = 7
MOV = bytes.fromhex("b700000000000000")
EXIT = bytes.fromhex("9500000000000000")
# a line of a long text
LINE = "    jeq.32 r1, -123456789, +1    ; a comment\n"
# `ldxdw r2, [r1+16]` and `mov r0, 0`
NUMBER = bytes.fromhex("7912100000000000 b700000000000000")
# `jset r2, 1, +1`
JUMP = bytes.fromhex("4502010001000000")
# `mov r3, 0`
NEXT = bytes.fromhex("b703000000000000")
# the jumps of a program in which no two paths come to the rest in one state
FORKS = 5


def adding(number):
    """Returns an addition to r0 and a jump over it, which may go either way."""
    return JUMP + b"\x07\x00\x00\x00" + number.to_bytes(4, "little")


def forked(moves):
    """Returns a program of 32 paths, each of which makes so many moves, and the abstract steps that it takes."""
    forks = b"".join(adding(2**i) for i in range(FORKS))
    return NUMBER + forks + NEXT * moves + EXIT, 2 + 2 * (2**FORKS - 1) + 2**FORKS * (moves + 1)


def storing(number):
    """Returns a store to a byte of the stack and a jump over it, which may go either way."""
    return JUMP + b"\x72\x0a" + (number - 512).to_bytes(2, "little", signed=True) + bytes(4)


def meeting(fork, forks):
    """Returns a program of which no state covers another one where 2^forks paths meet, at each of the last jumps' targets.

    Each state there is compared with all that were kept before it, which is the most that a program can ask for.
    """
    return NUMBER + b"".join(fork(i) for i in range(forks)) + (JUMP + MOV) * FORKS + EXIT


def counting(jumps):
    """Returns a program that adds 1 or nothing so often, and the abstract steps that it takes.

    A state is kept after each addition, and compared with those before it: the n-th jump is reached with n numbers.
    """
    return NUMBER + adding(1) * jumps + EXIT, 2 + jumps * (jumps + 1) + jumps + 1


def best(words, relayd):
    """Returns the shortest time of a run of relayd on these words, in seconds."""
    times = []
    for _ in range(ROUNDS):
        start = time.perf_counter()
        status, out, _ = run(words, relayd)
        if status:
            sys.exit(f"{words}: {out}")
        times.append(time.perf_counter() - start)
    return min(times)


def print_figures(relayd):
    """Prints the figures of a build."""
    with tempfile.TemporaryDirectory() as folder:
        path = pathlib.Path(folder) / "program.bpf"

        def timed(command, program):
            path.write_bytes(MOV + EXIT)
            start = best([command, path], relayd)
            path.write_bytes(program)
            return max(best([command, path], relayd) - start, 1e-9)

        def timed_text(text):
            target = pathlib.Path(folder) / "target.bpf"
            path.write_text("exit\n", encoding="utf-8")
            start = best(["assemble", path, target], relayd)
            path.write_text(text, encoding="utf-8")
            return max(best(["assemble", path, target], relayd) - start, 1e-9)

        for what, programs in (
            ("that keep few states", [forked(moves) for moves in (1000, 2000, 3000)]),
            ("of which every second one keeps a state", [counting(jumps) for jumps in (100, 200, 300)]),
        ):
            for program, steps in programs:
                rate = steps / timed("verify", program) / 1e6
                print(f"verify: {steps} abstract steps {what}, {rate:.1f} million a second")
        for what, fork, most in (("store to other bytes", storing, 12), ("add other numbers", adding, 10)):
            for forks in (most - 2, most - 1, most):
                taken = timed("verify", meeting(fork, forks))
                print(f"verify: 2^{forks} paths that {what}, in {taken * 1e3:.1f} ms")
        for slots in (1024, 2048, 4096):
            program = MOV * (slots - 1) + EXIT
            taken = timed("verify", program)
            print(f"decode and verify: {slots} slots in {taken * 1e3:.2f} ms")
            taken = timed("trace", program)
            print(f"trace: {slots} steps and their lines in {taken * 1e3:.2f} ms")
            taken = timed("disassemble", program)
            print(f"disassemble: {slots} lines in {taken * 1e3:.2f} ms")
            taken = timed_text(LINE * (slots - 1) + "exit\n")
            print(f"assemble: {slots} lines in {taken * 1e3:.2f} ms")


def main():
    """Prints the figures of the built program, and of each one that is named."""
    build()
    for relayd in (PROGRAM, *sys.argv[1:]):
        print(relayd)
        print_figures(relayd)


if __name__ == "__main__":
    main()
