"""Assembles programs and compares what the built relayd says of them by `verify`.

Rows are worked by hand from the tables of intervals and of the verifier.
"""

import pathlib
import sys
import tempfile

from lib.program import assembled, finish, run

# `ldxw`: 0 or 1, and any number of 32 bits
SIDE = "ldxw r2, [r1+44]"
WORD = "ldxw r2, [r1+40]"

# a number, an instruction of 32 bits with a negative imm, and the greatest number that its result may be
GREATEST = [
    (SIDE, "add.32 r2, -2147483648", 2**31 + 1),
    (SIDE, "mul.32 r2, -2147483648", 2**31),
    (WORD, "and.32 r2, -2147483648", 2**31),
    (SIDE, "or.32 r2, -1", 2**32 - 1),
    (SIDE, "div.32 r2, -1", 0),
    (WORD, "mod.32 r2, -2", 2**32 - 3),
    (SIDE, "lsh.32 r2, -1", 2**31),
    (WORD, "rsh.32 r2, -1", 1),
    (SIDE, "arsh.32 r2, -1", 0),
    (WORD, "mov.32 r2, -1", 2**32 - 1),
]

# a comparison of 0 or 1 with a negative imm, and whether it holds
COMPARED = [
    ("jeq.32 r2, -1", False),
    ("jne.32 r2, -1", True),
    ("jgt.32 r2, -2", False),
    ("jge.32 r2, -1", False),
    ("jlt.32 r2, -1", True),
    ("jle.32 r2, -2", True),
]

# a program, and what is printed of it
PROGRAMS = [
    # an imm of 32 bits is the number that it encodes
    (
        [SIDE, "div.32 r2, -1", "mov r3, r10", "add r3, -8", "add r3, r2", "stdw [r3+0], 0", "mov r0, 0", "exit"],
        "accepted 8 instructions\n",
    ),
    (
        [SIDE, "rsh.32 r2, -1", "mov r3, r10", "add r3, -8", "add r3, r2", "stdw [r3+0], 0", "mov r0, 0", "exit"],
        "accepted 8 instructions\n",
    ),
    ([SIDE, "mov r0, 0", "jeq.32 r2, -1, +1", "exit", "ldxb r0, [r0+0]", "exit"], "accepted 6 instructions\n"),
    ([SIDE, "mov r0, 0", "jgt.32 r2, -2, +1", "exit", "ldxb r0, [r0+0]", "exit"], "accepted 6 instructions\n"),
    (
        [WORD, "mov r0, 0", "jne.32 r2, -1, +5", "rsh r2, 31", "mov r3, r10", "add r3, -9", "add r3, r2"]
        + ["stdw [r3+0], 0", "exit"],
        "accepted 9 instructions\n",
    ),
    # at 64 bits it has its sign extended: no number of 32 bits is above it
    ([WORD, "mov r0, 0", "jgt r2, -2, +1", "exit", "ldxb r0, [r0+0]", "exit"], "accepted 6 instructions\n"),
    # and one of 32 bits may be
    ([WORD, "mov r0, 0", "jgt.32 r2, -2, +1", "exit", "ldxb r0, [r0+0]", "exit"], "refused V18 at 4\n"),
]

# a byte is read, and then the byte at so many places after it
PLACE = [
    "ldxdw r2, [r1+0]", "ldxdw r3, [r1+8]", "mov r4, r2", "add r4, 1", "mov r0, 0", "jgt r4, r3, +6", "ldxb r5, [r2+0]",
    "add r2, r5", "mov r6, r2", "add r6, 1", "jgt r6, r3, +1", "ldxb r0, [r2+0]", "exit"]
# a pointer into the stack isn't moved by a number of which several are possible
STACK = ["ldxdw r2, [r1+0]", "ldxb r5, [r2-1]", "mov r3, r10", "add r3, r5", "mov r0, 0", "exit"]
# the ends of what may be accessed, of how far a pointer may move, and of a jump: what is there is accepted and runs to the verdict 0
LIMITS = [
    (["ldxdw r2, [r1+0]", "ldxb r0, [r2-64]", "exit"], "accepted 3 instructions\n"),
    (["ldxdw r2, [r1+0]", "ldxb r0, [r2-65]", "exit"], "refused V10 at 1\n"),
    (["ldxdw r3, [r1+8]", "ldxb r0, [r3+2]", "exit"], "accepted 3 instructions\n"),
    (["ldxdw r3, [r1+8]", "ldxb r0, [r3+3]", "exit"], "refused V10 at 1\n"),
    (["ldxdw r3, [r1+8]", "ldxh r0, [r3+2]", "exit"], "refused V10 at 1\n"),
    (["ldxdw r2, [r1+0]", "add r2, 1048576", "mov r0, 0", "exit"], "accepted 4 instructions\n"),
    (["ldxdw r2, [r1+0]", "add r2, 1048577", "mov r0, 0", "exit"], "refused V11 at 1\n"),
    (["ja.32 +2147483647", "exit"], "refused V2 at 0\n"),
]
# datagrams in hexadecimal digits: the byte is there, it is one place too far, and it is far from there
READ = [("020709", 9), ("030709", 0), ("ff", 0)]


def bounded(number, instruction, greatest):
    """Returns a program with a fault that is met where a result is above a number."""
    above = [f"lddw r4, {greatest}", "jgt r2, r4, +1", "exit", "ldxb r0, [r0+0]", "exit"]
    return ["mov r0, 0", number, instruction, *above]


def decided(comparison, holds):
    """Returns a program with a fault on the branch that a comparison can't take."""
    fault, end = "ldxb r0, [r0+0]", "exit"
    branches = [fault, end, end] if holds else [end, fault, end]
    return ["mov r0, 0", SIDE, f"{comparison}, +{2 if holds else 1}", *branches]


def rows():
    """Yields each program with what is printed of it."""
    for number, instruction, greatest in GREATEST:
        program = bounded(number, instruction, greatest)
        yield program, f"accepted {len(program)} instructions\n"
        if greatest:
            # one less is not known
            yield bounded(number, instruction, greatest - 1), f"refused V18 at {len(program) - 1}\n"
    for comparison, holds in COMPARED:
        program = decided(comparison, holds)
        yield program, f"accepted {len(program)} instructions\n"
    yield from PROGRAMS
    yield from LIMITS
    yield PLACE, "accepted 13 instructions\n"
    yield STACK, "refused V11 at 3\n"


def printed(folder, program, *command):
    """Returns what relayd prints of a program by a command."""
    name, *options = command
    return run([name, assembled(folder, "file", "".join(f"{line}\n" for line in program)), *options])[1]


def main():
    """Verifies every row, traces the read place, and returns the exit status."""
    failures, count = [], 0
    with tempfile.TemporaryDirectory() as name:
        folder = pathlib.Path(name)
        for count, (program, wanted) in enumerate(rows(), 1):
            found = printed(folder, program, "verify")
            if found != wanted:
                failures.append(f"{'; '.join(program)}: {found!r}, not {wanted!r}")
        for program, wanted in LIMITS:
            found = printed(folder, program, "trace", "--data", "616263")
            if wanted.startswith("accepted") and "\nexit 0\n" not in found:
                failures.append(f"{'; '.join(program)}: {found!r}")
        for data, verdict in READ:
            found = printed(folder, PLACE, "trace", "--data", data)
            if f"\nexit {verdict}\n" not in found:
                failures.append(f"the read place over {data}: {found!r}")
    return finish(failures, f"verdicts: {count} programs, {len(failures)} failures")


if __name__ == "__main__":
    sys.exit(main())
