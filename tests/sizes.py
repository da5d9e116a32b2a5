"""Programs at the limits of the profile, with ample memory: what each command of the built relayd prints of them.

The greatest program has 4,096 slots. None of these may be refused because memory runs out.
"""

import pathlib
import sys
import tempfile

from lib.program import finish, run

# the slots of the greatest program
SLOTS = 4096
# states that are pending at once
PENDING = 4000
# forks after each other: the exit keeps 2^9 states
FORKS = 9


def text_of(lines):
    """Returns the text of these lines."""
    return "".join(f"{line}\n" for line in lines)


def rows():
    """Yields the name of each program, its lines, and its bytes, slots and steps."""
    yield "numbers", ["mov r0, 0"] * (SLOTS - 1) + ["exit"], SLOTS, SLOTS
    # each takes two slots
    yield "wide numbers", ["lddw r0, 0"] * (SLOTS // 2 - 1) + ["mov r0, 0", "exit"], SLOTS, SLOTS // 2 + 1
    # a label for each instruction; all but the first and the last jump to the next
    labelled = [line for i in range(1, SLOTS - 1) for line in (f"label{i}:", f"    ja label{i + 1}")]
    yield "labels", ["label0:", "    mov r0, 0", *labelled, f"label{SLOTS - 1}:", "    exit"], SLOTS, SLOTS
    # each jump leaves a state pending, as either side may be taken; the datagram is traced to come from 0.0.0.0
    branches = [f"    jeq r2, {i}, end" for i in range(1, PENDING + 1)]
    yield "branches", ["    mov r0, 0", "    ldxw r2, [r1+40]", *branches, "end:", "    exit"], PENDING + 3, PENDING + 3
    # paths that add other powers of two meet at the exit, and none of their states covers another; no jump of the trace is taken
    forks = [line for i in range(FORKS) for line in ("    jset r2, 1, +1", f"    add r3, {2**i}")]
    yield "kept states", ["    mov r0, 0", "    ldxdw r2, [r1+16]", "    mov r3, 0", *forks, "    exit"], 2 * FORKS + 4, 2 * FORKS + 4


def failures_of(folder, name, lines, slots, steps):
    """Yields what is printed otherwise of a program by the commands."""
    text, file = folder / "text.s", folder / "program.bpf"
    text.write_text(text_of(lines), encoding="utf-8")
    instructions = sum(not line.endswith(":") for line in lines)
    if run(["assemble", text, file]) != (0, f"wrote {8 * slots} bytes\n", ""):
        yield f"{name}: not assembled"
        return
    again = folder / "again.s"
    again.write_text(run(["disassemble", file])[1], encoding="utf-8")
    bytes_of = file.read_bytes()
    if run(["assemble", again, file])[0] or file.read_bytes() != bytes_of:
        yield f"{name}: its disassembly has other bytes"
    verdict = run(["verify", file])
    if verdict != (0, f"accepted {instructions} instructions\n", ""):
        yield f"{name}: {verdict}"
    status, out, err = run(["trace", file])
    printed = out.splitlines()
    if (status, err, printed[steps:]) != (0, "", ["exit 0", "window none", "destination none"]):
        yield f"{name}: a trace of {len(printed)} lines, {status} {err}"


def failures_of_wide_numbers(folder):
    """Yields what is printed otherwise of the greatest number of wide numbers, which have no exit after them."""
    text, file = folder / "text.s", folder / "program.bpf"
    lines = text_of(["lddw r0, 0"] * (SLOTS // 2))
    text.write_text(lines, encoding="utf-8")
    if run(["assemble", text, file]) != (0, f"wrote {8 * SLOTS} bytes\n", ""):
        yield "wide numbers alone: not assembled"
    if run(["disassemble", file]) != (0, lines, ""):
        yield "wide numbers alone: not disassembled"


def main():
    """Runs every command on every program, and returns the exit status."""
    failures, count = [], 0
    with tempfile.TemporaryDirectory() as name:
        for count, row in enumerate(rows(), 1):
            failures += failures_of(pathlib.Path(name), *row)
        failures += failures_of_wide_numbers(pathlib.Path(name))
    return finish(failures, f"sizes: {count} programs, {len(failures)} failures")


if __name__ == "__main__":
    sys.exit(main())
