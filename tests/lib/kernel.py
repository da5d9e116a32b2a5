"""How the programs of the Linux kernel's own tests are run."""

import json
import pathlib
import tempfile

from lib.program import TOP, finish, run

LDDW = 0x18


def vectors_of(name):
    """Returns the vectors of a file of this folder."""
    return json.loads((TOP / "tests" / name).read_text(encoding="utf-8"))["vectors"]


def opcodes(program):
    """Returns the opcode of each instruction of a program: LDDW takes two slots."""
    found, at = [], 0
    while at < len(program):
        found.append(program[at])
        at += 16 if program[at] == LDDW else 8
    return found


def line_of_verify(program):
    """Returns what verify prints of a program file."""
    _, out, _ = run(["verify", program])
    return out


def exit_failure(program, datagram, expected):
    """Returns what is wrong with the low 32 bits of a trace's verdict, or None."""
    _, out, _ = run(["trace", program, "--data", datagram])
    exits = [int(line.split()[1]) for line in out.splitlines() if line.startswith("exit ")]
    if [number % 2**32 for number in exits] != [expected % 2**32]:
        return f"trace ends in {out.splitlines()[-3:]}"
    return None


def run_each(vectors, failure_of, summary):
    """Writes each vector's program to a file, tests it, and returns the exit status."""
    failures = [] if vectors else ["no vectors"]
    with tempfile.TemporaryDirectory() as folder:
        program = pathlib.Path(folder) / "program.bpf"
        for vector in vectors:
            program.write_bytes(bytes.fromhex(vector["bytes_hex"]))
            failure = failure_of(vector, program)
            if failure:
                failures.append(f"{vector['id']} {vector['name']}: {failure}")
    agree = len(vectors) - len(failures)
    return finish(failures, f"{summary}: {agree} of {len(vectors)} agree")
