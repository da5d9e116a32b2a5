"""Prints how long an instruction takes in `run`, beside two plain interpreters in C without tests: a switch, and a threaded one.
Rules that were compiled from C stand beside the shipped ones.

    tests/run_speed.py

What a run takes is the lowest time of a start with its run less the lowest of a start. The interpreters take turns, and the lowest
time of each counts. No time is asserted; the verdicts of all have to be the same. Needs gcc.
"""

import pathlib
import subprocess
import sys
import tempfile
from typing import NamedTuple

from lib.measuring import built
from lib.program import TOP, assembled, build

SOURCE = TOP / "tests" / "run_speed.c"
COMPILED = TOP / "examples" / "c" / "compiled"
ROUNDS = 11
# about how many instructions a round runs
STEPS = 20_000_000
# how often the instruction of one kind is in its program
REPEATED = 200
SIZE = 160
# ChannelData for the channel of the peer (RFC 8656, section 12.4), and what a peer sends
CHANNEL_DATA = bytes([0x40, 0, 0, SIZE]) + bytes(range(SIZE))
PLAIN = bytes(range(SIZE))
# a Send indication with XOR-PEER-ADDRESS of 192.0.2.1:5000 and DATA (RFC 8656, section 11.1)
SEND = (bytes.fromhex("001600b02112a442") + bytes([7] * 12) + bytes.fromhex("001200080001329ae112a643001300a0")
        + bytes(range(SIZE)))

SHORTEST = "mov r0, 0\nadd r0, 0\nexit"
# the beginning of a program that reads a datagram of 160 bytes
CHECKED = "ldxdw r2, [r1+0]\nldxdw r3, [r1+8]\nmov r4, r2\nadd r4, 160\nmov r0, 0\njgt r4, r3, end\n"


def repeated(before, line, after=""):
    """Returns the text of a program that has a line again and again."""
    return f"{before}{REPEATED * (line + chr(10))}{after}end:\nexit\n"


def forty():
    """Returns the text of a program of which each of its 40 instructions runs over the bytes 0 to 159.

    It adds up words of them. The last byte of each is even, so that its `jset` is not taken.
    """
    word = "ldxw r5, [r2+{0}]\nbe32 r5\nadd r0, r5\njset r5, 1, next{0}\nxor r0, {0}\nnext{0}:\nlsh r5, 3\n"
    body = "".join(word.format(place) for place in (1, 25, 69, 113, 155))
    return f"{CHECKED}{body}mov r6, r0\nrsh r6, 16\nadd r0, r6\nend:\nexit\n"


KINDS = {
    "arithmetic with a number": repeated("mov r0, 0\n", "add r0, 3"),
    "arithmetic with a register": repeated("mov r0, 0\nmov r1, 3\n", "xor r0, r1"),
    "loads of a byte of the datagram": repeated(CHECKED, "ldxb r0, [r2+3]"),
    "loads of 4 bytes of the datagram": repeated(CHECKED, "ldxw r0, [r2+8]"),
    "stores of 8 bytes to the stack": repeated("mov r0, 7\n", "stxdw [r10-8], r0"),
    "loads of 8 bytes of the stack": repeated("stdw [r10-8], 7\n", "ldxdw r0, [r10-8]"),
    "jumps that are not taken": repeated("mov r0, 0\n", "jne r0, 0, end"),
    "jumps that are taken": repeated("mov r0, 0\n", "jeq r0, 0, +0"),
    "byte swaps": repeated("mov r0, 7\n", "be32 r0"),
    "calls of helper 3, with three instructions each": repeated(
        "mov r6, r1\nstdw [r10-8], 0\nsth [r10-8], 0x0100\n", "mov r1, r6\nmov r2, r10\nadd r2, -8\ncall 3"),
}


def digits_of(folder, program):
    """Returns the bytes of a text, or of a file of a program, in hexadecimal digits."""
    file = program if isinstance(program, pathlib.Path) else assembled(folder, "program", program)
    return file.read_bytes().hex()


def printed(words):
    """Returns the words of a program's output by the words before them, as numbers."""
    ran = subprocess.run(words, stdout=subprocess.PIPE, text=True, check=True)
    fields = ran.stdout.split()
    return {name: float(number) for name, number in zip(fields[::2], fields[1::2])}


class Taken(NamedTuple):
    """The steps of a run, and the nanoseconds of a start, of the run after it, and of the runs in C, of a switch and threaded."""

    steps: int
    start: float
    run: float
    switch: float
    threaded: float


def measure(runner, tools, side, program, datagram):
    """Returns the steps of a program over a datagram, and what it takes by the lowest times.

    Different verdicts end the script.
    """
    first = printed([runner, side, program, datagram.hex(), "0"])
    count = str(max(1, int(STEPS / first["steps"] / ROUNDS)))
    rounds = []
    for _ in range(ROUNDS):
        found = printed([runner, side, program, datagram.hex(), count])
        beside = [printed([tool, program, datagram.hex(), count]) for tool in tools]
        for other in beside:
            if found["verdict"] != other["verdict"]:
                sys.exit(f"verdict {found['verdict']:.0f}, in C {other['verdict']:.0f}")
        rounds.append((found["start"], found["run"], *(other["run"] for other in beside)))
    start, both, *others = (min(times) for times in zip(*rounds))
    return Taken(int(first["steps"]), start, both - start, *others)


def programs():
    """Returns the programs with a title, the side and the datagram of each."""
    folder = TOP / "examples" / "relay"
    client, peer = ((folder / f"{name}.s").read_text(encoding="utf-8") for name in ("client", "peer"))
    return [
        ("CLIENT over ChannelData", "client", client, CHANNEL_DATA),
        ("CLIENT over a Send indication", "client", client, SEND),
        ("PEER, to ChannelData", "peer", peer, PLAIN),
        ("client.c over ChannelData", "client", COMPILED / "client.bpf", CHANNEL_DATA),
        ("client.c over a Send indication", "client", COMPILED / "client.bpf", SEND),
        ("peer.c, to ChannelData", "peer", COMPILED / "peer.bpf", PLAIN),
        ("40 instructions", "client", forty(), PLAIN),
        ("three instructions", "client", SHORTEST, PLAIN),
        *((kind, "client", text, PLAIN) for kind, text in KINDS.items()),
    ]


def main():
    """Builds what is measured, and prints a line for each program."""
    build()
    with tempfile.TemporaryDirectory() as name:
        folder = pathlib.Path(name)
        runner = built("run_speed", folder)
        tools = folder / "switch", folder / "threaded"
        for tool, flags in zip(tools, ([], ["-DTHREADED"])):
            subprocess.run(["gcc", "-O2", *flags, "-o", tool, SOURCE], check=True)
        for title, side, text, datagram in programs():
            taken = measure(runner, tools, side, digits_of(folder, text), datagram)
            print(f"{title}: {taken.steps} steps, a start {taken.start:.1f} ns, a run {taken.run:.1f}, "
                  f"{taken.run / taken.steps:.2f} an instruction; in C {taken.switch:.1f} and threaded {taken.threaded:.1f}; "
                  f"ratios {taken.run / taken.switch:.2f} and {taken.run / taken.threaded:.2f}", flush=True)


if __name__ == "__main__":
    main()
