"""Prints how many steps a second `Relay::step` takes, and how many lines a second `relayd replay` answers.

    tests/relay_speed.py [--instructions]

The steps are those of unconfined and of confined programs: the shipped ones, these with an instruction more, which makes
them programs of an operator's own, and two that C functions are compiled to. No time is asserted. A figure is the best of
several rounds. The clock starts at the last answer to the events that set the relay up, so that the start of the process
and the setup aren't counted.

With `--instructions` it prints how many instructions a step takes, by valgrind's callgrind, as rows of a table: what so
many steps more take, divided by their number.
"""

import pathlib
import re
import struct
import subprocess
import sys
import tempfile
import time

from lib.measuring import built
from lib.program import PROGRAM as RELAYD
from lib.program import TOP, assembled, build
from lib.rules import (
    ALLOCATE, CHANNEL_BIND, CHANNEL_NUMBER, CREATE_PERMISSION, LIFETIME, NONCE, REALM, TRANSPORT, USERNAME,
    XOR_PEER_ADDRESS, address_value, key_of, line_of, message)

# the program that steps
STEPPER = "relay_speed"
ROUNDS = 5
COUNT = 200_000
# how many steps the instructions are counted of
FEW = 1_000
CONFINEMENTS = ["unconfined", "confined"]
# the slots, and how many permissions and channels each of them has
TABLES = {"1 slot": (1, 1), "256 full slots": (256, 64)}
SIZES = [160, 1200]
NOW, TX = 1000, bytes(12)
FIRST_CHANNEL = 0x4000
REPLAYS = 3
LINES = 1_000_000
# the lines that are written to `replay` at once
PIECE = 1_000


def client(slot):
    """Returns the client whose allocation is at a slot."""
    return bytes([198, 51, 100, slot]), 4000


def peer(index):
    """Returns the peer of a permission and of a channel."""
    return bytes([192, 0, 2, index]), 5000


def from_client(address, data):
    """Returns the line of a client's datagram."""
    return line_of(("c", NOW, TX, address, data))


def from_peer(slot, address, data):
    """Returns the line of a peer's datagram."""
    return line_of(("p", NOW, TX, slot, address, data))


def signed(kind, given):
    """Returns a request of the user."""
    credentials = [(USERNAME, b"u"), (REALM, b"relay"), (NONCE, b"n1")]
    return message(kind, TX, given + credentials, key_of("u", "relay", "p"))


def requests(rows):
    """Returns the requests of a client that wants an allocation with so many permissions and channels."""
    peers = [(XOR_PEER_ADDRESS, address_value(peer(index))) for index in range(rows)]
    transport, hour = (TRANSPORT, bytes([17, 0, 0, 0])), (LIFETIME, struct.pack(">I", 3600))
    yield signed(ALLOCATE, [transport, hour])
    yield signed(CREATE_PERMISSION, peers)
    for index in range(rows):
        number = (CHANNEL_NUMBER, struct.pack(">HH", FIRST_CHANNEL + index, 0))
        yield signed(CHANNEL_BIND, [number, peers[index]])


def setup(slots, rows):
    """Returns the lines that fill the tables."""
    wanted = list(requests(rows))
    return [from_client(client(slot), data) for slot in range(slots) for data in wanted]


def channel_data(index, size):
    """Returns ChannelData for a channel."""
    return struct.pack(">HH", FIRST_CHANNEL + index, size) + bytes(size)


def datagrams(slots, rows):
    """Yields what is measured: a title, the line, and whether a datagram is sent. The slot and the row are the last."""
    slot, row = slots - 1, rows - 1
    ip, port = peer(row)
    for size in SIZES:
        yield f"ChannelData of {size} bytes", from_client(client(slot), channel_data(row, size)), True
    for size in SIZES:
        yield f"a peer's {size} bytes to a bound channel", from_peer(slot, (ip, port), bytes(size)), True
    for size in SIZES:
        yield f"a peer's {size} bytes by permission alone", from_peer(slot, (ip, port + 1), bytes(size)), True
    stranger = client(slots - 1)[0], 4001
    yield "Allocate, error 401", from_client(stranger, message(ALLOCATE, TX, [])), True
    yield "garbage of 160 bytes", from_client(stranger, b"\xff" * 160), False


def with_one_more(folder, side):
    """Assembles the shipped program of a side with an instruction more to a file of a folder, and returns its path."""
    text = (TOP / "examples" / "relay" / f"{side}.s").read_text(encoding="utf-8")
    return assembled(folder, side, f"    mov r0, 0\n{text}")


def pairs(folder):
    """Yields pairs of programs that relay in both directions: a title, and the files of both sides, none of the shipped ones."""
    compiled = TOP / "examples" / "c" / "compiled"
    yield "the shipped programs", []
    yield "these with an instruction more", [with_one_more(folder, side) for side in ("client", "peer")]
    yield "client.c and peer.c", [compiled / "client.bpf", compiled / "peer.bpf"]
    yield "public_to_internal.c", [compiled / "public_to_internal.bpf"] * 2


def relays(folder):
    """Yields what steps: a title, and the words of the program for it."""
    for title, files in pairs(folder):
        for confinement in CONFINEMENTS:
            yield f"{title}, {confinement}", [confinement, *files]


def is_success(answer):
    """Returns whether an answer is a success response to a client."""
    words = answer.split()
    return len(words) == 3 and words[0] == "c" and int(words[2][:4], 16) & 0x110 == 0x100


def said_of(count, sends):
    """Returns the line that so many steps end with."""
    return f"{count if sends else 0} of {count} steps send a datagram\n"


def timed(words, lines, line, sends):
    """Returns how long the steps over a line's datagram take, in seconds, after those of other lines."""
    program, slots, *relay = words
    with subprocess.Popen([program, slots, str(COUNT), *relay], stdin=subprocess.PIPE, stdout=subprocess.PIPE, text=True) as process:
        process.stdin.write("\n".join([*lines, line, ""]))
        process.stdin.close()
        answers = [process.stdout.readline() for _ in lines]
        start = time.perf_counter()
        said = process.stdout.readline()
        taken = time.perf_counter() - start
    if not all(map(is_success, answers)) or said != said_of(COUNT, sends):
        sys.exit(f"{line[:60]}: {said}")
    return taken


def print_steps(folder):
    """Prints a line for each datagram, each size of the tables, and each pair of programs, unconfined and confined."""
    lines = {name: setup(*tables) for name, tables in TABLES.items()}
    cases = [(f"{title}, {name}, {relay}", [folder / STEPPER, str(tables[0]), *words], lines[name], line, sends)
             for name, tables in TABLES.items() for title, line, sends in datagrams(*tables) for relay, words in relays(folder)]
    # each round runs every case, so that a slow moment of the machine doesn't fall on one of them alone
    rounds = [[timed(*case) for _, *case in cases] for _ in range(ROUNDS)]
    for (title, *_), taken in zip(cases, map(min, zip(*rounds))):
        print(f"{title}: {COUNT / taken:,.0f} steps a second, {1e9 * taken / COUNT:,.0f} ns each")


def instructions(folder, words, text, sends):
    """Returns how many instructions the program takes for events, by valgrind."""
    tool = ["valgrind", "--tool=callgrind", f"--callgrind-out-file={folder / 'callgrind.out'}"]
    ran = subprocess.run([*tool, folder / STEPPER, *words], input=text, capture_output=True, text=True, check=True)
    if not ran.stdout.endswith(said_of(int(words[1]), sends)):
        sys.exit(ran.stdout[-200:])
    return int(re.search(r"Collected : (\d+)", ran.stderr)[1])


def counted(folder, slots, relay, text, sends):
    """Returns how many instructions a step over the last datagram of a text takes."""
    one, two = (instructions(folder, [str(slots), str(count), *relay], text, sends) for count in (FEW, 2 * FEW))
    return (two - one) / FEW


def print_instructions(folder):
    """Prints the instructions of a step: a row for each size of the tables and each datagram, and a column for each relay."""
    columns = dict(relays(folder))
    print("| Datagram |", " | ".join(columns), "|")
    for name, tables in TABLES.items():
        lines = setup(*tables)
        for title, line, sends in datagrams(*tables):
            text = "\n".join([*lines, line, ""])
            counts = (counted(folder, tables[0], words, text, sends) for words in columns.values())
            print(f"| {title}, {name} |", " | ".join(f"{count:,.0f}" for count in counts), "|", flush=True)


def resident(process):
    """Returns the greatest resident set of a process so far, in kilobytes."""
    with open(f"/proc/{process.pid}/status", encoding="ascii") as status:
        return next(int(line.split()[1]) for line in status if line.startswith("VmHWM"))


def programs(folder):
    """Yields titles of what `relayd replay` is started with, and the words for it: the shipped programs, and a client's that
    has an instruction more, confined and not."""
    for title, words in (("the shipped programs", []), ("another client's program", ["--client", with_one_more(folder, "client")])):
        yield title, words
        yield f"{title}, confined", [*words, "--confine"]


def replayed(more):
    """Returns how long `relayd replay` with more words takes for all lines, in seconds, and its greatest resident set after
    the first piece and after all, in kilobytes."""
    piece = f"{from_client(client(0), channel_data(0, 160))}\n".encode() * PIECE
    words = [RELAYD, "replay", "-", "--user", "u:p", *more]
    with subprocess.Popen(words, stdin=subprocess.PIPE, stdout=subprocess.DEVNULL) as process:
        process.stdin.write("".join(f"{line}\n" for line in setup(1, 1)).encode() + piece)
        process.stdin.flush()
        first = resident(process)
        start = time.perf_counter()
        for _ in range(LINES // PIECE):
            process.stdin.write(piece)
        process.stdin.flush()
        last = resident(process)
        process.stdin.close()
        status = process.wait()
        taken = time.perf_counter() - start
    if status:
        sys.exit(f"replay: status {status}")
    return taken, first, last


def print_replays(folder):
    """Prints how fast `relayd replay` answers lines, and the memory that it took."""
    cases = list(programs(folder))
    # each round runs every case, as above
    rounds = [[replayed(words) for _, words in cases] for _ in range(REPLAYS)]
    for (title, _), runs in zip(cases, zip(*rounds)):
        taken, first, last = zip(*runs)
        print(f"replay of {LINES:,} lines with {title}: {LINES / min(taken):,.0f} a second; greatest resident set after "
              f"{PIECE:,} lines {max(first)} kB, at the end {max(last)} kB")


def main():
    """Builds both programs, and prints all figures, or the numbers of instructions."""
    build()
    with tempfile.TemporaryDirectory() as name:
        folder = pathlib.Path(name)
        built(STEPPER, folder)
        if sys.argv[1:] == ["--instructions"]:
            print_instructions(folder)
        else:
            print_steps(folder)
            print_replays(folder)


if __name__ == "__main__":
    main()
