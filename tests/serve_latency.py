"""Prints how long datagrams take through the built server while the slowest programs are verified. It is no part of the test command.

    tests/serve_latency.py [TRIPS]

A client sends data to a peer and the peer sends it back, again and again, first while nothing is verified, and then from the moment at
which one of the programs that are known to take longest takes the place of the client's program, until it is refused, loaded or
given up. Round trips are those of the machine with all else that it does. With gcc the longest time of the processor between two
receives of the server is printed as well: so long no datagram is looked at. A virtual machine that stops for a moment is part of
that time, but it stops at other moments in each run, while what a program makes the server do is the same in each. So where it is
above 5 milliseconds the run is repeated, and the least of some runs is what the program holds the server up for, at most.
"""

import os
import pathlib
import shutil
import struct
import sys
import tempfile

from lib.program import assembled, build, finish, preloadable, shipped
from lib.server import Client, Server, address_of, put, round_trip, udp_socket
from worst_programs import known_programs, longest_programs

TRIPS = 2_000
# what the server prints where a verification has ended
ENDED = ("refused V17", "loaded ", "it takes too long to verify")
# the bound of the longest time of the processor between two receives, in seconds, and how many runs are made to be below it
MOST, RUNS = 0.005, 8


def endings(server):
    """Returns how many verifications have ended, as the server has printed."""
    return sum(server.printed().count(line) for line in ENDED)


def trips(count, client, peer, relayed, ended=None):
    """Returns how long each round trip takes in seconds, and how many are lost: so many, or those until something has ended."""
    found = []
    while len(found) < count if ended is None else not ended():
        found.append(round_trip(client, peer, relayed, struct.pack(">I", len(found))))
    taken = sorted(trip for trip in found if trip is not None)
    return taken, len(found) - len(taken)


def spread(taken, lost):
    """Returns the middle, the slowest hundredth and the slowest of round trips, as a text."""
    return (f"{taken[len(taken) // 2] * 1e6:.0f} us in the middle, {taken[-len(taken) // 100] * 1e6:.0f} us the slowest hundredth and "
            f"{taken[-1] * 1e3:.1f} ms at most, {lost} of {len(taken) + lost:,} lost")


def replaced(folder, slow, count, environment):
    """Returns the round trips before the client's program is replaced by a slow one, and those until that one is verified."""
    path = shipped(folder, "client")
    with Server("--client", str(path), env=environment) as server, Client(server) as client, udp_socket() as peer:
        client.allocate()
        client.bind(address_of(peer))
        relayed = ("127.0.0.1", server.first_port)
        before = trips(count, client, peer, relayed)
        put(path, slow.read_bytes())
        taken, lost = trips(count, client, peer, relayed, lambda: endings(server) > 0)
        # a round trip that was under way when the program was loaded isn't answered
        return before, (taken, lost - min(lost, server.printed().count("loaded ")))


def measured(folder, count, title, lines, environment):
    """Prints how long round trips take without and with the verification of a program, and yields what is wrong."""
    slow = assembled(folder, "slow", "\n".join(lines))
    held = []
    while not held or min(held) > MOST and len(held) < RUNS:
        before, (taken, lost) = replaced(folder, slow, count, environment)
        print(f"{title}: {spread(taken, lost)}; without: {spread(*before)}", flush=True)
        if lost:
            yield f"{title}: {lost} lost"
        if "HELD" not in environment:
            return
        held.append(int(pathlib.Path(environment["HELD"]).read_text(encoding="ascii")) / 1e9)
        print(f"    held up for {held[-1] * 1e3:.2f} ms of the processor at most", flush=True)
    if min(held) > MOST:
        yield f"{title}: held up for {min(held) * 1e3:.2f} ms, the least of {len(held)} runs"


def main():
    """Prints two lines for each run of each program, and the failures."""
    build()
    count = int(sys.argv[1]) if len(sys.argv) > 1 else TRIPS
    failures = []
    with tempfile.TemporaryDirectory() as name:
        folder = pathlib.Path(name)
        environment = {**os.environ}
        if shutil.which("gcc"):
            environment |= {"LD_PRELOAD": str(preloadable(folder, "held")), "HELD": str(folder / "held")}
        for title, lines in [*known_programs().items(), *longest_programs().items()]:
            failures += measured(folder, count, title, lines, environment)
    return finish(failures, f"latency: {len(failures)} failures")


if __name__ == "__main__":
    sys.exit(main())
