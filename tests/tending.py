"""Prints how long what the built server does from time to time holds up datagrams. It is no part of the test command.

    tests/tending.py [SECONDS]

A client and a peer exchange data through a server that looks at each of its files, prints its counters each second, writes its metrics
to a folder in memory, as the units do, and logs, first alone, and then beside a process that holds 16,000 UDP sockets, which the system
lists in a table. With gcc the longest time of the processor between two receives is printed, where a wait that finds no datagram is as
a receive: so long no datagram is looked for. A virtual machine that stops for a moment is part of that time, so that a run in which it
is above 250 microseconds is repeated, and the least of some runs is the server's own. What a forwarder in C shows, which does nothing
but forward, is printed first: it is the machine's.
"""

import contextlib
import os
import pathlib
import resource
import shutil
import socket
import struct
import subprocess
import sys
import tempfile
import time

from lib.program import build, finish, preloadable, shipped
from lib.server import Client, Server, address_of, channel_data, round_trip, udp_socket
from serve_speed import SOURCE, Process

# longer than the fifteen seconds after which metrics are written
SECONDS = 20
SOCKETS = 16_000
# a folder in memory, as /run is
MEMORY = "/dev/shm"
MOST, RUNS = 250e-6, 8


@contextlib.contextmanager
def many_sockets():
    """Holds sockets in a process of its own."""
    reading, writing = os.pipe()
    child = os.fork()
    if child == 0:
        os.close(reading)
        resource.setrlimit(resource.RLIMIT_NOFILE, (SOCKETS + 100, SOCKETS + 100))
        held = [socket.socket(socket.AF_INET, socket.SOCK_DGRAM) for _ in range(SOCKETS)]
        for one in held:
            one.bind(("127.0.0.1", 0))
        os.write(writing, b"1")
        while True:
            time.sleep(1)
    os.close(writing)
    try:
        if os.read(reading, 1) != b"1":
            raise OSError("the sockets can't be opened")
        yield
    finally:
        os.close(reading)
        os.kill(child, 9)
        os.waitpid(child, 0)


def watched(folder):
    """Returns the environment of a process whose longest time between receives is written to a file, and that file."""
    held = folder / "held"
    return {**os.environ, "LD_PRELOAD": str(preloadable(folder, "held")), "HELD": str(held), "WAITS": "1"}, held


def longest_in(held):
    """Returns the seconds in that file."""
    return int(held.read_text(encoding="ascii")) / 1e9


def forwarder_held_up(folder, seconds):
    """Returns the longest time of the processor between two receives of a forwarder in C."""
    tool, (environment, held) = folder / "serve_speed", watched(folder)
    subprocess.run(["gcc", "-O2", "-o", tool, SOURCE], check=True)
    with Process(tool, "echo") as echo, Process(tool, "forward", str(echo.port), env=environment) as forwarder, udp_socket() as client:
        client.connect(("127.0.0.1", forwarder.port))
        end = time.monotonic() + seconds
        while time.monotonic() < end:
            client.send(channel_data(b"data"))
            client.recv(100)
    return longest_in(held)


def held_up(folder, metrics, seconds):
    """Returns the longest time of the processor in which no datagram was looked for, and how many round trips were lost."""
    environment, held = watched(folder)
    (folder / "users").write_text("ann:p\n")
    (folder / "secret").write_text("a secret of the bench\n")
    (folder / "revoked").write_text("ben\n")
    words = ["--users", folder / "users", "--secret", folder / "secret", "--revoked", folder / "revoked", "--client", shipped(folder, "client"),
             "--peer", shipped(folder, "peer"), "--stats", "1", "--metrics", metrics, "--log"]
    lost = 0
    with Server(*map(str, words), env=environment) as server, Client(server) as client, udp_socket() as peer:
        client.allocate()
        client.bind(address_of(peer))
        end = time.monotonic() + seconds
        for count in range(1 << 32):
            if time.monotonic() > end:
                break
            lost += round_trip(client, peer, ("127.0.0.1", server.first_port), struct.pack(">I", count)) is None
    return longest_in(held), lost


def measured(folder, metrics, title, seconds):
    """Prints how long the server held up datagrams, and yields what is wrong."""
    runs = []
    while not runs or min(runs) > MOST and len(runs) < RUNS:
        longest, lost = held_up(folder, metrics, seconds)
        runs.append(longest)
        print(f"{title}: held up for {longest * 1e6:.0f} us of the processor at most, {lost} lost", flush=True)
        if lost:
            yield f"{title}: {lost} lost"
    if min(runs) > MOST:
        yield f"{title}: held up for {min(runs) * 1e6:.0f} us, the least of {len(runs)} runs"


def main():
    """Measures the server alone and beside the sockets, and prints the failures."""
    build()
    seconds = int(sys.argv[1]) if len(sys.argv) > 1 else SECONDS
    if not shutil.which("gcc"):
        sys.exit("gcc is needed")
    with tempfile.TemporaryDirectory() as name, tempfile.TemporaryDirectory(dir=MEMORY) as memory:
        folder, metrics = pathlib.Path(name), pathlib.Path(memory) / "metrics"
        print(f"a forwarder in C: held up for {forwarder_held_up(folder, seconds) * 1e6:.0f} us of the processor at most", flush=True)
        failures = list(measured(folder, metrics, "alone", seconds))
        with many_sockets():
            failures += measured(folder, metrics, f"beside {SOCKETS:,} sockets", seconds)
    return finish(failures, f"tending: {len(failures)} failures")


if __name__ == "__main__":
    sys.exit(main())
