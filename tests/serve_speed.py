"""Prints how many round trips a second `relayd serve` relays over a channel, beside one that reports all that it can (`--log`,
`--metrics`, `--stats`), one with a shadow of the client's side, and one of both sides, a forwarder in C, coturn, and no relay.

    tests/serve_speed.py [ROUNDS]

A round trip is ChannelData from a client through the server to a peer, which sends it back, and on to the client. In each of
5 rounds, or of ROUNDS, all are measured in turn, for some hundredths of a second at a time, since a machine that does other
work is faster at one time than at another. The figures are the medians of the rounds: round trips a second, processor time, and
what relayd had relative to the others. Where there are four processors or more, the client, the servers and the peer have
one each, so that the system moves none of them in between. No time is asserted. coturn is left out where `turnserver` isn't
there. Needs gcc.
"""

import contextlib
import os
import pathlib
import shutil
import socket
import statistics
import subprocess
import sys
import tempfile
import time

from lib.program import TOP, build, shipped
from lib.rules import REFRESH
from lib.server import Client, Server, code_of, free_ports

SOURCE = TOP / "tests" / "serve_speed.c"
ROUNDS = 5
SIZES = [160, 1_200]
FLIGHTS = {1: 20_000, 32: 60_000}  # datagrams in flight, and how many round trips are timed with them in a round
PARTS = 8  # of a round, in each of which all are measured
IDLE_SECONDS = 5
TICK = 0.01  # seconds of a clock tick of /proc
CLIENT_CPU, SERVER_CPU, PEER_CPU = 1, 2, 3  # processors, where there are as many


def ticks(pid):
    """The processor time of a process so far, in clock ticks."""
    fields = pathlib.Path(f"/proc/{pid}/stat").read_text().rpartition(")")[2].split()
    return int(fields[11]) + int(fields[12])


class Subject:
    """What is measured: a connected socket, the process that serves it, and what renews its session, if it has one."""

    def __init__(self, connected, pid, renew=lambda: None):
        self.socket, self.pid, self.renew = connected, pid, renew

    def measure(self, tool, flight, count, size):
        """Returns the seconds of some round trips, and those of the server's processor time."""
        self.socket.setblocking(True)
        before = ticks(self.pid)
        words = [tool, "load", str(self.socket.fileno()), str(count), str(flight), str(size)]
        ran = subprocess.run(words, pass_fds=[self.socket.fileno()], stdout=subprocess.PIPE, text=True, check=True)
        return float(ran.stdout), (ticks(self.pid) - before) * TICK


class Process:
    """A process that prints its port."""

    def __init__(self, *words, **options):
        self.process = subprocess.Popen(words, stdout=subprocess.PIPE, text=True, **options)
        self.port = int(self.process.stdout.readline())

    def __enter__(self):
        return self

    def __exit__(self, *_):
        self.process.kill()
        self.process.wait()
        self.process.stdout.close()


class Coturn:
    """coturn's server, with one user."""

    def __init__(self, folder, slots=8):
        self.port, first = free_ports(1), free_ports(slots)
        words = ["turnserver", "-n", "--log-file", "stdout", "--pidfile", f"{folder}/pid", "--userdb", f"{folder}/db",
                 "-L", "127.0.0.1", "-E", "127.0.0.1", "-p", str(self.port), "--min-port", str(first), "--max-port", str(first + slots - 1),
                 "-a", "-u", "u:p", "-r", "relay", "--no-tls", "--no-dtls", "--no-tcp", "--no-cli", "--allow-loopback-peers",
                 "--relay-threads", "1"]
        self.process = subprocess.Popen(words, stdout=subprocess.DEVNULL, stderr=subprocess.DEVNULL, cwd=folder)
        time.sleep(1)

    def __enter__(self):
        return self

    def __exit__(self, *_):
        self.process.kill()
        self.process.wait()


def plain(port, stack):
    """A connected socket without a session."""
    connected = stack.enter_context(socket.socket(socket.AF_INET, socket.SOCK_DGRAM))
    connected.connect(("127.0.0.1", port))
    return connected


def session(server, pid, peer, stack):
    """What is measured of a server: a client that has an allocation, and the channel bound to the peer."""
    client = stack.enter_context(Client(server))

    def renew():
        for answer in (client.signed(REFRESH, []), client.bind((bytes([127, 0, 0, 1]), peer))):
            if code_of(answer) != 0:
                raise ValueError(f"refused by {code_of(answer)}")

    client.allocate()
    renew()
    client.socket.connect(client.server)
    client.socket.settimeout(None)
    return Subject(client.socket, pid, renew)


def idle(stack):
    """The share of a core that a server uses in a while, with 16 allocations."""
    server = stack.enter_context(Server(slots=16))
    for _ in range(16):
        stack.enter_context(Client(server)).allocate()
    before = ticks(server.process.pid)
    time.sleep(IDLE_SECONDS)
    return (ticks(server.process.pid) - before) * TICK / IDLE_SECONDS


def subjects(tool, folder, stack):
    """What is measured, by name."""
    echo = stack.enter_context(Process(tool, "echo"))
    forwarder = stack.enter_context(Process(tool, "forward", str(echo.port)))
    server = stack.enter_context(Server())
    reporting = stack.enter_context(Server("--log", "--metrics", f"{folder}/relayd.prom", "--stats", "1"))
    client, peer = (str(shipped(pathlib.Path(folder), side)) for side in ("client", "peer"))
    shadowed = stack.enter_context(Server("--shadow-client", client))
    both = stack.enter_context(Server("--shadow-client", client, "--shadow-peer", peer))
    found = {
        "relayd": session(server, server.process.pid, echo.port, stack),
        "reporting": session(reporting, reporting.process.pid, echo.port, stack),
        "a shadow": session(shadowed, shadowed.process.pid, echo.port, stack),
        "two": session(both, both.process.pid, echo.port, stack),
        "forwarder": Subject(plain(forwarder.port, stack), forwarder.process.pid),
        "no relay": Subject(plain(echo.port, stack), echo.process.pid),
    }
    if shutil.which("turnserver"):
        coturn = stack.enter_context(Coturn(folder))
        found["coturn"] = session(coturn, coturn.process.pid, echo.port, stack)
    return found


def keep_apart(measured):
    """Gives the client, the servers and the peer a processor each, where there are as many."""
    if (os.cpu_count() or 1) <= PEER_CPU:
        return
    for name, subject in measured.items():
        for thread in os.listdir(f"/proc/{subject.pid}/task"):
            os.sched_setaffinity(int(thread), {PEER_CPU if name == "no relay" else SERVER_CPU})
    os.sched_setaffinity(0, {CLIENT_CPU})


def one_round(measured, tool, flight, size):
    """Measures all in turn, in one order and the other, and returns the round trips a second of each, and the microseconds of
    processor time for each of them."""
    count, parts = FLIGHTS[flight] // PARTS, {name: [] for name in measured}
    for subject in measured.values():
        subject.renew()
    for part in range(PARTS):
        for name in sorted(measured, reverse=part % 2 == 1):
            parts[name].append(measured[name].measure(tool, flight, count, size))
    sums = {name: [sum(column) for column in zip(*found)] for name, found in parts.items()}
    return {name: (PARTS * count / seconds, processor * 1e6 / (PARTS * count)) for name, (seconds, processor) in sums.items()}


def print_figures(rounds):
    """Prints the medians of the rounds."""
    for name in rounds[0]:
        trips, processor = (statistics.median(column) for column in zip(*(found[name] for found in rounds)))
        part = statistics.median(found["relayd"][0] / found[name][0] for found in rounds)
        print(f"  {name:10} {trips:9,.0f} round trips a second, {processor:5.1f} us of processor time each; relayd {part:.2f} of it")


def main(count_of_rounds=ROUNDS):
    """Measures, prints, and returns the exit status."""
    build()
    with tempfile.TemporaryDirectory() as folder, contextlib.ExitStack() as stack:
        tool = f"{folder}/serve_speed"
        subprocess.run(["gcc", "-O2", "-o", tool, SOURCE], check=True)
        measured = subjects(tool, folder, stack)
        keep_apart(measured)
        for size in SIZES:
            for flight in FLIGHTS:
                rounds = [one_round(measured, tool, flight, size) for _ in range(count_of_rounds)]
                print(f"{size} bytes, {flight} in flight:")
                print_figures(rounds)
        print(f"idle, 16 allocations: {100 * idle(stack):.1f} % of a core")
    return 0


if __name__ == "__main__":
    sys.exit(main(*map(int, sys.argv[1:])))
