"""Runs the built relayd's `serve` for long among floods, and says what sessions lost. It is no part of the test command.

    tests/soak.py [MINUTES]

Sessions at each of 256 slots exchange data over channels, while another process floods the server with nine kinds of datagrams, the
programs of both sides are replaced again and again, and nobody reads the standard error. A datagram that the system dropped, by its
tables of UDP sockets, isn't lost by the server; each other one has to arrive, and the memory in use at the end is that at the start.
"""

import itertools
import multiprocessing
import os
import pathlib
import random
import resource
import selectors
import socket
import struct
import subprocess
import sys
import tempfile
import time

from lib.program import PROGRAM, TOP, assembled, build
from lib.rules import ALLOCATE, BINDING, DATA, REFRESH, SEND, USERNAME, XOR_PEER_ADDRESS, address_value, message
from lib.server import LOOPBACK, UDP, USER, Client, address_of, channel_data, code_of, free_ports, put, udp_socket

SLOTS = 256
MINUTES = 60
# how many datagrams a flood sends before it rests, and for how many seconds it rests
BATCH, REST = 20, 0.02
# how often programs are replaced and allocations refreshed, in seconds
SWAP, REFRESHES = 3, 200
# after how many replacements the memory of the start is measured: the first ones take the memory that all later ones use again
FIRST = 5
# what programs may begin with: it changes nothing, so that the replaced one relays as the shipped one does
PADDING = "    mov r5, {}\n"


def flood_kinds(port, first_port):
    """Returns functions that give a hostile datagram and the port that it is sent to."""
    rows = {
        "random bytes": lambda: (random.randbytes(random.randrange(200)), port),
        "messages that are cut": lambda: (message(BINDING, random.randbytes(12), [])[:random.randrange(20)], port),
        "requests of any method": lambda: (struct.pack(">HH", random.randrange(0x4000), 0) + random.randbytes(16), port),
        "allocations without credentials": lambda: (message(ALLOCATE, random.randbytes(12), [UDP]), port),
        "wrong credentials": lambda: (message(REFRESH, random.randbytes(12), [(USERNAME, b"u")], random.randbytes(16)), port),
        "channels that aren't bound": lambda: (struct.pack(">HH", random.randrange(0x4000, 0x5000), 4) + b"data", port),
        "sends without a permission": lambda: (message(SEND, transaction_id := random.randbytes(12), [
            (XOR_PEER_ADDRESS, address_value((LOOPBACK, 9), transaction_id)), (DATA, b"data")]), port),
        "peers without a permission": lambda: (b"from a peer", first_port + random.randrange(SLOTS)),
        "the longest datagrams": lambda: (bytes(65_507), port),
    }
    return list(rows.values())


def flood(port, first_port, stop):
    """Sends hostile datagrams until it is stopped, from addresses that change."""
    kinds = flood_kinds(port, first_port)
    for kind in itertools.cycle(kinds):
        if stop.is_set():
            return
        # an address of loopback for which nobody has a permission
        with socket.socket(socket.AF_INET, socket.SOCK_DGRAM) as bound:
            bound.bind((f"127.0.{random.randrange(1, 256)}.{random.randrange(1, 255)}", 0))
            for _ in range(BATCH):
                data, to = kind()
                bound.sendto(data, ("127.0.0.1", to))
        time.sleep(REST)


def dropped_at(ports):
    """How many datagrams the system dropped at the sockets of these ports."""
    lines = pathlib.Path("/proc/net/udp").read_text().splitlines()[1:]
    rows = (line.split() for line in lines)
    return sum(int(row[-1]) for row in rows if int(row[1].rpartition(":")[2], 16) in ports)


def memory_of(process):
    """The memory in use of a process, in kB, without pages of files."""
    status = pathlib.Path(f"/proc/{process.pid}/status").read_text()
    return next(int(line.split()[1]) for line in status.splitlines() if line.startswith("RssAnon"))


class Programs:
    """The files of both programs, each of which is replaced by one that does the same."""

    def __init__(self, folder):
        self.folder, self.count = folder, 0
        self.texts = {side: (TOP / "examples" / "relay" / f"{side}.s").read_text(encoding="utf-8") for side in ("client", "peer")}
        self.replace()

    def replace(self):
        self.count += 1
        for side, text in self.texts.items():
            made = assembled(self.folder, f"{side}_made", PADDING.format(self.count % 7) + text)
            put(self.folder / f"{side}.bpf", made.read_bytes())

    def options(self):
        return [word for side in self.texts for word in (f"--{side}", str(self.folder / f"{side}.bpf"))]


class Sessions:
    """The sessions: a client and a peer each, and what was sent and received."""

    def __init__(self, server, first_port):
        self.sent = self.received = self.refused = 0
        self.pairs = []
        for slot in range(SLOTS):
            client, peer = Client(server), udp_socket()
            if code_of(client.allocate()) or code_of(client.bind(address_of(peer))):
                raise RuntimeError(f"session {slot} isn't set up")
            self.pairs.append((client, peer, ("127.0.0.1", first_port + slot)))
        self.selector = selectors.DefaultSelector()
        for client, peer, relayed in self.pairs:
            for receiver, back in ((peer, relayed), (client.socket, None)):
                receiver.setblocking(False)
                self.selector.register(receiver, selectors.EVENT_READ, (receiver, back))

    def ports(self):
        return {bound.getsockname()[1] for client, peer, _ in self.pairs for bound in (client.socket, peer)}

    def receive(self, seconds):
        """Receives what comes within some time; a peer sends its datagram back."""
        for key, _ in self.selector.select(seconds):
            receiver, back = key.data
            try:
                while data := receiver.recv(2000):
                    self.received += data.startswith(b"soak") or data[4:].startswith(b"soak")
                    if back:
                        self.sent += 1
                        receiver.sendto(data, back)
            except BlockingIOError:
                pass

    def exchange(self, number):
        """Sends a datagram from each client, and receives until nothing comes."""
        for client, _, _ in self.pairs:
            client.send(channel_data(b"soak" + struct.pack(">Q", number)))
            self.sent += 1
            self.receive(0)
        end = time.monotonic() + 2
        while self.received < self.sent and time.monotonic() < end:
            self.receive(0.05)

    def refresh(self):
        """Refreshes each allocation, its permission and its channel."""
        for client, peer, _ in self.pairs:
            client.socket.setblocking(True)
            client.socket.settimeout(5)
            try:
                self.refused += bool(code_of(client.signed(REFRESH, [])) or code_of(client.bind(address_of(peer))))
            except (TimeoutError, ValueError):
                self.refused += 1
            client.socket.setblocking(False)


def soak(minutes):
    """Returns what a server did otherwise than relay, in some minutes."""
    first = free_ports(SLOTS)
    read_end, write_end = os.pipe()
    stop = multiprocessing.Event()
    with tempfile.TemporaryDirectory() as name:
        programs = Programs(pathlib.Path(name))
        words = ["--port", "0", "--first-port", str(first), "--slots", str(SLOTS), *USER, "--stats", "1", *programs.options()]
        process = subprocess.Popen([PROGRAM, "serve", *words], stdout=subprocess.PIPE, stderr=write_end, text=True)
        server = type("Address", (), {"port": int(process.stdout.readline().rpartition(":")[2])})
        flooding = multiprocessing.Process(target=flood, args=(server.port, first, stop))
        try:
            sessions = Sessions(server, first)
            ports = sessions.ports() | {server.port, *range(first, first + SLOTS)}
            memory, start = None, time.monotonic()
            flooding.start()
            swapped = refreshed = start
            for number in itertools.count():
                now = time.monotonic()
                if now > start + 60 * minutes:
                    break
                if now > swapped + SWAP:
                    programs.replace()
                    swapped = now
                    memory = memory_of(process) if programs.count <= FIRST else memory
                if now > refreshed + REFRESHES:
                    sessions.refresh()
                    refreshed = now
                sessions.exchange(number)
            stop.set()
            flooding.join()
            lost, dropped = sessions.sent - sessions.received, dropped_at(ports)
            print(f"{number} rounds, {sessions.sent} datagrams of sessions, {lost} lost, {dropped} dropped by the system, "
                  f"{programs.count} times other programs, memory {memory} kB and {memory_of(process)} kB")
            failures = [f"{lost} lost, and {dropped} dropped"] if lost > dropped else []
            failures += [f"{sessions.refused} refreshes refused"] if sessions.refused else []
            # the memory of a program that is replaced may lie elsewhere each time
            failures += ["more memory than at the start"] if memory_of(process) > memory + 1_000 else []
            return failures
        finally:
            stop.set()
            process.terminate()
            process.wait(5)
            os.close(read_end)
            os.close(write_end)


def main():
    """Prints what was lost, and returns the exit status."""
    build()
    resource.setrlimit(resource.RLIMIT_NOFILE, (4096, 4096))
    failures = soak(float(sys.argv[1]) if len(sys.argv) > 1 else MINUTES)
    print("\n".join([*failures, f"soak: {len(failures)} failures"]))
    return 1 if failures else 0


if __name__ == "__main__":
    sys.exit(main())
