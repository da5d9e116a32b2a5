"""Prints what sessions lose while others flood their server: the built relayd's `serve`, and coturn beside it, where `turnserver` is
there. It is no part of the test command.

    tests/floods.py [SECONDS]

100 sessions send 5,000 datagrams a second over channels to a peer, which sends 50 a second to the first of them, for some seconds
without a flood and beside each: a stranger's garbage to clients' port, or to the relayed port of the first session, one session
that sends as fast as it can, and a stranger's requests with a wrong password, each by a process that does nothing else. Another
one reads what comes to the flood, and to the peer of the session that floods: a peer that is gone would have each datagram refused.
What doesn't come to the peer of the 100 sessions, or to the client of the first one, within a second is lost. Floods are faster on
one machine than on another, so how many datagrams they sent is printed as well. Where there are four processors or more, the servers
have one, the sessions one, and the flood and what reads its answers the others.
"""

import contextlib
import itertools
import multiprocessing
import os
import select
import shutil
import socket
import sys
import tempfile
import time

from lib.program import build
from lib.rules import ALLOCATE, NONCE, REALM, USERNAME, XOR_RELAYED_ADDRESS, address_in, message
from lib.server import UDP, Client, Server, address_of, channel_data, code_of, udp_socket
from serve_speed import Coturn

SESSIONS = 100
RATE = 5_000  # datagrams a second, of all sessions
SECONDS = 5
SIZE = 172  # the bytes of a datagram of G.711 with its RTP header
SERVER_CPU, SESSION_CPU, FLOOD_CPUS = {2}, {1}, {0, 3}
BUFFER = 1 << 22


def on_processors(numbers, pid=0):
    """Keeps a process on processors, where there are four."""
    if (os.cpu_count() or 1) >= 4:
        os.sched_setaffinity(pid, numbers)


def flood(datagrams, server, bound, stop, sent):
    """Sends datagrams to a server from a socket until it is stopped, and counts them."""
    on_processors(FLOOD_CPUS)
    for count, datagram in enumerate(itertools.cycle(datagrams)):
        with contextlib.suppress(OSError):
            bound.sendto(datagram, server)
        if count % 1_000 == 0:
            sent.value = count
            if stop.is_set():
                return


def read_answers(sockets, stop):
    """Reads what comes to sockets until it is stopped."""
    on_processors(FLOOD_CPUS)
    while not stop.is_set():
        for bound in select.select(sockets, [], [], 0.1)[0]:
            with contextlib.suppress(OSError):
                bound.recv(2_000)


# what each kind of flood has: its socket, the sockets to which something comes, and what it sends

def garbage(_server):
    """A stranger, whose address nobody permits, and random bytes."""
    bound = udp_socket(address="127.0.0.2")
    return bound, [bound], [os.urandom(100) for _ in range(100)]


def busy_session(server):
    """A session with its peer, and its data."""
    client = Client(server)
    sink = udp_socket()
    client.allocate()
    if code_of(client.bind(address_of(sink))) != 0:
        raise ValueError("no channel")
    return client.socket, [client.socket, sink], [channel_data(bytes(SIZE))]


def wrong_passwords(server):
    """A stranger, and requests under a key that is wrong."""
    client = Client(server, password="q")
    client.challenge()
    given = [UDP, (USERNAME, client.name), (REALM, b"relay"), (NONCE, client.nonce)]
    return client.socket, [client.socket], [message(ALLOCATE, os.urandom(12), given, client.key) for _ in range(100)]


# what makes each, and whether it is sent to the relayed port of the first session
FLOODS = {"nothing": (None, False), "garbage": (garbage, False), "garbage at a relayed port": (garbage, True),
          "a busy session": (busy_session, False), "wrong passwords": (wrong_passwords, False)}


class Sessions:
    """Sessions of a server, each with a channel to one peer."""

    def __init__(self, server, stack):
        self.peer = stack.enter_context(udp_socket())
        self.peer.setsockopt(socket.SOL_SOCKET, 33, BUFFER)  # SO_RCVBUFFORCE
        self.peer.setblocking(False)
        self.came = [0, 0]  # at the peer, and at the client of the first session
        self.clients = [stack.enter_context(Client(server)) for _ in range(SESSIONS)]
        for client in self.clients:
            answer = client.allocate()
            if client is self.clients[0]:
                port = address_in(answer.first(XOR_RELAYED_ADDRESS), answer.transaction_id)[1]
                self.relayed = ("127.0.0.1", port)
            if code_of(client.bind(address_of(self.peer))) != 0:
                raise ValueError("no channel")
        self.clients[0].socket.setblocking(False)

    def receive(self):
        """Receives what has come at the peer, and at the client of the first session, and counts it."""
        for index, bound in enumerate((self.peer, self.clients[0].socket)):
            with contextlib.suppress(BlockingIOError):
                while True:
                    bound.recv(2_000)
                    self.came[index] += 1

    def lost(self, seconds):
        """Sends for some seconds, and returns the share that is lost to the peer, and from it."""
        data, sent, began = channel_data(bytes(SIZE)), 0, time.monotonic()
        self.receive()
        self.came = [0, 0]
        for client in itertools.cycle(self.clients):
            while (ahead := sent / RATE - (time.monotonic() - began)) > 0:
                self.receive()
                time.sleep(min(ahead, 0.001))
            if sent >= RATE * seconds:
                break
            client.send(data)
            if client is self.clients[0]:
                self.peer.sendto(bytes(SIZE), self.relayed)
            sent += 1
        end = time.monotonic() + 1
        while time.monotonic() < end:
            self.receive()
            time.sleep(0.01)
        return 1 - self.came[0] / sent, 1 - self.came[1] * SESSIONS / sent


def measured(name, server, pid, seconds):
    """Prints what the sessions of a server lose beside each flood."""
    for thread in os.listdir(f"/proc/{pid}/task"):
        on_processors(SERVER_CPU, int(thread))
    with contextlib.ExitStack() as stack:
        sessions = Sessions(server, stack)
        for title, (kind, is_relayed) in FLOODS.items():
            stop, sent = multiprocessing.Event(), multiprocessing.Value("q", 0)
            processes = []
            if kind is not None:
                bound, answered, datagrams = kind(server)
                flooded = sessions.relayed if is_relayed else ("127.0.0.1", server.port)
                processes = [multiprocessing.Process(target=read_answers, args=(answered, stop)),
                             multiprocessing.Process(target=flood, args=(datagrams, flooded, bound, stop, sent))]
                for process in processes:
                    process.start()
                time.sleep(0.2)
            began, at_first = time.monotonic(), sent.value
            lost, lost_back = sessions.lost(seconds)
            rate = (sent.value - at_first) / (time.monotonic() - began)
            stop.set()
            for process in processes:
                process.join()
            print(f"{name}, beside {title}: {lost:.2%} of the sessions' datagrams lost, and {lost_back:.2%} of the peer's, "
                  f"{rate:,.0f} a second sent by the flood", flush=True)
            time.sleep(1)


def main():
    """Prints a line for each server and each flood."""
    build()
    seconds = int(sys.argv[1]) if len(sys.argv) > 1 else SECONDS
    on_processors(SESSION_CPU)
    with Server(slots=SESSIONS + 1) as server:
        measured("relayd", server, server.process.pid, seconds)
    if shutil.which("turnserver"):
        with tempfile.TemporaryDirectory() as folder, Coturn(folder, slots=SESSIONS + 1) as server:
            measured("coturn", server, server.process.pid, seconds)
    return 0


if __name__ == "__main__":
    sys.exit(main())
