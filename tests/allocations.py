"""Counts the allocations of memory by the built relayd while it serves, records, logs and writes metrics: none, once it listens.

Sessions over sockets, with each kind of request, datagrams both ways by channel and by permission, requests that are
refused, and datagrams that are discarded: 172 datagrams in a session come to the server. After each session a line of counters
and metrics are due. It needs gcc.
"""

import pathlib
import random
import sys
import tempfile

from clock import SECOND, Clocks
from lib.program import build, finish, preloadable
from lib.rules import (
    ALLOCATE, BINDING, CREATE_PERMISSION, DATA, DATA_INDICATION, LIFETIME, REFRESH, SEND, TRANSPORT, XOR_PEER_ADDRESS,
    address_value, message, read)
from lib.server import Client, Server, address_of, channel_data, code_of, exchange, samples_of, udp_socket, wanted

# the sessions, and the batches of ChannelData in each
SESSIONS, BATCHES, BATCH = 100, 10, 8


def session(server, client, peer, stranger):
    """Opens an allocation, uses it and ends it, and yields what is answered otherwise than the standards say.

    The stranger is a peer that gets no permission.
    """
    relayed = ("127.0.0.1", server.first_port)
    given = [(XOR_PEER_ADDRESS, address_value(address_of(peer)))]
    yield from wanted("Binding", client.ask(BINDING, []).kind, BINDING | 0x100)
    client.send(random.randbytes(100))
    yield from wanted("Allocate", code_of(client.allocate()), 0)
    yield from wanted("Allocate again", code_of(client.signed(ALLOCATE, [(TRANSPORT, bytes([17, 0, 0, 0]))])), 437)
    yield from wanted("CreatePermission", code_of(client.signed(CREATE_PERMISSION, given)), 0)
    client.send(message(SEND, random.randbytes(12), [*given, (DATA, b"hello")]))
    stranger.sendto(b"without a permission", relayed)
    yield from wanted("Send", peer.recv(100), b"hello")
    peer.sendto(b"back", relayed)
    yield from wanted("Data", read(client.receive()).kind, DATA_INDICATION)
    yield from wanted("ChannelBind", code_of(client.bind(address_of(peer))), 0)
    for _ in range(BATCHES):
        batch = [random.randbytes(160) for _ in range(BATCH)]
        yield from wanted("ChannelData", exchange([(client, peer, relayed)], batch), 2 * BATCH)
    client.send(channel_data(b"over")[:-1])
    yield from wanted("Refresh", code_of(client.signed(REFRESH, [(LIFETIME, bytes(4))])), 0)


def failures_of_sessions(folder):
    """Yields what is wrong with the sessions, and how many allocations they make, where they make any."""
    count, metrics = folder / "count", folder / "relayd.prom"
    count.write_bytes(bytes(8))
    clocks = Clocks(folder)
    preloaded = f"{preloadable(folder, 'refuse_malloc')}:{clocks.library}"
    environment = {**clocks.environment, "LD_PRELOAD": preloaded, "COUNT_FILE": str(count)}
    sockets = udp_socket(), udp_socket(address="127.0.0.2")
    words = "--stats", "1", "--metrics", str(metrics), "--record", str(folder / "record"), "--log"
    with Server(*words, env=environment) as server, Client(server) as client, sockets[0] as peer, sockets[1] as stranger:
        before = int.from_bytes(count.read_bytes(), "little")
        for _ in range(SESSIONS):
            yield from session(server, client, peer, stranger)
            clocks.pass_by(server, 15 * SECOND)
        client.ask(BINDING, [])
        written = samples_of(metrics)['relayd_datagrams_relayed_total{to="peers"}'], server.printed().count("received from")
        yield from wanted("data in metrics, and lines of counters", written, (SESSIONS * (BATCHES * BATCH + 1), SESSIONS))
        logged = [server.printed().count(f"allocation {what}: ") for what in ("made", "ended")]
        yield from wanted("allocations in the log", logged, [SESSIONS] * 2)
        made = int.from_bytes(count.read_bytes(), "little") - before
        yield from wanted("allocations before the server listens are counted", before > 0, True)
        yield from wanted("allocations afterwards", made, 0)


def main():
    """Runs the sessions, and returns the exit status."""
    build()
    with tempfile.TemporaryDirectory() as folder_name:
        failures = list(failures_of_sessions(pathlib.Path(folder_name)))
    return finish(failures, f"allocations while serving {SESSIONS} sessions: {len(failures)} failures")


if __name__ == "__main__":
    sys.exit(main())
