"""Tries the shadows of the built relayd's `serve`: programs that run beside those that decide, and are compared with them.

Shadows that are the programs themselves, that discard, pass other bytes on, and send elsewhere or what no client has permitted; what
is printed, named by lines of the record, and written as metrics; shadows that are replaced and become the rule; that clients and
peers get what they get without; and shadows that can't be used at the start.
"""

import contextlib
import os
import pathlib
import shutil
import sys
import tempfile
import time

from lib.program import assembled, explained, run_parts, shipped
from lib.rules import ALLOCATE, BINDING
from lib.server import (
    BAD, DISCARD, PERIOD, UDP, USER, Client, Server, address_of, channel_data, code_of, put, replayed, run, samples_of, udp_socket, wanted)

# Passes a client's datagram on with another second byte.
OTHER_BYTES = """
ldxdw r2, [r1+0]
ldxdw r3, [r1+8]
mov r0, 1
mov r4, r2
add r4, 2
jgt r4, r3, end
stb [r2+1], 77
end:
exit
"""
# Sends the datagram to port {port} of 127.0.0.{host}, which a record of eight bytes on the stack names: zero, the family 1, the port
# and the address, of which the numbers are those of a little-endian word.
SENDING = """
mov r6, r1
sth [r10-8], 0x0100
sth [r10-6], {port}
stw [r10-4], {address}
mov r2, r10
add r2, -8
call 5
mov r1, r6
mov r2, 64
ldxdw r3, [r6+16]
call 4
mov r0, 2
exit
"""

# the seconds after which metrics are written anew, and what they have of a session whose shadows discard all
METRICS = 15
OF_DISCARDING = {
    'relayd_program_verdicts_total{side="client",verdict="1"}': 3,
    'relayd_program_verdicts_total{side="client",verdict="2"}': 1,
    'relayd_program_verdicts_total{side="peer",verdict="2"}': 1,
    'relayd_shadow_compared_total{side="client"}': 4,
    'relayd_shadow_compared_total{side="peer"}': 1,
    'relayd_shadow_differing_total{side="client",difference="passed_on_discarded"}': 3,
    'relayd_shadow_differing_total{side="client",difference="sent_discarded"}': 1,
    'relayd_shadow_differing_total{side="peer",difference="sent_discarded"}': 1,
}


def sending(folder, name, host, port):
    """Assembles a program that sends to a port of 127.0.0.`host` whatever a client has sent."""
    numbers = {"port": int.from_bytes(port.to_bytes(2, "big"), "little"), "address": 127 | host << 24}
    return assembled(folder, name, SENDING.format(**numbers))


@contextlib.contextmanager
def shadowed(*words, **shadows):
    """A server that prints counters each second, with shadows, and the folder of their files, which are copies."""
    with tempfile.TemporaryDirectory() as name:
        folder = pathlib.Path(name)
        for side, program in shadows.items():
            shutil.copy(program, folder / side)
        given = [word for side in shadows for word in (f"--shadow-{side}", str(folder / side))]
        with Server("--stats", "1", *given, *words) as server:
            yield server, folder


def session(client, peer, server):
    """Yields what is otherwise in a session of four datagrams of the client and one of the peer: an allocation without
    credentials and with them, a channel, and data over it, there and back."""
    yield from wanted("the challenge", code_of(client.challenge()), 401)
    yield from wanted("Allocate", code_of(client.signed(ALLOCATE, [UDP])), 0)
    yield from wanted("ChannelBind", code_of(client.bind(address_of(peer))), 0)
    client.send(channel_data(b"there"))
    yield from wanted("data", peer.recv(100), b"there")
    peer.sendto(b"back", ("127.0.0.1", server.first_port))
    yield from wanted("data back", client.receive(), channel_data(b"back"))


def compared(server, client, peer, *lines):
    """Yields what is otherwise than that a session is served as without shadows, and these lines say how they compare."""
    yield from session(client, peer, server)
    for line in lines:
        if not server.awaited(f"shadow {line}\n"):
            yield f"{line!r} isn't in {server.printed()!r}"


def same_programs():
    """Yields what is otherwise where the shadows are the programs, and where only one side has one."""
    with tempfile.TemporaryDirectory() as name:
        client_file, peer_file = shipped(pathlib.Path(name), "client"), shipped(pathlib.Path(name), "peer")
        with shadowed(client=client_file, peer=peer_file) as (server, _), Client(server) as client, udp_socket() as peer:
            yield from compared(server, client, peer, "client: 4 compared, 0 differ", "peer: 1 compared, 0 differ")
        with shadowed(peer=peer_file) as (server, _), Client(server) as client, udp_socket() as peer:
            yield from compared(server, client, peer, "peer: 1 compared, 0 differ")
            yield from wanted("lines of the other side", server.printed().count("shadow client"), 0)


def discarding():
    """Yields what is otherwise where the shadows discard all: what is counted, which lines of the record are named, what the metrics
    have at the start and after 15 seconds, of the verdicts of the programs too, and that a replay of the record gives what was sent."""
    with tempfile.TemporaryDirectory() as name:
        program, record, metrics = (pathlib.Path(name) / file for file in ("discard", "record", "metrics"))
        program.write_bytes(DISCARD)
        words = "--record", str(record), "--metrics", str(metrics)
        with shadowed(*words, client=program, peer=program) as (server, _), Client(server) as client, udp_socket() as peer:
            began = samples_of(metrics)
            yield from wanted("metrics before any datagram", began, {"relayd_slots": 2})
            passed = "3 passed on by the program and discarded by the shadow"
            sent = "1 sent by the program and discarded by the shadow"
            yield from compared(server, client, peer, f"client: 4 compared, 4 differ: {passed}, {sent}",
                                f"peer: 1 compared, 1 differ: {sent}")
            # the first line of the record is the nonce's
            kinds = ["client passed on"] * 3 + ["client sent", "peer sent"]
            for line, (side, _, deed) in enumerate((kind.partition(" ") for kind in kinds), 2):
                text = f"shadow {side} differs at line {line}: {deed} by the program and discarded by the shadow\n"
                yield from wanted(text, server.awaited(text), 1)
            end = time.monotonic() + 2 * METRICS
            while samples_of(metrics) == began and time.monotonic() < end:
                time.sleep(0.1)
            found = {name: value for name, value in samples_of(metrics).items() if name.startswith(("relayd_program", "relayd_shadow"))}
            yield from wanted("metrics", found, OF_DISCARDING)
            server.end()
            yield from wanted("the answers", len(replayed(server, record)), 5)


def other_bytes():
    """Yields what is otherwise where a shadow passes other bytes on."""
    with tempfile.TemporaryDirectory() as name:
        program = assembled(pathlib.Path(name), "other", OTHER_BYTES)
        with shadowed(client=program) as (server, _), Client(server) as client, udp_socket() as peer:
            yield from compared(server, client, peer, "client: 4 compared, 4 differ: 1 sent by the program and passed on by the shadow, "
                                "3 with other bytes")


def elsewhere():
    """Yields what is otherwise where a shadow sends to another port of the peer, which is permitted, and to an address that isn't:
    there a program that is confined sends nothing, so that its shadow discards; and that nothing comes there."""
    with tempfile.TemporaryDirectory() as name, udp_socket() as other, udp_socket(address="127.0.0.9") as unpermitted:
        folder = pathlib.Path(name)
        permitted = sending(folder, "permitted", 1, other.getsockname()[1])
        forbidden = sending(folder, "forbidden", 9, unpermitted.getsockname()[1])
        with shadowed(client=permitted) as (server, _), Client(server) as client, udp_socket() as peer:
            # before the channel is bound, nothing is permitted
            yield from compared(server, client, peer, "client: 4 compared, 4 differ: 3 passed on by the program and discarded by the "
                                "shadow, 1 sent elsewhere")
        with shadowed(client=forbidden) as (server, _), Client(server) as client, udp_socket() as peer:
            yield from compared(server, client, peer, "client: 4 compared, 4 differ: 3 passed on by the program and discarded by the "
                                "shadow, 1 sent by the program and discarded by the shadow")
        for socket in (other, unpermitted):
            socket.settimeout(0.1)
            with contextlib.suppress(TimeoutError):
                yield f"{socket.recv(100)!r} came"


def replaced():
    """Yields what is otherwise where a shadow's file is replaced, refused, and at last moved to that of the program."""
    with tempfile.TemporaryDirectory() as name, contextlib.ExitStack() as stack:
        program = shipped(pathlib.Path(name), "client")
        server, folder = stack.enter_context(shadowed("--client", str(program), client=program))
        client, shadow = stack.enter_context(Client(server)), folder / "client"
        client.ask(BINDING, [])
        yield from wanted("the same", server.awaited("shadow client: 1 compared, 0 differ\n") > 0, True)
        put(shadow, BAD)
        yield from wanted("a refused one", server.awaited(f"refused V5 at 0 in {shadow}\n"), 1)
        client.ask(BINDING, [])
        yield from wanted("the one before", server.awaited("shadow client: 2 compared, 0 differ\n") > 0, True)
        put(shadow, DISCARD)
        yield from wanted("another one", server.awaited(f"loaded {shadow}\n"), 1)
        client.ask(BINDING, [])
        line = "shadow client: 3 compared, 1 differ: 1 passed on by the program and discarded by the shadow\n"
        yield from wanted("with another one", server.awaited(line) > 0, True)
        os.replace(shadow, program)
        yield from wanted("the rule", server.awaited(f"loaded {program}\n"), 1)
        client.send(b"\x00\x01")
        line = "shadow client: 4 compared, 1 differ: 1 passed on by the program and discarded by the shadow\n"
        yield from wanted("as the rule", server.awaited(line) > 0, True)
        time.sleep(1.2 * PERIOD)
        yield from wanted("lines of a file that is gone", server.printed().count("cannot"), 0)


def refused():
    """Yields what is printed otherwise of shadows that can't be used at the start: the first fault, that of the client's side first,
    and before those of the relay and of its sockets."""
    with tempfile.TemporaryDirectory() as name:
        folder = pathlib.Path(name)
        bad, missing, users = folder / "bad", folder / "missing", ["--port", "0", *USER]
        bad.write_bytes(BAD)
        for words, status, line in (
                (["--shadow-client", missing, "--shadow-peer", bad], 3, f"cannot read {missing}\n"),
                (["--shadow-client", bad, "--shadow-peer", missing], 1, f"refused V5 at 0 in {bad}\n{explained(bad)}"),
                (["--shadow-peer", missing, "--client", bad], 3, f"cannot read {missing}\n"),
                (["--shadow-peer", missing, "--relay-ip", "0.0.0.0"], 3, f"cannot read {missing}\n"),
                (["--shadow-peer", missing, "--deny", "none"], 2, "error: invalid value 'none' for '--deny <NETWORK>': not ADDRESS/BITS\n")):
            yield from wanted(f"serve {words}", run(["serve", *users, *words]), (status, "", line))


if __name__ == "__main__":
    parts = [same_programs, discarding, other_bytes, elsewhere, replaced, refused]
    sys.exit(run_parts("shadows", parts))
