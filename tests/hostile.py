"""Runs the built relayd's `serve` among users, files and neighbours that would harm others.

Peers and clients that nothing is sent to, a user who allocates through the server's own port, a standard error that nobody reads,
files that are pipes, folders or too long, bursts, few file descriptors, at the start and for files that change, and two processes
that serve one port, also as older Linux spreads clients over them. All of it stays on loopback; where the system lets a process
have a network of its own, clients come from other addresses there.
"""

import collections
import contextlib
import os
import pathlib
import random
import resource
import socket
import struct
import subprocess
import sys
import tempfile
import time

from lib.program import PASSED_OVER, PROGRAM, failures_of, preloadable, run_parts
from lib.rules import ALLOCATE, BINDING, CHANNEL_BIND, CHANNEL_NUMBER, CREATE_PERMISSION, message
from lib.server import (
    CHANNEL, DISCARD, LOOPBACK, PERIOD, UDP, USER, Client, Server, address_of, channel_data, code_of, comes, counters,
    fault_line, free_ports, full_pipe, passed, put, udp_socket, wanted)
from serve import BOTH, sockets_of

# networks of peers, those of the server's loopback addresses among them, and the addresses that are sent to all the same
RULES = [
    ([], ["127.0.0.1", "127.0.0.2", "127.1.0.1"]),
    (["--deny", "127.0.0.2/32"], ["127.0.0.1", "127.1.0.1"]),
    (["--deny", "127.0.0.0/8"], []),
    (["--deny", "127.0.0.0/8", "--allow", "127.0.0.0/16"], ["127.0.0.1", "127.0.0.2"]),
    (["--allow", "127.0.0.0/8", "--deny", "127.0.0.0/16"], ["127.1.0.1"]),
    (["--deny", "127.0.0.1/32", "--deny", "0.0.0.0/0", "--allow", "127.0.0.1/32"], ["127.0.0.1"]),
    (["--deny", "::1/128"], ["127.0.0.1", "127.0.0.2", "127.1.0.1"]),
]
PEERS = RULES[0][1]
# addresses that nothing is sent to without any option, by a server that listens on loopback
NEVER = ["0.0.0.0", "0.1.2.3", "169.254.169.254", "224.0.0.1", "239.255.255.255", "240.0.0.1", "255.255.255.255"]
# `mov r0, 1` and `exit`: all is passed on to the rules
PASS = bytes.fromhex("b700000001000000 9500000000000000")
# the options of files that are read again, each with good bytes, how many it may have, and what is reported of one that isn't there
ODD_FILES = [("client", PASS, 32_768, ""), ("peer", PASS, 32_768, ""), ("users", b"ann:a\n", 1 << 18, "not readable"),
             ("secret", b"a secret of 16 b\n", 1 << 18, "not readable"), ("revoked", b"eve\n", 1 << 18, "not readable")]
# a burst, and the length of each of its datagrams: more than the system's usual buffers hold
BURST, LENGTH = 400, 1_200
# the files that a server may have open: too few for the sockets of 16 slots; and enough for those of some slots, but not for one
# of each of their clients and one of a peer of each
TOO_FEW, FEW, FEW_SLOTS = 12, 64, 32
# the codes of "destination unreachable" (RFC 792; RFC 1812, section 5.2.7.1), but that of a datagram that is too long
UNREACHABLE = (0, 1, 2, 3, 5, 6, 7, 8, 9, 10, 11, 12, 13)
# the bytes of the longest line
LONGEST_LINE = 4_096
# the sessions of two processes that serve one port, each with two channels; and the fewest channels that either serves, which it does
# but for one in millions of runs
SESSIONS, LEAST = 64, 24
# the word with which this script tries a shared port alone
SHARED = "shared_port"


def octets(address):
    return bytes(int(part) for part in address.split("."))


def permit(client, peer):
    """Asks for a permission for an address and a port, and returns the code of the response."""
    return code_of(client.signed(CREATE_PERMISSION, [], peer))


def denied_peers():
    """Yields the peers that are sent to and shouldn't be, and those that aren't and should be, by Send and over a channel."""
    for words, allowed in RULES:
        with Server(*words, "--stats", "1") as server, Client(server) as client, contextlib.ExitStack() as stack:
            peers = {address: stack.enter_context(udp_socket(0, address)) for address in PEERS}
            client.allocate()
            for address, peer in peers.items():
                at = octets(address), peer.getsockname()[1]
                yield from wanted(f"{words}, a permission for {address}", permit(client, at), 0)
                client.send_to(at, b"sent")
                found = comes(peer, b"sent", address in allowed)
                yield from wanted(f"{words}, a Send to {address}", found, address in allowed)
            address, peer = next(iter(peers.items()))
            client.bind((octets(address), peer.getsockname()[1]))
            client.send(channel_data(b"over"))
            yield from wanted(f"{words}, ChannelData to {address}", comes(peer, b"over", address in allowed), address in allowed)
            peer.sendto(b"back", ("127.0.0.1", server.first_port))
            yield from wanted(f"{words}, data of {address}", client.receive(), channel_data(b"back"))
            denied = len(peers) - len(allowed) + (address not in allowed)
            expected = counters(
                from_clients=2 + 2 * len(peers) + 2, from_peers=1, to_peers=len(allowed) + (address in allowed), to_clients=1,
                granted=2 + len(peers), challenged=1, denied=denied)
            if not server.awaited(expected):
                yield f"{words}, other counters: {server.printed()!r}"


def never_sent():
    """Yields the addresses and ports for which a permission is given, and that are sent to."""
    with Server("--stats", "1") as server, Client(server) as client, udp_socket() as peer:
        client.allocate()
        at = [(octets(address), 5000) for address in NEVER]
        at += [(LOOPBACK, 0), (LOOPBACK, server.port)]
        for to in at:
            yield from wanted(f"a permission for {to}", permit(client, to), 0)
            client.send_to(to, b"sent")
        client.send_to(address_of(peer), b"sent")
        yield from wanted("data to a peer on loopback", comes(peer, b"sent", True), True)
        # all of these are at 127.0.0.1, and one permission is for each address
        expected = counters(from_clients=3 + 2 * len(at), to_peers=1, granted=1 + len(at), challenged=1, denied=len(at))
        if not server.awaited(expected):
            yield f"other counters: {server.printed()!r}"


def own_services():
    """Yields which ports of a server's own address are sent to that aren't relayed ones, and which aren't where an option names them."""
    own = bytes([203, 0, 113, 9])
    for words, denied, faults in (([], 3, 0), (["--relayed-ports", "1-65535"], 0, 3)):
        with Server("--stats", "1", "--relay-ip", "203.0.113.9", *words) as server, Client(server) as client:
            client.allocate()
            yield from wanted("a permission for the server's own address", permit(client, (own, 22)), 0)
            for port in (22, server.first_port - 1, server.first_port + server.slots):
                client.send_to((own, port), b"sent")
            # a socket of loopback can't send to this address
            expected = counters(from_clients=6, granted=2, challenged=1, denied=denied, send_faults=faults)
            if not server.awaited(expected):
                yield f"{words}, other counters: {server.printed()!r}"


def loopback_behind_all_addresses():
    """Yields what reaches a service of the machine through a server that listens at all addresses."""
    first = free_ports(2)
    words = ["--listen", "0.0.0.0", "--relay-ip", "127.0.0.1", "--port", str(first + 1), "--first-port", str(first)]
    command = [PROGRAM, "serve", *USER, "--slots", "1", *words, "--stats", "1"]
    with udp_socket() as service, udp_socket(0, "127.0.0.2") as other:
        process = subprocess.Popen(command, stdout=subprocess.PIPE, stderr=subprocess.DEVNULL, text=True)
        try:
            yield from wanted("the server's line", process.stdout.readline(), f"listening 0.0.0.0:{first + 1}\n")
            server = type("Address", (), {"port": first + 1})
            with Client(server) as client:
                client.allocate()
                for peer in (service, other):
                    at = octets(peer.getsockname()[0]), peer.getsockname()[1]
                    yield from wanted("a permission", permit(client, at), 0)
                    client.send_to(at, b"sent")
                    yield from wanted(f"data to {at}", comes(peer, b"sent", False), False)
        finally:
            process.terminate()
            process.wait(5)


def forged_clients():
    """Yields what a server sends to clients at addresses that are denied, in a network of its own: nothing, unless it is in theirs."""
    addresses = "ip link set lo up && ip address add 192.0.2.10/32 dev lo && ip address add 169.254.1.2/32 dev lo"
    command = ["unshare", "--net", "sh", "-c", f'{addresses} && exec "$@"', "sh", sys.executable, __file__]
    if subprocess.run([*command[:-2], "true"], stdout=subprocess.DEVNULL, stderr=subprocess.DEVNULL, check=False).returncode:
        PASSED_OVER.append("forged clients: no network of its own")
        return
    for listen, answered in (("192.0.2.10", ["192.0.2.10"]), ("169.254.1.2", ["192.0.2.10", "169.254.1.2"]),
                             ("0.0.0.0", ["192.0.2.10", "169.254.1.2", "127.0.0.1"])):
        ran = subprocess.run([*command, listen, *answered], stdout=subprocess.PIPE, text=True, check=False)
        yield from wanted(f"clients that a server at {listen} answers", ran.stdout.split(), answered)


def answers_from(listen, *answered):
    """Prints the addresses of clients that a server answers which listens at an address: those that it should answer are given more
    time."""
    command = [PROGRAM, "serve", *USER, "--listen", listen, "--relay-ip", "192.0.2.10", "--port", "3478"]
    with subprocess.Popen(command, stdout=subprocess.PIPE, stderr=subprocess.DEVNULL, text=True) as process:
        process.stdout.readline()
        for address in ("192.0.2.10", "169.254.1.2", "127.0.0.1"):
            with udp_socket(0, address) as client:
                client.settimeout(5 if address in answered else 0.5)
                client.sendto(message(BINDING, bytes(12), []), ("192.0.2.10" if listen == "0.0.0.0" else listen, 3478))
                with contextlib.suppress(TimeoutError):
                    client.recv(100)
                    print(address)
        process.terminate()
    return 0


def loops():
    """Yields what an allocation through the server's own port does otherwise than fail: no slot reaches that port."""
    for slots in (2, 3):
        with Server("--stats", "1", slots=slots) as server, Client(server) as client:
            client.allocate()
            own = LOOPBACK, server.port
            yield from wanted("a permission for the server", permit(client, own), 0)
            for _ in range(slots):
                request = message(ALLOCATE, random.randbytes(12), [UDP])
                client.send_to(own, request)
            yield from wanted("a Binding after it", client.ask(BINDING, []).kind, BINDING | 0x100)
            expected = counters(from_clients=4 + slots, granted=3, challenged=1, denied=slots)
            if not server.awaited(expected):
                yield f"{slots} slots, other counters: {server.printed()!r}"


def unread_errors():
    """Yields what a server does otherwise than go on where its standard error is a full pipe and its sends fail."""
    read_end, write_end = full_pipe()
    first = free_ports(2)
    command = [PROGRAM, "serve", "--port", "0", "--first-port", str(first), "--slots", "2", *USER, "--stats", "1"]
    process = subprocess.Popen(command, stdout=subprocess.PIPE, stderr=write_end, text=True)
    os.close(write_end)
    try:
        server = type("Address", (), {"port": int(process.stdout.readline().rpartition(":")[2])})
        with Client(server) as client:
            client.allocate()
            # a socket of loopback can't send to this address
            unreachable = bytes([192, 0, 2, 1]), 5000
            yield from wanted("a channel to a peer without a route", code_of(client.bind(unreachable)), 0)
            end = time.monotonic() + 2.5
            while time.monotonic() < end:
                client.send(channel_data(b"lost"))
                yield from wanted("a Binding meanwhile", client.ask(BINDING, []).kind, BINDING | 0x100)
                time.sleep(0.02)
    finally:
        os.close(read_end)
        process.terminate()
        process.wait(5)


def few_fault_lines():
    """Yields how many lines of faults come in some seconds, where it is more than one a second, or what they add up to."""
    with Server() as server, Client(server) as client:
        client.allocate()
        client.bind((bytes([192, 0, 2, 1]), 5000))
        start = time.monotonic()
        for _ in range(150):
            client.send(channel_data(b"lost"))
            client.ask(BINDING, [])
            time.sleep(0.02)
        seconds = time.monotonic() - start
        end = time.monotonic() + 5
        while sum(faults_in(server)) < 150 and time.monotonic() < end:
            time.sleep(0.05)
        found = faults_in(server)
        yield from wanted("faults that are printed", sum(found), 150)
        if not 2 <= len(found) <= seconds + 2:
            yield f"{len(found)} lines in {seconds:.1f} seconds: {server.printed()!r}"


def unreachable(code, sender, receiver):
    """An ICMP message that a datagram between two ports of loopback didn't come to the other side (RFC 792), with a code."""
    datagram = struct.pack(">4H", sender, receiver, 8, 0)
    header = struct.pack(">2B3H2BH4s4s", 0x45, 0, 28, 1, 0x4000, 64, socket.IPPROTO_UDP, 0, LOOPBACK, LOOPBACK)
    start = struct.pack(">2BHI", 3, code, 0, 0)
    words = struct.unpack(">18H", start + header + datagram)
    total = sum(words) % 0xFFFF
    return start[:2] + struct.pack(">H", 0xFFFF - total) + start[4:] + header + datagram


def reports_of_networks():
    """Yields what a server counts as faults, or doesn't relay, where the network reports that datagrams to a client or to a peer
    don't come there, for each reason: each has a socket of its own, to which the system reports it."""
    try:
        raw = socket.socket(socket.AF_INET, socket.SOCK_RAW, socket.IPPROTO_ICMP)
    except PermissionError:
        PASSED_OVER.append("reports of networks: no raw socket")
        return
    with raw, Server() as server, Client(server) as client, udp_socket() as peer:
        client.allocate()
        client.bind(address_of(peer))
        server.becomes("S")
        yield from wanted("data", passed(server, client, peer, BOTH), BOTH)
        for code in UNREACHABLE:
            for sender, receiver in ((server.port, client.socket), (server.first_port, peer)):
                raw.sendto(unreachable(code, sender, address_of(receiver)[1]), ("127.0.0.1", 0))
            server.becomes("S")
            yield from wanted(f"data after reports with the code {code}", passed(server, client, peer, BOTH), BOTH)
        time.sleep(1.2 * PERIOD)
        yield from wanted("data at the end", passed(server, client, peer, BOTH), BOTH)
        yield from wanted("lines", server.printed(), "")


def long_line():
    """Yields what is printed otherwise than a line of the longest length, whole with its end, where a file has a long name."""
    with tempfile.TemporaryDirectory() as name:
        users = pathlib.Path(name) / "users"
        put(users, b"ann:a\n")
        # nearly as long as the system's names may be
        path = f"{name}/{'./' * ((4_090 - len(str(users))) // 2)}users"
        with Server("--users", path) as server:
            users.unlink()
            line = f"cannot use {path}: not readable"[:LONGEST_LINE - 1] + "\n"
            yield from wanted("how often a line of the longest length is printed", server.awaited(line), 1)
            put(users, b"eve:e\n")
            line += "users replaced, 2 users\n"
            yield from wanted("lines", server.awaited(line) and server.printed(), line)


def faults_in(server):
    """The numbers of send faults in the lines that a server has printed."""
    lines = server.printed().splitlines(True)
    found = [int(line.split()[-1]) for line in lines]
    return found if lines == [fault_line(send=count) for count in found] else [-1]


def odd_files():
    """Yields what a server does otherwise than report once, and go on, where a file that is read again becomes something else."""
    with tempfile.TemporaryDirectory() as name:
        for option, good, most, missing in ODD_FILES:
            path = pathlib.Path(name) / option
            put(path, good)
            with Server(f"--{option}", str(path)) as server, Client(server) as client:
                printed = ""
                for what, line in made_into(path, good, most, missing):
                    printed += f"cannot use {path}: {line}\n" if line else ""
                    if line:
                        server.awaited("\n", printed.count("\n"))
                    else:
                        time.sleep(2.2)
                    yield from wanted(f"lines of {what}", server.printed(), printed)
                    yield from wanted(f"a Binding after {what}", client.ask(BINDING, []).kind, BINDING | 0x100)
            path.unlink(missing_ok=True)


def made_into(path, good, most, missing):
    """Makes a file, which had good bytes, into something else, again and again, and yields what it is and what is reported."""
    path.unlink()
    os.mkfifo(path)
    yield "a pipe", "not a regular file"
    path.unlink()
    path.mkdir()
    yield "a folder after it", ""
    path.rmdir()
    with open(path, "wb") as file:
        file.truncate(300_000_000)
    yield "300 MB", f"more than {most} bytes"
    path.unlink()
    yield "nothing", missing
    put(path, good)
    yield "what it was", ""
    path.unlink()
    path.symlink_to("/dev/zero")
    yield "a device", "not a regular file"
    path.unlink()


def bursts():
    """Yields what is lost of a burst that comes while the server is stopped."""
    largest = int(pathlib.Path("/proc/sys/net/core/rmem_max").read_text())
    with Server("--stats", "1") as server, Client(server) as client, udp_socket() as peer:
        client.allocate()
        client.bind(address_of(peer))
        if largest < 4 << 20:
            PASSED_OVER.append("a burst (net.core.rmem_max is below 4 MB)")
            yield from wanted("the line of buffers", server.all_printed().startswith("buffers of "), True)
            return
        # what is dropped at any socket is counted, so the peer has room for the burst too
        peer.setsockopt(socket.SOL_SOCKET, socket.SO_RCVBUF, largest)
        with server.stopped():
            for number in range(BURST):
                client.send(channel_data(struct.pack(">I", number) * (LENGTH // 4)))
        expected = counters(from_clients=3 + BURST, to_peers=BURST, granted=2, challenged=1)
        if not server.awaited(expected):
            yield f"other counters after a burst: {server.printed()!r}"


def small_buffers():
    """Yields how many datagrams of a burst are neither served nor counted as the system's drops, and whether some are dropped."""
    with Server("--stats", "1", "--buffer", "4096") as server, Client(server) as client:
        with server.stopped():
            for _ in range(100):
                client.send(channel_data(bytes(LENGTH)))
        # the buffer is empty once the server waits again; a request that is sent once is one datagram more
        server.becomes("S")
        client.send(message(BINDING, random.randbytes(12), []))
        client.receive()
        came = dropped = 0
        end = time.monotonic() + 5
        while came + dropped != 101 and time.monotonic() < end:
            time.sleep(0.1)
            words = (server.printed().splitlines() or ["received from clients 0 dropped 0"])[-1].split()
            came, dropped = int(words[3]), int(words[words.index("dropped") + 1].rstrip(","))
        yield from wanted("datagrams that came and those that were dropped", came + dropped, 101)
        yield from wanted("that some were dropped", dropped > 0, True)


def limit_files(most):
    """Lets this process have so many files open."""
    resource.setrlimit(resource.RLIMIT_NOFILE, (most, most))


def few_descriptors():
    """Yields what is printed otherwise where the process may open few files."""
    words = [PROGRAM, "serve", "--port", "0", "--first-port", str(free_ports(16)), *USER, "--rounds", "0"]
    ran = subprocess.run(words, capture_output=True, text=True, preexec_fn=lambda: limit_files(TOO_FEW), check=False)
    yield from wanted("the status", ran.returncode, 3)
    if not (ran.stderr.startswith("cannot bind 127.0.0.1:") and ran.stderr.endswith("\ntoo many open files\n")):
        yield f"printed {ran.stderr!r}"


def descriptors_for_files():
    """Yields what is otherwise where the process may open too few files for a socket of each client that has an allocation and of
    each peer that a channel is bound to: those without one are served, and files that change are read."""
    with tempfile.TemporaryDirectory() as name, contextlib.ExitStack() as stack:
        users, program = pathlib.Path(name) / "users", pathlib.Path(name) / "client"
        put(users, b"ann:a\n")
        put(program, PASS)
        words = ["--users", str(users), "--client", str(program)]
        server = stack.enter_context(Server(*words, slots=FEW_SLOTS, preexec_fn=lambda: limit_files(FEW)))
        before = sockets_of(server)
        peer = stack.enter_context(udp_socket())
        # one slot is for the new user
        clients = [stack.enter_context(Client(server)) for _ in range(FEW_SLOTS - 1)]
        for client in clients:
            yield from wanted("an allocation", code_of(client.allocate()), 0)
            yield from wanted("a channel", code_of(client.bind(address_of(peer))), 0)
        server.becomes("S")
        if not 0 < sockets_of(server) - before < 2 * len(clients):
            yield f"{sockets_of(server) - before} sockets of {len(clients)} clients, and of a peer of each"
        for slot in (0, len(clients) - 1):
            yield from wanted(f"data of slot {slot}", passed(server, clients[slot], peer, BOTH, slot), BOTH)
        put(users, b"ann:a\nbob:b\n")
        line = "users replaced, 3 users\n"
        yield from wanted("how often users were replaced", server.awaited(line), 1)
        bob = stack.enter_context(Client(server, "bob", "b"))
        yield from wanted("an allocation of a new user", code_of(bob.allocate()), 0)
        put(program, DISCARD)
        line += f"loaded {program}\n"
        yield from wanted("how often a program was replaced as well", server.awaited(line), 1)
        yield from wanted("lines", server.printed(), line)


def shared_port():
    """Yields what two processes that serve one port do otherwise than keep each client, whose data come back to it, and than
    share the clients, whose own sockets have the port too."""
    first = free_ports(2 * SESSIONS + 1)
    port = first + 2 * SESSIONS
    with contextlib.ExitStack() as stack:
        for index in range(2):
            words = ["--port", str(port), "--first-port", str(first + index * SESSIONS), "--slots", str(SESSIONS), "--reuse-port"]
            process = subprocess.Popen([PROGRAM, "serve", *USER, *words], stdout=subprocess.PIPE, text=True)
            stack.callback(process.wait, 5)
            stack.callback(process.terminate)
            yield from wanted("the line of a server", process.stdout.readline(), f"listening 127.0.0.1:{port}\n")
        server = type("Address", (), {"port": port})
        sessions, used = [], collections.Counter()
        for number in range(SESSIONS):
            client = stack.enter_context(Client(server))
            peers = [stack.enter_context(udp_socket()) for _ in range(2)]
            yield from wanted(f"allocation {number}", code_of(client.allocate()), 0)
            for channel, peer in enumerate(peers):
                given = [(CHANNEL_NUMBER, struct.pack(">HH", CHANNEL + channel, 0))]
                yield from wanted(f"channel {channel} of {number}", code_of(client.signed(CHANNEL_BIND, given, address_of(peer))), 0)
            sessions.append((client, peers))
        for number, (client, peers) in enumerate(sessions):
            for channel, peer in enumerate(peers):
                data = struct.pack(">HHII", CHANNEL + channel, 8, number, channel)
                client.send(data)
                found, relayed = peer.recvfrom(100)
                yield from wanted(f"data {number} over channel {channel}", found, data[4:])
                peer.sendto(found, relayed)
                yield from wanted(f"data {number} back over channel {channel}", client.receive(), data)
                used[(relayed[1] - first) // SESSIONS] += 1
        if min(used[index] for index in range(2)) < LEAST:
            yield f"data over {dict(used)} channels of the processes"


def shared_port_of_older_linux():
    """Yields what two processes do otherwise that serve one port of UDP-Lite, whose connected sockets Linux treats as it did
    those of UDP before version 6.13."""
    try:
        socket.socket(socket.AF_INET, socket.SOCK_DGRAM, socket.IPPROTO_UDPLITE).close()
    except OSError:
        PASSED_OVER.append("a shared port of older Linux (no UDP-Lite)")
        return
    with tempfile.TemporaryDirectory() as folder:
        environment = {**os.environ, "LD_PRELOAD": str(preloadable(pathlib.Path(folder), "udp_lite"))}
        ran = subprocess.run([sys.executable, __file__, SHARED], stdout=subprocess.PIPE, text=True, env=environment, check=False)
        yield from ran.stdout.splitlines()
        yield from wanted("the status", ran.returncode, 0)


def main():
    """Runs every part, or the one of a shared port, or asks a server at an address, and returns the exit status."""
    if sys.argv[1:] == [SHARED]:
        failures = [*failures_of(shared_port, ())]
        print(*failures, sep="\n", end="")
        return 1 if failures else 0
    if len(sys.argv) > 1:
        return answers_from(*sys.argv[1:])
    parts = [denied_peers, never_sent, own_services, loopback_behind_all_addresses, forged_clients, loops, unread_errors,
             few_fault_lines, reports_of_networks, long_line, odd_files, bursts, small_buffers, few_descriptors,
             descriptors_for_files, shared_port, shared_port_of_older_linux]
    return run_parts("hostile", parts)


if __name__ == "__main__":
    sys.exit(main())
