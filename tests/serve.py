"""Runs the built relayd's `serve` over sockets of loopback.

Sessions with their messages written apart from the relay, from the standards (RFC 8489, RFC 8656); faults of the
command line and of sockets, in their order; and what a server does from time to time. The server chooses the port for
clients, and the ports of slots are free ones below the system's range, so two runs beside each other don't collide.
Receives that fail or stop the server need gcc; what can't be tried is named in the last line.
"""

import collections
import contextlib
import itertools
import os
import pathlib
import random
import re
import shutil
import signal
import socket
import struct
import subprocess
import sys
import tempfile
import time

from lib.program import PASSED_OVER, PROGRAM, TOP, assembled, explained, preloadable, run_parts, shipped
from lib.rules import (
    ALLOCATE, BINDING, CHANNEL_BIND, CHANNEL_NUMBER, CREATE_PERMISSION, DATA, DATA_INDICATION, FAMILY, LIFETIME, NONCE, REALM, REFRESH,
    SEND, XOR_MAPPED_ADDRESS, XOR_PEER_ADDRESS, XOR_RELAYED_ADDRESS, address_in, address_value, key_of, message, read)
from lib.server import (
    BAD, CHANNEL, DISCARD, LOOPBACK, LOOPBACK6, PERIOD, UDP, USER, Client, Server, address_of, channel_data, code_of, comes, counters,
    fault_line, free_ports, full_pipe, passed, put, round_trip, run, samples_of, started, udp_socket, wanted, without_buffers)
from worst_programs import known_programs, longest_programs

CLIENTS, DATAGRAMS, BATCH = 10, 200_000, 40
# programs whose verification takes seconds, the round trips that are made meanwhile, and how long one may take, in seconds: a
# server verifies for 150 microseconds between two turns, and other processes take their time too. A machine that
# stops for a moment makes a round trip late once; a server that is held up makes one late at each attempt.
SLOW = ("sums in the last register", "marks with a chain", "64 pointers, 32 states, and 4,000 jumps",
        "products that four registers share, 14 forks")
SLOWEST = "products that four registers share, 14 forks"
ROUND_TRIPS, MOST_TRIPS, LATE, ATTEMPTS = 10_000, 1_000_000, 0.1, 3
# The receives that fail, counted from the start. With two slots the first three are one at each socket, where nothing
# has come yet; the next is that of the first datagram, and the one after it would find nothing more.
FAILED_RECEIVES = range(1, 6)
# The receives that fail of two batches of 10 requests: after the first three, 11 of the first batch, and then the receives
# ahead of the second: its first one, one amid the batch, and the one that would find nothing more.
BATCH_OF_REQUESTS, FAILED_AHEAD = 10, (15, 19, 25)
# A receive amid the first turn of a batch of requests: after the first three come two for each of the three requests that
# make an allocation with a channel, and then those of the batch.
STOPPED_RECEIVE = 3 + 2 * 3 + 32
# datagrams of strangers that fill a buffer, and those of a client that come after them
STRANGE, SENT_AMID = 5_000, 20
# the Data indications whose transaction ids are looked at
INDICATIONS = 40
# whether data of a client, and data of its peer, pass
BOTH, NEITHER = (True, True), (False, False)
# lists that are refused where a user u comes before them, each with its reason; of each the user dan has another password
REFUSED_USERS = [
    (b"dan:e\n\n# bob is next\nbob\n", "line 4: no colon"),
    (b"dan:e\nbob:b\ndan:d\n", "line 3: a name that an earlier user has"),
    (b"dan:e\nu:p\n", "line 2: a name that an earlier user has"),
    (b"dan:e\nbob:\n", "line 2: a password that is empty"),
    (b"dan:e\n" + b"".join(b"%d:b\n" % number for number in range(63)), "line 64: more than 64 users"),
    (b"dan:e\nbob:\xff\n", "not UTF-8"),
    (b"dan:e\n" + b"#" * (1 << 18), "more than 262144 bytes"),
]
# the most slots, and those that are used when all are allocated
MOST_SLOTS, USED_SLOTS = 256, (0, 69, 254, 255)
# what a line of counters says of datagrams: those of clients and of peers that came, and those to peers and to clients that were sent
RELAYED = re.compile(r"received from clients (\d+) peers (\d+), relayed to peers (\d+) clients (\d+)")


# texts of files of options, with the status and what is printed of a server that has no users besides
NEEDS_USERS = "error: '--user <NAME:PASSWORD>', '--users <FILE>' or '--secret <FILE>' is required\n"
OPTION_FILES = [
    ("", 2, NEEDS_USERS),
    ("# a comment\n\n  # and one\n", 2, NEEDS_USERS),
    ("--slots 2\n--bufer 5\n", 1, "refused options at line 2: no option of a server\n"),
    ("# a comment\n\nslots 2", 1, "refused options at line 3: no option of a server\n"),
    ("--events x\n", 1, "refused options at line 1: no option of a server\n"),
    ("--slots\n", 1, "refused options at line 1: an option without its value\n"),
    ("--log yes\n", 1, "refused options at line 1: an option that has no value\n"),
    ("--log\n--slots x\n", 2, "error: invalid value 'x' for '--slots <N>'\n"),
    ("--user u:p\r\n--client  /no such/file \r\n", 3, "cannot read /no such/file\n"),
    ("--user u:p\n--slots=2\n", 1, "refused options at line 2: no option of a server\n"),
    ("--user u:p\n--user v:with blanks\n--slots 0\n", 1, "refused slots\n"),
]


def file_of_options(folder, text):
    """The path of a file of options with a text."""
    path = pathlib.Path(folder) / f"options{abs(hash(text))}"
    path.write_bytes(text.encode())
    return str(path)


# ---- command lines and sockets

def refused_lines():
    """Yields the faults that are not named, or not in their order. One port is in use."""
    with udp_socket() as used, tempfile.TemporaryDirectory() as name, tempfile.TemporaryDirectory() as options:
        taken = str(used.getsockname()[1])
        bad = pathlib.Path(name) / "bad"
        bad.write_bytes(BAD)
        missing = f"{name}/missing"
        port = ["--port", taken]
        free = str(free_ports(16))  # those of all slots by default
        good_port = ["--port", "0", "--first-port", free, "--slots", "1"]
        value = "error: invalid value '{}' for '{}'\n".format
        in_use = "cannot bind {}\naddress in use\n".format
        network = "error: invalid value '{}' for '{}': {}\n".format
        many = [word for number in range(65) for word in ("--deny", f"192.0.2.{number}/32")]
        needs = "error: '--user <NAME:PASSWORD>', '--users <FILE>' or '--secret <FILE>' is required\n"
        cases = [
            (["--port", "x"], 2, value("x", "--port <P>")),
            (["--port", "65536", *USER], 2, value("65536", "--port <P>")),
            ([*port, "--listen", "::1", *USER], 2, value("::1", "--listen <A>")),
            ([*port, "--nonce-lifetime", "0", *USER], 2, value("0", "--nonce-lifetime <S>")),
            ([*port, "--stats", "0", *USER], 2, value("0", "--stats <S>")),
            ([*port, "--stats", "soon", "--slots", "x", *USER], 2, value("soon", "--stats <S>")),
            ([*port, "--slots", "x"], 2, value("x", "--slots <N>")),
            ([*port, "--client", missing], 2, needs),
            ([*port, "--users", missing, "--client", str(bad)], 3, f"cannot read {missing}\n"),
            ([*port, *USER, "--client", missing, "--peer", str(bad)], 3, f"cannot read {missing}\n"),
            ([*port, *USER, "--client", str(bad), "--peer", missing], 1, f"refused V5 at 0 in {bad}\n{explained(bad)}"),
            ([*port, *USER, "--peer", str(bad), "--slots", "0"], 1, f"refused V5 at 0 in {bad}\n{explained(bad)}"),
            ([*port, *USER, "--slots", "0"], 1, "refused slots\n"),
            ([*port, *USER, "--first-port", "65535", "--slots", "2"], 1, "refused slots\n"),
            ([*port, *USER, "--first-port", taken], 3, in_use(f"127.0.0.1:{taken}")),
            (["--port", "0", *USER, "--first-port", taken], 3, in_use(f"127.0.0.1:{taken}")),
            (["--port", free, *USER, "--first-port", free], 3, in_use(f"127.0.0.1:{free}")),
            ([*port, *USER, "--reuse-port"], 3, in_use(f"127.0.0.1:{taken}")),
            ([*port, *USER, "--record", missing], 3, in_use(f"127.0.0.1:{taken}")),
            ([*good_port, *USER, "--record", str(bad)], 3, f"cannot record to {bad}\nthe file exists\n"),
            ([*good_port, *USER, "--record", name], 3, f"cannot record to {name}\nthe file exists\n"),
            ([*good_port, *USER, "--record", f"{missing}/record"], 3, f"cannot record to {missing}/record\nno such folder\n"),
            ([*good_port, *USER, "--record", f"{bad}/record"], 3, f"cannot record to {bad}/record\nerror 20 of the system\n"),
            (["--port", "0", *USER, "--listen", "192.0.2.1"], 3, "cannot bind 192.0.2.1:0\nnot an address of this machine\n"),
            ([*port, *USER, "--metrics", f"{missing}/m"], 3, in_use(f"127.0.0.1:{taken}")),
            (["--port", "0", *USER, "--first-port", free, "--metrics", f"{missing}/m"], 3, f"cannot write {missing}/m\n"),
            # a start that fails leaves no record
            ([*good_port, *USER, "--record", f"{name}/record", "--metrics", f"{missing}/m"], 3, f"cannot write {missing}/m\n"),
            (["--port", "0", *USER, "--first-port", free, "--metrics", name], 3, f"cannot write {name}\n"),
            ([*port, *USER, "--buffer", "0"], 2, value("0", "--buffer <BYTES>")),
            ([*port, *USER, "--buffer", "1073741824"], 2, value("1073741824", "--buffer <BYTES>")),
            ([*port, *USER, "--buffer", "4MB", "--deny", "x"], 2, value("4MB", "--buffer <BYTES>")),
            ([*port, "--deny", "10.0.0.0"], 2, network("10.0.0.0", "--deny <NETWORK>", "not ADDRESS/BITS")),
            ([*port, "--allow", "x", "--deny", "10.0.0.0/33"], 2,
             network("10.0.0.0/33", "--deny <NETWORK>", "more bits than the address has")),
            ([*port, "--allow", "fd00::1/8", "--listen", "0.0.0.0"], 2,
             network("fd00::1/8", "--allow <NETWORK>", "a bit after the prefix is set")),
            ([*port, "--allow", "fd00::1/8", "--slots", "x"], 2, value("x", "--slots <N>")),
            ([*port, *USER, "--unconfined", "--same-as", "::1=::2"], 2, "error: '--same-as <A=B>' needs confined programs\n"),
            ([*port, *USER, "--same-as", "::1"], 2, value("::1", "--same-as <A=B>")),
            *[([*port, "--options", file_of_options(options, lines)], status, err)
              for lines, status, err in OPTION_FILES],
            ([*port, "--options", missing], 3, f"cannot read {missing}\n"),
            ([*port, f"--options={missing}", "--slots", "x"], 3, f"cannot read {missing}\n"),
            *[([*port, "--relayed-ports", text, "--slots", "0"], 2, value(text, "--relayed-ports <P-P>"))
              for text in ("49152", "49153-49152", "49152-65536", "49152-", "a-b", "1-2-3")],
            ([*port, "--deny", "x", "--relayed-ports", "x"], 2, network("x", "--deny <NETWORK>", "not ADDRESS/BITS")),
            ([*port, *many], 2, "error: more than 64 rules of '--deny <NETWORK>' and '--allow <NETWORK>'\n"),
            ([*port, *USER, "--listen", "0.0.0.0", "--slots", "0"], 2,
             "error: '--relay-ip <A>' is required with '--listen 0.0.0.0'\n"),
            ([*port, *USER, "--relay-ip", "0.0.0.0", "--slots", "0"], 1, "refused slots\n"),
            ([*port, *USER, "--relay-ip", "0.0.0.0"], 1, "refused ip\n"),
            ([*port, *USER, "--relay-ip", "224.0.0.1"], 1, "refused ip\n"),
            ([*port, *USER, "--relay-ip", "255.255.255.255", "--listen6", "::"], 1, "refused ip\n"),
            ([*port, "--listen6", "127.0.0.1", *USER], 2, value("127.0.0.1", "--listen6 <A>")),
            ([*port, "--listen6", "[::1]", "--stats", "0", *USER], 2, value("[::1]", "--listen6 <A>")),
            ([*port, "--listen6", "::1", "--relay-ip6", "::1", *USER], 2, value("::1", "--relay-ip6 <HEX>")),
            ([*port, "--relay-ip6", "0" * 31 + "1", "--slots", "0", *USER], 2, "error: '--relay-ip6 <HEX>' needs '--listen6 <A>'\n"),
            ([*port, "--listen6", "::", *USER, "--slots", "0"], 1, "refused slots\n"),
            ([*port, "--listen6", "::", *USER], 1, "refused ip6\n"),
            ([*port, "--listen6", "ff02::1", *USER], 1, "refused ip6\n"),
            ([*port, "--listen6", "::1", "--relay-ip6", "0" * 32, *USER], 1, "refused ip6\n"),
            ([*port, "--listen6", "::1", *USER], 3, in_use(f"127.0.0.1:{taken}")),
            (["--port", "0", *USER, "--listen6", "2001:db8::1", "--first-port", free], 3,
             f"cannot bind [2001:db8::1]:{free}\nnot an address of this machine\n"),
        ]
        for words, status, printed in cases:
            yield from wanted(" ".join(words), run(["serve", "--rounds", "0", *words]), (status, "", printed))
        yield from wanted("the file where a record is", bad.read_bytes(), BAD)
        yield from wanted("files of records", os.listdir(name), [bad.name])
        yield from denied_record(pathlib.Path(name), [*good_port, *USER])


def denied_record(folder, words):
    """Yields what a server prints of a record in a folder that it may not write to, where it isn't that. Root may write to any,
    without its capabilities aside."""
    closed = folder / "closed"
    closed.mkdir(mode=0o500)
    command = [PROGRAM, "serve", "--rounds", "0", *words, "--record", closed / "record"]
    if os.geteuid() == 0:
        if not shutil.which("setpriv"):
            PASSED_OVER.append("a folder that may not be written to (no setpriv)")
            return
        command = ["setpriv", "--bounding-set=-all", "--inh-caps=-all", *command]
    ran = subprocess.run(command, capture_output=True, text=True, check=False)
    line = f"cannot record to {closed / 'record'}\npermission denied\n"
    yield from wanted("a folder that may not be written to", (ran.returncode, ran.stdout, ran.stderr), (3, "", line))


def rounds():
    """Yields what `--rounds` does otherwise than it says."""
    first = free_ports(2)
    port = first + 1
    slots = ["--first-port", str(first), "--slots", "1"]
    words = ["serve", "--port", str(port), *USER, *slots]
    listening = started(port, first, first)
    value = "error: invalid value '-1' for '--rounds <N>'\n"
    yield from wanted("rounds below 0", run([*words, "--rounds=-1"]), (2, "", value))
    yield from wanted("no rounds", run([*words, "--rounds", "0"]), (0, listening, ""))
    yield from wanted("rounds", run([*words, "--rounds", "3", "--stats", "60"]), (0, listening, counters()))
    with open("/dev/full", "w", encoding="utf-8") as full:
        found = run([*words, "--rounds", "0"], stdout=full)
    yield from wanted("a full output", found, (3, None, "cannot write output\n"))


def metrics_of_rounds():
    """Yields what `--metrics` does otherwise with rounds than it says: metrics are written at the start, and after the last round,
    to a new file each time, which takes the name. So one that is read meanwhile stays whole."""
    first = free_ports(2)
    words = ["serve", "--port", str(first + 1), *USER, "--first-port", str(first), "--slots", "1"]
    with tempfile.TemporaryDirectory() as name:
        path, new = pathlib.Path(name) / "relayd.prom", pathlib.Path(name) / "relayd.prom.new"
        path.write_text("old", encoding="utf-8")
        os.mkfifo(new)  # to open it would wait for a reader
        with path.open(encoding="utf-8") as old:
            for rounds in "0", "3":
                found = run([*words, "--rounds", rounds, "--metrics", path])
                yield from wanted(f"{rounds} rounds with metrics", found, (0, started(first + 1, first, first), ""))
                yield from wanted(f"metrics of {rounds} rounds", samples_of(path), {"relayd_slots": 1})
            yield from wanted("what is read of the old file", old.read(), "old")
        run([*words, "--rounds", "0", "--reuse-port", "--metrics", path])
        yield from wanted("metrics of a shared port", samples_of(path), {f'relayd_slots{{first_port="{first}"}}': 1})
        yield from wanted("files", [file.name for file in pathlib.Path(name).iterdir()], [path.name])
        promtool = shutil.which("promtool")
        if promtool is None:
            PASSED_OVER.append("the format of metrics by promtool: it isn't installed")
            return
        with path.open("rb") as text:
            checked = subprocess.run([promtool, "check", "metrics"], stdin=text, capture_output=True, text=True, check=False)
        yield from wanted("promtool check metrics", (checked.returncode, checked.stdout + checked.stderr), (0, ""))


def addresses():
    """Yields what `--listen` does otherwise than it says; the user is one of a file."""
    address = "127.0.0.2"
    first = free_ports(2, address)
    words = ["serve", "--port", str(first + 1), "--first-port", str(first), "--slots", "1", "--listen", address,
             "--users", TOP / "examples" / "users.txt", "--rounds", "0"]
    yield from wanted("--listen", run(words), (0, started(first + 1, first, first, address, [address]), ""))
    with udp_socket(first, address):
        yield from wanted("slot 0's port in use", run(words), (3, "", f"cannot bind {address}:{first}\naddress in use\n"))


def addresses6():
    """Yields what `--listen6` does otherwise than it says: one port serves both families apart, each address by a socket of
    its own."""
    first = free_ports(2)
    words = ["serve", *USER, "--rounds", "0", "--port", str(first + 1), "--first-port", str(first), "--slots", "1"]
    both = "127.0.0.1", "[::1]"
    any_address = ["--listen", "0.0.0.0", "--relay-ip", "127.0.0.1", "--listen6", "::", "--relay-ip6", LOOPBACK6.hex()]
    yield from wanted("--listen6", run([*words, "--listen6", "::1"]), (0, started(first + 1, first, first, relayed=both), ""))
    found = run([*words, *any_address])
    yield from wanted("all addresses", found, (0, started(first + 1, first, first, "0.0.0.0", both), ""))
    with udp_socket(first, "::1"):
        yield from wanted("another family's port in use", run(words), (0, started(first + 1, first, first), ""))
        found = run([*words, "--listen6", "::1"])
        yield from wanted("its own port in use", found, (3, "", f"cannot bind [::1]:{first}\naddress in use\n"))


def default_ports():
    """Yields how `--port 49152` is answered otherwise than by a fault: the server's slot 0 has this port by default.

    Where another socket has it, of this script or of anyone, the line is the same.
    """
    words = ["serve", "--rounds", "0", "--port", "49152", "--user", "u:p"]
    cannot_bind = 3, "", "cannot bind 127.0.0.1:49152\naddress in use\n"
    yield from wanted("slot 0's port for clients", run(words), cannot_bind)
    with contextlib.ExitStack() as stack:
        with contextlib.suppress(OSError):  # someone else has it
            stack.enter_context(udp_socket(49152))
        yield from wanted("slot 0's port in use", run(words), cannot_bind)


def counted_rounds():
    """Yields how many of ten waiting requests three rounds answer, where that isn't three, and what else their record has.

    The server has bound its sockets when it prints where it listens, and waits there while its output is a full pipe.
    """
    first = free_ports(2)
    port = first + 1
    words = [PROGRAM, "serve", "--port", str(port), "--first-port", str(first), "--slots", "1", *USER,
             "--rounds", "3", "--stats", "60"]
    read_end, write_end = full_pipe()
    streams = {"stdout": write_end, "stderr": subprocess.PIPE}
    with contextlib.ExitStack() as stack:
        path = pathlib.Path(stack.enter_context(tempfile.TemporaryDirectory())) / "record"
        process = stack.enter_context(subprocess.Popen([*words, "--record", path], text=True, **streams))
        client = stack.enter_context(udp_socket())
        os.close(write_end)
        client.connect(("127.0.0.1", port))
        for _ in range(50):
            time.sleep(0.1)
            with contextlib.suppress(ConnectionRefusedError):  # it is not there yet
                for _ in range(10):
                    client.send(message(BINDING, random.randbytes(12), []))
                break
        with open(read_end, "rb") as output:
            output.read()
        printed = without_buffers(process.stderr.read())
        client.setblocking(False)
        answers = []
        with contextlib.suppress(BlockingIOError, ConnectionRefusedError):
            while True:
                answers.append(f"c 127.0.0.1:{client.getsockname()[1]} {client.recv(2000).hex()}\n")
        _, played, _ = run(["replay", *USER, "--first-port", str(first), "--slots", "1", path])
    found = len(answers), printed, played
    yield from wanted("requests that three rounds answer", found, (3, counters(from_clients=3, granted=3), "".join(["-\n", *answers])))


def default_slots():
    """Yields how many slots are bound by default, where they aren't 16."""
    first = free_ports(18)
    words = ["serve", "--port", str(first + 17), "--first-port", str(first), "--rounds", "0", *USER]
    with udp_socket(first + 15):
        yield from wanted("slot 15's port in use", run(words), (3, "", f"cannot bind 127.0.0.1:{first + 15}\naddress in use\n"))
    with udp_socket(first + 16):
        yield from wanted("the next port in use", run(words), (0, started(first + 17, first, first + 15), ""))


def receives_of_rounds():
    """Yields the receives that rounds make, where they aren't one at each socket: that of clients, and those of the slots, first
    over IPv4 and then over IPv6."""
    with preloading("the receives of rounds") as environment:
        if environment is None:
            return
        first = free_ports(4)
        port, slots = first + 3, range(first, first + 3)
        words = ["serve", "--port", str(port), "--first-port", str(first), "--slots", "3", *USER, "--rounds", "2"]
        loaded = pathlib.Path(environment["LOADED"])
        ipv4 = [(port, socket.AF_INET), *((slot, socket.AF_INET) for slot in slots)]
        ipv6 = [(slot, socket.AF_INET6) for slot in slots]
        for options, wanted_round in (([], ipv4), (["--listen6", "::1"], ipv4 + ipv6)):
            loaded.write_text("", encoding="utf-8")
            run([*words, *options], env=environment)
            found = [tuple(map(int, line.split())) for line in loaded.read_text(encoding="utf-8").splitlines()]
            yield from wanted(f"the receives of two rounds {options}", found, 2 * wanted_round)


# ---- sessions

def session():
    """Yields what a session is answered otherwise than the standards say."""
    with Server("--stats", "1") as server, Client(server) as client, udp_socket() as peer:
        own, other, relayed = address_of(client.socket), address_of(peer), (LOOPBACK, server.first_port)
        answer = client.ask(BINDING, [])
        yield from wanted("Binding", address_in(answer.first(XOR_MAPPED_ADDRESS), answer.transaction_id), own)
        answer = client.challenge()
        yield from wanted("a challenge", (code_of(answer), answer.first(REALM), len(client.nonce)), (401, b"relay", 16))
        for name, password in (("nobody", "p"), ("u", "wrong")):
            with Client(server, name, password) as stranger:
                stranger.nonce = client.nonce
                yield from wanted(f"{name} with {password}", code_of(stranger.signed(ALLOCATE, [UDP])), 401)
        answer = client.allocate()
        found = [address_in(answer.first(kind), answer.transaction_id) for kind in (XOR_RELAYED_ADDRESS, XOR_MAPPED_ADDRESS)]
        yield from wanted("Allocate", (code_of(answer), found), (0, [relayed, own]))
        given = [(XOR_PEER_ADDRESS, address_value(other))]
        yield from wanted("CreatePermission", code_of(client.signed(CREATE_PERMISSION, given)), 0)
        client.send(message(SEND, random.randbytes(12), [*given, (DATA, b"hello")]))
        yield from wanted("Send", peer.recvfrom(100), (b"hello", ("127.0.0.1", server.first_port)))
        peer.sendto(b"back", ("127.0.0.1", server.first_port))
        data = read(client.receive())
        found = data.kind, data.first(DATA), address_in(data.first(XOR_PEER_ADDRESS), data.transaction_id)
        yield from wanted("Data", found, (DATA_INDICATION, b"back", other))
        yield from wanted("ChannelBind", code_of(client.bind(other)), 0)
        client.send(channel_data(b"over"))
        yield from wanted("ChannelData", peer.recvfrom(100), (b"over", ("127.0.0.1", server.first_port)))
        peer.sendto(b"and back", ("127.0.0.1", server.first_port))
        yield from wanted("ChannelData back", client.receive(), channel_data(b"and back"))
        answer = client.signed(REFRESH, [(LIFETIME, bytes(4))])
        yield from wanted("Refresh", (code_of(answer), answer.first(LIFETIME)), (0, bytes(4)))
        yield from wanted("Refresh again", code_of(client.signed(REFRESH, [(LIFETIME, bytes(4))])), 437)
        # the allocation has ended
        client.send(channel_data(b"no channel"))
        for _ in range(2):
            client.send(message(SEND, random.randbytes(12), [*given, (DATA, b"no permission")]))
        for _ in range(3):
            client.send(b"\xffno message")
        for _ in range(4):
            peer.sendto(b"no permission", ("127.0.0.1", server.first_port))
        last = counters(from_clients=18, from_peers=6, to_peers=2, to_clients=2, granted=5, challenged=2, unauthenticated=2,
                        refused=1, discarded=(1, 2, 3, 4), by_program=10)
        if not server.awaited(last):
            yield f"other counters: {server.printed()!r} in place of {last!r}"
        lines = server.printed().splitlines()
        yield from wanted("faults", [line for line in lines if not line.startswith("received from ")], [])
        yield from wanted("the status after SIGTERM", server.end(), -signal.SIGTERM)


FAMILY6 = FAMILY, bytes([2, 0, 0, 0])


def session6():
    """Yields what a session over IPv6 is answered otherwise than the standards say, beside one over IPv4 at the same server."""
    with contextlib.ExitStack() as stack:
        server = stack.enter_context(Server("--stats", "1", "--listen6", "::1"))
        client, client4 = (stack.enter_context(Client(server)) for _ in range(2))
        peer, peer4 = (stack.enter_context(udp_socket(0, address)) for address in ("::1", "127.0.0.1"))
        other, other4, relayed = address_of(peer), address_of(peer4), ("::1", server.first_port)
        client.challenge()
        yield from wanted("another family", code_of(client.signed(ALLOCATE, [UDP, (FAMILY, bytes([3, 0, 0, 0]))])), 440)
        answer = client.allocate(FAMILY6)
        found = [address_in(answer.first(kind), answer.transaction_id) for kind in (XOR_RELAYED_ADDRESS, XOR_MAPPED_ADDRESS)]
        yield from wanted("Allocate", (code_of(answer), found), (0, [(LOOPBACK6, server.first_port), address_of(client.socket)]))
        yield from wanted("a permission of the other family", code_of(client.signed(CREATE_PERMISSION, [], other4)), 443)
        yield from wanted("CreatePermission", code_of(client.signed(CREATE_PERMISSION, [], other)), 0)
        client.send_to(other, b"hello")
        yield from wanted("Send", peer.recvfrom(100)[:2], (b"hello", (*relayed, 0, 0)))
        peer.sendto(b"back", relayed)
        data = read(client.receive())
        found = data.kind, data.first(DATA), address_in(data.first(XOR_PEER_ADDRESS), data.transaction_id)
        yield from wanted("Data", found, (DATA_INDICATION, b"back", other))
        yield from wanted("ChannelBind", code_of(client.bind(other)), 0)
        client.send(channel_data(b"over"))
        yield from wanted("ChannelData", peer.recvfrom(100)[:2], (b"over", (*relayed, 0, 0)))
        peer.sendto(b"and back", relayed)
        yield from wanted("ChannelData back", client.receive(), channel_data(b"and back"))
        # slot 1 is over IPv4; what comes at the other family's socket of a slot is from no peer of it
        yield from wanted("an allocation over IPv4", code_of(client4.allocate()), 0)
        yield from wanted("its channel", code_of(client4.bind(other4)), 0)
        peer.sendto(b"no peer", ("::1", server.first_port + 1))
        peer4.sendto(b"no peer", ("127.0.0.1", server.first_port))
        client4.send(channel_data(b"over IPv4"))
        yield from wanted("over IPv4", peer4.recvfrom(100), (b"over IPv4", ("127.0.0.1", server.first_port + 1)))
        peer4.sendto(b"and back", ("127.0.0.1", server.first_port + 1))
        yield from wanted("over IPv4 back", client4.receive(), channel_data(b"and back"))
        last = counters(from_clients=13, from_peers=5, to_peers=3, to_clients=3, granted=5, challenged=3, refused=2,
                        discarded=(0, 0, 0, 2), by_program=2)
        if not server.awaited(last):
            yield f"other counters: {server.printed()!r} in place of {last!r}"


def data_of(client):
    """The data of a Data indication that came to a client, and its peer."""
    data = read(client.receive())
    return data.first(DATA), address_in(data.first(XOR_PEER_ADDRESS), data.transaction_id)


def hairpins():
    """Yields what two clients of a server get otherwise of each other than from relayed addresses, where no datagram to these comes
    to the machine: no interface has them."""
    public, public6 = bytes([203, 0, 113, 9]), bytes.fromhex("20010db8000000000000000000000009")
    words = ["--relay-ip", socket.inet_ntop(socket.AF_INET, public), "--listen6", "::1", "--relay-ip6", public6.hex()]
    for ip, bound, family in ((public, "127.0.0.1", []), (public6, "::1", [FAMILY6])):
        with contextlib.ExitStack() as stack:
            server = stack.enter_context(Server(*words))
            first, second = (stack.enter_context(Client(server)) for _ in range(2))
            stranger = stack.enter_context(udp_socket(0, bound))
            for slot, client in enumerate((first, second)):
                answer = client.allocate(*family)
                relayed = address_in(answer.first(XOR_RELAYED_ADDRESS), answer.transaction_id)
                yield from wanted(f"the relayed address of slot {slot}", relayed, (ip, server.first_port + slot))
            one, other = (ip, server.first_port), (ip, server.first_port + 1)
            yield from wanted("a permission", code_of(first.signed(CREATE_PERMISSION, [], other)), 0)
            yield from wanted("a channel", code_of(second.bind(one)), 0)
            # from the address that the slots' sockets have, at a port of no slot
            stranger.sendto(b"no peer", (bound, server.first_port + 1))
            first.send_to(other, b"hello")
            yield from wanted(f"ChannelData through {bound}", second.receive(), channel_data(b"hello"))
            second.send(channel_data(b"and back"))
            yield from wanted(f"a Data indication through {bound}", data_of(first), (b"and back", one[:1] + other[1:]))


def sockets_of(server):
    """How many sockets the server has open."""
    folder = pathlib.Path(f"/proc/{server.process.pid}/fd")
    return sum(os.readlink(name).startswith("socket:") for name in folder.iterdir())


def sockets_become(server, count):
    """Waits a second at most until the server has so many sockets open, and returns how many it has: it opens and closes them when
    their turn comes."""
    end = time.monotonic() + 1
    while sockets_of(server) != count and time.monotonic() < end:
        time.sleep(0.01)
    return sockets_of(server)


def closed_sockets(server, client, before):
    """Yields what is otherwise where a client gives its allocation up: its own socket and that of its peer are closed, so that as many
    are open as before, and no fault was printed."""
    yield from wanted("a Refresh to 0", code_of(client.signed(REFRESH, [(LIFETIME, bytes(4))])), 0)
    time.sleep(1.2 * PERIOD)
    # a server looks when something comes, and closes no socket at which a datagram waits
    with Client(server) as other:
        yield from wanted("another client's request", code_of(other.ask(BINDING, [])), 0)
    yield from wanted("sockets afterwards", sockets_become(server, before), before)
    yield from wanted("faults", server.printed(), "")


def own_sockets():
    """Yields what is lost of a client with an allocation, or isn't put right, where strangers fill the buffer of the socket that they
    send to, and where the client's machine refuses what is sent to it."""
    with Server("--buffer", "262144") as server, Client(server) as client, udp_socket() as peer, udp_socket() as stranger:
        before = sockets_of(server)
        client.allocate()
        yield from wanted("sockets with an allocation", sockets_become(server, before + 1), before + 1)
        yield from wanted("a channel", code_of(client.bind(address_of(peer))), 0)
        with server.stopped():
            for _ in range(STRANGE):
                stranger.sendto(bytes(100), client.server)
            for number in range(SENT_AMID):
                client.send(channel_data(b"%d" % number))
        found = [peer.recv(100) for _ in range(SENT_AMID)]
        yield from wanted("what a client sends beside a full buffer", found, [b"%d" % number for number in range(SENT_AMID)])
        # nobody is at the client's port for some time
        port = client.socket.getsockname()[1]
        client.socket.close()
        for _ in range(SENT_AMID):
            peer.sendto(b"nobody is there", ("127.0.0.1", server.first_port))
        server.becomes("S")
        client.socket = udp_socket(port)
        peer.sendto(b"at once", ("127.0.0.1", server.first_port))
        yield from wanted("after refused datagrams", client.receive(), channel_data(b"at once"))
        client.send(channel_data(b"again"))
        yield from wanted("and from the client", peer.recv(100), b"again")
        peer.sendto(b"and back", ("127.0.0.1", server.first_port))
        yield from wanted("and back", client.receive(), channel_data(b"and back"))
        yield from closed_sockets(server, client, before)
        yield from wanted("a request afterwards", code_of(client.ask(BINDING, [])), 0)


def own_sockets_of_peers():
    """Yields what is lost of a peer that a channel is bound to, or isn't put right, where strangers fill the buffer of the socket of
    its relayed address, and where the peer's machine refuses what is sent to it."""
    with Server("--buffer", "262144") as server, Client(server) as client, udp_socket() as peer, udp_socket() as other, \
            udp_socket(address="127.0.0.2") as stranger:
        relayed = ("127.0.0.1", server.first_port)
        before = sockets_of(server)
        client.allocate()
        given = [(CHANNEL_NUMBER, struct.pack(">HH", CHANNEL + 1, 0))]
        yield from wanted("a channel", code_of(client.bind(address_of(peer))), 0)
        yield from wanted("sockets with a channel", sockets_become(server, before + 2), before + 2)
        yield from wanted("a second channel", code_of(client.signed(CHANNEL_BIND, given, address_of(other))), 0)
        with server.stopped():
            for _ in range(STRANGE):
                stranger.sendto(bytes(100), relayed)
            for number in range(SENT_AMID):
                peer.sendto(b"%d" % number, relayed)
        found = [client.receive() for _ in range(SENT_AMID)]
        yield from wanted("what a peer sends beside a full buffer", found, [channel_data(b"%d" % number) for number in range(SENT_AMID)])
        # what strangers sent waits at the socket that the other peer's data come to
        server.becomes("S")
        to_other = struct.pack(">HH", CHANNEL + 1, 5) + b"other"
        client.send(to_other)
        yield from wanted("to the other peer", other.recvfrom(100), (b"other", relayed))
        other.sendto(b"other", relayed)
        yield from wanted("from the other peer", client.receive(), to_other)
        yield from wanted("sockets with two channels", sockets_of(server), before + 2)
        # nobody is at the peer's port for some time
        port = peer.getsockname()[1]
        peer.close()
        for _ in range(SENT_AMID):
            client.send(channel_data(b"nobody is there"))
        server.becomes("S")
        with udp_socket(port) as peer:
            client.send(channel_data(b"at once"))
            yield from wanted("after refused datagrams", peer.recvfrom(100), (b"at once", relayed))
            peer.sendto(b"and back", relayed)
            yield from wanted("and back", client.receive(), channel_data(b"and back"))
        yield from closed_sockets(server, client, before)


def no_family6():
    """Yields how a server without IPv6 addresses answers a request for one, where that isn't 440."""
    with Server() as server, Client(server) as client:
        yield from wanted("no IPv6", code_of(client.allocate(FAMILY6)), 440)


def transactions():
    """Yields what the transaction ids of Data indications have otherwise than that each of their bytes is drawn anew."""
    found = []
    with Server() as server, Client(server) as client, udp_socket() as peer:
        client.allocate()
        yield from wanted("CreatePermission", code_of(client.signed(CREATE_PERMISSION, [], address_of(peer))), 0)
        for _ in range(INDICATIONS):
            peer.sendto(b"back", ("127.0.0.1", server.first_port))
            found.append(read(client.receive()).transaction_id)
    yield from wanted("ids that differ", len(set(found)), INDICATIONS)
    yield from wanted("bytes that are always the same", [i for i, of in enumerate(zip(*found)) if len(set(of)) == 1], [])


def many_slots():
    """Yields what is otherwise where each of the most slots is allocated, and the last ones are used."""
    with Server(slots=MOST_SLOTS) as server, contextlib.ExitStack() as stack:
        clients = [stack.enter_context(Client(server)) for _ in range(MOST_SLOTS + 1)]
        answers = [client.allocate() for client in clients]
        found = [address_in(answer.first(XOR_RELAYED_ADDRESS), answer.transaction_id) for answer in answers[:-1]]
        yield from wanted("relayed addresses", found, [(LOOPBACK, server.first_port + slot) for slot in range(MOST_SLOTS)])
        yield from wanted("one client more", code_of(answers[-1]), 508)
        for slot in USED_SLOTS:
            client, peer = clients[slot], stack.enter_context(udp_socket())
            yield from wanted(f"ChannelBind of slot {slot}", code_of(client.bind(address_of(peer))), 0)
            client.send(channel_data(b"there"))
            yield from wanted(f"slot {slot}", peer.recvfrom(100), (b"there", ("127.0.0.1", server.first_port + slot)))
            peer.sendto(b"back", ("127.0.0.1", server.first_port + slot))
            yield from wanted(f"slot {slot} back", client.receive(), channel_data(b"back"))


def faults():
    """Yields what a server does otherwise than go on after a send that fails, and count it."""
    with Server("--stats", "1", "--relay-ip", "203.0.113.9") as server, Client(server) as client:
        answer = client.allocate()
        found = address_in(answer.first(XOR_RELAYED_ADDRESS), answer.transaction_id)
        yield from wanted("--relay-ip", found, (bytes([203, 0, 113, 9]), server.first_port))
        # a socket of loopback can't send to this address
        given = [(XOR_PEER_ADDRESS, address_value((bytes([192, 0, 2, 1]), 5000)))]
        yield from wanted("CreatePermission", code_of(client.signed(CREATE_PERMISSION, given)), 0)
        client.send(message(SEND, random.randbytes(12), [*given, (DATA, b"lost")]))
        yield from wanted("lines of a send fault", server.awaited(fault_line(send=1)), 1)
        yield from wanted("Binding after it", client.ask(BINDING, []).kind, BINDING | 0x100)
        if not server.awaited(counters(from_clients=5, granted=3, challenged=1, send_faults=1)):
            yield f"other counters: {server.printed()!r}"


@contextlib.contextmanager
def preloading(what):
    """Yields the environment in which the program's receives can fail and can stop it, or None where that can't be had."""
    with tempfile.TemporaryDirectory() as name:
        folder = pathlib.Path(name)
        library, loaded = folder / "receives.so", folder / "loaded"
        environment = {**os.environ, "LD_PRELOAD": str(library), "LOADED": str(loaded)}
        why = "no gcc"
        if shutil.which("gcc"):
            preloadable(folder, "receives")
            subprocess.run([PROGRAM, "--help"], env=environment, stdout=subprocess.DEVNULL, check=True)
            why = "a program that loads no library"
        if not loaded.exists():
            PASSED_OVER.append(f"{what} ({why})")
        yield environment if loaded.exists() else None


def failed_receives():
    """Yields what a server does otherwise than go on after a receive that fails, and count it."""
    with preloading("receives that fail") as environment:
        if environment is None:
            return
        for number in FAILED_RECEIVES:
            with Server("--stats", "1", env={**environment, "FAIL_RECEIVE": str(number)}) as server:
                yield from failed_receive(server, f"receive {number}")
        for number in FAILED_AHEAD:
            with Server("--stats", "1", env={**environment, "FAIL_RECEIVE": str(number)}) as server:
                yield from failed_ahead(server, f"receive {number}, ahead")


def failed_receive(server, what):
    """Yields what a server with a receive that fails does otherwise than print it, count it, and answer requests."""
    with Client(server) as client:
        answers = [client.ask(BINDING, []).kind for _ in range(3)]
        yield from wanted(f"{what}, lines of its fault", server.awaited(fault_line(receive=1)), 1)
        answers.append(client.ask(BINDING, []).kind)
        yield from wanted(what, answers, 4 * [BINDING | 0x100])
        if not server.awaited(counters(from_clients=4, granted=4, receive_faults=1)):
            yield f"{what}, other counters: {server.printed()!r}"


def failed_ahead(server, what):
    """Yields what a busy server with a receive that fails does otherwise than print it, count it, and answer requests."""
    answers, count = [], 2 * BATCH_OF_REQUESTS
    with Client(server) as client:
        for _ in range(2):
            with server.stopped():
                for _ in range(BATCH_OF_REQUESTS):
                    client.send(message(BINDING, random.randbytes(12), []))
            answers += [read(client.receive()).kind for _ in range(BATCH_OF_REQUESTS)]
        yield from wanted(what, answers, count * [BINDING | 0x100])
        yield from wanted(f"{what}, lines of its fault", server.awaited(fault_line(receive=1)), 1)
        if not server.awaited(counters(from_clients=count, granted=count, receive_faults=1)):
            yield f"{what}, other counters: {server.printed()!r}"


# ---- what is done from time to time

def idle():
    """Yields the processor time of an idle server, where it is not next to nothing."""
    with Server(slots=16) as server, Client(server) as client:
        client.allocate()
        before = server.ticks()
        time.sleep(2)
        used = server.ticks() - before
        if used >= 5:
            yield f"an idle server used {used} ticks in 2 seconds"


def idle_files():
    """Yields the files that an idle server doesn't look at: no datagram comes, and no signal."""
    with tempfile.TemporaryDirectory() as name:
        for given in (["client"], ["peer"], ["client", "peer"]):
            paths = {side: pathlib.Path(name) / side for side in given}
            for path in paths.values():
                put(path, DISCARD)
            options = itertools.chain.from_iterable((f"--{side}", str(path)) for side, path in paths.items())
            with Server(*options) as server:
                server.becomes("S")
                for path in paths.values():
                    put(path, BAD)
                lines = sorted(line for path in paths.values() for line in (f"refused V5 at 0 in {path}\n", explained(path)))
                for line in lines:
                    server.awaited(line)
                yield from wanted(f"an idle server with files of {given}", sorted(server.printed().splitlines(True)), lines)


def nonces():
    """Yields what a nonce is good for once it is old."""
    with Server("--nonce-lifetime", "2") as server, Client(server) as client:
        client.allocate()
        old = client.nonce
        time.sleep(2 + 1.5 * PERIOD)
        answer = client.signed(REFRESH, [])
        yield from wanted("an old nonce", code_of(answer), 438)
        client.nonce = answer.first(NONCE)
        if client.nonce == old:
            yield "the nonce is still the same"
        answer = client.signed(REFRESH, [])
        if code_of(answer) == 438:  # another one has come since
            client.nonce = answer.first(NONCE)
            answer = client.signed(REFRESH, [])
        yield from wanted("a new nonce", code_of(answer), 0)


def replacements(paths, good):
    """The steps in which files are changed.

    Each has the new bytes of files, by side; the lines that are printed then, in any order; and whether data of the
    client, and data of the peer, pass afterwards.
    """
    loaded = {side: f"loaded {path}\n" for side, path in paths.items()}
    refused = {side: f"refused {{}} in {path}\n{explained(path)}".format for side, path in paths.items()}
    client, peer = good["client"], good["peer"]
    return [
        ("before", {}, [], (True, True)),
        ("a program that discards", {"client": DISCARD}, [loaded["client"]], (False, True)),
        ("the old one again", {"client": client}, [loaded["client"]], (True, True)),
        ("a refused one", {"client": BAD}, [refused["client"]("V5 at 0")], (True, True)),
        ("an empty file", {"client": b""}, [refused["client"]("E1")], (True, True)),
        ("half of it", {"client": client[:-12]}, [refused["client"]("E2")], (True, True)),
        ("another that discards", {"client": DISCARD}, [loaded["client"]], (False, True)),
        ("the old one once more", {"client": client}, [loaded["client"]], (True, True)),
        ("a program of peers that discards", {"peer": DISCARD}, [loaded["peer"]], (True, False)),
        ("both at once", {"client": DISCARD, "peer": peer}, [loaded["client"], loaded["peer"]], (False, True)),
        ("a good one, and a refused one of peers", {"client": client, "peer": BAD},
         [loaded["client"], refused["peer"]("V5 at 0")], (True, True)),
        ("a refused one, and a good one of peers", {"client": BAD, "peer": DISCARD},
         [refused["client"]("V5 at 0"), loaded["peer"]], (True, False)),
    ]


def replaced_programs():
    """Yields what happens otherwise than said where the files of programs are changed."""
    with tempfile.TemporaryDirectory() as name:
        paths = {side: shipped(pathlib.Path(name), side) for side in ("client", "peer")}
        good = {side: path.read_bytes() for side, path in paths.items()}
        printed = collections.Counter()
        options = ["--client", str(paths["client"]), "--peer", str(paths["peer"])]
        with Server(*options) as server, Client(server) as client, udp_socket() as peer:
            client.allocate()
            client.bind(address_of(peer))
            for what, changed, lines, passing in replacements(paths, good):
                with server.stopped():
                    for side, data in changed.items():
                        put(paths[side], data)
                printed.update(lines)
                if any(server.awaited(line, printed[line]) != printed[line] for line in lines):
                    yield f"{what}: {server.printed()!r}"
                yield from wanted(what, passed(server, client, peer, passing), passing)
            for path in paths.values():
                path.unlink()
            time.sleep(1.5 * PERIOD)
            passing = True, False
            yield from wanted("no files", passed(server, client, peer, passing), passing)
            lines = "".join(printed.elements()).splitlines(True)
            yield from wanted("lines", sorted(server.printed().splitlines(True)), sorted(lines))
            yield from wanted("the allocation", code_of(client.signed(REFRESH, [])), 0)


def slow_program(server, client, peer, path, title, program):
    """Yields what is lost of datagrams that come while a program is verified that is refused, or given up; returns the longest round
    trip."""
    relayed = ("127.0.0.1", server.first_port)
    line = f"cannot use {path}: it takes too long to verify\n" if title in longest_programs() else "refused V17"
    refusals = server.printed().count(line)
    put(path, program)
    trips = []
    while len(trips) < ROUND_TRIPS or (len(trips) < MOST_TRIPS and server.printed().count(line) == refusals):
        trips += [round_trip(client, peer, relayed, struct.pack(">I", number)) for number in range(500)]
    yield from wanted(f"{title}: datagrams lost", trips.count(None), 0)
    if server.awaited(line, refusals + 1) != refusals + 1:
        yield f"{title}: {server.printed()!r}"
    return max(trip or 0 for trip in trips)


def slow_programs():
    """Yields what is lost, or late, of datagrams that come while programs are verified that take long."""
    with tempfile.TemporaryDirectory() as name:
        folder = pathlib.Path(name)
        path = shipped(folder, "client")
        running = path.read_bytes()
        with Server("--client", str(path)) as server, Client(server) as client, udp_socket() as peer:
            client.allocate()
            client.bind(address_of(peer))
            for title in SLOW:
                lines = (known_programs() | longest_programs())[title]
                program = assembled(folder, "slow", "\n".join(lines)).read_bytes()
                for _ in range(ATTEMPTS):
                    slowest = yield from slow_program(server, client, peer, path, title, program)
                    if slowest <= LATE:
                        break
                    # once the file has the program that runs, the one that was refused is tried again
                    put(path, running)
                    time.sleep(1.2 * PERIOD)
                else:
                    yield f"{title}: a round trip took {slowest * 1000:.1f} ms, and one was late at each of {ATTEMPTS} attempts"


def withdrawn_programs():
    """Yields what is not as it should be where one side has a new program, and a slow one of the other side is withdrawn while
    it is verified: the new one runs."""
    with tempfile.TemporaryDirectory() as name:
        folder = pathlib.Path(name)
        paths = {side: shipped(folder, side) for side in ("client", "peer")}
        good = paths["peer"].read_bytes()
        slow = assembled(folder, "slow", "\n".join(longest_programs()[SLOWEST]))
        with Server("--client", str(paths["client"]), "--peer", str(paths["peer"])) as server:
            with server.stopped():
                put(paths["client"], DISCARD)
                put(paths["peer"], slow.read_bytes())
            time.sleep(1.2 * PERIOD)
            yield from wanted("lines before", server.printed(), "")
            put(paths["peer"], good)
            yield from wanted("loaded", server.awaited(f"loaded {paths['client']}\n"), 1)


def drained():
    """Yields what is otherwise where a program is loaded that drains the server: who has an allocation goes on with it, and nobody
    gets one."""
    with tempfile.TemporaryDirectory() as name:
        folder = pathlib.Path(name)
        path = shipped(folder, "client")
        parts = [(TOP / "examples" / "relay" / f"{part}.s").read_text(encoding="utf-8") for part in ("drain", "client")]
        drain = assembled(folder, "drain", "".join(parts))
        with Server("--client", str(path)) as server, Client(server) as client, Client(server) as late, udp_socket() as peer:
            client.allocate()
            client.bind(address_of(peer))
            late.challenge()
            put(path, drain.read_bytes())
            server.awaited(f"loaded {path}\n")
            # that which is answered first isn't the request for an allocation
            late.send(message(ALLOCATE, random.randbytes(12), [UDP]))
            yield from wanted("a Binding request of who has none", late.ask(BINDING, []).kind, BINDING | 0x100)
            yield from wanted("a Refresh", code_of(client.signed(REFRESH, [])), 0)
            yield from wanted("data there and back", passed(server, client, peer, BOTH), BOTH)
            yield from wanted("the end of it", code_of(client.signed(REFRESH, [(LIFETIME, bytes(4))])), 0)


def put_users(server, path, users, printed, line):
    """Replaces the file of users, and yields what is printed then otherwise than one more line."""
    put(path, users)
    printed.append(line)
    server.awaited(line, printed.count(line))
    yield from wanted(f"lines after {users[:60]!r}", server.printed(), "".join(printed))


def users_come(server, path, clients, peer, printed):
    """Yields what is not as it should be where a user is added, and the others have other places in the list."""
    ann, bob, dan = clients
    for client in (ann, bob):
        yield from wanted("an allocation", code_of(client.allocate()), 0)
        yield from wanted("a channel", code_of(client.bind(address_of(peer))), 0)
    yield from wanted("an allocation of nobody", code_of(dan.allocate()), 401)
    line = "users replaced, 4 users\n"
    yield from put_users(server, path, b"# in another order\n\ndan:d\nbob:b\nann:a\n", printed, line)
    for slot, client in enumerate((ann, bob)):
        what = f"in another order, slot {slot}"
        yield from wanted(f"{what}, its channel", passed(server, client, peer, BOTH, slot), BOTH)
        client.send_to(address_of(peer), b"by a permission")
        yield from wanted(f"{what}, its permission", comes(peer, b"by a permission", True), True)
        yield from wanted(f"{what}, a Refresh", code_of(client.signed(REFRESH, [])), 0)
        yield from wanted(f"{what}, its channel again", code_of(client.bind(address_of(peer))), 0)
    yield from wanted("an allocation of the new user", code_of(dan.allocate()), 0)


def users_go(server, path, clients, peer, printed):
    """Yields what is not as it should be where a user is removed, and comes back, and where one has another password."""
    ann, bob, dan = clients
    line = "users replaced, 3 users\n"
    yield from put_users(server, path, b"dan:d\nbob:b\n", printed, line)
    found = passed(server, ann, peer, NEITHER), code_of(ann.signed(REFRESH, []))
    yield from wanted("a user that is gone", found, (NEITHER, 401))
    found = passed(server, bob, peer, BOTH, slot=1), code_of(bob.signed(REFRESH, []))
    yield from wanted("a user that is still there", found, (BOTH, 0))
    yield from put_users(server, path, b"dan:d\nbob:new\n", printed, line)
    found = passed(server, bob, peer, NEITHER, slot=1), code_of(bob.signed(REFRESH, []))
    yield from wanted("a user whose password is another", found, (NEITHER, 401))
    bob.key = key_of("bob", "relay", "new")
    yield from wanted("the new password", code_of(bob.signed(REFRESH, [])), 437)
    yield from put_users(server, path, b"dan:d\nbob:new\nann:a\n", printed, "users replaced, 4 users\n")
    found = passed(server, ann, peer, NEITHER), code_of(ann.signed(REFRESH, []))
    yield from wanted("a user that is back", found, (NEITHER, 437))
    answer = ann.allocate()
    relayed = address_in(answer.first(XOR_RELAYED_ADDRESS), answer.transaction_id)
    yield from wanted("its new allocation", relayed, (LOOPBACK, server.first_port))
    yield from wanted("the channel of its former one", passed(server, ann, peer, NEITHER), NEITHER)
    yield from wanted("a user who was always there", code_of(dan.signed(REFRESH, [])), 0)


def refused_users(server, path, clients, _peer, printed):
    """Yields what isn't reported once, and what changes all the same, where a list is refused or the file can't be read."""
    dan, good = clients[2], path.read_bytes()
    for users, reason in REFUSED_USERS:
        yield from put_users(server, path, users, printed, f"cannot use {path}: {reason}\n")
        yield from wanted(f"a Refresh after {reason}", code_of(dan.signed(REFRESH, [])), 0)
        time.sleep(1.2 * PERIOD)
    path.unlink()
    printed.append(f"cannot use {path}: not readable\n")
    server.awaited(printed[-1])
    time.sleep(1.2 * PERIOD)
    put(path, good)
    printed.append(f"users as before in {path}\n")
    server.awaited(printed[-1])
    time.sleep(1.2 * PERIOD)
    yield from wanted("lines after the list that is put back", server.printed(), "".join(printed))
    users, reason = REFUSED_USERS[0]
    yield from put_users(server, path, users, printed, f"cannot use {path}: {reason}\n")
    yield from wanted("a Refresh at the end", code_of(dan.signed(REFRESH, [])), 0)


def users_that_come_and_go():
    """Yields what happens otherwise than said where the file of users is replaced: whose allocations go on, and whose end. No
    datagram makes the server look."""
    with tempfile.TemporaryDirectory() as name, contextlib.ExitStack() as stack:
        path = pathlib.Path(name) / "users"
        put(path, b"ann:a\nbob:b\n")
        server = stack.enter_context(Server("--users", str(path), slots=4))
        clients = [stack.enter_context(Client(server, *user)) for user in (("ann", "a"), ("bob", "b"), ("dan", "d"))]
        peer = stack.enter_context(udp_socket())
        printed = []
        for part in (users_come, users_go, refused_users):
            yield from part(server, path, clients, peer, printed)


def requests_before(server, amid, address="127.0.0.1"):
    """How many of 200 requests are answered before a datagram of a peer, which came after all of them; or amid them, while
    the server had stopped itself."""
    with Client(server) as client, udp_socket(0, address) as peer:
        client.allocate(*[FAMILY6] if ":" in address else [])
        client.bind(address_of(peer))
        with contextlib.ExitStack() as stack:
            stack.enter_context(server.stopped())
            for _ in range(200):
                client.send(message(BINDING, random.randbytes(12), []))
            if amid:
                stack.close()
                stack.enter_context(server.stopped(by_itself=True))
            peer.sendto(b"its turn", (address, server.first_port))
            time.sleep(0.2)  # all of it has come
        received = [client.receive() for _ in range(201)]
        return received.index(channel_data(b"its turn"))


def turns():
    """Yields how many requests are answered before a peer's datagram gets its turn, where it isn't as many as may be."""
    with Server() as server:
        yield from wanted("requests before one that came last", requests_before(server, amid=False), 64)
    with Server("--listen6", "::1") as server:
        found = requests_before(server, amid=False, address="::1")
        yield from wanted("requests before one that came last over IPv6", found, 64)
    with preloading("a server that is stopped amid a turn") as environment:
        if environment is not None:
            with Server(env={**environment, "STOP_RECEIVE": str(STOPPED_RECEIVE)}) as server:
                yield from wanted("requests before one that came amid them", requests_before(server, amid=True), 64)


def ahead():
    """Yields what a busy server, which receives several datagrams before it serves the first, does otherwise than relay each
    batch in order: small ones, and ones that are too long for its room together."""
    small = [b"%d" % number for number in range(40)]
    large = [bytes([number]) * 45_000 for number in range(4)]
    for family, address in (([], "127.0.0.1"), ([FAMILY6], "::1")):
        with Server("--listen6", "::1") as server, Client(server) as client, udp_socket(0, address) as peer:
            client.allocate(*family)
            client.bind(address_of(peer))
            for batch in (small, small[::-1], large, small):
                with server.stopped():
                    for data in batch:
                        client.send(channel_data(data))
                yield from wanted(f"a batch of {len(batch)} to {address}", [peer.recv(65_535) for _ in batch], batch)
            for batch in (small, small[::-1]):
                with server.stopped():
                    for data in batch:
                        peer.sendto(data, (address, server.first_port))
                found = [client.receive() for _ in batch]
                yield from wanted(f"a batch of {len(batch)} from {address}", found, [channel_data(data) for data in batch])


# ---- many datagrams

def offer(pairs, batch):
    """Sends a batch to the peers and back, each datagram by the next client, and reads what comes.

    A pair is a client, its peer and the relayed address. What a busy system drops is not waited for for long.
    """
    sent = list(zip(batch, itertools.cycle(pairs)))
    for data, (client, _, _) in sent:
        client.send(channel_data(data))
    for _, (_, peer, _) in sent:
        with contextlib.suppress(TimeoutError):
            peer.recv(2000)
    for data, (_, peer, relayed) in sent:
        peer.sendto(data, relayed)
    for _, (client, _, _) in sent:
        with contextlib.suppress(TimeoutError):
            client.receive()


def many():
    """Yields what is lost between what the system delivers and what is sent, and what many datagrams leave in memory."""
    with Server("--stats", "1", slots=CLIENTS) as server, contextlib.ExitStack() as stack:
        pairs = []
        for slot in range(CLIENTS):
            client, peer = stack.enter_context(Client(server)), stack.enter_context(udp_socket())
            client.allocate()
            client.bind(address_of(peer))
            pairs.append((client, peer, ("127.0.0.1", server.first_port + slot)))
        server.awaited("received from clients")  # printing a line of counters takes memory once
        memory = None
        for start in range(0, DATAGRAMS, BATCH):
            offer(pairs, [struct.pack(">I", number) * 40 for number in range(start, start + BATCH)])
            memory = memory or server.memory()
        yield from wanted("kB of memory in use at the end", server.memory(), memory)
        time.sleep(3 * PERIOD)  # the last line of counters has all that came
        from_clients, from_peers, to_peers, to_clients = map(int, RELAYED.findall(server.printed())[-1])
        # a client allocates in two requests, and binds a channel in one
        yield from wanted("datagrams to peers", to_peers, from_clients - 3 * CLIENTS)
        yield from wanted("datagrams to clients", to_clients, from_peers)
        if to_peers < DATAGRAMS // 2:
            yield f"the system delivered {to_peers} datagrams of {DATAGRAMS}"


def main():
    """Runs every part, and returns the exit status."""
    parts = [refused_lines, rounds, metrics_of_rounds, addresses, addresses6, default_ports, default_slots, counted_rounds, receives_of_rounds,
             session, session6, hairpins, own_sockets, own_sockets_of_peers, no_family6, transactions, many_slots, faults, failed_receives,
             idle, idle_files, nonces, replaced_programs, slow_programs, withdrawn_programs, drained, users_that_come_and_go, turns, ahead, many]
    return run_parts("serve", parts)


if __name__ == "__main__":
    sys.exit(main())
