"""Runs the built relayd's `serve` with clocks that stand still until they are set.

Moments are the system's clock at the start and what has passed since, whatever the clock is set to afterwards; names that say
when they expire do so by the clock as it is set. What ends at a
moment, or is done from time to time, is there one nanosecond before and not there at it: allocations, channels, permissions and
nonces by their lifetimes, the files of programs and the counters each second. It needs gcc.
"""

import collections
import contextlib
import itertools
import os
import pathlib
import re
import struct
import sys
import tempfile

import refusals
from memory import over_additions
from lib.program import assembled, explained, preloadable, run_parts, shipped
from lib.rules import BINDING, CREATE_PERMISSION, LIFETIME, NONCE, REFRESH, password_of
from lib.server import (
    BAD, DISCARD, Client, Server, address_of, channel_data, code_of, comes, counters, passed, put, samples_of,
    udp_socket, wanted)

SECOND = 10**9
# three quarters of a second after a whole one, whose half and double are other moments; and the time since a start
REAL, MONOTONIC = 1_700_000_000 * SECOND + SECOND * 3 // 4, 1_000 * SECOND
# what a web application shares with the server
SECRET = b"between the web and the relay"
# the seconds of a moment, of which the last quarter is gone when the clocks begin
WHOLE = REAL // SECOND * SECOND
# `mov r0, 1` and `exit`: all is passed on to the rules, which discard what peers send. As long as DISCARD
PASS = bytes.fromhex("b700000001000000 9500000000000000")
# `mov r0, 0` alone, refused for its end, and as long as BAD
UNENDED = bytes.fromhex("b700000000000000")
# 32 paths of 4,000 steps each: quick to refuse, since few states are kept
TOO_MANY_STEPS = over_additions([1, 2, 4, 8, 16], 4000)
# passes messages on to the rules, and discards all else
MESSAGES = """
    ldxdw r2, [r1+0]
    ldxdw r3, [r1+8]
    mov r4, r2
    add r4, 1
    mov r0, 0
    jgt r4, r3, end
    ldxb r5, [r2+0]
    jgt r5, 63, end
    mov r0, 1
end:
    exit
"""
# how often a nonce is replaced, in seconds, by the words that say so
LIFETIMES = [([], 3600), (["--nonce-lifetime", "7"], 7)]
RENEWALS = 20
# how often lines of counters are printed
PERIODS = [1, 5]
# datagrams of clients that are discarded, each after one of another kind: ChannelData, messages, and others
DISCARDED = [b"\x40", b"\x3f", b"", b"\x7f", b"\x00", b"\x80", b"\x47\0\0\0", b"", b"\x3f", b"\xff", b"\x40", b""]
OF_EACH = (4, 3, 5)
# the samples of these and of a peer without a permission: the shipped programs pass on what begins as a message does, and no more
DISCARDED_SAMPLES = {
    'relayd_datagrams_discarded_total{kind="channel_data",reason="by_program"}': 4,
    'relayd_datagrams_discarded_total{kind="message",reason="malformed"}': 3,
    'relayd_datagrams_discarded_total{kind="other",reason="by_program"}': 5,
    'relayd_datagrams_discarded_total{kind="from_peer",reason="by_program"}': 1,
}


class Clocks:
    """The clocks of a server: they stand still until they are set."""

    def __init__(self, folder):
        self.folder, self.library, path = folder, preloadable(folder, "set_clocks"), folder / "clocks"
        self.file = open(path, "wb")
        self.environment = {**os.environ, "LD_PRELOAD": str(self.library), "CLOCKS": str(path)}
        self.set(REAL, MONOTONIC)

    def set(self, real, monotonic):
        """Sets both clocks; one below zero fails."""
        self.real, self.monotonic = real, monotonic
        os.pwrite(self.file.fileno(), struct.pack("<qq", real, monotonic), 0)

    # a server reads its clocks after each wait, so they are set while it waits. What is due then is done in pieces, with datagrams
    # between them: so the wait is ended by a signal, and the server waits again once all is done

    def set_waiting(self, server, real, monotonic):
        """Sets both clocks while a server waits, and lets it do what is due then."""
        with server.stopped():
            self.set(real, monotonic)
        server.becomes("S")

    def become(self, server, moment):
        """Lets time pass until a moment while a server waits, whatever the system's clock is set to."""
        self.set_waiting(server, self.real, MONOTONIC + moment - REAL)

    def set_real(self, server, real):
        """Sets the system's clock while a server waits."""
        self.set_waiting(server, real, self.monotonic)

    def pass_by(self, server, nanoseconds):
        """Sets the clock that never goes back so many nanoseconds forward while a server waits."""
        self.set_waiting(server, self.real, self.monotonic + nanoseconds)

    @contextlib.contextmanager
    def serving(self, *words):
        """Yields a server with these clocks, which begin anew, and a client of it with an allocation."""
        self.set(REAL, MONOTONIC)
        with Server(*words, env=self.environment) as server, Client(server) as client:
            client.allocate()
            yield server, client


def permit(client, peer):
    """Asks for a permission, and returns the code of the response."""
    return code_of(client.signed(CREATE_PERMISSION, [], address_of(peer)))


def sent(client, peer):
    """Whether a Send indication comes to the peer. A request comes to the server after it, so nothing is waited for."""
    client.send_to(address_of(peer), b"sent")
    client.ask(BINDING, [])
    peer.setblocking(False)
    try:
        return peer.recv(100) == b"sent"
    except BlockingIOError:
        return False
    finally:
        peer.settimeout(5)


# ---- moments of datagrams

def lifetimes(clocks):
    """Yields what ends at another moment than the one at which its lifetime is over."""
    # the nanoseconds from the beginning of the second of the requests, and whether each of these is still there
    rows = [(299 * SECOND, True, True), (300 * SECOND - 1, True, True), (300 * SECOND, False, True),
            (600 * SECOND - 1, False, True), (600 * SECOND, False, False)]
    with clocks.serving() as (server, client), udp_socket() as peer, udp_socket() as other:
        yield from wanted("CreatePermission", permit(client, peer), 0)
        yield from wanted("ChannelBind", code_of(client.bind(address_of(other))), 0)
        for after, permitted, allocated in rows:
            clocks.become(server, WHOLE + after)
            yield from wanted(f"the permission after {after} ns", sent(client, peer), permitted)
            client.send(channel_data(b"over"))
            yield from wanted(f"the channel after {after} ns", comes(other, b"over", allocated), allocated)
        yield from wanted("the allocation", permit(client, peer), 437)
        yield from wanted("another one", code_of(client.allocate()), 0)


def clocks_that_are_set(clocks):
    """Yields what is otherwise where the system's clock is set, or fails: moments go on as time does."""
    for what, real in (("a day ahead", REAL + 86_400 * SECOND), ("set back", 5 * SECOND), ("at 1970", 0), ("failing", -1)):
        with clocks.serving() as (server, client), udp_socket() as peer:
            yield from wanted(f"a permission before the clock is {what}", permit(client, peer), 0)
            clocks.set_real(server, real)
            yield from wanted(f"a Send indication with the clock {what}", sent(client, peer), True)
            clocks.become(server, WHOLE + 300 * SECOND - 1)
            yield from wanted(f"one 299 seconds later, with the clock {what}", sent(client, peer), True)
            clocks.become(server, WHOLE + 300 * SECOND)
            yield from wanted(f"one 300 seconds later, with the clock {what}", sent(client, peer), False)
            yield from wanted(f"a refresh with the clock {what}", code_of(client.signed(REFRESH, [])), 0)


def names_that_expire(clocks):
    """Yields what is otherwise than that names expire by the system's clock as it is set, and that each time it is set by more than
    a second is reported once and ends the recording."""
    secret, record = clocks.folder / "secret", clocks.folder / "record"
    secret.write_bytes(SECRET)
    # by how many seconds the clock is set from one row to the next, and the codes of a name that expires in a minute by the first of
    # these clocks: of its own allocation that is refreshed, and of another client
    rows = [(0, (0, 0)), (1, (0, 0)), (55, (0, 0)), (3, (0, 401)), (86_400, (0, 401)), (-86_500, (0, 0)), (730 * 86_400, (0, 401))]
    name = f"{WHOLE // SECOND + 60}:ann"
    password = password_of(SECRET, name.encode()).decode()
    said, real, untaken = [], REAL, 0
    options = ["--secret", str(secret), "--record", str(record), "--log"]
    clocks.set(REAL, MONOTONIC)
    with Server(*options, env=clocks.environment) as server, Client(server, name, password) as own:
        yield from wanted("an allocation of the name", code_of(own.allocate()), 0)
        for seconds, codes in rows:
            real += (seconds + 1) * SECOND
            clocks.set_waiting(server, real, clocks.monotonic + SECOND)
            untaken += seconds
            if abs(untaken) > 1:
                said.append(f"clock set {'forward' if untaken > 0 else 'back'} by {abs(untaken)} seconds\n")
                untaken = 0
            with Client(server, name, password) as other:
                found = code_of(own.signed(REFRESH, [])), code_of(other.allocate())
                yield from wanted(f"codes with the clock set by {seconds} s", found, codes)
                other.signed(REFRESH, [(LIFETIME, bytes(4))])
            lines = server.printed().splitlines(True)
            yield from wanted(f"lines of the clock set by {seconds} s", [line for line in lines if line.startswith("clock")], said)
        yield from wanted("ends of the recording", server.printed().count(f"recording to {record} ended: the clock was set\n"), 1)
        refusals_of_name = 2 * sum(other == 401 for _, (_, other) in rows)
        yield from wanted("refusals", server.awaited(f'user "{name}", expired\n', refusals_of_name), refusals_of_name)


# ---- what is done from time to time

def nonces(clocks):
    """Yields what is otherwise than that each lifetime a new nonce comes, whose digits are drawn."""
    found = []
    for words, lifetime in LIFETIMES:
        with clocks.serving(*words) as (server, client):
            for number in range(RENEWALS):
                found.append(client.nonce.decode())
                clocks.pass_by(server, lifetime * SECOND - 1)
                # a refresh is granted, or the allocation has ended meanwhile
                valid = 0 if lifetime < 600 else 437
                before = code_of(client.signed(REFRESH, []))
                clocks.pass_by(server, 1)
                answer = client.signed(REFRESH, [])
                client.nonce = answer.first(NONCE) or client.nonce
                codes = before, code_of(answer), code_of(client.signed(REFRESH, []))
                yield from wanted(f"{words}, nonce {number} before its end, at its end, and the next", codes, (valid, 438, valid))
    yield from wanted("nonces of 16 digits", sum(bool(re.fullmatch("[0-9a-f]{16}", nonce)) for nonce in found), len(found))
    yield from wanted("nonces that differ", len(set(found)), len(found))
    yield from wanted("places whose digit is always the same", [i for i, of in enumerate(zip(*found)) if len(set(of)) == 1], [])


def lines(clocks):
    """Yields what is otherwise than that each period a line of counters is printed, of all that came before."""
    for period in PERIODS:
        with clocks.serving("--stats", str(period)) as (server, client):
            printed = ""
            for number in range(1, 5):
                for nanoseconds in (period * SECOND - 1, 1):
                    clocks.pass_by(server, nanoseconds)
                    came = 2 * number + (nanoseconds == 1)
                    client.ask(BINDING, [])
                    printed += counters(from_clients=came, granted=came - 1, challenged=1) if nanoseconds == 1 else ""
                    yield from wanted(f"lines each {period} s, after {number}", server.printed(), printed)


def counted(clocks):
    """Yields what is counted otherwise: an old nonce among what is challenged, and what is discarded by its first byte."""
    with clocks.serving("--stats", "1", "--nonce-lifetime", "1") as (server, client):
        clocks.pass_by(server, SECOND)
        yield from wanted("an old nonce", code_of(client.signed(REFRESH, [])), 438)
        for data in DISCARDED:
            client.send(data)
        client.ask(BINDING, [])
        clocks.pass_by(server, SECOND)
        client.ask(BINDING, [])
        first = counters(from_clients=2, granted=1, challenged=1)
        last = counters(from_clients=4 + len(DISCARDED), granted=2, challenged=2, discarded=(*OF_EACH, 0), malformed=3, by_program=9)
        yield from wanted("counters", server.printed(), first + last)


def metrics(clocks):
    """Yields what is otherwise than that metrics are written at the start and each 15 seconds, of all that came before.

    Where they can't be written it is reported, once until they are.
    """
    def at(server, client, nanoseconds):
        """The samples some time later, and what was printed."""
        clocks.pass_by(server, nanoseconds)
        client.ask(BINDING, [])
        return samples_of(path), server.printed()

    with tempfile.TemporaryDirectory() as name:
        path, new = pathlib.Path(name) / "relayd.prom", pathlib.Path(name) / "relayd.prom.new"
        line = f"cannot write {path}\n"
        with clocks.serving("--metrics", str(path)) as (server, client), udp_socket() as peer:
            begin = {"relayd_slots": 2}
            yield from wanted("metrics before 15 s", at(server, client, 15 * SECOND - 1), (begin, ""))
            for data in DISCARDED:
                client.send(data)
            peer.sendto(b"no permission", ("127.0.0.1", server.first_port))
            after = {
                "relayd_slots": 2, "relayd_slots_in_use": 1,
                'relayd_datagrams_received_total{from="clients"}': 4 + len(DISCARDED),
                'relayd_datagrams_received_total{from="peers"}': 1,
                'relayd_responses_total{result="granted"}': 3, 'relayd_responses_total{result="challenged"}': 1,
                # the program discards what isn't a message by 0, and passes messages on by 1
                'relayd_program_verdicts_total{side="client",verdict="0"}': 4 + 5,
                'relayd_program_verdicts_total{side="client",verdict="1"}': 4 + 3,
                'relayd_program_verdicts_total{side="peer",verdict="0"}': 1,
                **DISCARDED_SAMPLES,
            }
            client.ask(BINDING, [])
            yield from wanted("metrics at 15 s", at(server, client, 1), (after, ""))
            new.mkdir()
            count = 'relayd_datagrams_received_total{from="clients"}'
            for printed in line, line:
                yield from wanted("metrics that can't be written", at(server, client, 15 * SECOND), (after, printed))
            new.rmdir()
            found, printed = at(server, client, 15 * SECOND)
            yield from wanted("metrics afterwards", (found[count], printed), (after[count] + 3, line))
            new.mkdir()
            yield from wanted("a further fault", at(server, client, 15 * SECOND), (found, 2 * line))
            new.rmdir()
            # the allocation has ended by then
            found, printed = at(server, client, 600 * SECOND)
            yield from wanted("slots in use at the end", (found.get("relayd_slots_in_use"), printed), (None, 2 * line))


# ---- programs that are replaced

def replacements(good, messages):
    """Yields which programs a server begins with, by side, and the steps in which files are changed.

    Each step has the new bytes of files, by side; what is printed then of each side, in any order; and whether data of the client,
    and data of the peer, pass afterwards. A side without a file has the shipped program.
    """
    client, peer = good["client"], good["peer"]
    refused, unended = "refused V5 at 0 in", "refused V4 at 0 in"
    yield {"client": client}, [
        ("before", {}, {}, (True, True)),
        ("a program that discards", {"client": DISCARD}, {"client": "loaded"}, (False, True)),
        ("one of the same length", {"client": PASS}, {"client": "loaded"}, (True, True)),
        ("a refused one", {"client": BAD}, {"client": refused}, (True, True)),
        ("the same one", {}, {}, (True, True)),
        ("another of the same length", {"client": UNENDED}, {"client": unended}, (True, True)),
        ("the one that runs", {"client": PASS}, {}, (True, True)),
        ("the refused one again", {"client": UNENDED}, {"client": unended}, (True, True)),
        ("a good one", {"client": DISCARD}, {"client": "loaded"}, (False, True)),
        ("the refused one once more", {"client": UNENDED}, {"client": unended}, (False, True)),
    ]
    yield {"peer": peer}, [
        ("before", {}, {}, (True, True)),
        ("a program of peers that discards", {"peer": DISCARD}, {"peer": "loaded"}, (True, False)),
        ("a refused one", {"peer": BAD}, {"peer": refused}, (True, False)),
        ("the one that runs", {"peer": DISCARD}, {}, (True, False)),
        ("the refused one again", {"peer": BAD}, {"peer": refused}, (True, False)),
        ("a good one", {"peer": peer}, {"peer": "loaded"}, (True, True)),
        ("the refused one once more", {"peer": BAD}, {"peer": refused}, (True, True)),
    ]
    # neither is the shipped one, and each stays while the other is replaced
    own = {"client": messages, "peer": DISCARD}
    yield own, [
        ("before", {}, {}, (False, False)),
        ("another one of peers", {"peer": peer}, {"peer": "loaded"}, (False, True)),
        ("another one of clients", {"client": client}, {"client": "loaded"}, (True, True)),
        ("the first one of peers", {"peer": DISCARD}, {"peer": "loaded"}, (True, False)),
        ("the first one of clients", {"client": messages}, {"client": "loaded"}, (False, False)),
    ]
    yield own, [
        ("another one of clients first", {"client": client}, {"client": "loaded"}, (True, False)),
        ("a refused one of clients", {"client": BAD, "peer": peer}, {"client": refused, "peer": "loaded"}, (True, True)),
    ]


def replaced_programs(clocks):
    """Yields what happens otherwise than said where the files of programs are changed, each a second after the last."""
    folder = clocks.folder
    messages = assembled(folder, "messages", MESSAGES).read_bytes()
    good = {side: shipped(folder, side).read_bytes() for side in ("client", "peer")}
    for number, (begun, steps) in enumerate(replacements(good, messages)):
        paths = {side: folder / f"{side}{number}" for side in begun}
        for side, data in begun.items():
            put(paths[side], data)
        options = itertools.chain.from_iterable((f"--{side}", str(path)) for side, path in paths.items())
        with clocks.serving(*options) as (server, client), udp_socket() as peer:
            client.bind(address_of(peer))
            yield from steps_of(clocks, server, client, peer, paths, steps)


def said_of(words, path):
    """Returns what is printed of a file, of which the words before its name are given."""
    return f"{words} {path}\n{explained(path) if words.startswith('refused') else ''}"


def steps_of(clocks, server, client, peer, paths, steps):
    """Yields what happens otherwise than the steps say."""
    printed = collections.Counter()
    for what, changed, said, passing in steps:
        for side, data in changed.items():
            put(paths[side], data)
        clocks.pass_by(server, SECOND)
        added = [said_of(words, paths[side]) for side, words in said.items()]
        printed.update(added)
        client.send(b"\xff")
        if any(server.awaited(line, printed[line]) != printed[line] for line in added):
            yield f"{what}: {server.printed()!r}"
        yield from wanted(what, passed(server, client, peer, passing), passing)
    lines = "".join(printed.elements()).splitlines(True)
    yield from wanted("lines", sorted(server.printed().splitlines(True)), sorted(lines))


def refused_programs(clocks):
    """Yields the refusals of a program that a running server prints otherwise, or after which the old program doesn't go on."""
    folder = clocks.folder
    path = folder / "refused"
    put(path, DISCARD)
    with clocks.serving("--peer", str(path)) as (server, client):
        printed = ""
        programs = {**dict(refusals.refused_programs(folder)), "V17": TOO_MANY_STEPS}
        for code, data in programs.items():
            put(path, data)
            clocks.pass_by(server, SECOND - 1)
            client.ask(BINDING, [])
            yield from wanted(f"{code}, too early", server.printed(), printed)
            clocks.pass_by(server, 1)
            client.send(b"\xff")
            server.awaited("\n", printed.count("\n") + 1)
            found = server.printed()
            line = rf"refused {code}( [a-z0-9 ]+)? in {re.escape(str(path))}\n{re.escape(explained(path))}"
            if code == "E3":  # it isn't read
                line = rf"cannot use {re.escape(str(path))}: more than 32768 bytes\n"
            if not re.fullmatch(line, found[len(printed):]):
                yield f"{code}: {found[len(printed):]!r}"
            printed = found
        yield from wanted("the allocation", code_of(client.signed(REFRESH, [])), 0)


def main():
    """Runs every part, and returns the exit status."""
    parts = [lifetimes, clocks_that_are_set, names_that_expire, nonces, lines, counted, metrics, replaced_programs, refused_programs]
    with tempfile.TemporaryDirectory() as name:
        return run_parts("clocks", parts, Clocks(pathlib.Path(name)))


if __name__ == "__main__":
    sys.exit(main())
