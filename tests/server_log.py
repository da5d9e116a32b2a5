"""Runs the built relayd's `serve --log`: what it prints of allocations that are made and that end, and of refused credentials.

Lines of sessions, of names that are no plain text, of users that are replaced or revoked, of lifetimes that pass (by clocks that are
set, which needs gcc), and of more than a second may have; and a terminal that nobody reads.
"""

import contextlib
import os
import pathlib
import random
import re
import select
import shutil
import sys
import tempfile
import time
import tty

from clock import MONOTONIC, REAL, SECOND, WHOLE, Clocks
from lib.program import PASSED_OVER, run_parts
from lib.rules import ALLOCATE, BINDING, LIFETIME, NONCE, REALM, REFRESH, USERNAME, message
from lib.server import PERIOD, UDP, Client, Server, code_of, put, wanted
from time_limited import SECRET, codes, expiring, refreshed

# the lines of refusals that a second may have, of users that there are and of others each, and the requests of a burst
MOST, BURST = 20, 160
# the seconds for which a terminal isn't read
UNREAD = 8
# a name, and how it is shown
NAMES = [
    ("ann", '"ann"'),
    ('a "b" \\c\'', '"a \\"b\\" \\\\c\\\'"'),
    ("a\nb\x1b[0m\x7f", '"a\\nb\\x1b[0m\\x7f"'),
    ("é", '"\\xc3\\xa9"'),
    ("x" * 130, f'"{"x" * 128}"'),
]


def port_of(client):
    return client.socket.getsockname()[1]


def made(server, client, name="u", slot=0, lifetime=600):
    """The line of an allocation that is made."""
    return (f'allocation made: client 127.0.0.1:{port_of(client)}, user "{name}", slot {slot}, port {server.first_port + slot}, '
            f"lifetime {lifetime}\n")


def ended(server, client, reason, name="u", slot=0):
    """The line of an allocation that ends."""
    return (f'allocation ended: client 127.0.0.1:{port_of(client)}, user "{name}", slot {slot}, port {server.first_port + slot}, '
            f"{reason}\n")


def refused(client, shown, reason):
    """The line of credentials that are refused."""
    return f"credentials refused: client 127.0.0.1:{port_of(client)}, user {shown}, {reason}\n"


def printed_is(server, what, lines):
    """Yields what was printed, once it has as many lines, in place of these."""
    text = "".join(lines)
    server.awaited("\n", text.count("\n"))
    yield from wanted(what, server.printed(), text)


# ---- sessions

def sessions():
    """Yields what is otherwise in the lines of sessions."""
    users = ["--user", "u:p", "--user", "v:q"]
    with Server("--log", users=users) as server, Client(server) as client, Client(server, "v", "q") as other:
        lines = []
        client.challenge()
        transaction_id = random.randbytes(12)
        request = message(ALLOCATE, transaction_id, [UDP, (USERNAME, b"u"), (REALM, b"relay"), (NONCE, client.nonce)], client.key)
        # a request that comes twice is granted twice, for one allocation
        for _ in range(2):
            client.send(request)
            client.receive()
        other.allocate((LIFETIME, bytes([0, 0, 8, 0])))
        lines += [made(server, client), made(server, other, "v", 1, 2048)]
        # one that is refreshed goes on, and a second one of its client is refused
        yield from wanted("a refresh", code_of(client.signed(REFRESH, [])), 0)
        yield from wanted("a second allocation", code_of(client.signed(ALLOCATE, [UDP])), 437)
        yield from wanted("the end", code_of(client.signed(REFRESH, [(LIFETIME, bytes(4))])), 0)
        lines.append(ended(server, client, "refreshed to 0"))
        yield from wanted("the end of none", code_of(client.signed(REFRESH, [(LIFETIME, bytes(4))])), 437)
        yield from wanted("another allocation", code_of(client.allocate()), 0)
        lines.append(made(server, client))
        yield from printed_is(server, "the lines of sessions", lines)
    with Server(users=users) as server, Client(server) as client:
        client.allocate()
        client.signed(REFRESH, [(LIFETIME, bytes(4))])
        client.name = b"w"
        client.signed(REFRESH, [])
        yield from wanted("without --log", server.printed(), "")


def credentials():
    """Yields what is otherwise in the lines of credentials that are refused."""
    with Server("--log", "--user", "v:q") as server, Client(server) as client, Client(server, "u", "wrong") as guesser:
        lines = []
        # what a session begins with isn't refused: a request without credentials, and one with an old nonce
        client.challenge()
        nonce, client.nonce = client.nonce, b"old"
        yield from wanted("an old nonce", code_of(client.signed(ALLOCATE, [UDP])), 438)
        client.nonce = nonce
        guesser.challenge()
        yield from wanted("a wrong password", code_of(guesser.signed(ALLOCATE, [UDP])), 401)
        lines.append(refused(guesser, '"u"', "wrong password"))
        yield from wanted("no nonce", code_of(client.ask(ALLOCATE, [UDP, (USERNAME, b"u"), (REALM, b"relay")], client.key)), 400)
        lines.append(refused(client, '"u"', "incomplete credentials"))
        yield from wanted("an allocation", code_of(client.allocate()), 0)
        lines.append(made(server, client))
        with Client(server, "v", "q") as other:
            other.socket.close()
            other.socket, other.nonce = client.socket.dup(), client.nonce
            yield from wanted("another user", code_of(other.signed(REFRESH, [])), 441)
            lines.append(refused(client, '"v"', "another user's allocation"))
        for name, shown in NAMES:
            with Client(server, name, "p") as stranger:
                stranger.challenge()
                yield from wanted(f"the user {name!r}", code_of(stranger.signed(ALLOCATE, [UDP])), 401)
                lines.append(refused(stranger, shown, "unknown user"))
        yield from printed_is(server, "the lines of refused credentials", lines)


def replaced_users():
    """Yields what is otherwise where users are replaced: the allocations of those that are gone end."""
    with tempfile.TemporaryDirectory() as folder, contextlib.ExitStack() as stack:
        users = pathlib.Path(folder) / "users"
        put(users, b"ann:a\nbob:b\n")
        server = stack.enter_context(Server("--users", str(users), "--log", users=()))
        ann, bob = (stack.enter_context(Client(server, name, name[0])) for name in ("ann", "bob"))
        lines = []
        for slot, client in enumerate((ann, bob)):
            client.allocate()
            lines.append(made(server, client, client.name.decode(), slot))
        put(users, b"bob:b\ncarl:c\n")
        lines += ["users replaced, 2 users\n", ended(server, ann, "its user was replaced", "ann")]
        yield from printed_is(server, "the lines of replaced users", lines)


def revoked_users():
    """Yields what is otherwise where a user is revoked: its allocations end, those under names that expire too, and who has its
    password is unknown, until the file doesn't name it any more."""
    with tempfile.TemporaryDirectory() as folder, contextlib.ExitStack() as stack:
        secret, revoked = pathlib.Path(folder) / "secret", pathlib.Path(folder) / "revoked"
        put(secret, SECRET)
        put(revoked, b"")
        words = ["--log", "--secret", str(secret), "--revoked", str(revoked), "--user", "ann:a", "--user", "ben:b"]
        server = stack.enter_context(Server(*words, slots=3, users=()))
        users = [("ann", "a"), expiring(600), ("ben", "b")]
        clients = [stack.enter_context(Client(server, *user)) for user in users]
        yield from wanted("allocations", [codes(client) for client in clients], [0, 0, 0])
        lines = [made(server, client, name, slot) for slot, (client, (name, _)) in enumerate(zip(clients, users))]
        put(revoked, b"# since today\nann\n")
        ends = [(slot, client, users[slot][0]) for slot, client in enumerate(clients[:2])]
        lines += ["users revoked, 1 users\n", *(ended(server, client, "its user was revoked", name, slot) for slot, client, name in ends)]
        yield from printed_is(server, "the lines of a revoked user", lines)
        yield from wanted("refreshes", [refreshed(client) for client in clients], [401, 401, 0])
        lines += [refused(client, f'"{name}"', "unknown user") for _, client, name in ends]
        guesser = stack.enter_context(Client(server, "ann", "wrong"))
        yield from wanted("a wrong password", codes(guesser), 401)
        lines.append(refused(guesser, '"ann"', "wrong password"))
        yield from printed_is(server, "the lines of refused requests", lines)
        put(revoked, b"")
        lines.append("users revoked, 0 users\n")
        yield from printed_is(server, "the line of a file that names nobody", lines)
        yield from wanted("another allocation", codes(clients[0]), 0)
        yield from printed_is(server, "the lines of who may come again", [*lines, made(server, clients[0], "ann")])


def lifetimes():
    """Yields what is otherwise where a lifetime passes."""
    if not shutil.which("gcc"):
        PASSED_OVER.append("lifetimes that pass (no gcc)")
        return
    with tempfile.TemporaryDirectory() as name:
        clocks = Clocks(pathlib.Path(name))
        clocks.set(REAL, MONOTONIC)
        with Server("--log", env=clocks.environment) as server, Client(server) as client:
            client.allocate()
            # a server waits no longer than a second while an allocation may end, and looks once a second
            clocks.become(server, WHOLE + 599 * SECOND)
            time.sleep(1.5 * PERIOD)
            yield from printed_is(server, "before the end of a lifetime", [made(server, client)])
            clocks.become(server, WHOLE + 600 * SECOND)
            yield from printed_is(server, "after the end of a lifetime", [made(server, client), ended(server, client, "expired")])
            # one that ended unseen, since the next request came first, ends before that of the request is made
            client.allocate()
            clocks.become(server, WHOLE + 1200 * SECOND)
            client.allocate()
            again = [made(server, client), ended(server, client, "expired")] * 2 + [made(server, client)]
            yield from printed_is(server, "after another one", again)


# ---- many lines

def bursts():
    """Yields what is otherwise where a second has more lines than it may: the others are counted."""
    with Server("--log", slots=1) as server, Client(server, "u", "wrong") as client:
        client.challenge()
        with server.stopped():
            for _ in range(BURST):
                given = [UDP, (USERNAME, b"u"), (REALM, b"relay"), (NONCE, client.nonce)]
                client.send(message(ALLOCATE, random.randbytes(12), given, client.key))
        for _ in range(BURST):
            client.receive()
        end = f"{BURST - MOST} lines of the log left out\n"
        server.awaited(end)
        line = refused(client, '"u"', "wrong password")
        yield from wanted("a burst", server.printed(), line * MOST + end)
        # the next second has as many again
        client.signed(ALLOCATE, [UDP])
        server.awaited("wrong password", MOST + 1)
        yield from wanted("after a burst", server.printed(), line * MOST + end + line)


def others_lines():
    """Yields what is otherwise where strangers use up their lines of a second: those of users and of allocations are there."""
    with Server("--log", slots=1) as server, Client(server) as client, Client(server, "u", "wrong") as guesser, \
            Client(server, "x", "p") as stranger:
        for each in (client, guesser, stranger):
            each.challenge()
        with server.stopped():
            for _ in range(BURST):
                given = [UDP, (USERNAME, b"x"), (REALM, b"relay"), (NONCE, stranger.nonce)]
                stranger.send(message(ALLOCATE, random.randbytes(12), given, stranger.key))
            guesser.send(message(ALLOCATE, random.randbytes(12), [UDP, (USERNAME, b"u"), (REALM, b"relay"), (NONCE, guesser.nonce)],
                                 guesser.key))
            client.send(message(ALLOCATE, random.randbytes(12), [UDP, (USERNAME, b"u"), (REALM, b"relay"), (NONCE, client.nonce)],
                                client.key))
        end = f"{BURST - MOST} lines of the log left out\n"
        server.awaited(end)
        lines = [refused(stranger, '"x"', "unknown user")] * MOST
        lines += [refused(guesser, '"u"', "wrong password"), made(server, client), end]
        yield from wanted("the lines of a burst", server.printed(), "".join(lines))


# ---- a terminal

def taken(leader):
    """What has come to a terminal, until nothing more is there."""
    text = b""
    while select.select([leader], [], [], PERIOD)[0]:
        text += os.read(leader, 1 << 16)
    return text.decode()


def unread_terminal():
    """Yields what a server does otherwise than go on where its standard error is a terminal that nobody reads; and whether its lines
    are whole but for one, once it is read."""
    name = "é" * 64
    leader, follower = os.openpty()
    tty.setraw(follower)
    with Server("--log", preexec_fn=lambda: os.dup2(follower, 2)) as server, Client(server, name, "p") as client:
        client.challenge()
        line = refused(client, '"' + 64 * "\\xc3\\xa9" + '"', "unknown user")
        for _ in range(UNREAD):
            for _ in range(MOST):
                yield from wanted("a refusal", code_of(client.signed(ALLOCATE, [UDP])), 401)
            time.sleep(1.1 * PERIOD)
        text = taken(leader)
        if not 4_096 < len(text) < UNREAD * MOST * len(line):
            yield f"{len(text)} bytes in a terminal that nobody reads"
        yield from wanted("a Binding", client.ask(BINDING, []).kind, BINDING | 0x100)
        client.signed(ALLOCATE, [UDP])
        *lines, last = (text + taken(leader)).splitlines(True)
        cut = [found for found in lines if found != line and not re.fullmatch(r"\d+ lines of the log left out\n", found)]
        if len(cut) > 1 or not all(line.startswith(found.rstrip("\n")) for found in cut):
            yield f"cut lines: {cut!r}"
        yield from wanted("the last line", last, line)
    os.close(leader)
    os.close(follower)


def main():
    """Runs every part, and returns the exit status."""
    parts = [sessions, credentials, replaced_users, revoked_users, lifetimes, bursts, others_lines, unread_terminal]
    return run_parts("the log of a server", parts)


if __name__ == "__main__":
    sys.exit(main())
