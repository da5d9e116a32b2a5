"""Runs the built relayd with secrets of time-limited credentials, with revoked users and with quotas: `replay` over drawn events
against a model of the rules, and `serve` with clients. clients.py has those of other implementations.
"""

import contextlib
import json
import pathlib
import subprocess
import sys
import tempfile
import time

import relaying
from lib.program import TOP, run_parts
from lib.rules import ALLOCATE, LIFETIME, REFRESH, password_of
from lib.server import UDP, Client, Server, address_of, channel_data, code_of, put, udp_socket, wanted

EVENTS = 20_000
SECRET, FORMER = b"between the web and the relay", b"before: the web and the relay"
# the names of the drawn events, after the moment at which they expire, and how far from the current one that is
ENDS, MOMENTS = ("", ":", ":ann", ":ann:b"), (-700, -1, 0, 1, 5, 300, 1000)


class WithSecret(relaying.Generator):
    """Events of clients most of whose names say when they expire."""

    def user(self):
        if self.chance(0.2):
            return super().user()
        # moments are few, so that names come back once they have expired
        moment = (self.now + self.pick(MOMENTS)) // 100 * 100 if self.chance(0.8) else self.now + self.pick(MOMENTS)
        name = str(max(moment, 0)) + self.pick(ENDS) + ("x" * 128 if self.chance(0.02) else "")
        name = ("0" if self.chance(0.02) else "") + name
        secret = self.pick((SECRET, SECRET, FORMER)) if self.chance(0.95) else b"another secret of the web"
        return name, password_of(secret, name.encode()).decode()


def drawn_events():
    """Yields the first answers to drawn events that aren't the model's."""
    with tempfile.TemporaryDirectory() as name:
        folder = pathlib.Path(name)
        (folder / "one").write_bytes(SECRET + b"\n")
        (folder / "two").write_bytes(SECRET + b"\r\n" + FORMER + b"\n")
        (folder / "revoked").write_bytes(b"# who has left\nann\n\nbob\n")
        for what, options, words in (
                ("no secret", {}, []),
                ("a secret", {"secrets": (SECRET,)}, ["--secret", folder / "one"]),
                ("two secrets", {"secrets": (SECRET, FORMER)}, ["--secret", folder / "two"]),
                ("a quota", {"secrets": (SECRET, FORMER), "user_slots": 1}, ["--secret", folder / "two", "--user-slots", "1"]),
                ("revoked users", {"secrets": (SECRET,), "revoked": (b"ann", b"bob")},
                 ["--secret", folder / "one", "--revoked", folder / "revoked"])):
            pairs = relaying.answered(WithSecret(1766, **options), EVENTS)
            yield from relaying.compare(folder, f"events with {what}", pairs, words)


def expiring(seconds, rest=":ann", secret=SECRET):
    """A name that expires after some seconds, and its password under a secret."""
    name = f"{int(time.time()) + seconds}{rest}"
    return name, password_of(secret, name.encode()).decode()


def codes(client):
    """What a client's request of an allocation is answered, 0 where it is granted."""
    return code_of(client.allocate())


def of_the_example(secret):
    """A name and its password, as `examples/credentials.py` gives them to a web page."""
    words = [sys.executable, TOP / "examples" / "credentials.py", secret, "turn:relay.example.org:3478", "ann"]
    [given] = json.loads(subprocess.run(words, stdout=subprocess.PIPE, text=True, check=True).stdout)
    return given["username"], given["credential"]


def sessions():
    """Yields what a server answers otherwise than said to names that expire, with no user listed."""
    with tempfile.TemporaryDirectory() as folder, contextlib.ExitStack() as stack:
        path = pathlib.Path(folder) / "secret"
        path.write_bytes(SECRET)
        server = stack.enter_context(Server("--secret", str(path), slots=4, users=()))
        peer = stack.enter_context(udp_socket())
        name, password = expiring(600)
        rows = [
            ("a name of the example", of_the_example(path), 0),
            ("a name with its password", (name, password), 0),
            ("a name alone", expiring(600, ""), 0),
            ("another password", (name, password_of(SECRET, b"1").decode()), 401),
            ("a name that has expired", expiring(0), 401),
            ("a name without a moment", ("ann", password_of(SECRET, b"ann").decode()), 401),
        ]
        for what, user, code in rows:
            with Client(server, *user) as client:
                yield from wanted(what, codes(client), code)
        yield from goes_on(server, stack, peer)


def goes_on(server, stack, peer):
    """Yields what is otherwise where a name expires of a client that has an allocation: it goes on, until it gives that up."""
    user = expiring(2)
    client, other = (stack.enter_context(Client(server, *user)) for _ in range(2))
    yield from wanted("an allocation before", codes(client), 0)
    yield from wanted("a channel", code_of(client.bind(address_of(peer))), 0)
    time.sleep(3)
    yield from wanted("a refresh after", code_of(client.signed(REFRESH, [])), 0)
    client.send(channel_data(b"after"))
    yield from wanted("data after", peer.recv(100), b"after")
    yield from wanted("another client after", codes(other), 401)
    yield from wanted("the end", code_of(client.signed(REFRESH, [(LIFETIME, bytes(4))])), 0)
    yield from wanted("an allocation after the end", code_of(client.signed(ALLOCATE, [UDP])), 401)


def listed():
    """Yields what is otherwise where users are listed too: a listed name has the password of the list, and its allocations alone
    end where the list is replaced."""
    with tempfile.TemporaryDirectory() as folder, contextlib.ExitStack() as stack:
        secret, users = pathlib.Path(folder) / "secret", pathlib.Path(folder) / "users"
        secret.write_bytes(SECRET)
        put(users, b"4000000000:word\nann:a\n")
        server = stack.enter_context(Server("--secret", str(secret), "--users", str(users), slots=4, users=()))
        user = expiring(600)
        clients = [stack.enter_context(Client(server, *given)) for given in (user, ("ann", "a"), ("4000000000", "word"))]
        for client in clients:
            yield from wanted(f"an allocation of {client.name}", codes(client), 0)
        with Client(server, "4000000000", password_of(SECRET, b"4000000000").decode()) as client:
            yield from wanted("a listed name with the password of the secret", codes(client), 401)
        put(users, b"")
        line = "users replaced, 0 users\n"
        server.awaited(line)
        yield from wanted("lines", server.printed(), line)
        found = [code_of(client.signed(REFRESH, [])) for client in clients]
        yield from wanted("refreshes after the list is empty", found, [0, 401, 401])


def tried(server, user):
    """What another client of a user is answered to its request of an allocation, which it gives up again."""
    with Client(server, *user) as client:
        code = codes(client)
        client.signed(REFRESH, [(LIFETIME, bytes(4))])
        return code


def refreshed(client):
    """What a client's request to refresh its allocation is answered."""
    return code_of(client.signed(REFRESH, []))


def rotated():
    """Yields what is otherwise where the secret is replaced: who has a name under the former one goes on with it, until that is gone."""
    with tempfile.TemporaryDirectory() as folder, contextlib.ExitStack() as stack:
        path = pathlib.Path(folder) / "secret"
        path.write_bytes(FORMER)
        server = stack.enter_context(Server("--secret", str(path), slots=4, users=()))
        before, after = expiring(600, secret=FORMER), expiring(600)
        client, printed = stack.enter_context(Client(server, *before)), ""
        yield from wanted("before", [codes(client), tried(server, before), tried(server, after)], [0, 0, 401])
        for text, line, answers in (
                (SECRET + b"\r\n" + FORMER + b"\r\n", "secret replaced, 2 secrets\n", [0, 0, 0]),
                (b"short", f"cannot use {path}: a secret that hasn't 16 to 128 bytes\n", [0, 0, 0]),
                (SECRET + b"\n" + FORMER + b"\n\n", f"cannot use {path}: line 3: more than two secrets\n", [0, 0, 0]),
                (SECRET + b"\n", "secret replaced, 1 secrets\n", [401, 401, 0])):
            put(path, text)
            printed += line
            server.awaited(printed)
            yield from wanted(f"after {text}", [refreshed(client), tried(server, before), tried(server, after)], answers)
        yield from wanted("lines", server.printed(), printed)


def revoked():
    """Yields what is otherwise where users are revoked: their allocations end, and nobody has their names until the file says so."""
    with tempfile.TemporaryDirectory() as folder, contextlib.ExitStack() as stack:
        secret, path = pathlib.Path(folder) / "secret", pathlib.Path(folder) / "revoked"
        secret.write_bytes(SECRET)
        path.write_bytes(b"eve\n")
        words = ["--secret", str(secret), "--revoked", str(path), "--user", "ann:a", "--user", "ben:b"]
        server = stack.enter_context(Server(*words, slots=4, users=()))
        users, eve, printed = [expiring(600), ("ann", "a"), ("ben", "b")], expiring(600, ":eve"), ""
        clients = [stack.enter_context(Client(server, *user)) for user in users]
        yield from wanted("before", [*map(codes, clients), tried(server, eve)], [0, 0, 0, 401])
        for text, line, answers in (
                (b"# since today\n\nann\n", "users revoked, 1 users\n", [401, 401, 0, 0]),
                (b"ann\n1:eve\n", f"cannot use {path}: line 2: a name with a colon\n", [401, 401, 0, 0]),
                (b"a\n" * 257, f"cannot use {path}: line 257: more than 256 users\n", [401, 401, 0, 0]),
                (b"ann\n\xff", f"cannot use {path}: not UTF-8\n", [401, 401, 0, 0]),
                (b"", "users revoked, 0 users\n", [437, 437, 0, 0])):
            put(path, text)
            printed += line
            server.awaited(printed)
            yield from wanted(f"after {line}", [*map(refreshed, clients), tried(server, eve)], answers)
        yield from wanted("allocations at the end", [codes(client) for client in clients[:2]], [0, 0])
        yield from wanted("lines", server.printed(), printed)


def quotas():
    """Yields what is otherwise where users have a quota: who takes all slots gets as many as it may, and others have the rest."""
    with tempfile.TemporaryDirectory() as folder, contextlib.ExitStack() as stack:
        secret = pathlib.Path(folder) / "secret"
        secret.write_bytes(SECRET)
        words = ["--secret", str(secret), "--user", "ben:b", "--user-slots", "3"]
        server = stack.enter_context(Server(*words, slots=16, users=()))
        greedy = [stack.enter_context(Client(server, *expiring(600 + second, ":eve"))) for second in range(16)]
        yield from wanted("a user with a name for each client", [codes(client) for client in greedy], [0] * 3 + [508] * 13)
        others = [stack.enter_context(Client(server, "ben", "b")) for _ in range(4)]
        yield from wanted("another user", [codes(client) for client in others], [0] * 3 + [508])
        yield from wanted("the end of one", code_of(greedy[1].signed(REFRESH, [(LIFETIME, bytes(4))])), 0)
        yield from wanted("one more", codes(greedy[9]), 0)


def main():
    """Runs every part, and returns the exit status."""
    return run_parts("time-limited credentials", [drawn_events, sessions, listed, rotated, revoked, quotas], summary=f"{5 * EVENTS:,} events, ")


if __name__ == "__main__":
    sys.exit(main())
