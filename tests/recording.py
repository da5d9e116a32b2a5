"""Replays what the built relayd's `serve --record` has recorded, and compares the answers with what came to clients and to peers,
byte for byte, and with every datagram that the server has sent, in order.

Sessions over both families with nonces that are replaced; batches that are received ahead; names that expire, and one that is
revoked; the end of a recording by a write that fails, by a program, by users, by a secret and by users that are revoked; and how a
server is stopped. What was sent, and receives that fail, need gcc.
"""

import contextlib
import os
import pathlib
import random
import resource
import shutil
import signal
import stat
import sys
import tempfile
import time

from lib.program import PASSED_OVER, preloadable, run_parts, shipped
from lib.rules import BINDING, CREATE_PERMISSION, LIFETIME, NONCE, REFRESH, message
from lib.server import (
    BAD, DISCARD, LOOPBACK6, PERIOD, Client, Server, address_of, channel_data, code_of, fault_line, put, replayed, sends,
    udp_socket, wanted)
from serve import FAMILY6, preloading
from time_limited import FORMER, SECRET, codes, expiring, refreshed

# the bytes that a record may have until a write fails, the system's error then (EFBIG), and the datagrams that are sent
MOST_BYTES, TOO_LARGE, DATAGRAMS = 20_000, 27, 40
# batches that a busy server receives ahead; the long ones have more lines than are kept until they are written
SMALL = [b"%d" % number for number in range(40)]
LARGE = [bytes([number]) * 45_000 for number in range(4)]
# the files of names that expire, by their options; and what ends a recording with them: the file that changes, a text that is refused
# and one that isn't, each with its line, and the reason
NAMES = {"secret": SECRET, "revoked": b"eve\n"}
CHANGED_NAMES = [
    ("secret", b"short", "a secret that hasn't 16 to 128 bytes", FORMER, "secret replaced, 1 secrets", "the secret is replaced"),
    ("revoked", b"1:eve\n", "line 1: a name with a colon", b"eve\nann\n", "users revoked, 2 users", "users are revoked"),
]


# ---- what comes to clients and to peers

class Heard:
    """What came to clients and to peers of a server, as lines of answers: those of each receiver in order."""

    def __init__(self, server):
        self.server, self.lines = server, []

    def peer(self, peer):
        """Receives a datagram at a peer."""
        data, source = peer.recvfrom(65_535)
        own = peer.getsockname()
        host = f"[{LOOPBACK6.hex()}]" if ":" in own[0] else own[0]
        self.lines.append(f"p {source[1] - self.server.first_port} {host}:{own[1]} {data.hex() or '-'}")
        return data


class HeardClient(Client):
    """A client of which each receive is heard, and that signs a request anew where its nonce was replaced."""

    def __init__(self, server, heard, *user):
        super().__init__(server, *user)
        self.heard = heard

    def receive(self):
        data = super().receive()
        self.heard.lines.append(f"c 127.0.0.1:{self.socket.getsockname()[1]} {data.hex() or '-'}")
        return data

    def signed(self, kind, given, peer=None):
        answer = super().signed(kind, given, peer)
        if code_of(answer) != 438:
            return answer
        self.nonce = answer.first(NONCE)
        return super().signed(kind, given, peer)


def by_receiver(lines):
    """The lines of answers of each receiver."""
    found = {}
    for line in lines:
        found.setdefault(line.rpartition(" ")[0].rpartition(" ")[2], []).append(line)
    return found


def same(what, answers, lines):
    """Yields where answers aren't what came to each receiver, in order."""
    found, expected = by_receiver(answers), by_receiver(lines)
    for receiver in sorted({*found, *expected}):
        yield from wanted(f"{what}, answers to {receiver}", found.get(receiver, []), expected.get(receiver, []))


@contextlib.contextmanager
def recorded(*words, **options):
    """A folder with the file of a record, a server that records to it, and what came from that server."""
    with tempfile.TemporaryDirectory() as name:
        path = pathlib.Path(name) / "record"
        with Server("--record", str(path), *words, **options) as server:
            yield path, server, Heard(server)


def kinds(path):
    """The first letters of a record's lines; a line that isn't whole is an error."""
    text = path.read_text(encoding="ascii")
    if not text.endswith("\n"):
        raise ValueError(f"the record ends with {text[-20:]!r}")
    return [line[0] for line in text.splitlines()]


# ---- sessions

def exchange(heard, client, peer, relayed):
    """Yields what is wrong with data in indications and over a channel, there and back."""
    other = address_of(peer)
    yield from wanted("CreatePermission", code_of(client.signed(CREATE_PERMISSION, [], other)), 0)
    client.send_to(other, b"hello")
    yield from wanted("Send", heard.peer(peer), b"hello")
    peer.sendto(b"back", relayed)
    client.receive()
    yield from wanted("ChannelBind", code_of(client.bind(other)), 0)
    for data in (b"over", b"", random.randbytes(1_000)):
        client.send(channel_data(data))
        yield from wanted("ChannelData", heard.peer(peer), data)
        peer.sendto(data, relayed)
        yield from wanted("ChannelData back", client.receive(), channel_data(data))


def session():
    """Yields what a replay answers otherwise than the server did, of sessions over both families and of three nonces."""
    with contextlib.ExitStack() as stack:
        words = ["--listen6", "::1", "--nonce-lifetime", "1"]
        path, server, heard = stack.enter_context(recorded(*words))
        client, client6 = (stack.enter_context(HeardClient(server, heard)) for _ in range(2))
        peer, peer6 = (stack.enter_context(udp_socket(0, address)) for address in ("127.0.0.1", "::1"))
        client.ask(BINDING, [])
        yield from wanted("Allocate", code_of(client.allocate()), 0)
        yield from exchange(heard, client, peer, ("127.0.0.1", server.first_port))
        time.sleep(1.2)
        yield from wanted("Allocate over IPv6", code_of(client6.allocate(FAMILY6)), 0)
        yield from exchange(heard, client6, peer6, ("::1", server.first_port + 1))
        time.sleep(1.2)
        yield from wanted("Refresh", code_of(client.signed(REFRESH, [])), 0)
        # what is answered by nothing: no message, and data of a peer without a permission
        client.send(b"no message")
        with udp_socket(address="127.0.0.2") as stranger:
            stranger.sendto(b"no permission", ("127.0.0.1", server.first_port))
        yield from wanted("the end", code_of(client.signed(REFRESH, [(LIFETIME, bytes(4))])), 0)
        server.becomes("S")
        yield from wanted("the status after SIGTERM", server.end(), -signal.SIGTERM)
        yield from wanted("its permissions", stat.S_IMODE(path.stat().st_mode), 0o600)
        if kinds(path).count("n") < 3:
            yield f"{kinds(path).count('n')} nonces"
        answers = replayed(server, path, "--relay-ip6", LOOPBACK6.hex())
        yield from wanted("the answers in order", answers, heard.lines)


def batches():
    """Yields what a replay answers otherwise where datagrams of both sides are received ahead, and where a server is killed."""
    with contextlib.ExitStack() as stack:
        path, server, heard = stack.enter_context(recorded())
        client = stack.enter_context(HeardClient(server, heard))
        peer = stack.enter_context(udp_socket())
        client.allocate()
        client.bind(address_of(peer))
        for batch in (SMALL, LARGE, LARGE[::-1], SMALL):
            with server.stopped():
                for data in batch:
                    client.send(channel_data(data))
                    peer.sendto(data, ("127.0.0.1", server.first_port))
            yield from wanted("there", [heard.peer(peer) for _ in batch], batch)
            yield from wanted("back", [client.receive() for _ in batch], [channel_data(data) for data in batch])
        server.becomes("S")
        server.process.kill()
        server.process.wait(5)
        yield from same("batches", replayed(server, path), heard.lines)


def datagrams_sent():
    """Yields where the answers of a replay aren't what the server has sent, in order."""
    if not shutil.which("gcc"):
        PASSED_OVER.append("what a server has sent (no gcc)")
        return
    with tempfile.TemporaryDirectory() as name, contextlib.ExitStack() as stack:
        folder = pathlib.Path(name)
        sent = folder / "sent"
        environment = {**os.environ, "LD_PRELOAD": str(preloadable(folder, "sends")), "SENT": str(sent)}
        path, server, heard = stack.enter_context(recorded(env=environment, slots=4))
        clients = [stack.enter_context(HeardClient(server, heard)) for _ in range(4)]
        peers = [stack.enter_context(udp_socket()) for _ in clients]
        for client, peer in zip(clients, peers):
            client.allocate()
            client.bind(address_of(peer))
        for _ in range(5):
            with server.stopped():
                for slot, (client, peer) in enumerate(zip(clients, peers)):
                    for data in SMALL:
                        client.send(channel_data(data))
                        client.send(message(BINDING, random.randbytes(12), []))
                        peer.sendto(data, ("127.0.0.1", server.first_port + slot))
            server.becomes("S")
        server.end()
        if not sent.exists():
            PASSED_OVER.append("what a server has sent (a program that loads no library)")
            return
        yield from wanted("the answers in order", replayed(server, path), sends(server, sent))


def failed_receives():
    """Yields what is recorded of a receive that fails, and what a replay answers otherwise around it."""
    with preloading("receives that fail") as environment:
        if environment is None:
            return
        for number in (1, 4, 5):
            with contextlib.ExitStack() as stack:
                environment["FAIL_RECEIVE"] = str(number)
                path, server, heard = stack.enter_context(recorded(env=environment))
                client = stack.enter_context(HeardClient(server, heard))
                for _ in range(4):
                    client.ask(BINDING, [])
                yield from wanted("lines of a failed receive", server.awaited(fault_line(receive=1)), 1)
                server.becomes("S")
                server.end()
                yield from wanted("kinds of lines", kinds(path), ["n", "c", "c", "c", "c"])
                yield from wanted("the answers", replayed(server, path), heard.lines)


# ---- what isn't sent

def not_sent():
    """Yields what a replay answers for a peer that nothing is sent to, and for a send that fails, in place of the data."""
    with recorded("--deny", "127.0.0.1/32") as (path, server, heard), HeardClient(server, heard) as client, udp_socket() as peer:
        client.allocate()
        denied, unreachable = address_of(peer), (bytes([192, 0, 2, 1]), 5000)
        for address in (denied, unreachable):
            client.signed(CREATE_PERMISSION, [], address)
            client.send_to(address, b"lost")
        client.ask(BINDING, [])
        server.becomes("S")
        server.end()
        answers = replayed(server, path)
        extra = [f"p 0 127.0.0.1:{denied[1]} {b'lost'.hex()}", f"p 0 192.0.2.1:5000 {b'lost'.hex()}"]
        yield from wanted("answers of what wasn't sent", [line for line in answers if line[0] == "p"], extra)
        yield from wanted("the others", [line for line in answers if line[0] == "c"], heard.lines)


# ---- the end of a recording

def ignore_long_files():
    """Lets this process go on after a write beyond what a file may have, which then fails."""
    signal.signal(signal.SIGXFSZ, signal.SIG_IGN)  # which Popen would undo by `restore_signals`


def limit_files():
    """Lets this process write no file longer than `MOST_BYTES`: a write beyond ends it."""
    resource.setrlimit(resource.RLIMIT_FSIZE, (MOST_BYTES, MOST_BYTES))


def ending(why, server, path, heard):
    """Yields what a server does otherwise than go on after its recording has ended for a reason, with whole lines in the file."""
    with HeardClient(server, heard) as client, udp_socket() as peer:
        client.allocate()
        client.bind(address_of(peer))
        for number in range(DATAGRAMS):
            data = bytes([number]) * 1_000
            client.send(channel_data(data))
            yield from wanted(f"datagram {number}", heard.peer(peer), data)
            server.becomes("S")
    line = f"recording to {path} ended: {why}\n"
    server.awaited(line)
    yield from wanted("lines", server.printed(), line)
    answers = replayed(server, path)
    if not MOST_BYTES - 3_000 < path.stat().st_size <= MOST_BYTES or not kinds(path):
        yield f"{path.stat().st_size} bytes"
    yield from wanted("the answers before", answers, heard.lines[:len(answers)])


def full_file():
    """Yields what is otherwise where a write fails."""
    with recorded(preexec_fn=ignore_long_files, restore_signals=False) as (path, server, heard):
        resource.prlimit(server.process.pid, resource.RLIMIT_FSIZE, (MOST_BYTES, MOST_BYTES))
        yield from ending(f"error {TOO_LARGE} of the system", server, path, heard)


def long_file():
    """Yields what is otherwise where the file has what it may have, by an option and by the system's limit, whichever is less."""
    why = f"it may have {MOST_BYTES} bytes"
    with recorded("--record-limit", str(MOST_BYTES)) as (path, server, heard):
        yield from ending(why, server, path, heard)
    with recorded("--record-limit", str(MOST_BYTES + 1), preexec_fn=limit_files) as (path, server, heard):
        yield from ending(why, server, path, heard)
    with recorded("--record-limit", "0") as (path, server, heard), HeardClient(server, heard) as client:
        client.ask(BINDING, [])
        yield from wanted("a record without room", server.awaited(f"recording to {path} ended: it may have 0 bytes\n"), 1)
        yield from wanted("its bytes", path.stat().st_size, 0)


def programs():
    """Yields what is recorded otherwise than until a program is replaced; one that is refused isn't."""
    with tempfile.TemporaryDirectory() as name, contextlib.ExitStack() as stack:
        folder = pathlib.Path(name)
        program = shipped(folder, "client")
        old = folder / "old"
        shutil.copy(program, old)
        path, server, heard = stack.enter_context(recorded("--client", str(program)))
        client, peer = stack.enter_context(HeardClient(server, heard)), stack.enter_context(udp_socket())
        client.allocate()
        client.bind(address_of(peer))
        put(program, BAD)
        server.awaited("refused V5 at 0")
        client.send(channel_data(b"while one is refused"))
        heard.peer(peer)
        put(program, DISCARD)
        ended = f"recording to {path} ended: a program is replaced\n"
        yield from wanted("how often it ended", server.awaited(ended), 1)
        if not server.printed().endswith(f"loaded {program}\n{ended}"):
            yield f"lines: {server.printed()!r}"
        size = path.stat().st_size
        client.send(channel_data(b"afterwards"))
        time.sleep(1.2 * PERIOD)
        yield from wanted("bytes afterwards", path.stat().st_size, size)
        yield from wanted("the answers before", replayed(server, path, "--client", old), heard.lines)


def users():
    """Yields what is recorded otherwise than until users are replaced; a list that is refused doesn't replace them."""
    with tempfile.TemporaryDirectory() as name, contextlib.ExitStack() as stack:
        folder = pathlib.Path(name)
        file, old = folder / "users", folder / "old"
        put(file, b"ann:a\n")
        shutil.copy(file, old)
        path, server, heard = stack.enter_context(recorded("--users", str(file)))
        client = stack.enter_context(HeardClient(server, heard))
        yield from wanted("Allocate", code_of(client.allocate()), 0)
        put(file, b"ann\n")
        server.awaited("line 1: no colon")
        yield from wanted("Refresh while a list is refused", code_of(client.signed(REFRESH, [])), 0)
        before = list(heard.lines)
        put(file, b"ann:b\n")
        ended = f"recording to {path} ended: the users are replaced\n"
        yield from wanted("how often it ended", server.awaited(ended), 1)
        if not server.printed().endswith(f"users replaced, 2 users\n{ended}"):
            yield f"lines: {server.printed()!r}"
        client.ask(BINDING, [])
        yield from wanted("the answers before", replayed(server, path, "--users", old), before)


def secrets_and_revoked():
    """Yields what is recorded otherwise than until the secret is replaced, or other users are revoked, and what a replay answers
    otherwise, which finds a name expired that was good."""
    for option, *changes in CHANGED_NAMES:
        with tempfile.TemporaryDirectory() as name, contextlib.ExitStack() as stack:
            files = {given: pathlib.Path(name) / given for given in NAMES}
            for given, file in files.items():
                put(file, NAMES[given])
                shutil.copy(file, f"{file}.old")
            words = [word for given, file in files.items() for word in (f"--{given}", str(file))]
            path, server, heard = stack.enter_context(recorded(*words, slots=4))
            before = yield from changed_names(stack, path, server, heard, files[option], *changes)
            old = [word if word.startswith("--") else f"{word}.old" for word in words]
            yield from wanted(f"the answers before another {option}", replayed(server, path, *old), before)


def changed_names(stack, path, server, heard, file, bad, fault, good, line, why):
    """Yields what a server answers otherwise than said to names that expire, and what it prints where a file of these changes: to a
    text that is refused, and then to one that ends the recording; returns what came before that."""
    users = [expiring(2), expiring(600), expiring(600, ":ben"), expiring(600, ":eve")]
    clients = [stack.enter_context(HeardClient(server, heard, *user)) for user in users]
    yield from wanted("allocations", [codes(client) for client in clients], [0, 0, 0, 401])
    put(file, bad)
    fault = f"cannot use {file}: {fault}\n"
    yield from wanted("how often a text is refused", server.awaited(fault), 1)
    time.sleep(2)
    yield from wanted("who has expired, with an allocation", refreshed(clients[0]), 0)
    yield from wanted("another one", codes(stack.enter_context(HeardClient(server, heard, *users[0]))), 401)
    before = list(heard.lines)
    put(file, good)
    ended = f"{line}\nrecording to {path} ended: {why}\n"
    yield from wanted("how often it ended", server.awaited(ended), 1)
    yield from wanted("lines", server.printed(), f"{fault}{ended}")
    yield from wanted("a refresh afterwards", refreshed(clients[1]), 401)
    return before


def main():
    """Runs every part, and returns the exit status."""
    parts = [session, batches, datagrams_sent, failed_receives, not_sent, full_file, long_file, programs, users, secrets_and_revoked]
    return run_parts("recording", parts)


if __name__ == "__main__":
    sys.exit(main())
