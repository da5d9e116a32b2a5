"""Runs TURN clients that others wrote, unchanged, through the built relayd's `serve` over loopback.

Installs nothing: a client that isn't there is passed over, and the last line says how many ran. With `--require` it is a
failure. docs/CLIENTS.md names the packages (docs/DESIGN.md, "Clients are run where they are installed"). Where tshark may
capture, what the clients and the server sent each other must have no malformed packet. Each session is recorded, and a replay
of the record must answer with each datagram that the server has sent, in order, where gcc is there.
"""

import contextlib
import json
import os
import pathlib
import re
import shutil
import signal
import subprocess
import sys
import tempfile
import threading
import time
import urllib.request

from lib.program import PASSED_OVER, TOP, build, finish, preloadable
from lib.rules import XOR_RELAYED_ADDRESS, address_in
from lib.server import LOOPBACK, LOOPBACK6, Client, Server, replayed, sends, udp_socket, wanted

HERE = TOP / "tests" / "clients"
sys.path.append(str(HERE))
MESSAGES = 1_000
SLOTS = 256
USER = "u", "p"
SECRET = "between-the-web-and-the-relay"
# Half of turnutils_uclient's allocations ask for an even port and three quarters of its channels are above 0x4FFF, by
# chance; both are refused. So a client that isn't refused, one of a hundred, is waited for, this often at each of so many
# servers: the allocations of those that are refused last.
TRIES, SERVERS = 150, 15
NOT_INSTALLED = "not installed"
# what the page of examples/web shows with the relay's secret, and how it begins with another one
RELAYED = re.compile(
    r"From a relay candidate to another a message took \d+\.\d ms there and back\. "
    r"From a relay candidate to an address of this machine a message took \d+\.\d ms there and back\.")
NOT_RELAYED = "No relay candidate came: the server refuses the credentials, "


class RefusedByChance(Exception):
    """Each try of a client was refused, by what it asks for by chance."""


def ran(words, seconds=60):
    """Runs a client, and returns its status and what it printed."""
    words = [str(word) for word in words]
    process = subprocess.run(
        words, stdout=subprocess.PIPE, stderr=subprocess.STDOUT, text=True, check=False, timeout=seconds)
    return process.returncode, process.stdout


@contextlib.contextmanager
def echo(address):
    """A peer that sends each datagram back; its port."""
    with udp_socket(0, address) as peer:
        peer.settimeout(0.2)
        done = threading.Event()

        def serve():
            while not done.is_set():
                with contextlib.suppress(TimeoutError):
                    peer.sendto(*peer.recvfrom(65_535))

        thread = threading.Thread(target=serve)
        thread.start()
        try:
            yield peer.getsockname()[1]
        finally:
            done.set()
            thread.join()


def exchanged(server, words):
    """Yields what a client prints in place of its messages, and its slot where that isn't free afterwards."""
    yield from wanted("messages", ran(words), (0, f"{MESSAGES}\n"))
    with Client(server) as client:
        answer = client.allocate()
        value = answer.first(XOR_RELAYED_ADDRESS)
        relayed = value and address_in(value, answer.transaction_id)
        yield from wanted("the next allocation", relayed, (LOOPBACK, server.first_port))


# ---- the clients: each gives what is otherwise than it should be, or says that it isn't there

def stunclient(server):
    """coturn's client of STUN: a Binding."""
    program = shutil.which("turnutils_stunclient")
    if program is None:
        return NOT_INSTALLED
    _, printed = ran([program, "-p", server.port, "127.0.0.1"])
    return [] if re.search(r"reflexive addr: 127\.0\.0\.1:\d+", printed) else [printed]


def uclient(*mode):
    """coturn's client of TURN, in a mode: messages to a peer or to each other, by indications or over channels, of an
    allocation over IPv4 or (`-x`) over IPv6, as a user or (`-W`) with a secret."""

    def exchanges(server):
        program = shutil.which("turnutils_uclient")
        if program is None:
            return NOT_INSTALLED
        address = "::1" if "-x" in mode else "127.0.0.1"
        with echo(address) as peer:
            words = [program, "-c", "-u", "u", "-w", "p", "-n", 50, "-l", 160, "-z", 2, "-p", server.port, *mode]
            words += [] if "-y" in mode else ["-e", address, "-r", peer]
            for _ in range(TRIES):
                status, printed = ran([*words, "127.0.0.1"])
                if "error 420" not in printed and "channel bind: error 400" not in printed:
                    break
            else:
                raise RefusedByChance
        lost = re.search(r"Total lost packets (\d+)", printed)
        return [] if status == 0 and lost and lost[1] == "0" else [printed]

    return exchanges


def credentials(server):
    """A name that expires and its password, as `examples/credentials.py` gives them to a web page."""
    words = [sys.executable, TOP / "examples" / "credentials.py", server.secret, f"turn:127.0.0.1:{server.port}", "ann"]
    [given] = json.loads(subprocess.run(words, stdout=subprocess.PIPE, text=True, check=True).stdout)
    return given["username"], given["credential"]


def expiring(client):
    """A client with credentials that expire."""
    return lambda server: client(server, credentials(server))


def aioice(server, user=USER):
    """The client of aioice, a library of Python: messages over a channel, and the end of the allocation."""
    for python in (sys.executable, "/usr/bin/python3"):
        with contextlib.suppress(OSError):
            if ran([python, "-c", "import aioice"])[0] == 0:
                return exchanged(server, [python, HERE / "aioice_client.py", server.port, MESSAGES, *user])
    return NOT_INSTALLED


def pion(server, user=USER):
    """The client of pion, a library of Go: a Binding, messages by indications and over a channel, and the end."""
    go, library = shutil.which("go"), pathlib.Path("/usr/share/gocode")
    if go is None or not (library / "src" / "github.com" / "pion" / "turn").exists():
        return NOT_INSTALLED
    with tempfile.TemporaryDirectory() as name:
        environment = {**os.environ, "GO111MODULE": "off", "GOPATH": str(library), "GOCACHE": f"{name}/cache"}
        program = f"{name}/client"
        subprocess.run([go, "build", "-o", program, HERE / "pion_client.go"], env=environment, check=True)
        return list(exchanged(server, [program, f"127.0.0.1:{server.port}", MESSAGES, *user]))


def chromium_program():
    """The browser that is there, by any of its names; None where none is."""
    return shutil.which("chromium") or shutil.which("chromium-browser") or shutil.which("google-chrome")


def chromium(server, user=USER):
    """A page in Chromium: two peer connections that may use relayed candidates alone, and a data channel."""
    program = chromium_program()
    if program is None:
        return NOT_INSTALLED
    from chromium import exchange
    found = exchange(program, f"turn:127.0.0.1:{server.port}", *user, MESSAGES)
    return wanted("messages", found, {"returned": MESSAGES, "relayed": True})


@contextlib.contextmanager
def web_server(server, secret):
    """The server of `examples/web` with a file of a secret, for the URL of a relay; the address of its page."""
    words = [sys.executable, TOP / "examples" / "web" / "server.py", secret, f"turn:127.0.0.1:{server.port}", "0"]
    with subprocess.Popen(words, stdout=subprocess.PIPE, stderr=subprocess.DEVNULL, text=True) as process:
        try:
            yield process.stdout.readline().strip()
        finally:
            process.terminate()


def web_page(server):
    """The page of `examples/web` in Chromium, from the server beside it: with the relay's secret, and with another one."""
    program = chromium_program()
    return NOT_INSTALLED if program is None else shown_by_page(server, program)


def shown_by_page(server, program):
    """Yields what the page of `examples/web` shows otherwise than it should."""
    from chromium import shown
    with web_server(server, server.secret) as page:
        with urllib.request.urlopen(f"{page}ice-servers") as answer:
            yield from wanted("Cache-Control", answer.headers["Cache-Control"], "no-store")
        outcome, candidates, errors = shown(program, page)
    slots = [f"{server.first_port + slot}" for slot in range(SLOTS)]
    relayed = [address == "127.0.0.1" and port in slots for kind, _, address, port in candidates if kind == "relay"]
    if not relayed or not all(relayed) or errors or not RELAYED.fullmatch(outcome):
        yield f"with the secret of the relay: {outcome} {candidates} {errors}"
    another = server.secret.with_name("another")
    another.write_text("another secret\n", encoding="utf-8")
    with web_server(server, another) as page:
        outcome, candidates, errors = shown(program, page)
    if not outcome.startswith(NOT_RELAYED) or {code for code, *_ in errors} != {"401"}:
        yield f"with another secret: {outcome} {candidates} {errors}"


CLIENTS = [
    ("turnutils_stunclient", stunclient),
    ("turnutils_uclient by indications", uclient("-s")),
    ("turnutils_uclient over channels", uclient()),
    ("turnutils_uclient to each other", uclient("-y", "-s")),
    ("turnutils_uclient with a secret", uclient("-y", "-s", "-W", SECRET)),
    ("turnutils_uclient over IPv6 by indications", uclient("-x", "-s")),
    ("turnutils_uclient over IPv6 over channels", uclient("-x")),
    ("aioice", aioice),
    ("aioice with credentials that expire", expiring(aioice)),
    ("pion", pion),
    ("pion with credentials that expire", expiring(pion)),
    ("chromium", chromium),
    ("chromium with credentials that expire", expiring(chromium)),
    ("the page of examples/web in chromium", web_page),
]


# ---- the capture

class Capture:
    """A capture of the datagrams between a client and a server, where tshark is there and may capture."""

    def __init__(self, port, folder):
        self.port, self.file, self.process = port, f"{folder}/{port}.pcapng", None
        program = shutil.which("tshark")
        if program is None:
            return
        words = [program, "-i", "lo", "-f", f"udp port {port}", "-w", self.file]
        self.process = subprocess.Popen(words, stdout=subprocess.DEVNULL, stderr=subprocess.DEVNULL)
        if not (self.grows() and self.grows()):  # its header, and a datagram
            self.process.kill()
            self.process.wait()
            self.process = None

    def size(self):
        """The bytes of the file so far."""
        return os.path.getsize(self.file) if os.path.exists(self.file) else 0

    def grows(self):
        """Whether the file grows while datagrams come that are no messages: so what came before them is written too."""
        size, end = self.size(), time.monotonic() + 10
        with udp_socket() as probe:
            while self.size() == size and time.monotonic() < end and self.process.poll() is None:
                probe.sendto(b"probe", ("127.0.0.1", self.port))
                time.sleep(0.05)
        return self.size() > size

    def failures(self):
        """What is malformed among the datagrams of the capture, and whether there are any messages."""
        if self.process is None:
            return NOT_INSTALLED
        self.grows()
        self.process.send_signal(signal.SIGINT)
        self.process.wait(10)
        words = ["tshark", "-r", self.file, "-d", f"udp.port=={self.port},stun"]
        words += ["-T", "fields", "-e", "frame.number", "-Y"]
        _, messages = ran([*words, "stun"])
        _, malformed = ran([*words, "_ws.malformed"])
        numbers = [line for line in malformed.splitlines() if line.isdigit()]
        if not any(line.isdigit() for line in messages.splitlines()):
            return ["no message was captured"]
        return [f"packet {number} is malformed" for number in numbers]


# ---- the record

class Record:
    """The record of a server in a folder, and a library that writes down what the server sends, where gcc is there."""

    def __init__(self, folder):
        self.folder = pathlib.Path(tempfile.mkdtemp(dir=folder))
        self.file, self.sent, self.environment = self.folder / "record", self.folder / "sent", dict(os.environ)
        if shutil.which("gcc"):
            self.environment.update(LD_PRELOAD=str(preloadable(self.folder, "sends")), SENT=str(self.sent))

    def failures(self, server):
        """Ends the server once it waits, and returns where a replay doesn't answer what it has sent."""
        server.becomes("S")
        server.end()
        if not self.sent.exists():
            return NOT_INSTALLED
        found = replayed(server, self.file, "--relay-ip6", LOOPBACK6.hex(), "--secret", server.secret)
        expected = sends(server, self.sent)
        if found == expected:
            return []
        pairs = enumerate(zip(found, expected))
        first = next((number for number, (one, other) in pairs if one != other), min(len(found), len(expected)))
        return [f"answer {first} of {len(found)}, in place of {len(expected)}: {found[first:][:1]} and not {expected[first:][:1]}"]


def tried(name, client, folder):
    """What a client finds wrong with a server of its own, and what the capture and the record do; each may be `NOT_INSTALLED`."""
    record = Record(folder)
    secret = record.folder / "secret"
    secret.write_text(f"{SECRET}\n", encoding="utf-8")
    words = ["--listen6", "::1", "--record", str(record.file), "--secret", str(secret)]
    with Server(*words, slots=SLOTS, env=record.environment) as server:
        capture, server.secret = Capture(server.port, folder), secret
        try:
            found = client(server)
            found = found if found == NOT_INSTALLED else list(found)
        except RefusedByChance:
            capture.failures()
            raise
        except (OSError, EOFError, ValueError, subprocess.SubprocessError) as error:
            found = [repr(error)]
        captured = capture.failures()
        if found == NOT_INSTALLED:
            return [(name, found)]
        found += wanted("standard error of the server", server.printed(), "")
        return [(name, found), ("a capture by tshark", captured), ("a replay of the record", record.failures(server))]


def tried_by_chance(name, client, folder):
    """As `tried`, at another server where each try was refused by chance."""
    for _ in range(SERVERS):
        with contextlib.suppress(RefusedByChance):
            return tried(name, client, folder)
    return [(name, ["refused by chance, as often as it was tried"])]


def main():
    """Runs every client that is there, and returns the exit status. With `--require` each has to be there."""
    build()
    failures = []
    with tempfile.TemporaryDirectory() as folder:
        for name, client in CLIENTS:
            for part, found in tried_by_chance(name, client, folder):
                if found == NOT_INSTALLED:
                    PASSED_OVER.append(part)
                else:
                    failures += [f"{name}, {part}: {failure}" for failure in found]
    ran_here = sum(name not in PASSED_OVER for name, _ in CLIENTS)
    if "--require" in sys.argv[1:]:
        failures += [f"{part}: not there" for part in dict.fromkeys(PASSED_OVER)]
    return finish(failures, f"clients: {ran_here} of {len(CLIENTS)} ran, {len(failures)} failures")


if __name__ == "__main__":
    sys.exit(main())
