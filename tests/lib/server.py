"""A server of the built relayd and its clients, over sockets of loopback."""

import contextlib
import hashlib
import hmac
import itertools
import os
import pathlib
import random
import re
import signal
import socket
import struct
import subprocess
import tempfile
import time

from lib import program
from lib.program import PROGRAM
from lib.rules import (
    ALLOCATE, CHANNEL_BIND, CHANNEL_NUMBER, DATA, ERROR_CODE, INTEGRITY, NONCE, REALM, SEND, TRANSPORT, USERNAME,
    XOR_PEER_ADDRESS, address_value, key_of, message, read)

LOOPBACK = bytes([127, 0, 0, 1])
LOOPBACK6 = bytes(15) + b"\1"
UDP = TRANSPORT, bytes([17, 0, 0, 0])
USER = ["--user", "u:p"]
CHANNEL = 0x4000
# `mov r0, 0` and `exit`: every datagram is discarded
DISCARD = bytes.fromhex("b700000000000000 9500000000000000")
# `exit`, which is refused since r0 is not set
BAD = bytes.fromhex("9500000000000000")
# the reasons for which datagrams are discarded, as counters name them
REASONS = ("not_served", "by_program", "malformed", "no_request", "no_allocation", "no_channel", "unknown_attribute",
           "incomplete", "no_permission", "other_family", "too_long", "confined")
# a sample of a metric, with labels or without
SAMPLE = re.compile(r'[a-z_]+(?:\{[a-z_]+="\w+"(?:,[a-z_]+="\w+")*\})? \d+')
PERIOD = 1.0  # seconds: how often a server looks at what is due


def without_buffers(printed):
    """What a server printed, without the line that says how small the system's limits make its buffers."""
    return re.sub(r"\Abuffers of \d+ bytes, not .*\n", "", printed)


def run(words, **options):
    """Runs the program, and returns its status and what it printed, without the line of buffers."""
    status, out, err = program.run(words, **options)
    return status, out, err and without_buffers(err)


def udp_socket(port=0, address="127.0.0.1"):
    """A socket of loopback, of either family, whose receives give up after five seconds."""
    bound = socket.socket(socket.AF_INET6 if ":" in address else socket.AF_INET, socket.SOCK_DGRAM)
    bound.settimeout(5)
    try:
        bound.bind((address, port))
    except OSError:
        bound.close()
        raise
    return bound


def address_of(bound):
    """The address of a socket, as messages have it."""
    return LOOPBACK if bound.family == socket.AF_INET else LOOPBACK6, bound.getsockname()[1]


def free_ports(count, address="127.0.0.1", among=(20_000, 32_000)):
    """The first of `count` ports that are free at an address, below the range that the system gives out."""
    while True:
        first = random.randrange(*among)
        with contextlib.ExitStack() as stack, contextlib.suppress(OSError):
            for port in range(first, first + count):
                stack.enter_context(udp_socket(port, address))
            return first


# how often a client sends a request that isn't answered, and after how many seconds
TRIES, RETRANSMISSION = 5, 1


class Server:
    """A running server."""

    def __init__(self, *words, slots=2, users=tuple(USER), **options):
        self.slots = slots
        for _ in range(10):
            self.first_port = free_ports(slots)
            self.errors = tempfile.TemporaryFile("w+")
            ports = ["--port", "0", "--first-port", str(self.first_port), "--slots", str(slots)]
            self.process = subprocess.Popen(
                [PROGRAM, "serve", *ports, *users, *words],
                stdout=subprocess.PIPE, stderr=self.errors, text=True, **options)
            line = self.process.stdout.readline()
            if line.startswith("listening 127.0.0.1:"):
                self.port = int(line.rpartition(":")[2])
                return
            self.end()
        raise RuntimeError("no server started")

    def __enter__(self):
        return self

    def __exit__(self, *_):
        self.end()

    def end(self):
        """Ends the server by a signal, and returns its status."""
        self.process.send_signal(signal.SIGTERM)
        self.process.stdout.close()
        return self.process.wait(5)

    @contextlib.contextmanager
    def stopped(self, by_itself=False):
        """Stops the server while it waits, so that it finds at once all that has come meanwhile; or lets it stop itself."""
        if not by_itself:
            self.becomes("S")
            self.process.send_signal(signal.SIGSTOP)
        self.becomes("T")
        try:
            yield
        finally:
            self.process.send_signal(signal.SIGCONT)

    def becomes(self, state):
        """Waits until the process is in a state: S where it sleeps, T where it is stopped."""
        end = time.monotonic() + 5
        while self.stat()[0] != state:
            if time.monotonic() > end:
                raise RuntimeError(f"a server is in the state {self.stat()[0]}, and not in {state}")
            time.sleep(0.001)

    def printed(self):
        """What was printed to the standard error so far, without the line of buffers."""
        return without_buffers(self.all_printed())

    def all_printed(self):
        """All that was printed to the standard error so far."""
        return os.pread(self.errors.fileno(), 1 << 20, 0).decode()

    def awaited(self, text, count=1):
        """How often a text came to the standard error, once it came this often or a few periods are over."""
        end = time.monotonic() + 5 * PERIOD
        while self.printed().count(text) < count and time.monotonic() < end:
            time.sleep(0.02)
        return self.printed().count(text)

    def stat(self):
        """What the system knows of the process, from its state on."""
        return pathlib.Path(f"/proc/{self.process.pid}/stat").read_text().rpartition(")")[2].split()

    def ticks(self):
        """The processor time so far, in clock ticks."""
        fields = self.stat()
        return int(fields[11]) + int(fields[12])

    def memory(self):
        """The memory in use, in kB, except pages of files, which the system may take and give."""
        status = pathlib.Path(f"/proc/{self.process.pid}/status").read_text()
        return next(int(line.split()[1]) for line in status.splitlines() if line.startswith("RssAnon"))


class Client:
    """A client of a server, with the name and the password of a user."""

    def __init__(self, server, name="u", password="p"):
        self.server, self.socket = ("127.0.0.1", server.port), udp_socket()
        self.name, self.key = name.encode(), key_of(name, "relay", password)
        self.nonce = None

    def __enter__(self):
        return self

    def __exit__(self, *_):
        self.socket.close()

    def send(self, data):
        self.socket.sendto(data, self.server)

    def receive(self):
        return self.socket.recv(65_535)

    def response(self, request):
        """Sends a request, again each second that brings nothing (RFC 8489, section 6.2.1), and returns what comes."""
        for _ in range(TRIES):
            self.send(request)
            self.socket.settimeout(RETRANSMISSION)
            try:
                return self.receive()
            except TimeoutError:
                continue
            finally:
                self.socket.settimeout(5)
        raise TimeoutError("no response")

    def ask(self, kind, given, key=None, peer=None):
        """Sends a request, with the address of a peer if there is one, and returns its response: of its transaction, and signed
        where it grants a signed one."""
        transaction_id = random.randbytes(12)
        peers = [] if peer is None else [(XOR_PEER_ADDRESS, address_value(peer, transaction_id))]
        request = message(kind, transaction_id, peers + given, key)
        answer = read(self.response(request))
        if answer is None or answer.transaction_id != transaction_id or answer.kind & 0x3EEF != kind:
            raise ValueError(f"{kind:#06x} is not answered")
        if key and answer.kind == kind | 0x100:
            if answer.first(INTEGRITY) != hmac.new(key, answer.covered, hashlib.sha1).digest():
                raise ValueError(f"{kind:#06x} is answered with a wrong MESSAGE-INTEGRITY")
        return answer

    def signed(self, kind, given, peer=None):
        """Sends a signed request, and returns its response."""
        return self.ask(kind, [*given, (USERNAME, self.name), (REALM, b"relay"), (NONCE, self.nonce)], self.key, peer)

    def challenge(self):
        """Asks for an allocation without credentials, keeps the nonce, and returns the response."""
        answer = self.ask(ALLOCATE, [UDP])
        self.nonce = answer.first(NONCE)
        return answer

    def allocate(self, *given):
        """Allocates, and returns the response."""
        self.challenge()
        return self.signed(ALLOCATE, [UDP, *given])

    def bind(self, peer):
        """Binds the channel to a peer, and returns the response."""
        return self.signed(CHANNEL_BIND, [(CHANNEL_NUMBER, struct.pack(">HH", CHANNEL, 0))], peer)

    def send_to(self, peer, data):
        """Sends data to a peer in a Send indication."""
        transaction_id = random.randbytes(12)
        self.send(message(SEND, transaction_id, [(XOR_PEER_ADDRESS, address_value(peer, transaction_id)), (DATA, data)]))


def replayed(server, record, *words):
    """The answers of a replay of what a server recorded, without those that send nothing; and its fault, where it has one."""
    ports = ["--first-port", str(server.first_port), "--slots", str(server.slots)]
    status, out, err = run(["replay", *USER, *ports, *words, record])
    return [line for line in out.splitlines() if line != "-"] + ([f"status {status}: {err}"] if status else [])


def sends(server, path):
    """The datagrams that a server has sent, as lines of answers, by the file that preloaded/sends.c has written."""
    lines = [line.partition(" ") for line in path.read_text(encoding="utf-8").splitlines()]
    return [f"c {rest}" if int(port) == server.port else f"p {int(port) - server.first_port} {rest}" for port, _, rest in lines]


def channel_data(data):
    return struct.pack(">HH", CHANNEL, len(data)) + data


def code_of(answer):
    """The error code of a response; 0 of a success."""
    value = answer.first(ERROR_CODE)
    return 0 if value is None else value[2] * 100 + value[3]


def wanted(what, found, expected):
    """Yields what was found in place of what was expected."""
    if found != expected:
        yield f"{what}: {found!r} in place of {expected!r}"


def started(port, first, last, address="127.0.0.1", relayed=("127.0.0.1",)):
    """The lines of a server that begins, with the ports of its clients and of its first and last slot."""
    return f"listening {address}:{port}\n" + "".join(f"relaying {ip}:{first} to {last}\n" for ip in relayed)


def fault_line(receive=0, send=0):
    """The line of receives and sends that failed."""
    return f"receive faults {receive} send faults {send}\n"


def counters(from_clients=0, from_peers=0, to_peers=0, to_clients=0, granted=0, challenged=0, unauthenticated=0,
             refused=0, discarded=(0, 0, 0, 0), receive_faults=0, send_faults=0, denied=0, **reasons):
    """The line of counters.

    What is discarded is ChannelData, messages and others of clients, and what comes from peers; the same by its reasons is given
    by their names.
    """
    of_channels, messages, others, of_peers = discarded
    for_reasons = " ".join(f"{reason} {reasons.pop(reason, 0)}" for reason in REASONS)
    if reasons:
        raise ValueError(f"no reasons: {reasons}")
    return (f"received from clients {from_clients} peers {from_peers}, "
            f"relayed to peers {to_peers} clients {to_clients}, "
            f"granted {granted} challenged {challenged} unauthenticated {unauthenticated} refused {refused}, "
            f"discarded channel data {of_channels} messages {messages} others {others} from peers {of_peers}, "
            f"receive faults {receive_faults} send faults {send_faults}, denied {denied} dropped 0, reasons {for_reasons}\n")


def samples_of(path):
    """The samples of a file of metrics, with a value other than 0, by their names with labels.

    A line that has no place where it is ends the test: each metric begins with what it is and with its type.
    """
    samples, metric = {}, None
    for line in path.read_text(encoding="utf-8").splitlines():
        words = line.split(" ")
        if line.startswith("# HELP "):
            metric = words[2]
        elif line.startswith("# TYPE "):
            if words[2:] not in ([metric, "counter"], [metric, "gauge"]):
                raise ValueError(f"{line} after the help of {metric}")
        elif SAMPLE.fullmatch(line) and words[0].partition("{")[0] == metric and words[0] not in samples:
            samples[words[0]] = int(words[1])
        else:
            raise ValueError(f"{line} among the samples of {metric}")
    return {name: value for name, value in samples.items() if value}


def full_pipe():
    """The ends of a pipe that has no room: a write to it waits until something is read."""
    read_end, write_end = os.pipe()
    os.set_blocking(write_end, False)
    with contextlib.suppress(BlockingIOError):
        while True:
            os.write(write_end, bytes(4096))
    os.set_blocking(write_end, True)
    return read_end, write_end


def comes(receiver, data, expected):
    """Whether a datagram comes to a socket: one that is expected is given more time."""
    receiver.settimeout(5 if expected else 0.3)
    try:
        return receiver.recv(100) == data
    except TimeoutError:
        return False
    finally:
        receiver.settimeout(5)


def passed(server, client, peer, expected, slot=0):
    """Whether ChannelData comes to the peer, and data of the peer to a slot to the client; which of them are expected is given."""
    token = random.randbytes(8)
    client.send(channel_data(token))
    there = comes(peer, token, expected[0])
    peer.sendto(token, ("127.0.0.1", server.first_port + slot))
    return there, comes(client.socket, channel_data(token), expected[1])


def put(path, data):
    """Writes a file whole: a new one takes its name."""
    new = path.with_suffix(".new")
    new.write_bytes(data)
    new.rename(path)


def round_trip(client, peer, relayed, data):
    """Sends data to the peer and back, and returns how long both took, or None where one is lost."""
    start = time.perf_counter()
    try:
        client.send(channel_data(data))
        there = peer.recv(100) == data
        peer.sendto(data, relayed)
        back = client.receive() == channel_data(data)
    except TimeoutError:
        return None
    return time.perf_counter() - start if there and back else None


def exchange(pairs, batch):
    """Sends a batch to the peers and back, each datagram by the next client, and returns how many came.

    A pair is a client, its peer and the relayed address, to which the peer answers.
    """
    sent = list(zip(batch, itertools.cycle(pairs)))
    for data, (client, _, _) in sent:
        client.send(channel_data(data))
    came = sum(peer.recv(2000) == data for data, (_, peer, _) in sent)
    for data, (_, peer, relayed) in sent:
        peer.sendto(data, relayed)
    return came + sum(client.receive() == channel_data(data) for data, (client, _, _) in sent)
