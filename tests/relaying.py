"""Replays seeded events through the built relayd, and compares each answer with that of a model of the rules.

The events are datagrams of several clients and peers over a few slots: requests that are granted and refused, ChannelData
and Send indications whole, padded, cut and changed, datagrams of peers with and without a permission or a channel, moments
that pass and go back, and new nonces. One list has addresses of IPv4 alone, another those of both families. They are replayed
with the shipped programs, with a program of the client's side that passes every datagram on, with the programs of
examples/relay/: those that relay more by themselves give the same answers, and those that discard give none where they say
so; and with those of tests/ipv4_programs/, which were shipped before there were IPv6 allocations: they relay the same over
IPv4, and nothing over IPv6 that they have to relay themselves. With `--why` the reason of each answer is the model's: with
programs that give the answers of the rules it is that of the rules, and else, where only the program discards, its exit and the
verdict there, or the first of what is missing.
"""

import collections
import random
import struct
import sys
import tempfile
from pathlib import Path

from lib.program import assembled, build, finish, run
from lib.rules import (
    ALLOCATE, BINDING, CHANNEL_BIND, CHANNEL_NUMBER, CREATE_PERMISSION, DATA, FAMILY, IPV4, LIFETIME, NONCE, REALM, REFRESH, SEND,
    TRANSPORT, USERNAME, XOR_PEER_ADDRESS, Discarded, Rules, address_value, answer_line, event_of, family_of, key_of, line_of, message)

TOP = Path(__file__).resolve().parent.parent
PROGRAMS = TOP / "examples" / "relay"
EVENTS = 10_000
USERS = [("alice", "secret"), ("bob", "other")]
SLOTS = 4
CLIENTS = [(bytes([198, 51, 100, n]), 4000 + n) for n in range(1, 6)]
PEERS = [(ip, port) for ip in map(bytes, ([192, 0, 2, 1], [192, 0, 2, 2], [203, 0, 113, 3])) for port in (5000, 5001)]
CHANNELS = [0x4000, 0x4001, 0x4002, 0x4FFF]
# `mov r0, 1` and `exit`
PASS_ALL = bytes.fromhex("b700000001000000 9500000000000000")
IPV6_VALUE = b"\0\2" + bytes(18)
IP6 = bytes.fromhex("20010db8000000000000000000000009")
PEERS6 = [(bytes.fromhex("20010db8") + bytes(11) + bytes([n]), port) for n in (1, 2) for port in (5000, 5001)]
CLIENT6 = (bytes.fromhex("20010db8") + bytes(11) + b"\x0a", 4000)
IPV4_PROGRAMS = TOP / "tests" / "ipv4_programs"


class Generator:
    """Events that are likely to meet each rule, made along a model's state."""

    def __init__(self, seed, ip6=None, **options):
        self.random = random.Random(seed)
        self.rules = Rules(USERS, slots=SLOTS, ip6=ip6, **options)
        self.clients = CLIENTS if ip6 is None else [*CLIENTS * 4, CLIENT6]
        self.peers = PEERS if ip6 is None else PEERS + PEERS6
        self.families = [1, 1, 2] if ip6 is None else [1, 2, 2, 2, 3]
        self.now = 1000

    def chance(self, share):
        return self.random.random() < share

    def bytes(self, n):
        return self.random.randbytes(n)

    def pick(self, choices):
        return self.random.choice(choices)

    def event(self):
        if self.chance(0.01):
            return "n", b"nonce%d" % self.random.randrange(100)
        self.now += self.pick([0] * 60 + [1, 5, 20])
        if self.chance(0.001):
            self.now += 700
        now = self.now - 500 if self.chance(0.02) else self.now
        transaction_id = self.bytes(12)
        if self.chance(0.35):
            size = 65_490 + self.random.randrange(18) if self.chance(0.004) else self.random.randrange(40)
            return "p", now, transaction_id, self.random.randrange(SLOTS), self.pick(self.peers), self.bytes(size)
        return "c", now, transaction_id, self.pick(self.clients), self.spoiled(self.datagram())

    def peer(self, transaction_id):
        """An attribute with the address of a peer, in a message with a transaction id."""
        return XOR_PEER_ADDRESS, address_value(self.pick(self.peers), transaction_id)

    def spoiled(self, data):
        """Some datagrams are cut, padded or changed."""
        kind = self.pick(["whole"] * 24 + ["cut", "padded", "changed"])
        if kind == "cut":
            return data[:self.random.randrange(len(data) + 1)]
        if kind == "padded":
            return data + self.bytes(self.random.randrange(5))
        if kind == "changed" and data:
            at = self.random.randrange(min(len(data), 40))
            return data[:at] + self.bytes(1) + data[at + 1:]
        return data

    def datagram(self):
        return self.pick([self.channel_data, self.channel_data, self.send, self.send, self.request, self.request])()

    def channel_data(self):
        data = self.bytes(self.random.randrange(30))
        return struct.pack(">HH", self.pick([*CHANNELS, *CHANNELS, 0x5000, 0x7FFF]), len(data)) + data + bytes(-len(data) % 4)

    def send(self):
        transaction_id = self.bytes(12)
        given = [self.peer(transaction_id), (DATA, self.bytes(self.random.randrange(40)))]
        if self.chance(0.3):
            given.reverse()
        if self.chance(0.2):
            other = self.pick([
                (0x8022, b"name"), (0x8001, b""), (0x001A, b""), self.peer(transaction_id),
                (XOR_PEER_ADDRESS, IPV6_VALUE), (XOR_PEER_ADDRESS, b"\0\2" + bytes(6)), (DATA, b"more")])
            given.insert(self.random.randrange(3), other)
        if self.chance(0.05):
            given.pop(self.random.randrange(len(given)))
        return message(SEND, transaction_id, given)

    def request(self):
        kind = self.pick([BINDING, ALLOCATE, ALLOCATE, REFRESH, CREATE_PERMISSION, CREATE_PERMISSION, CHANNEL_BIND, CHANNEL_BIND])
        transaction_id = self.bytes(12)
        given = self.arguments(kind, transaction_id)
        if self.chance(0.05):
            given.insert(self.random.randrange(len(given) + 1), self.pick([(0x8022, b"name"), (0x001A, b""), (0x7F00, b"x")]))
        name, password = self.user()
        nonce = self.rules.nonce if self.chance(0.95) else b"stale"
        credentials = [(USERNAME, name.encode()), (REALM, b"relay"), (NONCE, nonce)]
        if self.chance(0.03):
            credentials.pop(self.random.randrange(3))
        if self.chance(0.05):
            return message(kind, transaction_id, given)
        return message(kind, transaction_id, given + credentials, key_of(name, "relay", password))

    def user(self):
        """The name and the password of a request."""
        return USERS[0] if self.chance(0.9) else self.pick([USERS[1], ("carol", "secret"), ("alice", "wrong")])

    def arguments(self, kind, transaction_id):
        lifetime = [(LIFETIME, struct.pack(">I", self.pick([0, 1, 599, 601, 3600, 4000, 2 ** 32 - 1])))]
        family = [(FAMILY, bytes([self.pick(self.families), 0, 0, 0]))]
        maybe = [a for options in ([lifetime, family] if kind in (ALLOCATE, REFRESH) else []) if self.chance(0.3) for a in options]
        if kind == ALLOCATE:
            return [(TRANSPORT, bytes([self.pick([17] * 9 + [6]), 0, 0, 0]))] + maybe
        if kind == CREATE_PERMISSION:
            peers = [self.peer(transaction_id) for _ in range(self.random.randrange(1, 4))]
            return peers + ([(XOR_PEER_ADDRESS, IPV6_VALUE)] if self.chance(0.05) else [])
        if kind == CHANNEL_BIND:
            number = self.pick([*CHANNELS, *CHANNELS, 0x3FFF, 0x5000])
            return [(CHANNEL_NUMBER, struct.pack(">HH", number, 0)), self.peer(transaction_id)]
        return maybe


def seeded(seed, count, ip6=None):
    """Events, each with the answer of the model."""
    return answered(Generator(seed, ip6), count)


def answered(generator, count):
    """As many events of a generator, each with the answer of its model."""
    pairs = []
    for _ in range(count):
        event = generator.event()
        pairs.append((line_of(event), answer_line(generator.rules.answer(event))))
    return pairs


def signed(kind, given):
    """A request of the first user."""
    name, password = USERS[0]
    credentials = [(USERNAME, name.encode()), (REALM, b"relay"), (NONCE, b"n1")]
    return message(kind, bytes(12), given + credentials, key_of(name, "relay", password))


def systematic():
    """Each length of a cut datagram, each remainder of padding in both directions, and the attributes that a Send indication
    may have and lack, after one allocation with a permission and a channel; each event with the answer of the model."""
    client, (peer, other_port, no_permission) = CLIENTS[0], [PEERS[0], PEERS[1], PEERS[2]]
    to_peer, content = (XOR_PEER_ADDRESS, address_value(peer)), (DATA, b"abc")
    long_content = (DATA, bytes(range(20)))
    channel_data = struct.pack(">HH", 0x4001, 36) + bytes(36)
    optional, required = (0x8001, b""), (0x001A, b"")
    sends = [
        [to_peer, content], [content, to_peer], [to_peer], [content], [], [to_peer, content, optional], [optional, to_peer, content],
        [to_peer, content, required], [to_peer, (XOR_PEER_ADDRESS, address_value(no_permission)), content],
        [(XOR_PEER_ADDRESS, address_value(no_permission)), to_peer, content], [(XOR_PEER_ADDRESS, address_value(no_permission)), content],
        [(XOR_PEER_ADDRESS, address_value(other_port)), content], [(XOR_PEER_ADDRESS, IPV6_VALUE), content],
        [(XOR_PEER_ADDRESS, b"\0\2" + address_value(peer)[2:]), content], [(XOR_PEER_ADDRESS, address_value(peer)[:7]), content],
        [to_peer, content, (DATA, b"more")], [to_peer, (DATA, b"")], [to_peer, content, *[optional] * 3]]
    requests = [
        signed(ALLOCATE, [(TRANSPORT, bytes([17, 0, 0, 0]))]), signed(CREATE_PERMISSION, [to_peer]),
        signed(CHANNEL_BIND, [(CHANNEL_NUMBER, b"\x40\x01\0\0"), to_peer])]
    from_client = requests + [message(SEND, bytes(12), given) for given in sends]
    from_client += [channel_data[:n] for n in range(41)]
    from_client += [message(SEND, bytes(12), given)[:n] for given in ([to_peer, content], [long_content, to_peer]) for n in range(65)]
    for n in range(5):
        data = bytes(n)
        padded = [struct.pack(">HH", 0x4001, n) + data + bytes(extra) for extra in range(4)]
        from_client += [message(SEND, bytes(12), [to_peer, (DATA, data)]), *padded]
    events = [("c", 1000, bytes(12), client, data) for data in from_client]
    sizes = [*range(5), 65_467, 65_468, 65_469, 65_503, 65_504, 65_507]
    events += [("p", 1000, bytes(12), slot, source, bytes(n)) for n in sizes for source in (peer, other_port, no_permission) for slot in (0, 1)]
    events += [("c", 1000, bytes(12), CLIENTS[1], channel_data)]
    rules = Rules(USERS, slots=SLOTS)
    return [(line_of(event), answer_line(rules.answer(event))) for event in events]


def systematic6():
    """The same for an IPv6 allocation, in a relay that gives addresses of both families."""
    client, (peer, other_port, no_permission), peer4 = CLIENTS[0], PEERS6[:3], PEERS[0]
    to_peer, content = (XOR_PEER_ADDRESS, address_value(peer)), (DATA, b"abc")
    to_peer4 = (XOR_PEER_ADDRESS, address_value(peer4))
    udp, family = (TRANSPORT, bytes([17, 0, 0, 0])), (FAMILY, bytes([2, 0, 0, 0]))
    number = (CHANNEL_NUMBER, b"\x40\x01\0\0")
    requests = [
        signed(ALLOCATE, [udp, family]), signed(ALLOCATE, [udp]), signed(CREATE_PERMISSION, [to_peer]), signed(CREATE_PERMISSION, [to_peer4]),
        signed(CREATE_PERMISSION, [to_peer, to_peer4]), signed(CHANNEL_BIND, [number, to_peer4]), signed(CHANNEL_BIND, [number, to_peer]),
        signed(REFRESH, [family]), signed(REFRESH, [(FAMILY, bytes([1, 0, 0, 0]))]), signed(REFRESH, [])]
    sends = [
        [to_peer, content], [content, to_peer], [to_peer, (DATA, b"")], [to_peer, content, (0x8001, b"")], [to_peer4, content],
        [(XOR_PEER_ADDRESS, address_value(other_port)), content], [(XOR_PEER_ADDRESS, address_value(no_permission)), content],
        [to_peer4, to_peer, content], [to_peer, to_peer4, content]]
    channel_data = struct.pack(">HH", 0x4001, 36) + bytes(36)
    from_client = requests + [message(SEND, bytes(12), given) for given in sends]
    from_client += [channel_data[:n] for n in range(41)]
    events = [("c", 1000, bytes(12), client, data) for data in from_client]
    events += [("c", 1000, bytes(12), CLIENT6, data) for data in from_client]
    sizes = [*range(5), 65_455, 65_456, 65_457, 65_503, 65_504, 65_507]
    sources = (peer, other_port, no_permission, peer4)
    transaction_id = bytes(range(0xF0, 0xFC))
    events += [("p", 1000, transaction_id, slot, source, bytes(n)) for n in sizes for source in sources for slot in (0, 1)]
    rules = Rules(USERS, slots=SLOTS, ip6=IP6)
    return [(line_of(event), answer_line(rules.answer(event))) for event in events]


def kinds_of(pairs):
    """How often each kind of answer came."""
    def kind(answer):
        return "nothing" if answer == "-" else "to a peer" if answer[0] == "p" else answer.split(" ")[2][:4]
    return collections.Counter(kind(answer) for _, answer in pairs)


class Discarding(Rules):
    """The rules, where the program of the peers' side discards some datagrams more, and exits there at a slot, for a reason."""

    def __init__(self, discards, exit_slot=0, unsent="verdict 0", **given):
        super().__init__(USERS, slots=SLOTS, **given)
        self.discards, self.why_discarded = discards, f"discarded by the program at slot {exit_slot}, {unsent}"

    def from_peer(self, transaction_id, slot, peer, data):
        answer = super().from_peer(transaction_id, slot, peer, data)
        if self.discards(peer, data):
            raise Discarded(self.why_discarded)
        return answer


class Planning(Rules):
    """The rules, where the program of the clients' side takes ChannelData and Binding requests itself, and exits there at a slot
    with a verdict, and maybe with a window, the datagram's first byte, and a destination."""

    def __init__(self, exit_slot, verdict, has_window, destination, **given):
        super().__init__(USERS, slots=SLOTS, **given)
        self.exit_slot, self.verdict, self.has_window, self.destination = exit_slot, verdict, has_window, destination

    def unsent(self, own):
        """Why nothing is sent for a client with this allocation, or none: the first that applies."""
        family = family_of(self.destination[0]) if self.destination else None
        faults = [(self.verdict != 2, f"verdict {self.verdict}"), (not self.has_window, "without a window"), (own is None, "without an allocation"),
                  (family is None, "without a destination"), (own and own.family != family, "to another family")]
        return next((why for applies, why in faults if applies), None)

    def from_client(self, client, data):
        ruled, answer = None, None
        try:
            answer = super().from_client(client, data)
        except Discarded as discarded:
            ruled = discarded.why
        if len(data) < 2 or (data[0] < 0x40 and data[1] != BINDING):
            if ruled:
                raise Discarded(ruled)
            return answer
        own = self.of(client)
        if why := self.unsent(own):
            raise Discarded(ruled or f"discarded by the program at slot {self.exit_slot}, {why}")
        self.why = "relayed"
        return ("p", own.slot, self.destination, data[:1])


class OverIpv4(Rules):
    """The rules, with the programs that were shipped before there were IPv6 allocations: what they relay has an IPv4 peer."""

    def from_peer(self, transaction_id, slot, peer, data):
        return super().from_peer(transaction_id, slot, peer, data) if family_of(peer[0]) == IPV4 else None

    def channel_data(self, client, data):
        answer = super().channel_data(client, data)
        return answer if answer is None or family_of(answer[2][0]) == IPV4 else None


def over_ipv4(pairs):
    """The same events with the answers of programs that relay over IPv4 alone."""
    rules = OverIpv4(USERS, slots=SLOTS, ip6=IP6)
    return [(line, answer_line(rules.answer(event_of(line)))) for line, _ in pairs]


def discarding(pairs, discards):
    """The same events with the answers where some datagrams of peers are discarded."""
    rules = Discarding(discards)
    return [(line, answer_line(rules.answer(event_of(line)))) for line, _ in pairs]


def explained(pairs, rules):
    """The same events with the answers of rules, each with its reason."""
    return [(line, f"{answer_line(rules.answer(event_of(line)))} ; {rules.why}") for line, _ in pairs]


def program(folder, *sources):
    """Assembles texts of examples/relay/, one after another, and returns the path of the program."""
    return assembled(folder, "-".join(sources), "".join((PROGRAMS / f"{source}.s").read_text() for source in sources))


def compare(folder, name, pairs, words):
    """The first lines whose answer isn't the one that is wanted."""
    path = folder / "events"
    path.write_text("".join(line + "\n" for line, _ in pairs))
    users = [word for user in USERS for word in ("--user", ":".join(user))]
    status, out, err = run(["replay", path, *users, "--slots", str(SLOTS), *words])
    failures = [f"{name}: status {status}, {err}"] if status != 0 or err else []
    lines = out.splitlines()
    if len(lines) != len(pairs):
        failures.append(f"{name}: {len(lines)} answers to {len(pairs)} events")
    wrong = [(n, got, pair) for n, (got, pair) in enumerate(zip(lines, pairs), 1) if got != pair[1]]
    return failures + [f"{name}: line {n}: {pair[0]}\n  is      {got}\n  must be {pair[1]}" for n, got, pair in wrong[:3]]


# programs that set out to send, with what the events of `odd_events` give: the window and the destination of each verdict
WINDOW = """
    mov r6, r1
    mov r2, {front}
    mov r3, {length}
    call 4
"""
DESTINATION = """
    stw [r10-8], -2012020480
    stw [r10-4], 0x090200c0
    mov r1, r6
    mov r2, r10
    add r2, -8
    call 5
"""
# 192.0.2.9:5000, which has no permission
ELSEWHERE = (bytes([192, 0, 2, 9]), 5000)
# [2001:db8::7]:5000
WIDE_DESTINATION = """
    stw [r10-24], -2012020224
    stw [r10-20], -1207107296
    stdw [r10-16], 0
    stw [r10-8], 0x07000000
    mov r1, r6
    mov r2, r10
    add r2, -24
    call 9
"""
ELSEWHERE6 = (bytes.fromhex("20010db8") + bytes(11) + b"\x07", 5000)
END = "    mov r0, {verdict}\n    exit\n"
LONGEST = 65_507
# the text of the client's program, and the answer to a datagram of a client with an allocation; None is a window of it
SENDS = [
    ("nothing planned", "    mov r0, 2\n    exit\n", None),
    ("a window alone", WINDOW.format(front=64, length=1) + END.format(verdict=2), None),
    ("a destination alone", "    mov r6, r1\n" + DESTINATION + END.format(verdict=2), None),
    ("both", WINDOW.format(front=64, length=1) + DESTINATION + END.format(verdict=2), (64, 1)),
    ("no bytes", WINDOW.format(front=64, length=0) + DESTINATION + END.format(verdict=2), (64, 0)),
    ("headroom", WINDOW.format(front=0, length=64) + DESTINATION + END.format(verdict=2), (0, 64)),
    ("all bytes", "    mov r7, r1\n    mov r6, r1\n    mov r2, 64\n    ldxdw r3, [r7+16]\n    call 4\n" + DESTINATION
     + END.format(verdict=2), (64, None)),
    ("verdict 0", WINDOW.format(front=64, length=1) + DESTINATION + END.format(verdict=0), None),
    ("verdict 3", WINDOW.format(front=64, length=1) + DESTINATION + END.format(verdict=3), None),
    ("a verdict of 64 bits", WINDOW.format(front=64, length=1) + DESTINATION + "    lddw r0, 0x100000002\n    exit\n", None),
]
# writes the type of a Binding request over the datagram's first two bytes, and passes it on
WRITES = """
    ldxdw r2, [r1+0]
    ldxdw r3, [r1+8]
    mov r4, r2
    add r4, 2
    mov r0, 0
    jgt r4, r3, end
    sth [r2+0], 0x0100
    mov r0, 1
end:
    exit
"""


# programs that take ChannelData and Binding requests themselves, with what they plan for each: the verdict, whether there is a
# window, and the destination
TAKES = ("    ldxdw r2, [r1+0]\n    ldxdw r3, [r1+8]\n    mov r4, r2\n    add r4, 2\n    mov r0, 1\n    jgt r4, r3, other\n"
         "    ldxb r5, [r2+0]\n    jge r5, 64, own\n    ldxb r5, [r2+1]\n    jeq r5, 1, own\nother:\n    exit\nown:\n    mov r6, r1\n")
FIRST_BYTE = WINDOW.format(front=64, length=1)
PLANS = [
    ("", 0, False, None), ("", 2, False, None), (FIRST_BYTE, 2, True, None), (DESTINATION, 2, False, ELSEWHERE),
    (FIRST_BYTE + DESTINATION, 2, True, ELSEWHERE), (FIRST_BYTE + WIDE_DESTINATION, 2, True, ELSEWHERE6), (WIDE_DESTINATION, 2, False, ELSEWHERE6),
    (FIRST_BYTE + DESTINATION, 3, True, ELSEWHERE), (FIRST_BYTE + WIDE_DESTINATION, 255, True, ELSEWHERE6), (FIRST_BYTE, 2 ** 31 - 1, True, None)]


def allocated():
    """The events that give the first client an allocation with a permission and a channel, through the rules."""
    peer = (XOR_PEER_ADDRESS, address_value(PEERS[0]))
    requests = [
        signed(ALLOCATE, [(TRANSPORT, bytes([17, 0, 0, 0]))]), signed(CREATE_PERMISSION, [peer]),
        signed(CHANNEL_BIND, [(CHANNEL_NUMBER, b"\x40\x01\0\0"), peer])]
    return [("c", 1000, bytes(12), CLIENTS[0], request) for request in requests]


def of_network(peer, _):
    """Whether `refuse_network` discards what comes from a peer."""
    return peer[0][:3] == bytes([203, 0, 113])


def is_long(_, data):
    """Whether `at_most_1200_bytes` discards a datagram."""
    return len(data) > 1200


def reasons(folder, pairs, pairs6):
    """Lists of events with the answers and their reasons, and their options. The exits are those of the texts."""
    ip6 = ["--relay-ip6", IP6.hex()]
    for kind, events in (("one after another", systematic()), ("seeded", pairs)):
        yield f"{kind}, with reasons", explained(events, Rules(USERS, slots=SLOTS)), []
        refuse, short = (["--peer", program(folder, name, "peer")] for name in ("refuse_network", "at_most_1200_bytes"))
        yield f"{kind}, refuse_network with reasons", explained(events, Discarding(of_network, 5)), refuse
        yield f"{kind}, at_most_1200_bytes with reasons", explained(events, Discarding(is_long, 3)), short
    for kind, events in (("one after another over IPv6", systematic6()), ("seeded over both families", pairs6)):
        for name, words in (("the shipped programs", []), ("a program that passes all on", ["--client", folder / "pass_all.bpf"])):
            yield f"{kind}, {name} with reasons", explained(events, Rules(USERS, slots=SLOTS, ip6=IP6)), [*ip6, *words]
    for kind, events, given, words in (("IPv4", systematic(), {}, []), ("IPv6", systematic6(), {"ip6": IP6}, ip6)):
        yield from planned_reasons(folder, kind, events + bindings(), given, words)


def bindings():
    """Binding requests of a client with an allocation and of one without, as the systematic events leave them."""
    return [(line_of(("c", 1000, bytes(12), client, message(BINDING, bytes(12), []))), None) for client in (CLIENTS[0], CLIENTS[3])]


def planned_reasons(folder, kind, events, given, words):
    """The same, with programs that take datagrams themselves, of a client and of peers, and send nothing where something is missing."""
    for number, (text, verdict, has_window, destination) in enumerate(PLANS):
        path = assembled(folder, f"plans_{number}", TAKES + text + END.format(verdict=verdict))
        rules = Planning(path.stat().st_size // 8 - 1, verdict, has_window, destination, **given)
        yield f"{kind}, plan {number} with reasons", explained(events, rules), ["--client", path, *words]
    for verdict, unsent in ((0, "verdict 0"), (1, "verdict 1"), (2, "without a window"), (-1, f"verdict {2 ** 64 - 1}")):
        path = assembled(folder, "verdict_of_peers", END.format(verdict=verdict))
        rules = Discarding(lambda peer, data: True, 1, unsent, **given)
        yield f"{kind}, verdict {verdict} of peers with reasons", explained(events, rules), ["--peer", path, *words]


def odd_programs(folder):
    """Programs that plan half of what is sent, or more than it is, and programs that say so for every datagram."""
    datagrams = [b"\x80", bytes([0x80]) + bytes(9), bytes([0x80]) * LONGEST, b""]
    for number, (name, text, planned) in enumerate(SENDS):
        # requests go by the rules: the program looks for the first two bits 10
        head = ("    ldxdw r2, [r1+0]\n    ldxdw r3, [r1+8]\n    mov r4, r2\n    add r4, 1\n    mov r0, 1\n    jgt r4, r3, other\n"
                "    ldxb r5, [r2+0]\n    jge r5, 128, own\nother:\n    exit\nown:\n")
        path = assembled(folder, f"sends_{number}", head + text)
        rules = Rules(USERS, slots=SLOTS)
        pairs = [(line_of(e), answer_line(rules.answer(e))) for e in allocated()]
        for client in CLIENTS[:2]:
            for data in datagrams:
                pairs.append((line_of(("c", 1000, bytes(12), client, data)), sent_line(client, data, planned)))
        yield f"a program that plans {name}", pairs, ["--client", path]
    events = systematic()
    two = assembled(folder, "two", "    mov r0, 2\n    exit\n")
    yield "verdict 2 on both sides", [(line, "-") for line, _ in events], ["--client", two, "--peer", two]
    passes = assembled(folder, "passes", "    mov r0, 1\n    exit\n")
    yield "verdict 1 of peers", discarding(events, lambda peer, data: True), ["--peer", passes]
    binding = message(BINDING, bytes(12), [])
    written = [("c", 1000, bytes(12), CLIENTS[0], first + binding[2:]) for first in (b"\x40\x01", b"\xff\xff", binding[:2])]
    rules = Rules(USERS, slots=SLOTS)
    answer = answer_line(rules.answer(("c", 1000, bytes(12), CLIENTS[0], binding)))
    yield "a program that writes", [(line_of(e), answer) for e in written], ["--client", assembled(folder, "writes", WRITES)]


def sent_line(client, data, planned):
    """What a program of `SENDS` gives for a datagram."""
    if client != CLIENTS[0] or not data or planned is None:
        return "-"
    front, length = planned
    around = bytes(64) + data + bytes(3)
    window = around[front:front + (len(data) if length is None else length)]
    return answer_line(("p", 0, ELSEWHERE, window))


def odd_moments():
    """Moments that go back, and the greatest ones: what has ended has ended, and the greatest moment is 2^62."""
    peer = ("p", 1000, bytes(12), 0, PEERS[0], b"abc")
    moments = [1299, 1300, 1200, 0, 2 ** 62 - 1, 2 ** 62, 2 ** 64 - 1, 5]
    events = allocated() + [(*peer[:1], now, *peer[2:]) for now in moments]
    again = [(*e[:1], 2 ** 64 - 1, *e[2:]) for e in allocated()]
    rules = Rules(USERS, slots=SLOTS)
    return [(line_of(e), answer_line(rules.answer(e))) for e in events + again + [peer]]


def cut_datagrams():
    """Datagrams cut to each length: ChannelData may lack its padding, and nothing else may lack anything."""
    to_peer, sent = (XOR_PEER_ADDRESS, address_value(PEERS[0])), answer_line(("p", 0, PEERS[0], b"abc"))
    binding = message(BINDING, bytes(12), [])
    rules = Rules(USERS, slots=SLOTS)
    pairs = [(line_of(e), answer_line(rules.answer(e))) for e in allocated()]
    mapped = answer_line(rules.answer(("c", 1000, bytes(12), CLIENTS[0], binding)))
    whole = [
        (struct.pack(">HH", 0x4001, 3) + b"abc\0", 7, sent),
        (message(SEND, bytes(12), [to_peer, (DATA, b"abc")]), 40, sent),
        (binding, 20, mapped),
    ]
    for data, least, answer in whole:
        for n in range(len(data) + 1):
            pairs.append((line_of(("c", 1000, bytes(12), CLIENTS[0], data[:n])), answer if n >= least else "-"))
    return pairs


def stored():
    """The model against the stored session of Chromium, whose answers another implementation wrote."""
    folder = TOP / "crates" / "call_tests"
    rules = Rules([("u", "p")])
    events = (folder / "stdin").read_text().splitlines()
    answers = (folder / "stdout").read_text().splitlines()
    return [f"model: {e}" for e, a in zip(events, answers, strict=True) if answer_line(rules.answer(event_of(e))) != a]


def denied():
    """Lists of events with the answers where clients send nothing to private networks, and their options."""
    from private_peers import private_rows  # it uses this module
    return private_rows()


def main():
    build()
    failures = [*stored()]
    pairs = seeded(8656, EVENTS)
    count = 0
    with tempfile.TemporaryDirectory() as name:
        folder = Path(name)
        (folder / "pass_all.bpf").write_bytes(PASS_ALL)
        options = ["--client", program(folder, "client_with_options")]
        refuse = ["--peer", program(folder, "refuse_network", "peer")]
        short = ["--peer", program(folder, "at_most_1200_bytes", "peer")]
        for kind, events in (("one after another", systematic()), ("seeded", pairs)):
            for program_name, wanted, words in (
                ("shipped programs", events, []),
                ("a program that passes all on", events, ["--client", folder / "pass_all.bpf"]),
                ("client_with_options", events, options),
                ("refuse_network", discarding(events, of_network), refuse),
                ("at_most_1200_bytes", discarding(events, is_long), short),
            ):
                failures += compare(folder, f"{kind}, {program_name}", wanted, words)
                count += len(events)
        ip6 = ["--relay-ip6", IP6.hex()]
        before = ["--client", IPV4_PROGRAMS / "client.bpf", "--peer", IPV4_PROGRAMS / "peer.bpf"]
        pairs6 = seeded(8155, EVENTS, IP6)
        for kind, events in (("one after another over IPv6", systematic6()), ("seeded over both families", pairs6)):
            for program_name, wanted, words in (
                ("shipped programs", events, ip6),
                ("a program that passes all on", events, ["--client", folder / "pass_all.bpf", *ip6]),
                ("client_with_options", events, [*options, *ip6]),
                ("the programs of before", over_ipv4(events), [*before, *ip6]),
            ):
                failures += compare(folder, f"{kind}, {program_name}", wanted, words)
                count += len(events)
        for kind, events in (("one after another", systematic()), ("seeded", pairs)):
            failures += compare(folder, f"{kind}, the programs of before", events, before)
            count += len(events)
        for name, events, words in reasons(folder, pairs, pairs6):
            failures += compare(folder, name, events, [*words, "--why"])
            count += len(events)
        deny = ["--client", program(folder, "deny_private", "client")]
        for events, words in denied():
            failures += compare(folder, "deny_private", events, [*deny, *words])
            count += len(events)
        for program_name, events, words in (*odd_programs(folder), ("odd moments", odd_moments(), []), ("cut datagrams", cut_datagrams(), [])):
            failures += compare(folder, program_name, events, words)
            count += len(events)
    met = ", ".join(f"{kind} {number}" for kind, number in sorted(kinds_of(pairs + pairs6).items()))
    return finish(failures, f"events replayed and compared with a model: {count} ({met}), {len(failures)} failures")


if __name__ == "__main__":
    sys.exit(main())
