"""Runs programs that are accepted and would harm others, confined and not, beside a model of what they send.

The programs of examples/hostile make the relay an open one, for addresses of one family and of both, and let every peer in with
more bytes than came. They answer seeded events, each followed by a datagram that they act on, through `replay`: unconfined they
send what their texts say, and confined only what a client has permitted, with addresses that count as others or without. And they
are tried in a server over sockets.
"""

import random
import sys
import tempfile
from pathlib import Path

import relaying
from lib.program import TOP, assembled, finish
from lib.rules import CREATE_PERMISSION, IPV4, IPV6, Rules, answer_line, event_of, line_of
from lib.server import Client, Server, address_of, code_of, comes, udp_socket, wanted
from relaying import IP6, PEERS, PEERS6, SLOTS, USERS, compare

FOLDER = TOP / "examples" / "hostile"
# peers that clients permit, and others
STRANGERS = [(bytes([192, 0, 2, 99]), 5000), (bytes([203, 0, 113, 200]), 9)]
STRANGERS6 = [(bytes.fromhex("20010db8") + bytes(11) + b"\x99", 5000)]
# addresses that count as others: the first stranger as a peer, and another as the first, which is no chain
ALIASES = [(STRANGERS[0][0], PEERS[0][0]), (STRANGERS[1][0], STRANGERS[0][0]), (STRANGERS6[0][0], PEERS6[0][0])]
# what a window holds before and after the datagram
HEADROOM, TAILROOM, LONGEST = 64, 3, 65_507
LINE = "unconfined: the programs may send to and from peers that no client has permitted\n"


def hostile(folder, name):
    """Assembles a program of examples/hostile, and returns its path."""
    return assembled(folder, name, (FOLDER / f"{name}.s").read_text(encoding="utf-8"))


def wide_record(peer):
    """The record of twenty bytes of an address."""
    ip, port = peer
    return (bytes([0, IPV4 if len(ip) == 4 else IPV6]) + port.to_bytes(2, "big") + ip).ljust(20, b"\0")


class Confined(Rules):
    """The rules, with what decides whether a program that is confined may send; `aliases` is None where it isn't."""

    def __init__(self, *given, aliases, **named):
        super().__init__(*given, **named)
        self.aliases = aliases

    def names(self, peer):
        return [peer, *((other, peer[1]) for ip, other in self.aliases if ip == peer[0])]

    def may_go(self, allocation, peer):
        """Whether a client has permitted data to a peer."""
        bound = [address for address, _ in allocation.channels.values()]
        return self.aliases is None or any(name[0] in allocation.permissions or name in bound for name in self.names(peer))

    def may_come(self, allocation, peer):
        return self.aliases is None or any(name[0] in allocation.permissions for name in self.names(peer))


class OpenRelay(Confined):
    """The rules, where a datagram that begins with 0xff goes to the address whose record it has next."""

    size = 8

    def from_client(self, client, data):
        record = data[1:1 + self.size].ljust(20, b"\0")
        if len(client[0]) != 4 or len(data) <= self.size or data[0] != 0xff:
            return super().from_client(client, data)
        peer = record[4:8] if record[1] == IPV4 else record[4:20], int.from_bytes(record[2:4], "big")
        own = self.of(client)
        # a record of eight bytes has no IPv6 address, and is no destination then
        if own is None or len(peer[0]) == 16 > self.size or len(peer[0]) != (4 if own.family == IPV4 else 16) or not self.may_go(own, peer):
            return None
        return ("p", own.slot, peer, data)


class OpenRelay6(OpenRelay):
    """The same with a record of either family."""

    size = 20


class LetsEveryoneIn(Confined):
    """The rules, where a client gets all that any peer sends, with the room around it."""

    def from_peer(self, transaction_id, slot, peer, data):
        own = self.at(slot)
        out = bytes(HEADROOM) + data + bytes(TAILROOM)
        if own is None or len(out) > LONGEST or not self.may_come(own, peer):
            return None
        return ("c", own.client, out)


PROGRAMS = [("open_relay", "--client", OpenRelay), ("open_relay_ipv6", "--client", OpenRelay6),
            ("lets_everyone_in", "--peer", LetsEveryoneIn)]


def with_hostile(events, peers, size):
    """The events, each followed by a client's datagram to some peer, and by some peer's data, at the same moment."""
    chosen = random.Random(len(events))
    for event in events:
        yield event
        if event[0] != "n":
            record = wide_record(chosen.choice(peers))[:size]
            slot, peer = chosen.randrange(SLOTS), chosen.choice(peers)
            yield "c", event[1], bytes(12), chosen.choice(relaying.CLIENTS), b"\xff" + record + b"said"
            size_of_data = chosen.choice([0, 1200, LONGEST - 68, LONGEST - 67, LONGEST - 66, LONGEST]) if chosen.random() < 0.01 else 9
            yield "p", event[1], bytes(12), slot, peer, chosen.randbytes(size_of_data)


def replays(folder):
    """Yields what a replay answers otherwise than the model of a program does."""
    both = {"ip6": IP6}
    for name, side, model in PROGRAMS:
        program = hostile(folder, name)
        for given, peers, words in (({}, PEERS + STRANGERS, []), (both, PEERS + PEERS6 + STRANGERS + STRANGERS6, ["--relay-ip6", IP6.hex()])):
            events = [event_of(line) for line, _ in relaying.seeded(9021, 2_000, given.get("ip6"))]
            events = list(with_hostile(events, peers, getattr(model, "size", 20)))
            for aliases, more in ((None, []), ([], ["--confine"]), (ALIASES, ["--confine", *alias_words()])):
                rules = model(USERS, slots=SLOTS, aliases=aliases, **given)
                pairs = [(line_of(event), answer_line(rules.answer(event))) for event in events]
                yield from compare(folder, f"{name} {' '.join(more[:1])} {len(more)}", pairs, [side, str(program), *words, *more])


def text_of(ip):
    return ".".join(map(str, ip)) if len(ip) == 4 else ":".join(ip.hex()[at:at + 4] for at in range(0, 32, 4))


def alias_words():
    return [word for ip, other in ALIASES for word in ("--same-as", f"{text_of(ip)}={text_of(other)}")]


def sockets(folder):
    """Yields what a server sends otherwise, where its programs are confined and where they aren't."""
    client_program = hostile(folder, "open_relay")
    peer_program = hostile(folder, "lets_everyone_in")
    for words, confined in (([], True), (["--unconfined"], False), (["--same-as", "127.0.0.2=127.0.0.1"], True)):
        words = [*words, "--client", client_program, "--peer", peer_program]
        with Server(*words) as server, Client(server) as client, udp_socket() as peer, udp_socket(0, "127.0.0.2") as stranger:
            client.allocate()
            at = address_of(peer)
            yield from wanted(f"{words[:1]}, a permission", code_of(client.signed(CREATE_PERMISSION, [], at)), 0)
            free = not confined or "--same-as" in words
            for to, reached in ((peer, True), (stranger, free)):
                ip, port = to.getsockname()
                said = b"\xff" + wide_record((bytes(map(int, ip.split("."))), port))[:8] + b"said"
                client.send(said)
                yield from wanted(f"{words[:1]}, data to {ip}", comes(to, said, reached), reached)
            for to, reached in ((stranger, free), (peer, True)):
                to.sendto(b"back", ("127.0.0.1", server.first_port))
                if reached:
                    yield from wanted(f"{words[:1]}, data back", client.receive(), bytes(HEADROOM) + b"back" + bytes(TAILROOM))
            yield from wanted(f"{words[:1]}, the line at the start", LINE in server.printed(), not confined)


def main():
    failures = []
    with tempfile.TemporaryDirectory() as name:
        for part in (replays, sockets):
            failures += part(Path(name))
    return finish(failures, f"hostile programs: {len(PROGRAMS)}, each over two lists of events and in servers, {len(failures)} failures")


if __name__ == "__main__":
    sys.exit(main())
