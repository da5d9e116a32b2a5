"""Events among peers in private networks and outside of them, and the rules where nothing is sent to the first."""

import relaying
from lib.rules import (
    ALLOCATE, CHANNEL_BIND, CHANNEL_NUMBER, CREATE_PERMISSION, DATA, SEND, TRANSPORT, XOR_PEER_ADDRESS, Rules, address_value,
    answer_line, event_of, line_of, message)

# addresses of each kind that `deny_private` denies, and those just outside of these networks
DENIED = ["0.1.2.3", "10.0.0.1", "10.255.255.255", "100.64.0.1", "100.127.255.255", "127.0.0.1", "169.254.169.254", "172.16.0.1",
          "172.31.255.255", "192.168.1.1", "224.0.0.1", "240.0.0.1", "255.255.255.255"]
ALLOWED = ["1.0.0.1", "9.255.255.255", "11.0.0.1", "100.63.255.255", "100.128.0.1", "126.255.255.255", "128.0.0.1", "169.253.1.1",
           "169.255.1.1", "172.15.255.255", "172.32.0.1", "192.167.1.1", "192.169.1.1", "223.255.255.255", "8.8.8.8"]
UDP = TRANSPORT, bytes([17, 0, 0, 0])


def octets(text):
    return bytes(int(part) for part in text.split("."))


def is_private(ip):
    """Whether `deny_private` sends nothing to an address, said another way than there: by the first octets."""
    a, b = ip[0], ip[1]
    return (a in (0, 10, 127) or a >= 224 or (a == 100 and 64 <= b < 128) or (a, b) in ((169, 254), (192, 168))
            or (a == 172 and 16 <= b < 32))


class DenyPrivate(Rules):
    """The rules, where nothing is sent to some addresses, and a Send indication has its address among its first eight attributes."""

    def from_client(self, *given):
        answer = super().from_client(*given)
        if answer and answer[0] == "p" and len(answer[2][0]) == 4 and is_private(answer[2][0]):
            return None
        return answer


def answered(pairs, rules):
    """The same events with the answers of other rules."""
    return [(line, answer_line(rules.answer(event_of(line)))) for line, _ in pairs]


def with_peers(peers, seed, ip6=None):
    """Seeded events among other peers."""
    before, relaying.PEERS = relaying.PEERS, peers
    try:
        return relaying.seeded(seed, relaying.EVENTS, ip6)
    finally:
        relaying.PEERS = before


def all_ways(addresses):
    """Data to peers with a permission: over a channel, and in Send indications with other attributes before and after."""
    client, optional = relaying.CLIENTS[0], (0x8022, b"name")
    events = [("c", 1000, bytes(12), client, relaying.signed(ALLOCATE, [UDP]))]
    for number, address in enumerate(addresses):
        peer = octets(address), 5000
        to, data = (XOR_PEER_ADDRESS, address_value(peer)), (DATA, b"abc")
        lists = [[to, data], [data, to], [optional, to, data], [to, optional, data], [*[optional] * 7, to, data], [to, (DATA, b"")],
                 [to, (XOR_PEER_ADDRESS, address_value((octets("8.8.8.8"), 5000))), data]]
        channel = bytes([0x40, number]) + b"\0\3abc"
        bound = relaying.signed(CHANNEL_BIND, [(CHANNEL_NUMBER, bytes([0x40, number, 0, 0])), to])
        datagrams = [relaying.signed(CREATE_PERMISSION, [to]), bound, channel, channel + b"\0"]
        events += [("c", 1000, bytes(12), client, sent) for sent in (*datagrams, *(message(SEND, bytes(12), given) for given in lists))]
    return events


def far_address():
    """Send indications whose address comes after eight other attributes, which `deny_private` doesn't look at."""
    client = relaying.CLIENTS[0]
    to = XOR_PEER_ADDRESS, address_value((octets("8.8.8.8"), 5000))
    events = [("c", 1000, bytes(12), client, sent) for sent in (
        relaying.signed(ALLOCATE, [UDP]), relaying.signed(CREATE_PERMISSION, [to]),
        *(message(SEND, bytes(12), [*[(0x8022, b"")] * count, to, (DATA, b"abc")]) for count in (7, 8, 30)))]
    rules = Rules(relaying.USERS, slots=relaying.SLOTS)
    pairs = [(line_of(event), answer_line(rules.answer(event))) for event in events]
    return pairs[:3] + [(line, "-") for line, _ in pairs[3:]]


def private_rows():
    """Yields lists of events with the answers of the rules that send nothing to private networks, and the options of each."""
    words = ["--relay-ip6", relaying.IP6.hex()]
    among = [(octets(address), 5000) for address in DENIED[::3] + ALLOWED[::4]]
    ways = [(line_of(event), None) for event in all_ways(DENIED + ALLOWED)]
    for events in (ways, with_peers(among, 7983)):
        yield answered(events, DenyPrivate(relaying.USERS, slots=relaying.SLOTS)), []
    yield far_address(), []
    both = with_peers(among, 8155, relaying.IP6)
    yield answered(both, DenyPrivate(relaying.USERS, slots=relaying.SLOTS, ip6=relaying.IP6)), words
