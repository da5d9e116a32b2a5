"""A model of the relay's rules, from the standards (RFC 8489, RFC 8656) and the tables of this profile: what is answered to
a list of events, written apart from the relay's definitions. Python's standard library alone."""
import base64
import hashlib
import hmac
import re
import struct

COOKIE = 0x2112A442
LATEST = 2 ** 62
LONGEST = 65_507
(USERNAME, INTEGRITY, ERROR_CODE, UNKNOWN_ATTRIBUTES, CHANNEL_NUMBER, LIFETIME, XOR_PEER_ADDRESS, DATA, REALM, NONCE,
 XOR_RELAYED_ADDRESS, FAMILY, TRANSPORT, XOR_MAPPED_ADDRESS) = UNDERSTOOD = (
    0x06, 0x08, 0x09, 0x0A, 0x0C, 0x0D, 0x12, 0x13, 0x14, 0x15, 0x16, 0x17, 0x19, 0x20)
BINDING, ALLOCATE, REFRESH, CREATE_PERMISSION, CHANNEL_BIND = 0x0001, 0x0003, 0x0004, 0x0008, 0x0009
SEND, DATA_INDICATION = 0x0016, 0x0017
PHRASES = {
    400: "Bad Request", 401: "Unauthenticated", 420: "Unknown Attribute", 437: "Allocation Mismatch", 438: "Stale Nonce",
    440: "Address Family not Supported", 441: "Wrong Credentials", 442: "Unsupported Transport Protocol",
    443: "Peer Address Family Mismatch", 508: "Insufficient Capacity"}


class Refused(Exception):
    """A request is answered by an error response with this code, for this reason."""

    def __init__(self, code, why=None):
        super().__init__(code)
        self.code, self.why = code, why or f"refused {code} {PHRASES[code]}"


class Discarded(Exception):
    """A datagram is answered by nothing, for this reason."""

    def __init__(self, why):
        super().__init__(why)
        self.why = why


def xor(data, mask):
    return bytes(a ^ b for a, b in zip(data, mask))


IPV4, IPV6 = 1, 2


def family_of(ip):
    return IPV4 if len(ip) == 4 else IPV6


def address_value(address, transaction_id=bytes(12)):
    """The value of an XOR address: IP address of 4 or 16 bytes, and port."""
    ip, port = address
    mask = struct.pack(">I", COOKIE) + transaction_id
    return bytes([0, family_of(ip)]) + xor(struct.pack(">H", port), mask) + xor(ip, mask)


def address_in(value, transaction_id):
    """The address of a value: IP address of 4 or 16 bytes, and port. None where it is malformed."""
    mask = struct.pack(">I", COOKIE) + transaction_id
    for size, family in ((4, IPV4), (16, IPV6)):
        if len(value) == size + 4 and value[1] == family:
            return xor(value[4:], mask), struct.unpack(">H", xor(value[2:4], mask))[0]
    return None


def attribute(kind, value):
    return struct.pack(">HH", kind, len(value)) + value + bytes(-len(value) % 4)


def message(kind, transaction_id, attributes, key=None):
    """The bytes of a message, signed under the key if there is one."""
    body = b"".join(attribute(k, v) for k, v in attributes)
    if key is not None:
        covered = struct.pack(">HHI", kind, len(body) + 24, COOKIE) + transaction_id + body
        body += attribute(INTEGRITY, hmac.new(key, covered, hashlib.sha1).digest())
    return struct.pack(">HHI", kind, len(body), COOKIE) + transaction_id + body


def key_of(name, realm, password):
    return hashlib.md5(f"{name}:{realm}:{password}".encode()).digest()


def password_of(secret, name):
    """The password of a name with time-limited credentials."""
    return base64.b64encode(hmac.new(secret, name, hashlib.sha1).digest())


class Message:
    """A message that was read: type, transaction id, and the attributes up to the first MESSAGE-INTEGRITY."""

    def __init__(self, data):
        kind, length, cookie = struct.unpack(">HHI", data[:8])
        if kind >= 0x4000 or cookie != COOKIE or length % 4 != 0 or length + 20 != len(data):
            raise ValueError
        self.kind, self.transaction_id, self.attributes, self.covered = kind, data[8:20], [], None
        at, signed = 20, False
        while at < len(data):
            if at + 4 > len(data):
                raise ValueError
            number, size = struct.unpack(">HH", data[at:at + 4])
            end = at + 4 + size + (-size % 4)
            if end > len(data):
                raise ValueError
            if not signed:
                self.attributes.append((number, data[at + 4:at + 4 + size]))
            if number == INTEGRITY and not signed:
                signed = True
                self.covered = struct.pack(">HHI", kind, at - 20 + 24, COOKIE) + data[8:at]
            at = end

    def values(self, kind):
        return [v for k, v in self.attributes if k == kind]

    def first(self, kind):
        return next(iter(self.values(kind)), None)

    def unknown(self):
        found = []
        for kind, _ in self.attributes:
            if kind < 0x8000 and kind not in UNDERSTOOD and kind not in found:
                found.append(kind)
        return found[:16]


def read(data):
    try:
        return Message(data) if len(data) >= 20 else None
    except ValueError:
        return None


def owner_of(m):
    """The name of the user whose name a request gives: what follows its first colon, or all of it."""
    name = m.first(USERNAME)
    return name.partition(b":")[2] if b":" in name else name


class Allocation:
    def __init__(self, slot, client, user, owner, transaction_id, family, lifetime, end):
        self.slot, self.client, self.user, self.owner, self.family = slot, client, user, owner, family
        self.transaction_id, self.lifetime, self.end = transaction_id, lifetime, end
        self.permissions, self.channels = {}, {}


class Rules:
    """The rules, over a state: allocations by slot, the greatest moment, and the nonce. `why` is why the last answer is so."""

    def __init__(self, users, realm="relay", nonce="n1", slots=16, ip=bytes([127, 0, 0, 1]), ip6=None, first_port=49152, secrets=(), revoked=(),
                 user_slots=None):
        self.users, self.realm, self.nonce, self.secrets = users, realm, nonce.encode(), secrets
        self.revoked, self.user_slots = revoked, user_slots
        self.ips, self.first_port, self.now = {IPV4: ip, IPV6: ip6}, first_port, 0
        self.slots = [None] * slots

    # ---- look-ups

    def at(self, slot):
        """The allocation at a slot, with what counts of it."""
        a = self.slots[slot] if slot < len(self.slots) else None
        if a is None or a.end <= self.now:
            return None
        a.permissions = {ip: end for ip, end in a.permissions.items() if end > self.now}
        a.channels = {n: c for n, c in a.channels.items() if c[1] > self.now}
        return a

    def of(self, client):
        return next((a for a in map(self.at, range(len(self.slots))) if a and a.client == client), None)

    # ---- events

    def answer(self, event):
        """The answer to an event: None, ("c", client, bytes) or ("p", slot, peer, bytes)."""
        if event[0] == "n":
            self.nonce, self.why = event[1], "nonce set"
            return None
        side, now, transaction_id = event[:3]
        self.now, self.why = max(self.now, min(now, LATEST)), "relayed"
        try:
            if side == "p":
                return self.from_peer(transaction_id, *event[3:])
            return self.from_client(*event[3:])
        except Discarded as discarded:
            self.why = discarded.why
            return None

    def from_peer(self, transaction_id, slot, peer, data):
        a = self.at(slot)
        if a is None:
            raise Discarded("no allocation")
        if peer[0] not in a.permissions:
            raise Discarded("no permission")
        for number, (bound, _) in a.channels.items():
            if bound == peer:
                out = struct.pack(">HH", number, len(data)) + data
                break
        else:
            given = [(XOR_PEER_ADDRESS, address_value(peer, transaction_id)), (DATA, data)]
            if 20 + sum(len(attribute(*a)) for a in given) > LONGEST:
                raise Discarded("too long")
            out = message(DATA_INDICATION, transaction_id, given)
        if len(out) > LONGEST:
            raise Discarded("too long")
        return ("c", a.client, out)

    def from_client(self, client, data):
        if family_of(client[0]) == IPV6:
            raise Discarded("not served")
        if not data or data[0] >= 0x40:
            return self.channel_data(client, data)
        m = read(data)
        if m is None:
            raise Discarded("malformed")
        if m.kind == SEND:
            return self.send(client, m)
        return self.request(client, m)

    def channel_data(self, client, data):
        a = self.of(client)
        if a is None:
            raise Discarded("no allocation")
        number, length = struct.unpack(">HH", data[:4].ljust(4, b"\0"))
        if len(data) < 4 or not 0x4000 <= number <= 0x7FFF or length > len(data) - 4:
            raise Discarded("malformed")
        if number not in a.channels:
            raise Discarded("no channel")
        return ("p", a.slot, a.channels[number][0], data[4:4 + length])

    def send(self, client, m):
        a, value, data = self.of(client), m.first(XOR_PEER_ADDRESS), m.first(DATA)
        if a is None:
            raise Discarded("no allocation")
        if m.unknown():
            raise Discarded("unknown attribute")
        peer = None if value is None else address_in(value, m.transaction_id)
        if peer is None or data is None:
            raise Discarded("incomplete")
        if peer[0] not in a.permissions:
            raise Discarded("no permission")
        return ("p", a.slot, peer, data)

    # ---- requests

    def request(self, client, m):
        serve = {BINDING: None, ALLOCATE: self.allocate, REFRESH: self.refresh,
                 CREATE_PERMISSION: self.create_permission, CHANNEL_BIND: self.channel_bind}
        if m.kind not in serve:
            raise Discarded("no request")
        key = None
        try:
            user = None
            if m.kind != BINDING:
                user, key = self.check(client, m)
            if m.unknown():
                raise Refused(420)
            if m.kind == BINDING:
                given, self.why = [(XOR_MAPPED_ADDRESS, address_value(client, m.transaction_id))], "granted an address"
            else:
                self.why = "granted"
                given = serve[m.kind](client, user, m)
            return ("c", client, message(m.kind | 0x100, m.transaction_id, given, key))
        except Refused as refused:
            code, self.why = refused.code, refused.why
            given = [(ERROR_CODE, bytes([0, 0, code // 100, code % 100]) + PHRASES[code].encode())]
            if code in (401, 438):
                given += [(REALM, self.realm.encode()), (NONCE, self.nonce)]
            if code == 420:
                given += [(UNKNOWN_ATTRIBUTES, b"".join(struct.pack(">H", k) for k in m.unknown()))]
            return ("c", client, message(m.kind | 0x110, m.transaction_id, given, key))

    def account(self, client, name, secret):
        """The user of a name under a secret, an index or both, and the password; a name that nobody has, or that has expired, is refused
        for that."""
        for index, (user, password) in enumerate(self.users):
            if user.encode() == name:
                return index, password.encode()
        said = re.fullmatch(rb"(0|[1-9][0-9]*)(:.*)?", name, re.DOTALL)
        if secret is None or said is None or len(name) > 128 or int(said[1]) >= 2 ** 64:
            raise Refused(401, "unknown user")
        held = self.of(client)
        if int(said[1]) <= self.now and (held is None or held.user != (secret, name)):
            raise Refused(401, "expired")
        return (secret, name), password_of(secret, name)

    def check_under(self, client, m, secret):
        """The user of a request of a client under a secret, and the key."""
        user, password = self.account(client, m.first(USERNAME), secret)
        key = hashlib.md5(b":".join([m.first(USERNAME), self.realm.encode(), password])).digest()
        if hmac.new(key, m.covered, hashlib.sha1).digest() != m.first(INTEGRITY):
            raise Refused(401, "wrong password")
        return user, key

    def check(self, client, m):
        """The user of a request of a client, and the key."""
        code, name = m.first(INTEGRITY), m.first(USERNAME)
        if code is None:
            raise Refused(401, "no credentials")
        if name is None or m.first(REALM) is None or m.first(NONCE) is None:
            raise Refused(400, "incomplete credentials")
        if m.first(NONCE) != self.nonce:
            raise Refused(438, "stale nonce")
        refusals = []
        for secret in self.secrets or [None]:
            try:
                found = self.check_under(client, m, secret)
            except Refused as refused:
                refusals.append(refused)
                continue
            if owner_of(m) in self.revoked:
                raise Refused(401, "unknown user")
            return found
        raise refusals[0]

    @staticmethod
    def number(m, kind, size, must=False):
        """The number of an attribute: its value begins with it."""
        value = m.first(kind)
        if value is None:
            if must:
                raise Refused(400)
            return None
        if len(value) != 4:
            raise Refused(400)
        return int.from_bytes(value[:size], "big")

    @staticmethod
    def lifetime(requested):
        return 600 if requested is None else max(600, min(requested, 3600))

    def own(self, client, user):
        a = self.of(client)
        if a is None:
            raise Refused(437)
        if a.user != user:
            raise Refused(441)
        return a

    def allocate(self, client, user, m):
        a = self.of(client)
        if a is not None:
            if a.transaction_id != m.transaction_id or a.user != user:
                raise Refused(437)
        else:
            if self.number(m, TRANSPORT, 1, must=True) != 17:
                raise Refused(442)
            family = self.number(m, FAMILY, 1) if m.first(FAMILY) is not None else IPV4
            if self.ips.get(family) is None:
                raise Refused(440)
            lifetime = self.lifetime(self.number(m, LIFETIME, 4))
            live = [self.at(s) for s in range(len(self.slots))]
            if self.user_slots is not None and sum(a is not None and a.owner == owner_of(m) for a in live) >= self.user_slots:
                raise Refused(508)
            free = [s for s, a in enumerate(live) if a is None]
            if not free:
                raise Refused(508)
            a = Allocation(free[0], client, user, owner_of(m), m.transaction_id, family, lifetime, self.now + lifetime)
            self.slots[a.slot] = a
        self.why = f"allocated slot {a.slot} for {a.lifetime} seconds"
        relayed = self.ips[a.family], self.first_port + a.slot
        return [(XOR_RELAYED_ADDRESS, address_value(relayed, m.transaction_id)), (LIFETIME, struct.pack(">I", a.lifetime)),
                (XOR_MAPPED_ADDRESS, address_value(client, m.transaction_id))]

    def refresh(self, client, user, m):
        a = self.own(client, user)
        if self.number(m, FAMILY, 1) not in (None, a.family):
            raise Refused(443)
        requested = self.number(m, LIFETIME, 4)
        lifetime = 0 if requested == 0 else self.lifetime(requested)
        a.end = self.now + lifetime
        self.why = f"refreshed for {lifetime} seconds" if lifetime else "ended"
        return [(LIFETIME, struct.pack(">I", lifetime))]

    def create_permission(self, client, user, m):
        a = self.own(client, user)
        peers = [address_in(v, m.transaction_id) for v in m.values(XOR_PEER_ADDRESS)]
        if not peers or None in peers:
            raise Refused(400)
        if any(family_of(ip) != a.family for ip, _ in peers):
            raise Refused(443)
        ips = {ip for ip, _ in peers}
        if len(a.permissions.keys() | ips) > 64:
            raise Refused(508)
        a.permissions.update({ip: self.now + 300 for ip in ips})
        return []

    def channel_bind(self, client, user, m):
        a = self.own(client, user)
        number = self.number(m, CHANNEL_NUMBER, 2, must=True)
        value = m.first(XOR_PEER_ADDRESS)
        peer = None if value is None else address_in(value, m.transaction_id)
        if peer is None or not 0x4000 <= number <= 0x4FFF:
            raise Refused(400)
        if family_of(peer[0]) != a.family:
            raise Refused(443)
        others = [n for n, (bound, _) in a.channels.items() if bound == peer]
        if a.channels.get(number, (peer, 0))[0] != peer or others not in ([], [number]):
            raise Refused(400)
        if len(a.channels.keys() | {number}) > 64 or len(a.permissions.keys() | {peer[0]}) > 64:
            raise Refused(508)
        a.channels[number] = (peer, self.now + 600)
        a.permissions[peer[0]] = self.now + 300
        return []


# ---- lines of text

def address_text(address):
    ip, port = address
    return (f"[{ip.hex()}]" if family_of(ip) == IPV6 else ".".join(map(str, ip))) + f":{port}"


def address_of(text):
    ip, port = text.split(":")
    return bytes.fromhex(ip[1:-1]) if ip.startswith("[") else bytes(map(int, ip.split("."))), int(port)


def hex_text(data):
    return data.hex() or "-"


def line_of(event):
    if event[0] == "n":
        return "n " + event[1].decode()
    if event[0] == "c":
        _, now, transaction_id, client, data = event
        return f"c {now} {transaction_id.hex()} {address_text(client)} {hex_text(data)}"
    _, now, transaction_id, slot, peer, data = event
    return f"p {now} {transaction_id.hex()} {slot} {address_text(peer)} {hex_text(data)}"


def event_of(line):
    side, *rest = line.split(" ")
    if side == "n":
        return "n", rest[0].encode()
    now, transaction_id, *source, data = rest
    data = b"" if data == "-" else bytes.fromhex(data)
    if side == "c":
        return "c", int(now), bytes.fromhex(transaction_id), address_of(source[0]), data
    return "p", int(now), bytes.fromhex(transaction_id), int(source[0]), address_of(source[1]), data


def answer_line(answer):
    if answer is None:
        return "-"
    if answer[0] == "c":
        return f"c {address_text(answer[1])} {hex_text(answer[2])}"
    return f"p {answer[1]} {address_text(answer[2])} {hex_text(answer[3])}"
