"""Writes a session as lines of events for `relayd replay`, and as the lines of the answers that are expected.

    python3 examples/events.py examples/session.txt

writes examples/session.events and examples/session.expected. The description gives each datagram in the words of RFC
8489 and RFC 8656, with the answer that is expected (docs/DESIGN.md, "Sessions are described apart"), in lines of these kinds; a line that begins with `#` says nothing:

    user NAME:PASSWORD, realm TEXT, nonce TEXT      what messages are signed with
    now SECONDS                                     the moment of the events that follow
    from client ADDRESS                             a datagram of a client
    from peer ADDRESS at slot N                     a datagram of a peer to the relayed address of a slot
    to client ADDRESS, to peer ADDRESS at slot N    the datagram that is expected in answer
    nothing                                         none is

Indented lines after `from` and `to` say what the datagram is: `data TEXT`; `ChannelData NUMBER TEXT`; or a message,
as `Allocate request`, and then its attributes, one a line, as `LIFETIME 600`. `signed` stands for USERNAME, REALM,
NONCE and MESSAGE-INTEGRITY in a request, and for MESSAGE-INTEGRITY in a response. A response has the transaction id of
the last request, and an indication of the relay's the one that the event's line hands in.

A TEXT that begins with `hex:` stands for bytes, two digits each, as `data hex:80600001`; `hex:` alone for none. An
ADDRESS is `192.0.2.7:5000` or `[2001:db8::7]:5000`. An attribute that has no name here is written as its type, as
`0x802A hex:0001`; a flag, as DONT-FRAGMENT, and FINGERPRINT, which comes last and is computed, have no value.
"""

import hashlib
import hmac
import ipaddress
import pathlib
import struct
import sys
import zlib

COOKIE = 0x2112A442
METHODS = {"Binding": 1, "Allocate": 3, "Refresh": 4, "Send": 6, "Data": 7, "CreatePermission": 8, "ChannelBind": 9}
# the bits of the class, in the places that the message type has for them (RFC 8489, section 5)
CLASSES = {"request": 0x000, "indication": 0x010, "success": 0x100, "error": 0x110}
ATTRIBUTES = {
    "USERNAME": 0x0006,
    "MESSAGE-INTEGRITY": 0x0008,
    "ERROR-CODE": 0x0009,
    "CHANNEL-NUMBER": 0x000C,
    "LIFETIME": 0x000D,
    "XOR-PEER-ADDRESS": 0x0012,
    "DATA": 0x0013,
    "REALM": 0x0014,
    "NONCE": 0x0015,
    "XOR-RELAYED-ADDRESS": 0x0016,
    "REQUESTED-ADDRESS-FAMILY": 0x0017,
    "EVEN-PORT": 0x0018,
    "REQUESTED-TRANSPORT": 0x0019,
    "DONT-FRAGMENT": 0x001A,
    "XOR-MAPPED-ADDRESS": 0x0020,
    "SOFTWARE": 0x8022,
    "FINGERPRINT": 0x8028,
}
INTEGRITY_BYTES = 20
# what the checksum of FINGERPRINT is XORed with (RFC 8489, section 14.7)
FINGERPRINT_MASK = 0x5354554E
FAMILIES = {"IPv4": 1, "IPv6": 2}


def padded(value):
    """Returns bytes with zeros after them up to a multiple of 4."""
    return value + bytes(-len(value) % 4)


def bytes_of(text):
    """Returns the bytes that a text stands for: the digits after `hex:`, or the text itself."""
    return bytes.fromhex(text[4:]) if text.startswith("hex:") else text.encode()


def address_of(text):
    """Returns the IP address and the port of an ADDRESS."""
    ip, _, port = text.rpartition(":")
    return ipaddress.ip_address(ip.strip("[]")), int(port)


def address_word(text):
    """Returns an ADDRESS as the lines of events have it: an IPv6 address in 32 digits."""
    ip, port = address_of(text)
    return f"[{ip.packed.hex()}]:{port}" if ip.version == 6 else f"{ip}:{port}"


def xor_address(text, transaction):
    """Returns the value of an XOR address in a message with a transaction id (RFC 8489, section 14.2)."""
    ip, port = address_of(text)
    mask = struct.pack(">I", COOKIE) + transaction
    masked = bytes(one ^ other for one, other in zip(ip.packed, mask))
    return struct.pack(">BBH", 0, 1 if ip.version == 4 else 2, port ^ COOKIE >> 16) + masked


def error_code(text):
    """Returns the value of ERROR-CODE: class and number, and the reason (RFC 8489, section 14.8)."""
    code, reason = text.split(" ", 1)
    return struct.pack(">HBB", 0, int(code) // 100, int(code) % 100) + reason.encode()


def value_of(name, text, transaction):
    """Returns the value of an attribute of a message with a transaction id."""
    if name.startswith("XOR-") and not text.startswith("hex:"):
        return xor_address(text, transaction)
    if name == "ERROR-CODE":
        return error_code(text)
    if name == "LIFETIME":
        return struct.pack(">I", int(text))
    if name == "CHANNEL-NUMBER":
        return struct.pack(">HH", int(text, 0), 0)
    if name == "REQUESTED-TRANSPORT":
        return struct.pack(">Bxxx", int(text))
    if name == "REQUESTED-ADDRESS-FAMILY":
        return struct.pack(">Bxxx", FAMILIES[text])
    return bytes_of(text)


def attribute(name, value):
    """Returns an attribute with this value, by its name or its type."""
    kind = ATTRIBUTES[name] if name in ATTRIBUTES else int(name, 0)
    return struct.pack(">HH", kind, len(value)) + padded(value)


def header(kind, length, transaction):
    """Returns the header of a message."""
    return struct.pack(">HHI", kind, length, COOKIE) + transaction


def fingerprint(kind, body, transaction):
    """Returns FINGERPRINT after these attributes (RFC 8489, section 14.7)."""
    checksum = zlib.crc32(header(kind, len(body) + 8, transaction) + body)
    return attribute("FINGERPRINT", struct.pack(">I", checksum ^ FINGERPRINT_MASK))


class Session:
    """What messages are signed with, and how far a description was read."""

    def __init__(self):
        self.settings = {}
        self.now = 0
        self.number = 0
        self.request = bytes(12)

    def credentials(self):
        """Returns the attributes of a signed request, except MESSAGE-INTEGRITY."""
        name = self.settings["user"].split(":", 1)[0]
        values = {"USERNAME": name, "REALM": self.settings["realm"], "NONCE": self.settings["nonce"]}
        return b"".join(attribute(kind, text.encode()) for kind, text in values.items())

    def integrity(self, kind, body, transaction):
        """Returns MESSAGE-INTEGRITY after these attributes (RFC 8489, section 14.5)."""
        name, password = self.settings["user"].split(":", 1)
        key = hashlib.md5(f"{name}:{self.settings['realm']}:{password}".encode()).digest()
        signed = header(kind, len(body) + 4 + INTEGRITY_BYTES, transaction) + body
        return attribute("MESSAGE-INTEGRITY", hmac.new(key, signed, hashlib.sha1).digest())

    def transaction(self, of_relay, message_class):
        """Returns the transaction id of a message."""
        if of_relay:
            return self.handed_in() if message_class == "indication" else self.request
        self.request = b"example" + self.number.to_bytes(5, "big")
        return self.request

    def handed_in(self):
        """Returns the transaction id that the line of the current event hands in."""
        return self.number.to_bytes(12, "big")

    def message(self, lines, of_relay):
        """Returns the message of a type and attributes."""
        method, message_class = lines[0].split()
        low = METHODS[method]
        kind = CLASSES[message_class] | low & 0xF
        transaction = self.transaction(of_relay, message_class)
        body = b""
        for line in lines[1:]:
            name, _, text = line.partition(" ")
            if name == "signed":
                body += b"" if of_relay else self.credentials()
                body += self.integrity(kind, body, transaction)
            elif name == "FINGERPRINT":
                body += fingerprint(kind, body, transaction)
            else:
                body += attribute(name, value_of(name, text, transaction))
        return header(kind, len(body), transaction) + body

    def datagram(self, lines, of_relay):
        """Returns the datagram that indented lines describe."""
        word, _, rest = lines[0].partition(" ")
        if word == "data":
            return bytes_of(rest)
        if word == "ChannelData":
            number, _, text = rest.partition(" ")
            sent = bytes_of(text)
            return struct.pack(">HH", int(number, 0), len(sent)) + sent
        return self.message(lines, of_relay)

    def event(self, words, lines):
        """Returns the line of an event: a datagram from a client, or from a peer to a slot."""
        self.number += 1
        data = self.datagram(lines, False)
        start = f"{words[1][0]} {self.now} {self.handed_in().hex()}"
        source = address_word(words[2]) if words[1] == "client" else f"{words[5]} {address_word(words[2])}"
        return f"{start} {source} {data.hex() or '-'}"

    def answer(self, words, lines):
        """Returns the line of an answer: a datagram to a client or to a peer, or none."""
        if words == ["nothing"]:
            return "-"
        data = self.datagram(lines, True)
        target = f"c {address_word(words[2])}" if words[1] == "client" else f"p {words[5]} {address_word(words[2])}"
        return f"{target} {data.hex() or '-'}"


def blocks(text):
    """Yields each line that isn't indented, as words, with the indented lines after it."""
    block = None
    for line in text.splitlines():
        if not line.strip() or line.lstrip().startswith("#"):
            continue
        if line[0] == " ":
            block[1].append(line.strip())
        else:
            if block:
                yield block
            block = (line.split(), [])
    if block:
        yield block


def lines_of(text):
    """Returns the lines of the events of a description, and those of the answers."""
    session, events, answers = Session(), [], []
    for words, lines in blocks(text):
        if words[0] == "from":
            events.append(session.event(words, lines))
        elif words[0] in ("to", "nothing"):
            answers.append(session.answer(words, lines))
        elif words[0] == "now":
            session.now = int(words[1])
        else:
            session.settings[words[0]] = " ".join(words[1:])
    return "".join(f"{line}\n" for line in events), "".join(f"{line}\n" for line in answers)


def main():
    """Writes the events and the answers of each description that the command line names."""
    for name in sys.argv[1:]:
        path = pathlib.Path(name)
        events, answers = lines_of(path.read_text(encoding="utf-8"))
        path.with_suffix(".events").write_text(events, encoding="utf-8")
        path.with_suffix(".expected").write_text(answers, encoding="utf-8")


if __name__ == "__main__":
    main()
