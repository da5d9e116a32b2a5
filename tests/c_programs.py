"""Runs the programs of examples/c, which C functions are compiled to, and compares each answer with that of a model of the rules.

The programs that one clang made are kept in examples/c/compiled, and each answers seeded events as its C text says: the shipped
rules, those with fewer peers or without Allocate requests, and those with another address for a peer. Rows that are worked out by
hand say what each sends, discards or leaves to the rules. Where clang and LLVM's objcopy and readelf are there, each text is
compiled at three levels for three versions of the instruction set, too, small rules as lib/c_rules.py has them are refused and
accepted, and what can't become a program is refused by name. Where GCC's compiler for BPF is there, it compiles the texts as well.
"""

import collections
import itertools
import os
import pathlib
import re
import shutil
import struct
import subprocess
import sys
import tempfile

import relaying
from private_peers import DenyPrivate, answered, octets, private_rows, with_peers
from lib.c_rules import IDIOMS
from lib.program import PASSED_OVER, PROGRAM, TOP, build, finish, run
from relaying import IP6, PEERS6, SLOTS, USERS, compare, systematic, systematic6
from lib.rules import ALLOCATE, DATA, XOR_PEER_ADDRESS, Rules, read

sys.path.insert(0, str(TOP / "examples"))
import events as described

FOLDER = TOP / "examples" / "c"
COMPILED = FOLDER / "compiled"
PAGE = TOP / "docs" / "C.md"
# each text with the options that load its program, and the sides that it is for
SIDES = {
    "client": ["--client"], "peer": ["--peer"], "deny_private": ["--client"], "media_only": ["--client"], "drain": ["--client"],
    "deny_private_media_only": ["--client"], "peer_ports": ["--client", "--peer"], "public_to_internal": ["--client", "--peer"]}
LEVELS, VERSIONS = ["-O1", "-O2", "-Os"], ["v1", "v2", "v3"]
PUBLIC, INTERNAL = bytes([203, 0, 113, 1]), bytes([192, 0, 2, 10])
# GCC's compiler for BPF, as Debian's package gcc-bpf has it
GCC = "bpf-gcc"
# how many events each program that is compiled here answers
FEW = 1_000
# texts that can't become a program, each with what is said of it
WRONG = [
    ("static u64 count;\nint program(struct context *ctx) { return ++count > ctx->length; }", "names something outside of its function"),
    ("__attribute__((noinline)) static int f(struct context *ctx) { return ctx->side; }\n"
     "int program(struct context *ctx) { return f(ctx); }", "has several functions"),
    ("static const u8 table[] = {1, 2, 3, 4, 9, 8, 7, 6, 5, 4, 3};\nint program(struct context *ctx) { return table[ctx->length & 7]; }",
     "names something outside of its function"),
    ("int program(struct context *ctx) { volatile u64 a[80]; for (int i = 0; i < 80; i++) a[i] = i; return a[ctx->length & 63]; }",
     "is not compiled"),
    ("int program(struct context *ctx) { return ctx->data[0]; }", "refused V10 at 1"),
    ("int program(struct context *ctx) { u64 n = 0; while (n < ctx->length) n += 3; return n; }", "refused loop at"),
    ("int program(struct context *ctx) { return ctx->lenght; }", "is not compiled"),
    ("int program(struct context *ctx) {\n  u64 n = 0;\n  UNROLL\n  while (n < ctx->length)\n    n += ctx->data[n - 64] + 1;\n"
     "  return n;\n}", ":5:3: error: loop not unrolled"),
    ("int program(struct context *ctx) { return ctx->length > 9 ? DISCARD_AS(2) : RULES; }", "DISCARD_AS takes 3 to 255"),
    ("int program(struct context *ctx) { return __builtin_memcmp(ctx->data - 64, ctx->data - 32, ctx->side) == 0; }",
     "names something outside of its function, memcmp: "),
]
# what lies beside a function, and is in no instruction's way
BESIDE = """char _license[] __attribute__((section("license"), used)) = "GPL";
static const char version[] __attribute__((used)) = "rule 3";
static const char *text(void) { return "nothing calls this"; }
int program(struct context *ctx) { (void)text; return ctx->length > 1200 ? DISCARD : RULES; }"""
# a message of STUN with a type and the length of its attributes, and attributes: SOFTWARE, 8.8.8.8:5000, 10.0.0.7:5000,
# 203.0.113.1:5000, 8.8.8.8:53, [2001:db8::7]:53 and :5000 (in a message whose transaction id is zeros), DATA, USERNAME
MESSAGE = "{}2112a442" + "00" * 12
SOFTWARE, DATA_ABC, USERNAME_U = "8022000161000000", "0013000361626300", "0006000175000000"
TO_8, TO_10, TO_PUBLIC, TO_8_53 = (
    f"001200080001{end}" for end in ("329a291aac4a", "329a2b12a445", "329aea12d543", "2127291aac4a"))
TO_6_53, TO_6 = (f"001200140002{port}0113a9fa{'00' * 11}07" for port in ("2127", "329a"))


def sent(*attributes):
    """A Send indication of attributes."""
    body = "".join(attributes)
    return MESSAGE.format(f"0016{len(body) // 2:04x}") + body


BINDING_REQUEST, ALLOCATE_REQUEST = MESSAGE.format("00010000"), MESSAGE.format("00030000")
# what a program decides on a client's datagram where there is no allocation, and look-ups find nothing: 1 leaves it to the rules
DECIDED = {
    "client": [
        ("", 0), ("80", 0), (BINDING_REQUEST, 1), (sent(TO_8, DATA_ABC), 0), (sent(DATA_ABC, TO_8), 1),
        (sent(TO_8, DATA_ABC, SOFTWARE), 1), (sent(TO_6, DATA_ABC), 1), ("40010003616263", 0)],
    "drain": [("", 1), (ALLOCATE_REQUEST, 0), (BINDING_REQUEST, 1), ("0003", 0), ("00", 1), ("40010003616263", 1)],
    "deny_private": [
        ("", 0), ("40", 0), ("00", 0), (BINDING_REQUEST, 1), ("40010003616263", 1), (sent(TO_8, DATA_ABC), 1),
        (sent(TO_10, DATA_ABC), 0), (sent(SOFTWARE, DATA_ABC, TO_10), 0), (sent(TO_8, TO_10, DATA_ABC), 1), (sent(*[SOFTWARE] * 7, TO_8), 1),
        (sent(*[SOFTWARE] * 8, TO_8), 0), (sent(DATA_ABC), 0), (sent(TO_6, DATA_ABC), 1), (sent(TO_6)[:-2], 0),
        (sent("0012000800030000ffffffff"), 1)],
    "media_only": [
        ("", 0), (BINDING_REQUEST, 1), (sent(TO_10), 1),
        *((f"40010001{first}", 1) for first in ("00", "03", "14", "3f", "80", "bf")),
        *((f"40010001{first}", 0) for first in ("04", "13", "40", "47", "7f", "c0", "ff")), ("40010000", 0), ("4001000080", 0)],
    "deny_private_media_only": [
        ("", 3), (BINDING_REQUEST, 1), ("4001000147", 3), ("4001000180", 1), ("40010000", 3), (sent(TO_10, DATA_ABC), 4),
        (sent(DATA_ABC), 4), (sent(TO_8, DATA_ABC), 1), (sent(SOFTWARE, TO_10), 4)],
    "peer_ports": [
        ("", 0), (BINDING_REQUEST, 1), (ALLOCATE_REQUEST, 1), (sent(TO_8_53, DATA_ABC), 0),
        (sent(SOFTWARE, TO_8_53, DATA_ABC), 0), (sent(SOFTWARE, TO_8, DATA_ABC), 1), (sent(TO_8, DATA_ABC), 0), (sent(TO_6_53, DATA_ABC), 0), (sent(TO_6, DATA_ABC), 1),
        ("40010003616263", 0)],
    "public_to_internal": [
        ("", 0), (BINDING_REQUEST, 1), (sent(TO_8, DATA_ABC, SOFTWARE), 1), (sent(SOFTWARE, TO_PUBLIC, DATA_ABC), 0),
        (sent(USERNAME_U, TO_PUBLIC, DATA_ABC), 1), (sent(*[SOFTWARE] * 7, TO_PUBLIC, DATA_ABC), 1),
        (sent(*[SOFTWARE] * 6, TO_PUBLIC, DATA_ABC), 0), (sent(TO_PUBLIC), 1), (sent(TO_8, TO_PUBLIC, DATA_ABC), 1),
        (sent(TO_6, DATA_ABC), 1)],
}
# a client with an allocation, and channels to peers; in the words of examples/events.py
ALLOCATED = """
user alice:secret
realm relay
nonce n1
now 1000
from client 198.51.100.2:4000
    Allocate request
    REQUESTED-TRANSPORT 17
    signed
"""
BOUND = """
from client 198.51.100.2:4000
    ChannelBind request
    CHANNEL-NUMBER {}
    XOR-PEER-ADDRESS {}
    signed
"""
# another client with an IPv6 allocation and a permission
ALLOCATED6 = """
from client 198.51.100.3:4000
    Allocate request
    REQUESTED-TRANSPORT 17
    REQUESTED-ADDRESS-FAMILY IPv6
    signed
from client 198.51.100.3:4000
    CreatePermission request
    XOR-PEER-ADDRESS [2001:db8::7]:5000
    signed
"""
CLIENT_SENDS = "from client 198.51.100.2:4000"
CLIENT6_SENDS = "from client 198.51.100.3:4000"
INDICATED = "to client 198.51.100.2:4000 | Data indication | XOR-PEER-ADDRESS {} | DATA abc"
# for each program the channels, from 0x4001 on, that the client binds, and then events with the answers; | ends a line, and the lines
# after the first are indented
ANSWERED = {
    "peer_ports": (["192.0.2.7:5000", "192.0.2.7:53", "192.0.2.7:1023", "192.0.2.7:1024"], [
        (f"{CLIENT_SENDS} | ChannelData 0x4001 abc", "to peer 192.0.2.7:5000 at slot 0 | data abc"),
        (f"{CLIENT_SENDS} | ChannelData 0x4002 abc", "nothing"),
        (f"{CLIENT_SENDS} | ChannelData 0x4003 abc", "nothing"),
        (f"{CLIENT_SENDS} | ChannelData 0x4004 abc", "to peer 192.0.2.7:1024 at slot 0 | data abc"),
        (f"{CLIENT_SENDS} | Send indication | XOR-PEER-ADDRESS 192.0.2.7:53 | DATA abc", "nothing"),
        (f"{CLIENT_SENDS} | Send indication | SOFTWARE a | DATA abc | XOR-PEER-ADDRESS 192.0.2.7:1023 | FINGERPRINT", "nothing"),
        (f"{CLIENT_SENDS} | Send indication | SOFTWARE a | DATA abc | XOR-PEER-ADDRESS 192.0.2.7:1024 | FINGERPRINT",
         "to peer 192.0.2.7:1024 at slot 0 | data abc"),
        ("from peer 192.0.2.7:53 at slot 0 | data abc", "nothing"),
        ("from peer 192.0.2.7:1023 at slot 0 | data abc", "nothing"),
        ("from peer 192.0.2.7:1024 at slot 0 | data abc", "to client 198.51.100.2:4000 | ChannelData 0x4004 abc"),
        ("from peer 192.0.2.7:1025 at slot 0 | data abc", INDICATED.format("192.0.2.7:1025")),
        ("from peer 192.0.2.8:5000 at slot 0 | data abc", "nothing"),
        (f"{CLIENT6_SENDS} | Send indication | XOR-PEER-ADDRESS [2001:db8::7]:53 | DATA abc", "nothing"),
        (f"{CLIENT6_SENDS} | Send indication | XOR-PEER-ADDRESS [2001:db8::7]:5000 | DATA abc",
         "to peer [2001:db8::7]:5000 at slot 1 | data abc"),
        ("from peer [2001:db8::7]:53 at slot 1 | data abc", "nothing"),
        ("from peer [2001:db8::7]:5000 at slot 1 | data hex:616263",
         "to client 198.51.100.3:4000 | Data indication | XOR-PEER-ADDRESS [2001:db8::7]:5000 | DATA abc"),
    ]),
    "public_to_internal": (["203.0.113.1:5000", "8.8.8.8:5000"], [
        (f"{CLIENT_SENDS} | ChannelData 0x4001 abc", "to peer 192.0.2.10:5000 at slot 0 | data abc"),
        (f"{CLIENT_SENDS} | ChannelData 0x4002 abc", "to peer 8.8.8.8:5000 at slot 0 | data abc"),
        *((f"{CLIENT_SENDS} | Send indication | {attributes}", f"to peer {peer} at slot 0 | data abc") for attributes, peer in (
            ("XOR-PEER-ADDRESS 203.0.113.1:5000 | DATA abc", "192.0.2.10:5000"),
            ("DATA abc | XOR-PEER-ADDRESS 203.0.113.1:5001", "192.0.2.10:5001"),
            ("SOFTWARE a | XOR-PEER-ADDRESS 203.0.113.1:5000 | DATA abc", "192.0.2.10:5000"),
            ("DATA abc | SOFTWARE a | XOR-PEER-ADDRESS 203.0.113.1:5000 | FINGERPRINT", "192.0.2.10:5000"),
            ("XOR-PEER-ADDRESS 203.0.113.1:5000 | XOR-PEER-ADDRESS 8.8.8.8:5000 | DATA abc", "192.0.2.10:5000"),
            ("XOR-PEER-ADDRESS 8.8.8.8:5000 | XOR-PEER-ADDRESS 203.0.113.1:5000 | DATA abc", "8.8.8.8:5000"),
            ("XOR-PEER-ADDRESS 203.0.113.1:5000 | DATA abc | DATA more", "192.0.2.10:5000"),
            (" | ".join(["SOFTWARE a"] * 6 + ["XOR-PEER-ADDRESS 203.0.113.1:5000 | DATA abc"]), "192.0.2.10:5000"),
            # these are left to the rules
            (" | ".join(["SOFTWARE a"] * 7 + ["XOR-PEER-ADDRESS 203.0.113.1:5000 | DATA abc"]), "203.0.113.1:5000"),
            ("USERNAME alice | XOR-PEER-ADDRESS 203.0.113.1:5000 | DATA abc", "203.0.113.1:5000"))),
        (f"{CLIENT_SENDS} | Send indication | DONT-FRAGMENT | XOR-PEER-ADDRESS 203.0.113.1:5000 | DATA abc", "nothing"),
        (f"{CLIENT_SENDS} | Send indication | XOR-PEER-ADDRESS 203.0.113.1:5000", "nothing"),
        (f"{CLIENT_SENDS} | Send indication | SOFTWARE a | XOR-PEER-ADDRESS 203.0.113.2:5000 | DATA abc", "nothing"),
        ("from peer 192.0.2.10:5000 at slot 0 | data abc", "to client 198.51.100.2:4000 | ChannelData 0x4001 abc"),
        ("from peer 192.0.2.10:5001 at slot 0 | data abc", INDICATED.format("203.0.113.1:5001")),
        ("from peer 203.0.113.1:5000 at slot 0 | data abc", "to client 198.51.100.2:4000 | ChannelData 0x4001 abc"),
    ]),
}
# what examples/events.py makes of lines: the last fields of the event
WRITTEN = [
    ("from client 198.51.100.2:4000 | data hex:80Ff00", "198.51.100.2:4000 80ff00"),
    ("from client 198.51.100.2:4000 | data hex:", "198.51.100.2:4000 -"),
    ("from client 198.51.100.2:4000 | data text", "198.51.100.2:4000 74657874"),
    ("from client 198.51.100.2:4000 | ChannelData 0x4001 hex:16fefd", "198.51.100.2:4000 4001000316fefd"),
    ("from peer [2001:db8::7]:5000 at slot 3 | data a", "3 [20010db8000000000000000000000007]:5000 61"),
    # the id is that of the first message, `example` and 1; the address is XORed with the cookie and the id
    ("from client 198.51.100.2:4000 | Send indication | XOR-PEER-ADDRESS [2001:db8::7]:5000 | DATA hex:80",
     "198.51.100.2:4000 001600202112a4426578616d706c650000000001"
     "001200140002329a0113a9fa6578616d706c6500000000060013000180000000"),
    ("from client 198.51.100.2:4000 | Allocate request | REQUESTED-ADDRESS-FAMILY IPv6 | EVEN-PORT hex:80 | DONT-FRAGMENT"
     " | 0x802A hex:0001",
     "198.51.100.2:4000 0003001c2112a4426578616d706c65000000000100170004020000000018000180000000001a0000802a000200010000"),
    # 0x499F14D5, the CRC-32 of the 20 bytes before FINGERPRINT, by a program bit for bit; XORed with 0x5354554E
    ("from client 198.51.100.2:4000 | Binding request | FINGERPRINT",
     "198.51.100.2:4000 000100082112a4426578616d706c650000000001802800041acb419b"),
]


def is_media(data):
    """Whether data begins as STUN, DTLS, RTP or RTCP."""
    return bool(data) and (data[0] < 4 or 20 <= data[0] < 64 or 128 <= data[0] < 192)


class MediaOnly(Rules):
    """The rules, where ChannelData relays only what begins as media does."""

    def channel_data(self, client, data):
        answer = super().channel_data(client, data)
        return answer if answer is None or is_media(answer[3]) else None


class Draining(Rules):
    """The rules, where Allocate requests are discarded."""

    def from_client(self, *given):
        return None if given[-1][:2] == struct.pack(">H", ALLOCATE) else super().from_client(*given)


class DenyPrivateMediaOnly(DenyPrivate, MediaOnly):
    """The rules, with fewer peers and less data over channels."""


class HighPorts(Rules):
    """The rules, where peers at ports below 1024 are neither sent to nor heard."""

    def from_client(self, *given):
        answer = super().from_client(*given)
        return None if answer and answer[0] == "p" and answer[2][1] < 1024 else answer

    def from_peer(self, transaction_id, slot, peer, data):
        return None if peer[1] < 1024 else super().from_peer(transaction_id, slot, peer, data)


def is_plain(data):
    """Whether `public_to_internal` takes a Send indication itself: it has up to eight attributes, and others than address and data
    may be ignored."""
    found = read(data)
    return found is not None and len(found.attributes) <= 8 and all(
        kind in (XOR_PEER_ADDRESS, DATA) or kind >= 0x8000 for kind, _ in found.attributes)


class PublicToInternal(Rules):
    """The rules, with the machine's own address for the public one wherever the program itself sends or looks up a peer."""

    def from_client(self, *given):
        answer = super().from_client(*given)
        data = given[-1]
        if answer and answer[0] == "p" and answer[2][0] == PUBLIC and (data[0] >= 0x40 or is_plain(data)):
            return (*answer[:2], (INTERNAL, answer[2][1]), *answer[3:])
        return answer

    def from_peer(self, transaction_id, slot, peer, data):
        return super().from_peer(transaction_id, slot, (PUBLIC, peer[1]) if peer[0] == INTERNAL else peer, data)


def rows():
    """Yields what is replayed with each program: its name, events with their answers, and options."""
    ip6 = ["--relay-ip6", IP6.hex()]
    plain, both = with_peers(relaying.PEERS, 8656), with_peers(relaying.PEERS, 8155, IP6)
    for name in ("client", "peer"):
        for events, words in ((systematic(), []), (plain, []), (systematic6(), ip6), (both, ip6)):
            yield name, events, words
    for events, words in private_rows():
        yield "deny_private", events, words
    for events, given in ((plain, {}), (both, {"ip6": IP6})):
        yield "media_only", answered(events, MediaOnly(USERS, slots=SLOTS, **given)), ip6 if given else []
        yield "drain", answered(events, Draining(USERS, slots=SLOTS, **given)), ip6 if given else []
        yield "deny_private_media_only", answered(events, DenyPrivateMediaOnly(USERS, slots=SLOTS, **given)), ip6 if given else []
    low = [(octets("192.0.2.7"), port) for port in (53, 1023, 1024, 5000)] + [(octets("10.0.0.7"), port) for port in (1, 5000)]
    for events, given in ((with_peers(low, 1024), {}), (with_peers([*low, (PEERS6[0][0], 443)], 1023, IP6), {"ip6": IP6})):
        yield "peer_ports", answered(events, HighPorts(USERS, slots=SLOTS, **given)), ip6 if given else []
    nat = [(PUBLIC, 5000), (PUBLIC, 5001), (INTERNAL, 5000), (INTERNAL, 5001), (octets("8.8.8.8"), 5000)]
    for events, given in ((with_peers(nat, 4787), {}), (with_peers(nat, 5128, IP6), {"ip6": IP6})):
        yield "public_to_internal", answered(events, PublicToInternal(USERS, slots=SLOTS, **given)), ip6 if given else []


def replayed(folder, programs, events):
    """Yields the answers of programs, by name, that are others than those of the events."""
    for name, pairs, words in events:
        options = [word for side in SIDES[name] for word in (side, str(programs[name]))]
        yield from compare(folder, f"{name} at {programs[name].parent.name}", pairs, [*options, *words])


def lines_of(row):
    """The lines of a description that stand for a row."""
    return row.replace(" | ", "\n    ") + "\n"


def answers_by_hand(folder):
    """Yields what the kept programs answer otherwise than rows that are worked out by hand."""
    for name, (peers, answers) in ANSWERED.items():
        given = ALLOCATED + "".join(BOUND.format(0x4001 + number, peer) for number, peer in enumerate(peers)) + ALLOCATED6
        events, _ = described.lines_of(given)
        before = len(events.splitlines())
        events, wanted = described.lines_of(given + "".join(lines_of(row) for pair in answers for row in pair))
        (folder / "events").write_text(events, encoding="utf-8")
        options = [word for side in SIDES[name] for word in (side, COMPILED / f"{name}.bpf")]
        users = [word for user in USERS for word in ("--user", ":".join(user))]
        _, out, err = run(["replay", folder / "events", *users, "--relay-ip6", IP6.hex(), *options])
        for pair, got, must_be in zip(answers, out.splitlines()[before:], wanted.splitlines(), strict=True):
            if got != must_be or err:
                yield f"{name}: {pair[0]}: {got} in place of {must_be} {err}"


def verdict_of(path, data):
    """The verdict of a program on a client's datagram, in hexadecimal digits."""
    _, out, _ = run(["trace", path, "--data", data])
    return int(re.search(r"^exit (\d+)$", out, re.MULTILINE)[1])


def verdicts_by_hand():
    """Yields the kept programs whose verdicts on datagrams are others than those of rows that are worked out by hand."""
    for name, decided in DECIDED.items():
        for data, wanted in decided:
            if (verdict := verdict_of(COMPILED / f"{name}.bpf", data)) != wanted:
                yield f"{name} on {data}: {verdict} in place of {wanted}"


def session_of_page(folder):
    """Yields what the session of media isn't as its description says."""
    text, stored, wanted = (FOLDER / f"media.{end}" for end in ("txt", "events", "expected"))
    if described.lines_of(text.read_text(encoding="utf-8")) != tuple(path.read_text(encoding="utf-8") for path in (stored, wanted)):
        yield "media.events or media.expected is another one than examples/events.py writes"
    words = ["--users", TOP / "examples" / "users.txt", "--relay-ip", "203.0.113.1"]
    _, out, err = run(["replay", stored, *words, "--client", COMPILED / "deny_private_media_only.bpf"])
    if out != wanted.read_text(encoding="utf-8") or err:
        yield f"media.events: {out}{err}"
    for row, fields in WRITTEN:
        line = described.lines_of(lines_of(row))[0].split(" ", 3)[-1].strip()
        if line != fields:
            yield f"{row}: {line} in place of {fields}"


def compiler():
    """The environment of `build.sh`, or None where a part of LLVM is missing."""
    found = {"RELAYD": str(PROGRAM)}
    for name, tool in (("CLANG", "clang"), ("OBJCOPY", "llvm-objcopy"), ("READELF", "llvm-readelf")):
        path = next((path for suffix in ("", "-14", "-15", "-16", "-19") if (path := shutil.which(tool + suffix))), None)
        if path is None:
            return None
        found[name] = path
    return {**os.environ, **found}


def compile_text(environment, text, target, flags):
    """Compiles a text, and returns the status and all that was printed."""
    ran = subprocess.run([FOLDER / "build.sh", text, target], env={**environment, "CFLAGS": flags}, capture_output=True, text=True, check=False)
    return ran.returncode, ran.stdout + ran.stderr


def compiled(environment, folder):
    """Yields the programs that are compiled, by the level and the version, and what isn't accepted."""
    for level, version in itertools.product(LEVELS, VERSIONS):
        at = folder / f"{level}{version}"
        at.mkdir()
        programs = {}
        for name in SIDES:
            programs[name] = at / f"{name}.bpf"
            status, printed = compile_text(environment, FOLDER / f"{name}.c", programs[name], f"{level} -mcpu={version}")
            if status or not printed.startswith("accepted "):
                yield None, f"{name} {level} {version}: {printed}"
        yield programs, None


def text_of_page(environment, folder):
    """Yields what is said of the C text of the page, where it isn't accepted."""
    path = folder / "mine.c"
    path.write_text(re.search(r"^```c\n(.*?)^```$", PAGE.read_text(encoding="utf-8"), re.MULTILINE | re.DOTALL)[1], encoding="utf-8")
    status, printed = compile_text(environment, path, folder / "mine.bpf", "")
    if status or not printed.startswith("accepted "):
        yield f"the text of {PAGE.name}: {printed}"


def wrong_texts(environment, folder):
    """Yields the texts that can't become a program, where that isn't said."""
    for number, (text, said) in enumerate(WRONG):
        path = folder / f"wrong{number}.c"
        path.write_text(f'#include "relayd.h"\n{text}\n', encoding="utf-8")
        status, printed = compile_text(environment, path, folder / "wrong.bpf", "")
        if status == 0 or said not in printed:
            yield f"{said!r} isn't said of {text!r}: {printed}"


def body_of(folder, name, body):
    """Writes a function to a file of a folder, and returns its path."""
    path = folder / f"{name}.c"
    path.write_text(f'#include "stun.h"\nint program(struct context *ctx) {{\n{body}}}\n', encoding="utf-8")
    return path


def idioms(environment, folder):
    """Yields the small rules that aren't refused as they are written first, by clang 14, and aren't accepted as they are then."""
    version = subprocess.run([environment["CLANG"], "--version"], capture_output=True, text=True, check=True).stdout
    target = folder / "idiom.bpf"
    for idiom in IDIOMS:
        if "clang version 14." in version:
            status, printed = compile_text(environment, body_of(folder, "first", idiom.first), target, "")
            if status == 0 or not re.search(idiom.said, printed):
                yield f"{idiom.name}: {idiom.said!r} isn't said: {printed}"
        status, printed = compile_text(environment, body_of(folder, "then", idiom.then), target, "")
        if status or not printed.startswith("accepted "):
            yield f"{idiom.name}: {printed}"
            continue
        for data, wanted in idiom.runs:
            if (verdict := verdict_of(target, data)) != wanted:
                yield f"{idiom.name} on {data}: {verdict} in place of {wanted}"


def exits(environment, folder):
    """Yields what isn't so of two ways to discard: by `return` they have one exit, and by DISCARD_AS two."""
    for name, third, fourth, count in (("return", "3", "4", 1), ("exits", "DISCARD_AS(3)", "DISCARD_AS(4)", 3)):
        body = (f"  u8 *data = ctx->data;\n  if (data + 1 > ctx->end)\n    return {third};\n"
                f"  return *data == 7 ? {fourth} : RULES;\n")
        target = folder / f"{name}.bpf"
        _, printed = compile_text(environment, body_of(folder, name, body), target, "")
        _, text, _ = run(["disassemble", target])
        verdicts = [verdict_of(target, data) for data in ("", "07", "08")]
        if text.count("exit") != count or verdicts != [3, 4, 1]:
            yield f"{name}: {verdicts}, {printed}{text}"


def build_script(environment, folder):
    """Yields what `build.sh` says otherwise of its words, its tools, and what lies beside a function."""
    path = folder / "beside.c"
    path.write_text(f'#include "relayd.h"\n{BESIDE}\n', encoding="utf-8")
    status, printed = compile_text(environment, path, folder / "beside.bpf", "")
    if status or "accepted " not in printed:
        yield f"strings that nothing refers to: {printed}"
    for changed, said in (({"CLANG": "no-clang"}, "no-clang is needed: it is a part of LLVM\n"),
                          ({"BPF_CC": "no-gcc"}, "no-gcc is needed: it is GCC's compiler for BPF\n")):
        status, printed = compile_text({**environment, **changed}, path, folder / "beside.bpf", "")
        if (status, printed) != (1, said):
            yield f"{changed}: {printed}"
    ran = subprocess.run([FOLDER / "build.sh", path], env=environment, capture_output=True, text=True, check=False)
    if ran.returncode != 1 or not ran.stderr.startswith("usage: "):
        yield f"one word: {ran.stderr}"


def by_gcc(environment, folder, short):
    """Yields what the programs that GCC makes answer otherwise, and those that aren't accepted."""
    at = folder / "gcc"
    at.mkdir()
    programs = {name: at / f"{name}.bpf" for name in SIDES}
    for name, target in programs.items():
        status, printed = compile_text({**environment, "BPF_CC": GCC}, FOLDER / f"{name}.c", target, "")
        if status or not printed.startswith("accepted "):
            yield f"{name} by GCC: {printed}"
            return
    yield from replayed(folder, programs, short)


def main():
    """Runs every program, and returns the exit status."""
    build()
    failures, count = [], 0
    events = list(rows())
    with tempfile.TemporaryDirectory() as name:
        folder = pathlib.Path(name)
        kept = {name: COMPILED / f"{name}.bpf" for name in SIDES}
        failures += [*replayed(folder, kept, events), *answers_by_hand(folder), *verdicts_by_hand(), *session_of_page(folder)]
        environment = compiler()
        if not environment:
            PASSED_OVER.append("what is compiled (no clang, or no objcopy or readelf of LLVM)")
        elif not shutil.which(GCC):
            PASSED_OVER.append(f"what GCC compiles (no {GCC})")
        if environment:
            for part in (text_of_page, wrong_texts, idioms, exits, build_script):
                failures += part(environment, folder)
            # one list of events for each program, and its beginning
            short = list({name: (name, pairs[:FEW], words) for name, pairs, words in reversed(events)}.values())
            for programs, failure in compiled(environment, folder):
                failures += [failure] if failure else replayed(folder, programs, short)
                count += 0 if failure else len(programs)
            if shutil.which(GCC):
                failures += by_gcc(environment, folder, short)
                count += len(SIDES)
    replays = collections.Counter(name for name, _, _ in events)
    return finish(failures, f"C programs: {len(kept)} kept ones, {sum(replays.values())} lists of events, {count} compiled, "
                  f"{len(failures)} failures")


if __name__ == "__main__":
    sys.exit(main())
