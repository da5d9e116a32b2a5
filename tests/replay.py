"""Runs the built relayd's `replay` over sessions, options, faults and outputs.

The session of examples/ is written anew from its description, and its answers are those that the description says. The
session of Chromium has stored answers of another implementation. Each further case gives the words, the status and the whole text
that relayd has to print to each stream.
"""

import pathlib
import re
import sys
import tempfile

from lib.program import TOP, explained, finish, run

sys.path.insert(0, str(TOP / "examples"))
import events
from lib.rules import (
    DATA, ERROR_CODE, FAMILY, LIFETIME, NONCE, REALM, SEND, TRANSPORT, UNKNOWN_ATTRIBUTES, USERNAME, XOR_MAPPED_ADDRESS,
    XOR_PEER_ADDRESS, XOR_RELAYED_ADDRESS, address_value, key_of, message)

EXAMPLES = TOP / "examples"
SESSION = TOP / "crates" / "call_tests"
USER = ["--user", "u:p"]
# `exit`, which is refused since r0 is not set
BAD = bytes.fromhex("9500000000000000")
# `mov r0, 1` and `exit`: every datagram is passed on to the rules, and those of peers are discarded
PASS = bytes.fromhex("b700000001000000 9500000000000000")
LONG_NONCE = ["--nonce", "n" * 65]
SPACED_NONCE = ["--nonce", "a b"]
TWICE = ["--user", "u:q"]
BAD_CLIENT = ["--client", "bad"]
BAD_PEER = ["--peer", "bad"]
NO_CLIENT = ["--client", "missing"]
NO_PEER = ["--peer", "missing"]
UNREAD = "cannot read missing\n"
REFUSED = f"refused V5 at 0 in bad\n{explained('bad')}"
BINDING = f"c 1000 {'0' * 24} 198.51.100.2:4000 000100002112a442{'0' * 24}\n"
BOUND = f"c 198.51.100.2:4000 0101000c2112a442{'0' * 24}0020000800012eb2e721c040\n"
# a new nonce and an Allocate request without attributes, and the answer to this
RENEWED = f"n n2\nc 1000 {'0' * 24} 198.51.100.2:4000 000300002112a442{'0' * 24}\n"
UNSIGNED = (
    f"c 198.51.100.2:4000 0113002c2112a442{'0' * 24}00090013000004"
    "01556e61757468656e74696361746564000014000572656c6179000000001500026e320000\n"
)
IP6 = "20010db80000000000000000000000Ab"
PEER6 = "[20010db8000000000000000000000001]:5000"


def allocate(kind, *given, name="u", password="p"):
    """A message of a signed Allocate exchange of a user, in the transaction of zeros."""
    return message(kind, bytes(12), list(given), key_of(name, "relay", password)).hex()


# an Allocate request for an IPv6 address, the error 440, and the response with [2001:db8::ab]:49152: the port is xored with
# 0x2112, and the address with the cookie and the transaction id
ALLOCATE6 = allocate(
    0x0003, (TRANSPORT, b"\x11\0\0\0"), (FAMILY, b"\2\0\0\0"), (USERNAME, b"u"), (REALM, b"relay"), (NONCE, b"n1"))
NO_FAMILY = f"c 198.51.100.2:4000 {allocate(0x0113, (ERROR_CODE, bytes([0, 0, 4, 40]) + b'Address Family not Supported'))}\n"
# and 127.0.0.1:49152, and the client's own address
RELAYED_VALUE = bytes.fromhex("0001e1125e12a443")
RELAYED6_VALUE = bytes.fromhex("0002e1120113a9fa" + "0" * 22 + "ab")
MAPPED_VALUE = bytes.fromhex("00012eb2e721c040")
RELAYED6 = "c 198.51.100.2:4000 " + allocate(
    0x0103, (XOR_RELAYED_ADDRESS, RELAYED6_VALUE), (LIFETIME, (600).to_bytes(4, "big")), (XOR_MAPPED_ADDRESS, MAPPED_VALUE)) + "\n"
# a Binding request with two types that aren't understood, and the error 420, which has them in their order
UNKNOWN = message(0x0001, bytes(12), [(0x0102, b""), (0x0100, b"")]).hex()
NOT_UNDERSTOOD = "c 198.51.100.2:4000 " + message(
    0x0111, bytes(12), [(ERROR_CODE, bytes([0, 0, 4, 20]) + b"Unknown Attribute"), (UNKNOWN_ATTRIBUTES, b"\1\2\1\0")]).hex() + "\n"
# the words after `replay`, the status, standard error; nothing is printed to standard output. The faults come in the
# order of the command line, the files of users and of the secret, the nonce's length, the programs, the fields and the events, so the
# second fault of a case is not named.
FAULTS = [
    (["missing"], 2, "error: '--user <NAME:PASSWORD>', '--users <FILE>' or '--secret <FILE>' is required\n"),
    (["--user", "up", "missing"], 2, "error: invalid value 'up' for '--user <NAME:PASSWORD>'\n"),
    ([*USER, "--slots", "x", *LONG_NONCE, "events"], 2, "error: invalid value 'x' for '--slots <N>'\n"),
    ([*USER, "--slots", "-1", "events"], 2, None),
    # what asks for two reports, before a file is read
    ([*USER, "--against", "missing", "--cover", "events"], 2, "error: the argument '--against <FILE>' cannot be used with '--cover'\n"),
    ([*USER, "--against-peer", "missing", "--trace", "1", "--cover", "events"], 2,
     "error: the argument '--against-peer <FILE>' cannot be used with '--trace <N>'\n"),
    ([*USER, "--slots=-1", "events"], 2, "error: invalid value '-1' for '--slots <N>'\n"),
    ([*USER, "--slots", "18446744073709551616", "events"], 2, None),
    ([*USER, "--first-port", "65536", "events"], 2, "error: invalid value '65536' for '--first-port <P>'\n"),
    ([*USER, "--first-port", "", "events"], 2, "error: invalid value '' for '--first-port <P>'\n"),
    ([*USER, "--relay-ip", "1.2.3", "events"], 2, "error: invalid value '1.2.3' for '--relay-ip <A>'\n"),
    ([*USER, "--relay-ip", "1.2.3.256", "events"], 2, "error: invalid value '1.2.3.256' for '--relay-ip <A>'\n"),
    ([*USER, "--relay-ip", "::1", "events"], 2, "error: invalid value '::1' for '--relay-ip <A>'\n"),
    ([*USER, "--relay-ip6", "::1", "events"], 2, "error: invalid value '::1' for '--relay-ip6 <HEX>'\n"),
    ([*USER, "--relay-ip6", "", "events"], 2, "error: invalid value '' for '--relay-ip6 <HEX>'\n"),
    ([*USER, "--relay-ip6", "0" * 31, "events"], 2, f"error: invalid value '{'0' * 31}' for '--relay-ip6 <HEX>'\n"),
    ([*USER, "--relay-ip6", "0" * 33, "events"], 2, None),
    ([*USER, "--relay-ip6", "0" * 34, "events"], 2, None),
    ([*USER, "--relay-ip6", "0" * 31 + "g", "events"], 2, None),
    ([*USER, "--relay-ip6", "0" * 31 + "g", "--users", "missing", "events"], 2, None),
    ([*USER, "--confine", "--same-as", "192.0.2.1", "events"], 2, "error: invalid value '192.0.2.1' for '--same-as <A=B>'\n"),
    ([*USER, "--confine", "--same-as", "192.0.2.1=", "events"], 2, "error: invalid value '192.0.2.1=' for '--same-as <A=B>'\n"),
    ([*USER, "--confine", "--same-as", "=::1", "events"], 2, "error: invalid value '=::1' for '--same-as <A=B>'\n"),
    ([*USER, "--confine", "--same-as", "1.2.3.4=1.2.3.4=::1", "events"], 2, "error: invalid value '1.2.3.4=1.2.3.4=::1' for '--same-as <A=B>'\n"),
    ([*USER, "--confine", *["--same-as", "1.2.3.4=::1"] * 17, "--users", "missing", "events"], 2, "error: more than 16 of '--same-as <A=B>'\n"),
    ([*USER, "--same-as", "1.2.3.4=::1", "--users", "missing", "events"], 2, "error: '--same-as <A=B>' needs confined programs\n"),
    ([*USER, "--confine", *["--same-as", "1.2.3.4=::1"] * 16, "--slots", "0", "events"], 1, "refused slots\n"),
    (["--users", "missing", *LONG_NONCE, "events"], 3, UNREAD),
    (["--users", "bad_users", *LONG_NONCE, "events"], 1, "refused users at line 2: no colon\n"),
    (["--users", "bytes", "events"], 3, "cannot read bytes\n"),
    ([*USER, *LONG_NONCE, *BAD_CLIENT, "events"], 1, "refused nonce\n"),
    ([*USER, *LONG_NONCE, *NO_CLIENT, "events"], 1, "refused nonce\n"),
    ([*USER, *LONG_NONCE, "--first-port", "0", "events"], 1, "refused nonce\n"),
    ([*USER, *BAD_CLIENT, "--peer", "empty", "events"], 1, REFUSED),
    ([*USER, "--client", "empty", *BAD_PEER, "events"], 1, f"refused E1 in empty\n{explained('empty')}"),
    ([*USER, *BAD_CLIENT, *NO_PEER, "events"], 1, REFUSED),
    ([*USER, *NO_CLIENT, *BAD_PEER, "events"], 3, UNREAD),
    ([*USER, *NO_CLIENT, "--slots", "0", "events"], 3, UNREAD),
    ([*USER, *BAD_PEER, "--slots", "0", "events"], 1, REFUSED),
    ([*USER, *NO_PEER, *SPACED_NONCE, "events"], 3, UNREAD),
    ([*USER, "--first-port", "0", "--slots", "0", "events"], 1, "refused first_port\n"),
    ([*USER, "--first-port", "0", *SPACED_NONCE, "events"], 1, "refused first_port\n"),
    ([*USER, "--slots", "0", "--realm", "", "events"], 1, "refused slots\n"),
    ([*USER, "--slots", "257", "events"], 1, "refused slots\n"),
    ([*USER, "--slots", "2", "--first-port", "65535", "events"], 1, "refused slots\n"),
    ([*USER, "--realm", "", *SPACED_NONCE, "events"], 1, "refused realm\n"),
    ([*USER, *TWICE, *SPACED_NONCE, "events"], 1, "refused nonce\n"),
    ([*USER, "--nonce", "", "events"], 1, "refused nonce\n"),
    ([*USER, *TWICE, "missing"], 1, "refused users\n"),
    (["--users", "empty", "missing"], 1, "refused users\n"),
    ([*USER, "--users", "users", "events"], 1, "refused users at line 1: a name that an earlier user has\n"),
    (["--secret", "missing", *LONG_NONCE, "events"], 3, UNREAD),
    (["--users", "bad_users", "--secret", "missing", "events"], 1, "refused users at line 2: no colon\n"),
    (["--secret", "three_lines", *LONG_NONCE, "events"], 1, "refused secret at line 3\n"),
    (["--secret", "short_former", "events"], 1, "refused secret\n"),
    (["--secret", "three_lines", "--revoked", "missing", "events"], 1, "refused secret at line 3\n"),
    (["--user", "u:p", "--revoked", "missing", "events"], 3, "cannot read missing\n"),
    (["--user", "u:p", "--revoked", "bad_revoked", *LONG_NONCE, "events"], 1, "refused revoked users at line 2: a name with a colon\n"),
    (["--secret", "bytes", "events"], 3, "cannot read bytes\n"),
    (["--secret", "15_bytes", *SPACED_NONCE, "events"], 1, "refused nonce\n"),
    ([*USER, *TWICE, "--secret", "15_bytes", "events"], 1, "refused users\n"),
    (["--secret", "empty", "missing"], 1, "refused secret\n"),
    (["--secret", "15_bytes", "missing"], 1, "refused secret\n"),
    (["--secret", "16_bytes", "missing"], 3, UNREAD),
    (["--secret", "128_bytes", "missing"], 3, UNREAD),
    (["--secret", "129_bytes", "missing"], 1, "refused secret\n"),
    (["--users", "empty", "--secret", "16_bytes", "missing"], 3, UNREAD),
    ([*USER, "missing"], 3, UNREAD),
    ([*USER, "folder"], 3, "cannot read folder\n"),
]
# the words after `replay` and --user, the status, standard output, standard error
RUNS = [
    (["events"], 0, BOUND, ""),
    (["empty"], 0, "", ""),
    (["unended"], 0, BOUND, ""),
    # the answers before the refused line are printed
    (["second"], 1, BOUND, "refused line 2\n"),
    (["blank"], 1, "", "refused line 1\n"),
    # slot 16 is not there
    (["slot"], 1, "", "refused line 1\n"),
    (["--slots", "17", "slot"], 0, "-\n", ""),
    (["--", "events"], 0, BOUND, ""),
    # slot 15 is by default, and slots are there up to the last that is asked for
    (["slot15"], 0, "-\n", ""),
    (["--slots", "256", "slot255"], 0, "-\n", ""),
    # a new nonce, and a text that is none
    (["renewed"], 0, f"-\n{UNSIGNED}", ""),
    # the three kinds of lines as one file; then with a slot that is not there, and with a needless zero
    (["kinds"], 0, f"-\n{UNSIGNED}-\n", ""),
    (["kinds16"], 1, f"-\n{UNSIGNED}", "refused line 3\n"),
    (["kinds01000"], 1, "-\n", "refused line 2\n"),
    (["long_nonce"], 1, "-\n", "refused line 2\n"),
    (["unknown"], 0, NOT_UNDERSTOOD, ""),
    # a client over IPv6 is served nothing, and a peer may be over either family
    (["family6"], 0, f"-\n-\n{BOUND}", ""),
    # an IPv6 allocation: 440 where there is no address of that family, and digits of either case
    (["allocate6"], 0, NO_FAMILY, ""),
    (["--relay-ip6", IP6.lower(), "allocate6"], 0, RELAYED6, ""),
    (["--relay-ip6", IP6.upper(), "allocate6"], 0, RELAYED6, ""),
]
TX = "0" * 24
# texts of a file of users, with a name and a password that they have, or what is refused: blanks belong to a password, no name
# has any, and lines that are empty or begin with # have no user but are counted
FILES_OF_USERS = [
    ("u:p", "u", "p"),
    ("u:p\r\n", "u", "p"),
    ("u:p \n", "u", "p "),
    ("u: p\n", "u", " p"),
    ("v:q\nu:p#\n", "u", "p#"),
    ("v:q\nu:#p\n", "u", "#p"),
    (" u:p\n", "users at line 1: a name that has a byte that isn't allowed"),
    ("u :p\n", "users at line 1: a name that has a byte that isn't allowed"),
    ("u:p\t\n", "users at line 1: a password that has a byte that isn't allowed"),
    (":p\n", "users at line 1: a name that is empty"),
    (f"{'u' * 128}:p\nu:\n", "users at line 2: a password that is empty"),
    (f"u:p\n{'u' * 129}:p\n", "users at line 2: a name that has more than 128 bytes"),
    (f"u:{'p' * 129}\n", "users at line 1: a password that has more than 128 bytes"),
    ("v:q\n#\nv:q\n", "users at line 3: a name that an earlier user has"),
    ("".join(f"{number}:p\n" for number in range(65)), "users at line 65: more than 64 users"),
    ("# the users:\nu:p\n", "u", "p"),
    ("# the users\r\n\r\nu:p\r\n", "u", "p"),
    ("#v:q\n\n\nu:p\n#\n\n", "u", "p"),
    ("#u:p\n\n", "users"),
    ("# the users\n\nu:p\nv\n", "users at line 4: no colon"),
    (" # the users\nu:p\n", "users at line 1: no colon"),
    (" #u:p\n", "users at line 1: a name that has a byte that isn't allowed"),
    ("u:p\n \n", "users at line 2: no colon"),
]
# a Send indication after a ChannelBind, whose attribute that isn't understood is padded, comes first, and is ignored
IGNORED = message(SEND, bytes(12), [
    (0x8001, b"\xff"), (XOR_PEER_ADDRESS, address_value((bytes([192, 0, 2, 7]), 5000))), (DATA, b"abc")]).hex()
# the numbers of slots of which all are allocated, and the last one is used
NUMBERS_OF_SLOTS = [70, 256]
# the answers that a full output is asked to take: more than a buffer holds
MANY = 10_000
# lines that are no event's: an empty one, needless zeros, numbers too great, digits that are upper-case or odd, an id that is
# cut, a slot that isn't there, addresses that aren't over IPv4, fields that lack or are too many, and lines that are too long
NO_EVENTS = [
    "", "c", "c 1000", f"x 1000 {TX} 198.51.100.2:4000 -", f"c 01000 {TX} 198.51.100.2:4000 -", f"c  1000 {TX} 198.51.100.2:4000 -",
    f"c 18446744073709551616 {TX} 198.51.100.2:4000 -", f"c -1 {TX} 198.51.100.2:4000 -", f"c 1000 {TX[1:]} 198.51.100.2:4000 -",
    f"c 1000 {TX[1:]}A 198.51.100.2:4000 -", f"c 1000 {TX} 198.51.100.2:4000 AB", f"c 1000 {TX} 198.51.100.2:4000 abc",
    f"c 1000 {TX} 198.51.100.2:4000 ", f"c 1000 {TX} 198.51.100.2:4000", f"c 1000 {TX} 198.51.100.2:4000 - -",
    f"c 1000 {TX} 198.51.100.02:4000 -", f"c 1000 {TX} 198.51.100.256:4000 -", f"c 1000 {TX} 198.51.100.2:65536 -",
    f"c 1000 {TX} 198.51.100.2:04000 -", f"c 1000 {TX} 198.51.100:4000 -", f"c 1000 {TX} [::1]:4000 -",
    *(f"c 1000 {TX} {address} -" for address in (
        f"[{'0' * 31}]:4000", f"[{'0' * 33}]:4000", f"[{'0' * 31}A]:4000", f"[{'0' * 31}g]:4000", f"[{'0' * 32}]", f"[{'0' * 32}]:",
        f"[{'0' * 32}]:65536", f"[{'0' * 32}]:04000", f"[{'0' * 32}4000", f"{'0' * 32}:4000", f"[{'0' * 32}:4000", f"{'0' * 32}]:4000",
        f"[{'0' * 32}]]:4000", f"[[{'0' * 32}]:4000", f"[198.51.100.2]:4000", f"[{'0' * 32}%1]:4000")),
    f"p 1000 {TX} 16 192.0.2.7:5000 -", f"p 1000 {TX} 00 192.0.2.7:5000 -", f"p 1000 {TX} 192.0.2.7:5000 -",
    "n", "n ", "n a b", "n " + "a" * 65, f"c 1000 {TX} 198.51.100.2:4000 -\r", f"c 1000 {TX} 198.51.100.2:4000 -\t",
    f"c 1000 {TX} 198.51.100.2:4000 " + "00" * 65_508, "c" * 131_200, "c" * 131_201, "c" * 1_000_000]
# a description whose answers show the options, in the words of examples/events.py
SHOWN = """
user {name}:{password}
realm {realm}
nonce {nonce}
now 1
from client 198.51.100.2:4000
    Allocate request
to client 198.51.100.2:4000
    Allocate error
    ERROR-CODE 401 Unauthenticated
    REALM {realm}
    NONCE {nonce}
from client 198.51.100.2:4000
    Allocate request
    REQUESTED-TRANSPORT 17
    signed
to client 198.51.100.2:4000
    Allocate success
    XOR-RELAYED-ADDRESS {address}
    LIFETIME 600
    XOR-MAPPED-ADDRESS 198.51.100.2:4000
    signed
"""
# the longest datagrams, after an allocation with a channel: one more byte of data has no room in ChannelData
CHANNEL = """
from client 198.51.100.2:4000
    ChannelBind request
    CHANNEL-NUMBER 0x4001
    XOR-PEER-ADDRESS 192.0.2.7:5000
    signed
to client 198.51.100.2:4000
    ChannelBind success
    signed
"""
# after an allocation: a refresh for an hour, one that is refused since there is no allocation any more, and a peer's datagram
# without a permission, which is discarded
LATER = """
from client 198.51.100.2:4000
    Refresh request
    LIFETIME 3600
    signed
to client 198.51.100.2:4000
    Refresh success
    LIFETIME 3600
    signed
from client 198.51.100.2:4000
    Refresh request
    signed
to client 198.51.100.2:4000
    Refresh error
    ERROR-CODE 437 Allocation Mismatch
    signed
from peer 192.0.2.7:5000 at slot 0
    data nobody asked
nothing
"""
ALLOCATED, REFRESHED, ENDED, DISCARDED = range(1, 5)
# moments with the lines that come then, each answered as it is above
STORIES = [
    # a repeated request doesn't renew the allocation, which ends at 1600
    [(1000, ALLOCATED), (1599, ALLOCATED), (1600, ENDED)],
    # a repeated request is answered with the lifetime of the first answer
    [(1000, ALLOCATED), (1000, REFRESHED), (1001, ALLOCATED)],
    # the moment of a discarded datagram counts, and a later one before it does not
    [(1000, ALLOCATED), (2000, DISCARDED), (1200, ENDED)],
]
# the allocation of a slot by a client of its own, its channel, and a peer's datagram over it
SLOT = """
from client 198.51.100.2:{client}
    Allocate request
    REQUESTED-TRANSPORT 17
    signed
to client 198.51.100.2:{client}
    Allocate success
    XOR-RELAYED-ADDRESS 127.0.0.1:{port}
    LIFETIME 600
    XOR-MAPPED-ADDRESS 198.51.100.2:{client}
    signed
from client 198.51.100.2:{client}
    ChannelBind request
    CHANNEL-NUMBER 0x4001
    XOR-PEER-ADDRESS 192.0.2.7:5000
    signed
to client 198.51.100.2:{client}
    ChannelBind success
    signed
from peer 192.0.2.7:5000 at slot {slot}
    data to slot {slot}
to client 198.51.100.2:{client}
    ChannelData 0x4001 to slot {slot}
"""
# one client too many
NO_SLOT = """
from client 198.51.100.2:3999
    Allocate request
    REQUESTED-TRANSPORT 17
    signed
to client 198.51.100.2:3999
    Allocate error
    ERROR-CODE 508 Insufficient Capacity
    signed
"""
LONGEST_DATA = 65503
DEFAULTS = {"name": "u", "password": "p", "realm": "relay", "nonce": "n1", "address": "127.0.0.1:49152"}
# options, with what they change of the answers
OPTIONS = [
    (USER, {}),
    (["--user", "u:p:q"], {"password": "p:q"}),
    (["--user", "u:"], None),
    (["--user", "v:r", *USER], {}),
    (["--users", "users"], {}),
    (["--users", "users"], {"name": "second", "password": "a b:c"}),
    (["--users", "users", "--user", "third:x"], {"name": "third", "password": "x"}),
    ([*USER, "--realm", "example.org"], {"realm": "example.org"}),
    ([*USER, "--nonce", "n2"], {"nonce": "n2"}),
    ([*USER, "--relay-ip", "203.0.113.9"], {"address": "203.0.113.9:49152"}),
    ([*USER, "--first-port", "+0500"], {"address": "127.0.0.1:500"}),
]


def write_files(folder):
    """Writes the files that the cases name."""
    (folder / "bad").write_bytes(BAD)
    (folder / "pass").write_bytes(PASS)
    (folder / "bytes").write_bytes(b"u:\xff\n")
    (folder / "folder").mkdir()
    texts = {
        "empty": "",
        "events": BINDING,
        "unended": BINDING.rstrip("\n"),
        "second": f"{BINDING}c 1000\n{BINDING}",
        "blank": f"\n{BINDING}",
        "slot": f"p 1000 {TX} 16 192.0.2.7:5000 616263\n",
        "slot15": f"p 1000 {TX} 15 192.0.2.7:5000 616263\n",
        "slot255": f"p 1000 {TX} 255 192.0.2.7:5000 616263\n",
        "renewed": RENEWED,
        "kinds": f"{RENEWED}p 1000 {TX} 0 192.0.2.7:5000 616263\n",
        "kinds16": f"{RENEWED}p 1000 {TX} 16 192.0.2.7:5000 616263\n",
        "kinds01000": f"{RENEWED.replace('c 1000', 'c 01000')}p 1000 {TX} 0 192.0.2.7:5000 616263\n",
        "many": BINDING * MANY,
        "long_nonce": f"n {'n' * 64}\nn {'n' * 65}\n",
        "users": "u:p\nsecond:a b:c\n",
        "family6": f"{BINDING.replace('198.51.100.2:4000', PEER6)}p 1000 {TX} 0 {PEER6} 616263\n{BINDING}",
        "allocate6": f"c 1000 {TX} 198.51.100.2:4000 {ALLOCATE6}\n",
        "unknown": f"c 1000 {TX} 198.51.100.2:4000 {UNKNOWN}\n",
        "bad_users": "u:p\nup\n",
        "three_lines": "s" * 16 + "\n" + "t" * 16 + "\n\n",
        "short_former": "s" * 16 + "\n" + "t" * 15 + "\n",
        "bad_revoked": "a\n1:b\n",
        **{f"{count}_bytes": "s" * count + "\n" for count in (15, 16, 128, 129)},
    }
    for name, text in texts.items():
        (folder / name).write_text(text, encoding="utf-8")


def differences(name, got, wanted):
    """Yields the case if what it printed is not what is wanted, where a text that is None may be any but none."""
    alike = [seen == text or (text is None and seen) for seen, text in zip(got, wanted)]
    if not all(alike):
        yield f"{name}: {str(got)[:300]}"


def failures_of_example(_):
    """Yields what is wrong with the session of examples/: its files, its answers, and the reasons that docs/EVENTS.md says."""
    description = (EXAMPLES / "session.txt").read_text(encoding="utf-8")
    stored = [(EXAMPLES / f"session.{kind}").read_text(encoding="utf-8") for kind in ("events", "expected")]
    if events.lines_of(description) != tuple(stored):
        yield "examples/session.events and session.expected are not those of session.txt"
    words = ["--users", str(EXAMPLES / "users.txt"), "--relay-ip", "203.0.113.1", str(EXAMPLES / "session.events")]
    yield from differences("the session of examples/", run(["replay", *words]), (0, stored[1], ""))
    page = (TOP / "docs" / "EVENTS.md").read_text(encoding="utf-8")
    reasons = re.findall(r"^\| \d+ \| \d+ \|.*\| `([^`]+)` \|$", page, re.MULTILINE)
    explained_lines = "".join(f"{line} ; {reason}\n" for line, reason in zip(stored[1].splitlines(), reasons, strict=True))
    yield from differences("the session of examples/ --why", run(["replay", *words, "--why"]), (0, explained_lines, ""))


def failures_of_chromium(folder):
    """Yields what is wrong with the session of Chromium, from a file, from standard input, and with other programs."""
    session = str(SESSION / "stdin")
    stored = (SESSION / "stdout").read_text(encoding="utf-8")
    sources = (SESSION / "stdin").read_text(encoding="utf-8").splitlines()
    answers = [answer if source[0] == "c" else "-" for source, answer in zip(sources, stored.splitlines())]
    discarded = "".join(f"{answer}\n" for answer in answers)
    yield from differences("chromium", run(["replay", *USER, session]), (0, stored, ""))
    for words, wanted in ((["--client", "pass"], stored), (["--peer", "pass"], discarded)):
        got = run(["replay", *USER, *words, session], cwd=folder)
        yield from differences(f"chromium {words}", got, (0, wanted, ""))
    with open(session, encoding="utf-8") as source:
        yield from differences("chromium -", run(["replay", *USER, "-"], stdin=source), (0, stored, ""))


def failures_of_faults(folder):
    """Yields the faults that are not named, or not first."""
    for words, status, err in FAULTS:
        got = run(["replay", *words], cwd=folder)
        yield from differences(" ".join(words)[:80], got, (status, "", err))


def failures_of_runs(folder):
    """Yields the runs that do not end as they have to."""
    for words, *wanted in RUNS:
        got = run(["replay", *USER, *words], cwd=folder)
        yield from differences(" ".join(words), got, wanted)


def failures_of_options(folder):
    """Yields the options, and the defaults, whose answers are not those that they have to be."""
    for words, changes in OPTIONS:
        if changes is None:
            got = run(["replay", *words, "events"], cwd=folder)
            yield from differences(" ".join(words), got, (1, "", "refused users\n"))
            continue
        lines, answers = events.lines_of(SHOWN.format(**{**DEFAULTS, **changes}))
        (folder / "shown").write_text(lines, encoding="utf-8")
        got = run(["replay", *words, "shown"], cwd=folder)
        yield from differences(" ".join(words), got, (0, answers, ""))


def failures_of_stories(folder):
    """Yields the stories of which an answer is another one."""
    lines, answers = (text.splitlines() for text in events.lines_of(SHOWN.format(**DEFAULTS) + LATER))
    for story in STORIES:
        later = []
        for now, index in story:
            kind, _, rest = lines[index].split(" ", 2)
            later.append(f"{kind} {now} {rest}\n")
        (folder / "story").write_text("".join(later), encoding="utf-8")
        wanted = "".join(f"{answers[index]}\n" for _, index in story)
        yield from differences(str(story), run(["replay", *USER, "story"], cwd=folder), (0, wanted, ""))


def failures_of_users(folder):
    """Yields the files of users whose user, or whose line that is refused, is another one."""
    for text, *wanted in FILES_OF_USERS:
        with open(folder / "texts", "w", encoding="utf-8", newline="") as file:
            file.write(text)
        if len(wanted) == 1:
            (folder / "line").write_text("", encoding="utf-8")
            end = 1, "", f"refused {wanted[0]}\n"
        else:
            name, password = wanted
            request = allocate(0x0003, (TRANSPORT, b"\x11\0\0\0"), (USERNAME, name.encode()), (REALM, b"relay"), (NONCE, b"n1"),
                               name=name, password=password)
            answer = allocate(0x0103, (XOR_RELAYED_ADDRESS, RELAYED_VALUE), (LIFETIME, (600).to_bytes(4, "big")),
                              (XOR_MAPPED_ADDRESS, MAPPED_VALUE), name=name, password=password)
            (folder / "line").write_text(f"c 1000 {TX} 198.51.100.2:4000 {request}\n", encoding="utf-8")
            end = 0, f"c 198.51.100.2:4000 {answer}\n", ""
        got = run(["replay", "--users", "texts", "line"], cwd=folder)
        yield from differences(f"the users {text!r}", got, end)


def failures_of_slots(folder):
    """Yields what is answered otherwise where each of many slots is allocated and used, and one client more asks for one."""
    for count in NUMBERS_OF_SLOTS:
        slots = [SLOT.format(slot=slot, client=4000 + slot, port=49152 + slot) for slot in range(count)]
        lines, answers = events.lines_of("user u:p\nrealm relay\nnonce n1\nnow 1\n" + "".join(slots) + NO_SLOT)
        (folder / "slots").write_text(lines, encoding="utf-8")
        got = run(["replay", *USER, "--slots", str(count), "slots"], cwd=folder)
        yield from differences(f"{count} slots", got, (0, answers, ""))


def failures_of_ignored(folder):
    """Yields what is answered otherwise to a Send indication with an attribute that is ignored."""
    lines, answers = events.lines_of(SHOWN.format(**DEFAULTS) + CHANNEL)
    (folder / "ignored").write_text(f"{lines}c 1 {TX} 198.51.100.2:4000 {IGNORED}\n", encoding="utf-8")
    got = run(["replay", *USER, "ignored"], cwd=folder)
    yield from differences("an ignored attribute", got, (0, f"{answers}p 0 192.0.2.7:5000 616263\n", ""))


def from_peer(count, answered):
    """Returns the description of a peer's datagram of `count` bytes, answered by ChannelData or not."""
    text = "x" * count
    answer = f"to client 198.51.100.2:4000\n    ChannelData 0x4001 {text}" if answered else "nothing"
    return f"from peer 192.0.2.7:5000 at slot 0\n    data {text}\n{answer}\n"


def failures_of_sizes(folder):
    """Yields what is wrong with datagrams of the greatest sizes, and with a line that has one byte more."""
    sizes = [from_peer(LONGEST_DATA, True), from_peer(LONGEST_DATA + 1, False), from_peer(LONGEST_DATA + 4, False)]
    lines, answers = events.lines_of(SHOWN.format(**DEFAULTS) + CHANNEL + "".join(sizes))
    last, _ = events.lines_of(from_peer(LONGEST_DATA + 5, False))
    (folder / "longest").write_text(lines + last, encoding="utf-8")
    got = run(["replay", *USER, "longest"], cwd=folder)
    yield from differences("the longest datagrams", got, (1, answers, "refused line 7\n"))


def failures_of_lines(folder):
    """Yields the lines that are no event's and are not refused, each after a good one."""
    for line in NO_EVENTS:
        (folder / "line").write_text(BINDING + line + "\n" + BINDING, encoding="utf-8")
        got = run(["replay", *USER, "line"], cwd=folder)
        yield from differences(line[:60], got, (1, BOUND, "refused line 2\n"))


def failures_of_output(folder):
    """Yields the outputs that fail and are not reported."""
    for words in (["events"], ["second"], ["-"], ["many"]):
        with open("/dev/full", "w", encoding="utf-8") as full, open(folder / "events", encoding="utf-8") as source:
            got = run(["replay", *USER, *words], cwd=folder, stdout=full, stdin=source, timeout=60)
        if got != (3, None, "cannot write output\n"):
            yield f"{words}, output full: {got}"


def main():
    """Runs every case, and returns the exit status."""
    cases = (
        failures_of_example,
        failures_of_chromium,
        failures_of_faults,
        failures_of_runs,
        failures_of_options,
        failures_of_stories,
        failures_of_users,
        failures_of_slots,
        failures_of_ignored,
        failures_of_sizes,
        failures_of_lines,
        failures_of_output,
    )
    with tempfile.TemporaryDirectory() as name:
        folder = pathlib.Path(name)
        write_files(folder)
        failures = [found for case in cases for found in case(folder)]
    return finish(failures, f"replays: {len(failures)} failures")


if __name__ == "__main__":
    sys.exit(main())
