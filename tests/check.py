"""Checks servers by `relayd check`: servers that serve, refuse, answer late, answer something else, or not at all.

    tests/check.py
"""

import contextlib
import os
import re
import signal
import socket
import subprocess
import sys
import threading
import time

from lib.program import PROGRAM, run_parts
from lib.rules import (
    ALLOCATE, BINDING as BINDING_REQUEST, CREATE_PERMISSION, DATA, DATA_INDICATION, ERROR_CODE, FAMILY, LIFETIME, NONCE, REALM,
    REFRESH, SEND, USERNAME, XOR_MAPPED_ADDRESS, XOR_PEER_ADDRESS, XOR_RELAYED_ADDRESS, address_in, address_value, message, read)
from lib.server import LOOPBACK, LOOPBACK6, USER, Client, Server, address_of, run, udp_socket, wanted

# how long a step took, in the lines of a check
TOOK = re.compile(r"\d+\.\d ms")
BINDING_ERROR = 0x0111
# an address that nothing can be sent to, and what a check says of it
NOWHERE = LOOPBACK, 0
UNSENT = "no answer to a datagram to the relayed address\n"


def checked(port, *more):
    """Runs a check of a port of loopback, and returns its status and what it printed, without ports and times."""
    status, out, err = run(["check", f"127.0.0.1:{port}", *more])
    out = re.sub(r"this client is 127\.0\.0\.1:\d+", "this client is 127.0.0.1", out)
    return status, TOOK.sub("T", out), err


BINDING = "this client is 127.0.0.1: Binding, T\n"


def steps(server, *lines):
    """What is printed of an allocation of the first slot of a server, as far as some lines."""
    allocation = f"127.0.0.1:{server.first_port} for 600 s: Allocate, T\n"
    return BINDING + allocation + "".join(f"{line}, T\n" for line in lines)


def serving():
    """Yields what a check says otherwise of a server that serves, and that the allocation of a check is not ended."""
    with Server(slots=1) as server:
        yield from wanted("without a user", checked(server.port), (0, BINDING, ""))
        for turn in ("first", "second"):
            all_steps = steps(server, "CreatePermission", "a datagram to the relayed address", "a datagram from the relayed address")
            yield from wanted(f"the {turn} check with a user", checked(server.port, *USER), (0, all_steps, ""))
        by_name = run(["check", f"localhost:{server.port}"])
        yield from wanted("by a name", (by_name[0], by_name[2]), (0, ""))


def refusing():
    """Yields what a check says otherwise of requests that are refused."""
    with Server(slots=1) as server, Client(server) as client:
        yield from wanted("a wrong password", checked(server.port, "--user", "u:q"), (1, BINDING, "Allocate: error 401\n"))
        yield from wanted("a name that nobody has", checked(server.port, "--user", "v:p"), (1, BINDING, "Allocate: error 401\n"))
        yield from wanted("a long name", checked(server.port, "--user", "u" * 2_000 + ":p"),
                          (1, BINDING, "a request is too long: see the name of the user\n"))
        client.allocate()
        yield from wanted("no slot that is free", checked(server.port, *USER), (1, BINDING, "Allocate: error 508\n"))


def denying():
    """Yields what a check says otherwise where nothing is sent to the client as a peer, and whether the allocation is left."""
    with Server("--deny", "127.0.0.0/8", slots=1) as server:
        for turn in ("first", "second"):
            lines = steps(server, "CreatePermission", "a datagram to the relayed address")
            yield from wanted(f"the {turn} check of a denied client", checked(server.port, *USER),
                              (1, lines, "no answer to a datagram from the relayed address\n"))


@contextlib.contextmanager
def answering(answers):
    """A socket of loopback that answers the datagrams that come with these, in turn: bytes made of a datagram, or `None`."""
    with udp_socket() as bound:
        def serve():
            for answer in answers:
                datagram, client = bound.recvfrom(2_000)
                if (reply := answer(datagram)) is not None:
                    bound.sendto(reply, client)
        thread = threading.Thread(target=serve)
        thread.start()
        yield bound.getsockname()[1]
        thread.join()


def error_of(datagram, value):
    """An error response to a Binding request."""
    return message(BINDING_ERROR, read(datagram).transaction_id, [(ERROR_CODE, value)])


def others():
    """Yields what a check says otherwise of what is no server."""
    unexpected = (1, "", "Binding: not a response to it\n")
    garbage = [lambda datagram: b"\0" * 20, lambda datagram: None, lambda datagram: datagram]
    with answering(garbage) as port:
        yield from wanted("garbage, nothing, and then the request itself", checked(port), unexpected)
    with answering([lambda datagram: message(0x0101, read(datagram).transaction_id, [])]) as port:
        yield from wanted("a success without an address", checked(port), unexpected)
    with answering([lambda datagram: message(0x0103, read(datagram).transaction_id, [])]) as port:
        yield from wanted("a response of another method", checked(port), unexpected)
    with answering([lambda datagram: error_of(datagram, bytes([0, 0, 5, 0]))]) as port:
        yield from wanted("an error", checked(port), (1, "", "Binding: error 500\n"))
    with answering([lambda datagram: error_of(datagram, bytes(3))]) as port:
        yield from wanted("an error without a code", checked(port), (1, "", "Binding: error 0\n"))
    with udp_socket() as bound:
        yield from wanted("nobody answers", checked(bound.getsockname()[1]), (1, "", "no answer to Binding\n"))


def answers_of(request, client, relayed):
    """The class of the response to a request of a check, and its attributes, with this relayed address: an Allocate request without a
    user is answered 401."""
    tx = request.transaction_id
    if request.kind == ALLOCATE and request.first(USERNAME) is None:
        return 0x0110, [(ERROR_CODE, bytes([0, 0, 4, 1])), (REALM, b"r"), (NONCE, b"n")]
    return 0x0100, {
        BINDING_REQUEST: [(XOR_MAPPED_ADDRESS, address_value((LOOPBACK, client[1]), tx))],
        ALLOCATE: [(XOR_RELAYED_ADDRESS, address_value(relayed, tx)), (LIFETIME, bytes([0, 0, 2, 88]))],
        CREATE_PERMISSION: [],
        REFRESH: [],
    }[request.kind]


@contextlib.contextmanager
def replying(reply, family=socket.AF_INET):
    """The port of a socket of loopback that answers requests, and the kinds of those that have come: `reply` makes the class of a
    response and its attributes of a request and its source."""
    kinds = []
    with socket.socket(family, socket.SOCK_DGRAM) as bound:
        bound.bind(("127.0.0.1" if family == socket.AF_INET else "::1", 0))

        def serve():
            while datagram := (came := bound.recvfrom(2_000))[0]:
                request = read(datagram)
                kinds.append(request.kind)
                response, attributes = reply(request, came[1])
                bound.sendto(message(response | request.kind, request.transaction_id, attributes), came[1])
        thread = threading.Thread(target=serve)
        thread.start()
        try:
            yield bound.getsockname()[1], kinds
        finally:
            # an empty datagram ends it
            bound.sendto(b"", bound.getsockname())
            thread.join()


def error(code, *more):
    """The class of an error response, and its attributes."""
    return 0x0110, [(ERROR_CODE, bytes([0, 0, code // 100, code % 100])), *more]


def stale_nonces():
    """Yields what a check says otherwise of a server that replaces its nonce after each request that it grants: each is asked once
    more, with the new one."""
    nonces = [b"n"]

    def reply(request, client):
        if request.first(USERNAME) is not None:
            if request.first(NONCE) != nonces[-1]:
                return error(438, (REALM, b"r"), (NONCE, nonces[-1]))
            nonces.append(nonces[-1] + b"n")
        return answers_of(request, client, NOWHERE)
    with replying(reply) as (port, kinds):
        status, out, err = checked(port, *USER)
    yield from wanted("the status and the line", (status, err), (1, UNSENT))
    yield from wanted("the last step that works", out.splitlines()[-1:], ["CreatePermission, T"])
    yield from wanted("the requests", kinds, [BINDING_REQUEST, ALLOCATE, ALLOCATE, *[CREATE_PERMISSION] * 2, *[REFRESH] * 2])


def ended():
    """Yields where a check leaves an allocation that it was given: the response says no lifetime, or an address that can't be sent
    to, or nobody reads any more what the check prints."""
    ends = os.pipe()
    for name, left_out, read_end, status, err in (
            ("no lifetime", LIFETIME, None, 1, "Allocate: not a response to it\n"),
            ("a relayed address without a port", None, None, 1, UNSENT),
            ("an output without a reader", None, ends[0], 3, "cannot write output\n")):
        def reply(request, client, left_out=left_out, read_end=read_end):
            if read_end is not None and request.first(USERNAME) is not None and request.kind == ALLOCATE:
                os.close(read_end)
            response, attributes = answers_of(request, client, NOWHERE)
            return response, [(kind, value) for kind, value in attributes if kind != left_out]
        with replying(reply) as (port, kinds):
            words = [PROGRAM, "check", f"127.0.0.1:{port}", *USER]
            ran = subprocess.run(words, stdout=ends[1], stderr=subprocess.PIPE, text=True, check=False)
        yield from wanted(f"{name}: the status and the line", (ran.returncode, ran.stderr), (status, err))
        yield from wanted(f"{name}: the last request", kinds[-1], REFRESH)
    os.close(ends[1])


def over_ipv6():
    """Yields what a check over IPv6 asks for otherwise than for an allocation of IPv6."""
    families = []

    def reply(request, client):
        if request.kind == ALLOCATE:
            families.append(request.first(FAMILY))
            return error(440) if request.first(USERNAME) else error(401, (REALM, b"r"), (NONCE, b"n"))
        return 0x0100, [(XOR_MAPPED_ADDRESS, address_value((LOOPBACK6, client[1]), request.transaction_id))]
    with replying(reply, socket.AF_INET6) as (port, _):
        status, _, err = run(["check", f"[::1]:{port}", *USER])
    yield from wanted("the status and the line", (status, err), (1, "Allocate: error 440\n"))
    yield from wanted("the families", families, [bytes([2, 0, 0, 0])] * 2)


def stopped():
    """Yields what a check says otherwise that is stopped while it waits for an answer, and continues."""
    with udp_socket() as bound:
        words = [PROGRAM, "check", f"127.0.0.1:{bound.getsockname()[1]}"]
        with subprocess.Popen(words, stdout=subprocess.PIPE, stderr=subprocess.PIPE, text=True) as process:
            datagram, client = bound.recvfrom(2_000)
            process.send_signal(signal.SIGSTOP)
            os.waitpid(process.pid, os.WUNTRACED)
            process.send_signal(signal.SIGCONT)
            time.sleep(0.1)
            response, attributes = answers_of(read(datagram), client, NOWHERE)
            bound.sendto(message(response | BINDING_REQUEST, read(datagram).transaction_id, attributes), client)
            _, err = process.communicate()
        yield from wanted("the status and the line", (process.returncode, err), (0, ""))


def behind_nat():
    """Yields what a check says otherwise where its datagram to the relayed address has another port than its requests, as a NAT
    gives it one (RFC 4787, section 4.1): data to that port alone comes to it."""
    mapped = LOOPBACK, 7
    with udp_socket() as server, udp_socket() as relayed:
        def serve():
            kind = None
            while kind != REFRESH:
                datagram, client = server.recvfrom(2_000)
                request = read(datagram)
                kind = request.kind
                if kind == SEND:
                    if address_in(request.first(XOR_PEER_ADDRESS), request.transaction_id) == mapped:
                        relayed.sendto(request.first(DATA), client)
                    continue
                response, attributes = answers_of(request, client, address_of(relayed))
                server.sendto(message(response | kind, request.transaction_id, attributes), client)
                if kind == CREATE_PERMISSION:
                    data, _ = relayed.recvfrom(2_000)
                    indication = [(XOR_PEER_ADDRESS, address_value(mapped)), (DATA, data)]
                    server.sendto(message(DATA_INDICATION, bytes(12), indication), client)
        thread = threading.Thread(target=serve)
        thread.start()
        found = checked(server.getsockname()[1], *USER)
        thread.join()
        words = ("CreatePermission", "a datagram to the relayed address", "a datagram from the relayed address")
        printed = BINDING + f"127.0.0.1:{relayed.getsockname()[1]} for 600 s: Allocate, T\n" + "".join(f"{line}, T\n" for line in words)
        yield from wanted("behind a NAT whose ports depend on the destination", found, (0, printed, ""))


def lines():
    """Yields which command lines are answered otherwise."""
    rows = [
        (["127.0.0.1"], 3, "cannot find 127.0.0.1\n"),
        (["127.0.0.1:x"], 3, "cannot find 127.0.0.1:x\n"),
        (["127.0.0.1:65536"], 3, "cannot find 127.0.0.1:65536\n"),
        (["127.0.0.1:9", "--user", "u"], 2, "error: invalid value 'u' for '--user <NAME:PASSWORD>'\n"),
        (["127.0.0.1", "--user", "u"], 2, "error: invalid value 'u' for '--user <NAME:PASSWORD>'\n"),
        (["255.255.255.255:9"], 3, "cannot send to the server\n"),
    ]
    for words, status, err in rows:
        yield from wanted(" ".join(words), run(["check", *words]), (status, "", err))


def main():
    """Runs the parts, and returns the exit status."""
    return run_parts("check", [serving, refusing, denying, others, stale_nonces, ended, over_ipv6, stopped, behind_nat, lines])


if __name__ == "__main__":
    sys.exit(main())
