"""Runs the built relayd with each of its allocations refused in turn, alone and with all that follow.

A run whose allocations are refused has to end as one whose are not, or with `out of memory` on standard
error, nothing on standard output, and the status 4. Allocations are counted from a constructor of the
preloaded library on, so all those of `main` are counted. And `call_tests replay`, which makes a refused call once more:
it has to print the right answers wherever memory is refused in the middle of a replay. And its other commands, which make a
call twice: the one that is refused memory has to name that as its own refusal, with the slot in V19, and the other one to
give the right answer. And a server that replaces its users, which is refused memory once while it does: it tries again. As
many command lines are tried at once as there are processors. It needs gcc.
"""

import os
import pathlib
import subprocess
import sys
import tempfile
from concurrent.futures import ThreadPoolExecutor

from lib.program import PROGRAM, TOP, build, finish, preloadable, run
from lib.rules import REFRESH
from lib.server import Client, Server, code_of, free_ports, put

EXAMPLES = TOP / "examples"
FOURTH_BYTE = str(EXAMPLES / "fourth_byte.bpf")
BRANCHES = str(EXAMPLES / "first_byte_class.bpf")
HEADER = str(EXAMPLES / "channel_data_header.bpf")
BACKWARD = str(EXAMPLES / "shared_block.bpf")
BRANCHES_TEXT = str(EXAMPLES / "first_byte_class.s")
UNCHECKED_TEXT = str(EXAMPLES / "unchecked_byte.s")
USERS = str(EXAMPLES / "users.txt")
OUT_OF_MEMORY = (4, "", "out of memory\n")
# more than the number of any allocation
EVER = 10**9
# the ports of three servers that run at once: none that other servers of this script draw meanwhile
PORT = free_ports(9, among=(10_000, 19_000))
SERVER = ["--port", str(PORT), "--first-port", str(PORT + 1)]
OTHER_SERVER = ["--port", str(PORT + 5), "--first-port", str(PORT + 6)]
SHADOWED_SERVER = ["--port", str(PORT + 7), "--first-port", str(PORT + 8)]
# where metrics are written, the file of a record, which is new in each run, and files of secrets and of revoked users
FOLDER = tempfile.TemporaryDirectory()
RECORD = pathlib.Path(FOLDER.name) / "record"
SECRET = pathlib.Path(FOLDER.name) / "secret"
SECRET.write_text("a secret of the test\nand the former one\n")
REVOKED = pathlib.Path(FOLDER.name) / "revoked"
REVOKED.write_text("ann\nben\n")
# `mov r0, 0` and a jump to it
LOOP = pathlib.Path(FOLDER.name) / "loop"
LOOP.write_bytes(bytes.fromhex("b700000000000000 0500feff00000000"))
# a source map of the program whose jumps lead backward
LINES = pathlib.Path(FOLDER.name) / "lines"
LINES.write_text("".join(f"{slot} a.s:{slot + 1} text\n" for slot in range(7)))
# and one of a program of eight instructions
FOURTH_BYTE_LINES = pathlib.Path(FOLDER.name) / "fourth_byte_lines"
FOURTH_BYTE_LINES.write_text("".join(f"{slot} a.s:{slot + 1}\n" for slot in range(8)))
# command lines, each with its status where no allocation is refused
CASES = [
    (["verify", FOURTH_BYTE], 0),
    (["verify", BRANCHES], 0),
    (["verify", str(EXAMPLES / "context_as_verdict.bpf")], 1),
    (["trace", FOURTH_BYTE, "--data", "01020304"], 0),
    (["trace", str(EXAMPLES / "unchecked_byte.bpf")], 1),
    (["verify", HEADER], 0),
    (["explain", BRANCHES], 0),
    (["explain", str(EXAMPLES / "context_as_verdict.bpf")], 1),
    (["explain", HEADER, "--slot", "0"], 0),
    (["trace", HEADER, "--data", "616263"], 0),
    (["trace", str(EXAMPLES / "permitted_source.bpf")], 0),
    (["trace", FOURTH_BYTE, "--data", "0"], 1),
    (["assemble", BRANCHES_TEXT, "/dev/null"], 0),
    (["assemble", UNCHECKED_TEXT, "/dev/null"], 0),
    (["assemble", str(TOP / "README.md"), "/dev/null"], 1),
    (["order", HEADER, "/dev/null"], 0),
    (["order", BACKWARD, "/dev/null"], 0),
    (["order", BRANCHES_TEXT, "/dev/null"], 1),
    (["disassemble", HEADER], 0),
    (["disassemble", BRANCHES_TEXT], 1),
    (["assemble", UNCHECKED_TEXT, "/dev/null", "--lines", "/dev/./null"], 0),
    (["order", BACKWARD, "/dev/null", "--from", str(LINES), "--lines", "/dev/./null"], 0),
    (["order", BACKWARD, "/dev/null", "--lines", "/dev/./null"], 0),
    (["order", str(LOOP), "/dev/null", "--lines", "/dev/./null"], 1),
    (["verify", BACKWARD, "--lines", str(LINES)], 1),
    (["disassemble", BACKWARD, "--lines", str(LINES)], 0),
    (["trace", str(EXAMPLES / "permitted_source.bpf"), "--permit", "127.0.0.1", "--channel", "0x4000=192.0.2.7:1"], 0),
    (["graph", HEADER], 0),
    (["graph", BACKWARD, "--lines", str(LINES)], 1),
    (["replay", "--user", "u:p", "--cover", "/dev/null"], 0),
    (["replay", "--user", "u:p", "--cover", "--client", FOURTH_BYTE, "--client-lines", str(FOURTH_BYTE_LINES), "/dev/null"], 0),
    (["replay", "--user", "u:p", "--against", FOURTH_BYTE, str(EXAMPLES / "session.events")], 0),
    (["replay", "--user", "u:p", "--trace", "1", str(EXAMPLES / "session.events")], 0),
    (["replay", "--user", "u:p", "--users", USERS, "--client", FOURTH_BYTE, "--peer", HEADER, "/dev/null"], 0),
    (["replay", "--user", "u:p", "--nonce", "a b", "/dev/null"], 1),
    (["replay", "--secret", str(SECRET), "--revoked", str(REVOKED), "/dev/null"], 0),
    (["serve", *SERVER, "--user", "u:p", "--slots", "4", "--rounds", "1", "--stats", "1", "--metrics", f"{FOLDER.name}/metrics"], 0),
    (["serve", *OTHER_SERVER, "--user", "u:p", "--slots", "1", "--rounds", "1", "--record", str(RECORD), "--log"], 0),
    (["serve", *SHADOWED_SERVER, "--user", "u:p", "--slots", "1", "--rounds", "1", "--shadow-client", FOURTH_BYTE, "--stats", "1"], 0),
    (["verify", "no such file"], 3),
    (["verify"], 2),
    (["load"], 2),
    (["--help"], 0),
]
# what call_tests disassembles: jumps at slots 3, 5 and 7 lead to slots 5, 7 and 9
LISTING = """\
mov r0, 0
ldxdw r2, [r1+32]
ldxw r3, [r1+40]
jgt r2, 5, +1
mov r0, 1
jgt r3, 9, +1
mov r0, 0
jeq r2, 7, +1
mov r0, 1
exit
"""
# before the first step, where room for pending states is taken too, it is slot 0; then a state is kept at each slot that a jump
# leads to
SLOTS = [0, 5, 7, 9]
# each call of call_tests with its answer, and its refusals of memory in the order in which they first come
CALLS = {
    "decode": ("10 instructions", ["E8"]),
    "load": ("10 instructions", ["E8", *[f"V19 at {slot}" for slot in SLOTS]]),
    "assemble": ("80 bytes", ["L6"]),
    "disassemble": (f"{len(LISTING)} bytes", ["memory allocation failed"]),
    "relay": ("2 slots", ["out of memory"]),
    "frame": ("65507 bytes", ["memory allocation failed"]),
}


def counted_run(words, program=PROGRAM, events=os.devnull, **environment):
    """Runs a program itself on these words and events, and returns how it ended and how many refusals it had.

    The script that builds it would be refused memory too.
    """
    read_end, write_end = os.pipe()
    given = {**os.environ, "REFUSE_REPORT": str(write_end), **environment}
    if str(RECORD) in words:
        RECORD.unlink(missing_ok=True)
    with open(events, encoding="utf-8") as stdin:
        end = run(words, program, env=given, pass_fds=[write_end], stdin=stdin)
    os.close(write_end)
    with open(read_end, "rb") as refused:
        return end, len(refused.read())


def refused_runs(words, library, lasting, **options):
    """Yields each number of an allocation, with how the program ends where that one is refused.

    `lasting` says whether those that follow are refused too.
    """
    for first in range(1, EVER):
        last = EVER if lasting else first
        preloaded = {"LD_PRELOAD": library, "REFUSE_FIRST": str(first), "REFUSE_LAST": str(last)}
        end, refusals = counted_run(words, **preloaded, **options)
        if refusals == 0:
            return
        yield first, end


def is_out_of_memory(words, end, normal):
    """Whether a run says that memory ran out, and printed nothing else; `explain` prints its lines as it makes them, and what a
    replay has compared is printed before a fault."""
    status, printed, said = end
    begun = (words[:1] == ["explain"] or "--against" in words) and normal[1].startswith(printed)
    return (status, said) == (OUT_OF_MEMORY[0], OUT_OF_MEMORY[2]) and (begun or not printed)


def failures_of(words, status, library):
    """Returns what is wrong with the runs on these words, and how many there were."""
    normal, _ = counted_run(words)
    failures = [] if normal[0] == status else [f"{words}: {normal}"]
    count = 0
    for lasting in (False, True):
        ends = dict(refused_runs(words, library, lasting))
        count += len(ends)
        if OUT_OF_MEMORY not in ends.values():
            failures.append(f"{words}: never out of memory")
        for first, end in ends.items():
            if end != normal and not is_out_of_memory(words, end, normal):
                failures.append(f"{words}, refused at {first} (lasting: {lasting}): {end}")
    return failures, count


def built(command):
    """Returns the program that repeats calls, which is built where it is not there, and makes the call of a command then."""
    folder = TOP / "crates" / "call_tests"
    program = folder / "out" / "call_tests"
    if not program.exists():
        command = ["rt", "run", "--", command]
        subprocess.run(command, cwd=folder, stdin=subprocess.DEVNULL, capture_output=True, check=True)
    return program


def failures_of_repeated(library):
    """Returns what is wrong with the runs in which a replay is refused memory once and is called again, and how many there were.

    Where memory is refused before the first event or for the program's own line, it ends with the status 1.
    """
    folder = TOP / "crates" / "call_tests"
    answers = (folder / "stdout").read_text(encoding="utf-8")
    ends = dict(refused_runs(["replay"], library, False, program=built("replay"), events=folder / "stdin"))
    well = {first for first, end in ends.items() if end == (0, answers, "")}
    failures = [f"call_tests replay, refused at {first}: {end[0]}, {end[2]!r}" for first, end in ends.items()
                if first not in well and not (end[0] == 1 and answers.startswith(end[1]))]
    repeated = len(well)
    if repeated < len(answers.splitlines()):
        failures.append(f"call_tests replay: only {repeated} of {len(ends)} runs ended well")
    return failures, len(ends)


def failures_of_call(command, ends):
    """Yields what is wrong with the runs that make a call twice, each with another allocation refused.

    Where memory is refused before the first call, nothing is printed. Each allocation of the second call is refused as the
    same one of the first.
    """
    answer, refusals = CALLS[command]
    right = f"{command} {answer}"
    refused = [], []
    for number, (status, out, err) in ends.items():
        lines = out.splitlines()
        if (status, out) == (1, "") or (status, lines, err) == (0, [right, right], ""):
            continue
        if (status, err, len(lines), lines.count(right)) != (0, "", 2, 1):
            yield f"call_tests {command}, refused at {number}: {status}, {out!r}, {err!r}"
            continue
        call = lines.index(right) ^ 1
        refused[call].append(lines[call].removeprefix(f"{command} "))
    if list(dict.fromkeys(refused[0])) != refusals or refused[1] != refused[0]:
        yield f"call_tests {command}: {refused}"


def failures_of_calls(library):
    """Returns what is wrong with the calls that are made twice, and how many runs there were."""
    program = built("load")
    failures, runs = [], 0
    for command in CALLS:
        ends = dict(refused_runs([command], library, False, program=program))
        failures += failures_of_call(command, ends)
        runs += len(ends)
    return failures, runs


def replaced_users(path, environment):
    """Returns what a server prints until it has replaced its users, and the error code of a Refresh of one of them."""
    put(path, b"ann:a\n")
    with Server("--users", str(path), env={**os.environ, **environment}) as server, Client(server) as client:
        put(path, b"ann:a\nbob:b\n")
        client.allocate()
        server.awaited("users replaced")
        return server.printed(), code_of(client.signed(REFRESH, []))


def allocations_before(path, library, count):
    """Returns how many allocations a server with a file of users makes before it listens."""
    put(path, b"ann:a\n")
    count.write_bytes(bytes(8))
    environment = {**os.environ, "LD_PRELOAD": library, "REFUSE_FIRST": str(EVER), "COUNT_FILE": str(count)}
    with Server("--users", str(path), env=environment):
        return int.from_bytes(count.read_bytes(), "little")


def failures_of_replaced_users(library, folder):
    """Returns what is wrong with the servers that are refused one allocation while they replace their users, and how many
    there were. A refusal leaves an x on the standard error.
    """
    path, failures = folder / "users", []
    before = allocations_before(path, library, folder / "count")
    replaced = "users replaced, 3 users\n"
    refused = [f"xout of memory in {path}\n{replaced}", f"xcannot use {path}: not readable\n{replaced}"]
    for number in range(1, EVER):
        refusal = str(before + number)
        environment = {"LD_PRELOAD": library, "REFUSE_FIRST": refusal, "REFUSE_LAST": refusal, "REFUSE_REPORT": "2"}
        found = replaced_users(path, environment)
        if found == (replaced, 0):
            return failures + ([] if number > 5 else [f"only {number - 1} allocations where users are replaced"]), number
        if found not in [(line, 0) for line in refused]:
            failures.append(f"users, refused at {number}: {found}")


def main():
    """Runs every case, and returns the exit status."""
    build()
    with tempfile.TemporaryDirectory() as name, ThreadPoolExecutor(len(os.sched_getaffinity(0))) as pool:
        folder = pathlib.Path(name)
        library = str(preloadable(folder, "refuse_malloc"))
        works = [pool.submit(failures_of_replaced_users, library, folder), pool.submit(failures_of_repeated, library),
                 pool.submit(failures_of_calls, library),
                 *(pool.submit(failures_of, words, status, library) for words, status in CASES)]
        checks = [work.result() for work in works]
    failures = [failure for found, _ in checks for failure in found]
    runs = sum(count for _, count in checks)
    return finish(failures, f"refused memory: {runs} runs, {len(failures)} failures")


if __name__ == "__main__":
    sys.exit(main())
