"""Traces programs with what look-ups find, by the options of `trace`, and compares how each run ends with rows worked out by hand.

A row is a program, the options, and the verdict. What can't be given is refused by name. That the steps are those of a run is
compared elsewhere (`verdicts.py`), and that the look-ups are those of a relay by a session that answers as the trace does.
"""

import sys
import tempfile
from pathlib import Path

from lib.program import TOP, assembled, run, run_parts

# programs, each of which exits with what it has found
NARROW = "ldxdw r2, [r1+24]\nstxdw [r10-8], r2\nmov r2, r10\nadd r2, -8\ncall {}\nexit"
WIDE = ("ldxdw r2, [r1+48]\nstxdw [r10-24], r2\nldxdw r2, [r1+56]\nstxdw [r10-16], r2\nldxw r2, [r1+64]\nstxw [r10-8], r2\n"
        "mov r2, r10\nadd r2, -24\ncall {}\nexit")
PEER_OF = "mov r3, r10\nadd r3, -{size}\nmov r2, {number}\ncall {helper}\njeq r0, 0, end\nldxb r0, [r10-{byte}]\nend:\nexit"
PROGRAMS = {
    "permitted": NARROW.format(3), "channel": NARROW.format(2), "permitted6": WIDE.format(8), "channel6": WIDE.format(7),
    "peer": PEER_OF.format(size=8, number=0x4001, helper=1, byte=1), "peer6": PEER_OF.format(size=20, number=0x4001, helper=6, byte=1),
    "side": "ldxw r0, [r1+44]\nexit", "tx": "ldxdw r0, [r1+32]\nexit", "source": "ldxdw r0, [r1+24]\nbe64 r0\nexit", "stuck": "exit",
    "length": "ldxdw r0, [r1+16]\nexit",
}
FROM, FROM6 = ["--source", "192.0.2.7:5000"], ["--source", "[2001:db8::7]:5000"]
ROWS = [
    ("permitted", [], 0), ("permitted", FROM, 0), ("permitted", [*FROM, "--permit", "192.0.2.7"], 1),
    ("permitted", [*FROM, "--side", "peer", "--permit", "192.0.2.7"], 1), ("permitted", [*FROM, "--permit", "192.0.2.8"], 0),
    ("permitted", [*FROM, "--permit", "192.0.2.8", "--permit", "192.0.2.7"], 1), ("permitted", ["--permit", "127.0.0.1"], 1),
    # a channel permits its peer (RFC 8656, section 12), whatever the port
    ("permitted", [*FROM, "--channel", "0x4000=192.0.2.7:9"], 1),
    ("channel", [*FROM, "--channel", "0x4000=192.0.2.7:5000"], 0x4000), ("channel", [*FROM, "--channel", "20479=192.0.2.7:5000"], 0x4FFF),
    ("channel", [*FROM, "--channel", "0x4000=192.0.2.7:5001"], 0), ("channel", [*FROM, "--permit", "192.0.2.7"], 0),
    ("peer", ["--channel", "0x4001=192.0.2.7:5000"], 7), ("peer", ["--channel", "0x4002=192.0.2.7:5000"], 0),
    ("peer", ["--channel", "0x4001=[2001:db8::7]:5000"], 0), ("peer6", ["--channel", "0x4001=192.0.2.7:5000"], 0),
    ("peer6", ["--channel", "0x4001=[2001:db8::7]:5000"], 7),
    ("permitted6", [*FROM6, "--permit", "2001:db8::7"], 1), ("permitted6", [*FROM6, "--permit", "2001:db8::8"], 0),
    ("permitted6", [*FROM, "--permit", "192.0.2.7"], 1), ("permitted", [*FROM6, "--permit", "2001:db8::7"], 0),
    ("channel6", [*FROM6, "--channel", "0x4003=[2001:db8::7]:5000"], 0x4003),
    ("side", [], 0), ("side", ["--side", "client"], 0), ("side", ["--side", "peer"], 1),
    ("tx", [], 0), ("tx", ["--tx", "010000000000000000000000"], 1), ("tx", ["--tx", "0102000000000000ffffFFFF"], 0x201),
    ("source", [], 0x0001_0009_7f00_0001), ("source", FROM, 0x0001_1388_c000_0207), ("source", FROM6, 0),
    ("length", ["--side", "peer", "--data", "616263"], 3),
]
# what is refused, with the status and the line
REFUSED = [
    (["--side", "other"], 2, "error: invalid value 'other' for '--side <SIDE>'"), (["--side", ""], 2, "error: invalid value '' for '--side <SIDE>'"),
    *((["--source", text], 2, f"error: invalid value '{text}' for '--source <A:P>'") for text in ("192.0.2.7", "192.0.2.7:65536", "host:1", "2001:db8::7:1")),
    *((["--tx", text], 2, f"error: invalid value '{text}' for '--tx <HEX>'") for text in ("", "00" * 11, "00" * 13, "0" * 23 + "g")),
    *((["--permit", text], 2, f"error: invalid value '{text}' for '--permit <A>'") for text in ("", "192.0.2.7:1", "192.0.2", "host")),
    *((["--channel", text], 2, f"error: invalid value '{text}' for '--channel <N=A:P>'") for text in (
        "", "0x4000", "0x4000=192.0.2.7", "0x3fff=192.0.2.7:1", "0x5000=192.0.2.7:1", "0x=192.0.2.7:1", "x4000=192.0.2.7:1", "65536=192.0.2.7:1")),
    # the first option that is wrong, whatever the file is
    (["--tx", "0", "--side", "other"], 2, "error: invalid value 'other' for '--side <SIDE>'"),
    (["--channel", "0", "--permit", "0"], 2, "error: invalid value '0' for '--permit <A>'"),
    (["--permit", "192.0.2.7", "--permit", "2001:db8::7"], 1, "refused 2001:db8::7: Family"),
    (["--permit", "2001:db8::7", "--channel", "0x4000=192.0.2.7:1"], 1, "refused 0x4000=192.0.2.7:1: Family"),
    (["--channel", "0x4000=192.0.2.7:1", "--channel", "0x4000=192.0.2.8:1"], 1, "refused 0x4000=192.0.2.8:1: Conflict"),
    (["--channel", "0x4000=192.0.2.7:1", "--channel", "0x4001=192.0.2.7:1"], 1, "refused 0x4001=192.0.2.7:1: Conflict"),
    (sum((["--permit", f"192.0.2.{i}"] for i in range(65)), []), 1, "refused 192.0.2.64: Capacity"),
    (["--side", "peer", "--data", "0"], 1, "refused data"),
]


def rows(folder):
    """Traces the programs."""
    files = {name: assembled(folder, name, text) for name, text in PROGRAMS.items()}
    for name, options, verdict in ROWS:
        status, out, err = run(["trace", files[name], *options])
        if (status, out.splitlines()[-3:], err) != (0, [f"exit {verdict}", "window none", "destination none"], ""):
            yield f"{name} {options}: {status} {out} {err}"
    # an option that says what is so without it changes nothing
    for name in PROGRAMS:
        bare = run(["trace", files[name], "--data", "00"])
        if run(["trace", files[name], "--data", "00", "--side", "client"]) != bare:
            yield f"{name}: otherwise with --side client"
    if run(["trace", files["stuck"], "--side", "peer"]) != (1, "0 exit\nstuck V5 at 0\n", ""):
        yield "a run that is stuck"


def refused(folder):
    """Gives what can't be given."""
    file = assembled(folder, "a", PROGRAMS["side"])
    for options, status, line in REFUSED:
        if (found := run(["trace", file, *options])) != (status, "", f"{line}\n"):
            yield f"{options}: {found}"
        if status == 2 and run(["trace", folder / "none", *options])[2] != f"{line}\n":
            yield f"{options}: with a file that isn't there"
    (folder / "none.bpf").write_bytes(bytes(8))
    for words, status, line in [([folder / "none.bpf"], 1, "refused E4 at 0"), ([folder / "none"], 3, f"cannot read {folder}/none"),
                                ([folder / "none.bpf", "--data", "0"], 1, "refused data"),
                                ([file, "--lines", folder / "none"], 3, f"cannot read {folder}/none")]:
        if (found := run(["trace", *words, "--side", "peer"])) != (status, "", f"{line}\n"):
            yield f"{words}: {found}"
    with open("/dev/full", "w", encoding="utf-8") as full:
        if run(["trace", file, "--side", "peer"], stdout=full)[::2] != (3, "cannot write output\n"):
            yield "an output that is full"


# a rule that discards what is longer than 60 bytes, and one for peers; events, and what the runs of each met
RULE, PEER_RULE = "ldxdw r2, [r1+16]\nmov r0, 1\njle r2, 60, end\nmov r0, 0\nend:\nexit", "lddw r0, 3\nja +0\nexit"
TX, AT = "000000000000000000000001", "198.51.100.2:4000"
EVENTS = [f"c 1000 {TX} {AT} {'00' * n}" for n in (10, 61, 60)] + ["n another", f"p 1000 {TX} 0 192.0.2.7:5000 61", f"c 1001 {TX} {AT} 00"]
COVERED = """runs of the client's program: 4
0 ldxdw r2, [r1+16]       ; 4
1 mov r0, 1               ; 4
2 jle r2, 60, +1          ; 4, taken 3
3 mov r0, 0               ; 1
4 exit                    ; 4
runs of the peer's program: 1
0 lddw r0, 3              ; 1
2 ja +0                   ; 1, taken 0
3 exit                    ; 1
"""
LONG = "0 ldxdw r2, [r1+16]\n1 mov r0, 1\n2 jle r2, 60, +1\n3 mov r0, 0\n4 exit\nexit 0\nwindow none\ndestination none\n"
OF_PEER = "0 lddw r0, 3\n2 ja +0\n3 exit\nexit 3\nwindow none\ndestination none\n"


def replayed(folder):
    """Replays events, and prints the run of each, and what of the programs they met."""
    client, peer, events = assembled(folder, "client", RULE), assembled(folder, "peer", PEER_RULE), folder / "events"
    events.write_text("".join(f"{line}\n" for line in EVENTS))
    words = ["replay", events, "--user", "u:p", "--client", client, "--peer", peer]
    answers = run(words)
    if run([*words, "--cover"]) != (*answers[:2], COVERED):
        yield f"covered: {run([*words, '--cover'])}"
    if run([*words, "--cover", "--why"])[:2] != run([*words, "--why"])[:2]:
        yield "answers with --cover are others"
    for number, text in [(2, LONG), (5, OF_PEER)]:
        if (found := run([*words, "--trace", str(number)])) != (0, text, ""):
            yield f"line {number}: {found}"
    for number in (0, 4, 7, 2**64 - 1):
        if (found := run([*words, "--trace", str(number)])) != (1, "", f"no datagram at line {number}\n"):
            yield f"line {number}: {found}"
    events.write_text(f"{EVENTS[0]}\nnothing\n{EVENTS[1]}\n")
    if run([*words, "--trace", "3"]) != (1, "", "refused line 2\n") or run([*words, "--cover"]) != (1, run(words)[1], "refused line 2\n"):
        yield "a line that is no event's"
    # in the state that the events before leave: a permission is there for the run of the program that asks for it
    for number, line in enumerate((TOP / "examples" / "session.events").read_text().splitlines(), 1):
        side = line.split()[0]
        if side not in "cp" or len(line.split()) < 5:
            continue
        shown = run(["replay", TOP / "examples" / "session.events", "--users", TOP / "examples" / "users.txt", "--relay-ip", "203.0.113.1", "--trace", str(number)])
        answer = run(["replay", TOP / "examples" / "session.events", "--users", TOP / "examples" / "users.txt", "--relay-ip", "203.0.113.1"])[1].splitlines()[number - 1]
        sends = "exit 2\n" in shown[1]
        if shown[0] or (side == "p" and sends != (answer != "-")) or (side == "c" and sends and not answer.startswith("p ")):
            yield f"session, line {number}: {shown} {answer}"


MAP = "0 mine.c:3\n1 mine.c:4\n2 mine.c:4\n3 mine.c:5\n4 mine.c:7\n"
MAPPED_COVERED = COVERED.replace("[r1+16]       ; 4", "[r1+16]       ; 4 ; mine.c:3").replace(
    "1 mov r0, 1               ; 4", "1 mov r0, 1               ; 4 ; mine.c:4").replace(
    "3 mov r0, 0               ; 1", "3 mov r0, 0               ; 1 ; mine.c:5").replace(
    "4 exit                    ; 4", "4 exit                    ; 4 ; mine.c:7")
MAPPED_LONG = LONG.replace("[r1+16]", "[r1+16] ; mine.c:3").replace("r0, 1", "r0, 1 ; mine.c:4").replace("r0, 0", "r0, 0 ; mine.c:5").replace(
    "4 exit", "4 exit ; mine.c:7")


def mapped(folder):
    """Replays events with the source map of one program, or of both, of which the other one isn't another program's."""
    client, peer, events = assembled(folder, "client", RULE), assembled(folder, "peer", PEER_RULE), folder / "events"
    events.write_text("".join(f"{line}\n" for line in EVENTS))
    lines, other = folder / "lines", folder / "other"
    lines.write_text(MAP)
    other.write_text("0 peer.c:1\n2 peer.c:1\n3 peer.c:2\n")
    words = ["replay", events, "--user", "u:p", "--client", client, "--peer", peer]
    of_peer = OF_PEER.replace("r0, 3", "r0, 3 ; peer.c:1").replace("3 exit", "3 exit ; peer.c:2")
    for options, status, wanted in [
            (["--cover", "--client-lines", lines], 0, (run(words)[1], MAPPED_COVERED)),
            (["--trace", "2", "--client-lines", lines], 0, (MAPPED_LONG, "")), (["--trace", "5", "--client-lines", lines], 0, (OF_PEER, "")),
            (["--trace", "5", "--client-lines", lines, "--peer-lines", other], 0, (of_peer, "")),
            (["--trace", "4", "--client-lines", lines], 1, ("", "no datagram at line 4\n")),
            (["--cover", "--client-lines", other], 1, ("", "refused lines of another program: slot 4 isn't there\n")),
            (["--cover", "--client-lines", lines, "--peer-lines", lines], 1, (
                "", "refused lines of another program: no instruction begins at slot 1\n")),
            (["--cover", "--client-lines", other, "--peer-lines", folder / "none"], 3, ("", f"cannot read {folder}/none\n"))]:
        if (found := run([*words, *options])) != (status, *wanted):
            yield f"{options}: {found}"


SESSION = ["replay", "--users", TOP / "examples" / "users.txt", "--relay-ip", "203.0.113.1"]
DISCARD = "mov r0, 0\nexit"


def against(folder):
    """Replays a session against other programs: the answers that differ are those of two replays, whatever their reasons."""
    session, discard = TOP / "examples" / "session.events", assembled(folder, "discard", DISCARD)
    count = len(session.read_text().splitlines())
    shipped = {side: assembled(folder, side, (TOP / "examples" / "relay" / f"{side}.s").read_text()) for side in ("client", "peer")}
    for options in (["--against", shipped["client"]], ["--against-peer", shipped["peer"]], ["--against", shipped["client"], "--against-peer", shipped["peer"]]):
        if (found := run([*SESSION, session, *options])) != (0, f"0 of {count} answers differ\n", ""):
            yield f"{options}: {found}"
    for name, sides in (("against", ["client"]), ("against-peer", ["peer"]), ("both", ["client", "peer"])):
        new = [word for side in sides for word in (f"--{side}", discard)]
        pairs = list(zip(*(run([*SESSION, session, "--why", *words])[1].splitlines() for words in ([], new))))
        differing = [(number, old, new) for number, (old, new) in enumerate(pairs, 1) if old.split(" ; ")[0] != new.split(" ; ")[0]]
        wanted = "".join(f"{number} - {old}\n{number} + {new}\n" for number, old, new in differing) + f"{len(differing)} of {count} answers differ\n"
        options = [word for side in sides for word in (f"--against{'' if side == 'client' else '-peer'}", discard)]
        if (found := run([*SESSION, session, *options])) != (0, wanted, "") or not differing:
            yield f"{name}: {found}"
        # of programs that are given, those are compared with the shipped ones
        if (found := run([*SESSION, session, *new, *options]))[1] != f"0 of {count} answers differ\n":
            yield f"{name} with itself: {found}"
    bad, events = folder / "bad", folder / "events"
    bad.write_bytes(bytes(8))
    events.write_text(session.read_text().splitlines()[0] + "\nnothing\n")
    first = run([*SESSION, session, "--why"])[1].splitlines()[0], run([*SESSION, session, "--why", "--client", discard])[1].splitlines()[0]
    for words, wanted in [
            ([session, "--against", bad], (1, "", f"refused E4 at 0 in {bad}\nrelayd explain {bad} shows why\n")),
            ([session, "--against-peer", folder / "none"], (3, "", f"cannot read {folder}/none\n")),
            ([folder / "none", "--against", discard], (3, "", f"cannot read {folder}/none\n")),
            ([events, "--against", discard], (1, f"1 - {first[0]}\n1 + {first[1]}\n", "refused line 2\n"))]:
        if (found := run([*SESSION, *words])) != wanted:
            yield f"{words}: {found}"
    with open("/dev/full", "w", encoding="utf-8") as full:
        if run([*SESSION, session, "--against", discard], stdout=full)[::2] != (3, "cannot write output\n"):
            yield "an output that is full"


def main():
    """Runs each part in a folder of its own, and returns the exit status."""
    with tempfile.TemporaryDirectory() as folder:
        return run_parts("traces", [rows, refused, replayed, mapped, against], Path(folder), summary=f"{len(ROWS)} runs, {len(REFUSED)} refusals; ")


if __name__ == "__main__":
    sys.exit(main())
