"""Runs the built relayd on files of each format that are cut after each byte, or have one byte changed at each place.

Each run has to end by a named answer, within a second of processor time and in little memory. Of events, the lines
before the first that is cut or changed have the answers that they have in the whole file.
"""

import pathlib
import random
import re
import resource
import sys
import tempfile

from memory import LIMIT
from lib.program import PROGRAM, TOP, build, explained, finish, run
from run_agrees import assembled, text_of

EXAMPLES = TOP / "examples"
SECONDS = 1.0
UNREAD = (3, "", "cannot read changed\n")
# of each command, what it may answer: the status, and expressions for standard output and standard error
VERIFIED = [(0, r"accepted \d+ instructions\n", ""), (1, r"refused [EV]\d+( argument \d)?( at \d+)?\n", explained("changed"))]
ASSEMBLED = [(0, r"wrote \d+ bytes\n", ""), (1, "", r"refused L\d( at line \d+)?\n"), UNREAD]
ANSWERS = r"((-|c [0-9.:]+ [0-9a-f]+|p \d+ [0-9.:]+ [0-9a-f]+)\n)*"
REPLAYED = [(0, ANSWERS, ""), (1, ANSWERS, r"refused line \d+\n")]
CONFIGURED = [(0, ANSWERS, ""), (1, "", r"refused users( at line \d+: [a-z0-9 ']+)?\n"), UNREAD]
SHARED = [(0, ANSWERS, ""), (1, "", r"refused secret( at line 3)?\n"), UNREAD]
REVOKED = [(0, ANSWERS, ""), (1, "", r"refused revoked users at line \d+: [a-z0-9 ']+\n"), UNREAD]


def processor_time():
    """Returns the seconds that all runs so far have used."""
    used = resource.getrusage(resource.RUSAGE_CHILDREN)
    return used.ru_utime + used.ru_stime


def changes(data):
    """Yields what a file becomes, with the place: cut after each byte, and with another byte at each place."""
    draws = random.Random(1)
    for place, byte in enumerate(data):
        yield place, data[:place]
        yield place, data[:place] + bytes([byte ^ draws.randrange(1, 256)]) + data[place + 1:]


def is_named(ended, answers):
    """Whether a run has ended by one of the answers."""
    status, *printed = ended
    return any(status == wanted and all(map(re.fullmatch, forms, printed)) for wanted, *forms in answers)


def inputs(folder):
    """Returns of each format its name, the bytes of a file, the command that reads it, and the answers that may come."""
    events = EXAMPLES / "session.events"
    users = EXAMPLES / "users.txt"
    return [
        ("program", assembled(folder, text_of(["relay/client"])), ["verify", "changed"], VERIFIED),
        ("text", text_of(["relay/refuse_network"]).encode(), ["assemble", "changed", "out"], ASSEMBLED),
        ("events", events.read_bytes(), ["replay", "--users", users, "changed"], REPLAYED),
        ("users", users.read_bytes(), ["replay", "--users", "changed", events], CONFIGURED),
        ("secret", b"a secret of the test\nand the former one\n", ["replay", "--secret", "changed", events], SHARED),
        ("revoked", b"# gone\nann\n\nben\n", ["replay", "--users", users, "--revoked", "changed", events], REVOKED),
    ]


def failures_of(folder, name, data, words, answers):
    """Yields the runs over changed files that don't end as they have to."""
    path = folder / "changed"

    def end(changed):
        path.write_bytes(changed)
        return run([f"--as={LIMIT}", PROGRAM, *words], "prlimit", cwd=folder, errors="replace", timeout=60)

    whole = end(data)[1].splitlines()
    for place, changed in changes(data):
        start = processor_time()
        ended = end(changed)
        seconds = processor_time() - start
        before = data[:place].count(b"\n") if name == "events" else 0
        if not is_named(ended, answers) or ended[1].splitlines()[:before] != whole[:before]:
            yield f"{name}, place {place}, {len(changed)} bytes: {ended}"
        if seconds > SECONDS:
            yield f"{name}, place {place}, {len(changed)} bytes: {seconds:.1f} seconds"


def main():
    """Changes a file of each format, and returns the exit status."""
    build()
    with tempfile.TemporaryDirectory() as folder_name:
        folder = pathlib.Path(folder_name)
        files = inputs(folder)
        failures = [found for row in files for found in failures_of(folder, *row)]
    return finish(failures, f"changed inputs: {2 * sum(len(row[1]) for row in files)} files, {len(failures)} failures")


if __name__ == "__main__":
    sys.exit(main())
