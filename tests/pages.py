"""Runs the programs and commands of README.md and docs/, and compares what is printed of them.

Each page has a folder of its own, in which examples/ is. A block `asm` is assembled to program.bpf. A block
`console` has lines `$ relayd WORD..` or `$ ./relayd WORD..`, each with what that command prints, and lines
`$ cat FILE.. > FILE`. A block `sh` has commands, of which those of relayd are run and have to succeed. So have those of a block
`text`, whose files the reader would have made: an example stands for each that isn't there, and a server tests its configuration
on an address of this machine, writes metrics beside these files, and ends (`--rounds 0`). The units of systemd are read by
`systemd-analyze`, where that is installed.
"""

import os
import pathlib
import re
import shlex
import shutil
import subprocess
import sys
import tempfile
import time

from lib.program import PASSED_OVER, TOP, finish, run
from lib.server import Server

PAGES = [TOP / "README.md", *sorted((TOP / "docs").glob("*.md")), *sorted((TOP / "crates").glob("*/README.md"))]
BLOCK = re.compile(r"^```(asm|console|sh|text)\n(.*?)^```$", re.MULTILINE | re.DOTALL)
PROMPT = re.compile(r"^\$ (?:\./)?relayd(.*)$", re.MULTILINE)
JOIN = re.compile(r"^(?:\$ )?cat (.*) > (\S+)\n", re.MULTILINE)
# the files that stand for those that a reader would have made, by the last part of the name
STAND_INS = {".s": "relay/client.s", ".events": "session.events", "users": "users.txt"}
SECRET = "a secret of a page"
# how often a server is started where a port of its slots is taken, which Linux may have given to any socket
TRIES = 5
OPTIONS = {"--port": "0", "--listen": "127.0.0.1", "--metrics": "relayd.prom"}


def commands(block):
    """Yields the words of each command of a block, with the text that it prints."""
    parts = PROMPT.split(block)
    for words, printed in zip(parts[1::2], parts[2::2]):
        yield shlex.split(words), printed.removeprefix("\n")


def join(text, folder):
    """Makes the files that a block joins of others, and returns the block without the commands that do."""
    for sources, target in JOIN.findall(text):
        (folder / target).write_text("".join((folder / source).read_text() for source in sources.split()))
    return JOIN.sub("", text)


def standing_in(word, folder):
    """Returns a word of a command, or the name of an example where it names a file that a reader would have made."""
    if (folder / word).exists():
        return word
    if word == "secret":
        (folder / word).write_text(SECRET)
        return word
    if word.endswith(".bpf"):
        run(["assemble", "examples/relay/client.s", folder / word], cwd=folder)
        return word
    if word.endswith(".lines"):
        run(["assemble", "examples/relay/client.s", folder / "of_lines.bpf", "--lines", folder / word], cwd=folder)
        return word
    found = [f"examples/{example}" for end, example in STAND_INS.items() if word.endswith(end)]
    return found[0] if found and not word.startswith("-") else word


def runnable(words, folder):
    """Returns the words of a command of a block `text` as they can be run here."""
    found = [OPTIONS.get(before, standing_in(word, folder)) for before, word in zip(["", *words], words)]
    return [*found, "--rounds", "0"] if words[0] == "serve" else found


def tried(words, folder):
    """Runs a command, again where another process has a port of its server for a moment, and returns its status and output."""
    for _ in range(TRIES):
        found = run(words, cwd=folder)
        if "cannot bind" not in found[2]:
            break
        time.sleep(0.5)
    return found


def failures_of_check(words):
    """Yields what a check says of a server of loopback, with the user of a page, in place of the server of the page."""
    with Server(users=words[2:]) as server:
        status, out, err = run(["check", f"127.0.0.1:{server.port}", *words[2:]])
    if status:
        yield f"{shlex.join(words)}: {out}{err}"


def failures_of_texts(text, folder):
    """Yields the commands of relayd in a block `text` that fail."""
    for command in re.split(r"\n| && | \| ", join(text, folder).replace("$ ", "").strip()):
        if command.startswith("./relayd check "):
            yield from failures_of_check(shlex.split(command)[1:])
        elif command.startswith("./relayd "):
            words = runnable(shlex.split(command)[1:], folder)
            status, out, err = tried(words, folder)
            if status:
                yield f"{command}: {out}{err}"


def failures_of_block(kind, text, folder):
    """Yields what a block does otherwise than it says."""
    if kind == "asm":
        (folder / "program.s").write_text(text, encoding="utf-8")
        status, _, err = run(["assemble", "program.s", "program.bpf"], cwd=folder)
        if status:
            yield err
    elif kind == "console":
        for words, wanted in commands(join(text, folder)):
            _, out, err = run(words, cwd=folder)
            if out + err != wanted:
                yield f"{shlex.join(words)}: {out}{err}"
    elif kind == "text":
        yield from failures_of_texts(text, folder)
    else:
        for command in re.split(r"\n| && ", text.strip()):
            program, *words = shlex.split(command)
            if program == "./relayd" and run(words, cwd=folder)[0]:
                yield command


def failures_of_units():
    """Yields what systemd says of the units, with a program that is there in place of relayd."""
    tool = shutil.which("systemd-analyze")
    if tool is None:
        PASSED_OVER.append("the units (no systemd-analyze)")
        return
    with tempfile.TemporaryDirectory() as name:
        units = [pathlib.Path(name) / unit for unit in ("relayd@.service", "relayd.target")]
        for unit in units:
            text = (TOP / "examples" / "systemd" / unit.name).read_text(encoding="utf-8")
            unit.write_text(text.replace("/usr/local/bin/relayd", "/bin/true"), encoding="utf-8")
        environment = {**os.environ, "SYSTEMD_UNIT_PATH": f"{name}:"}
        for unit in units:
            ran = subprocess.run([tool, "verify", unit], capture_output=True, text=True, check=False, env=environment)
            if ran.returncode or ran.stderr:
                yield f"examples/systemd/{unit.name}: {ran.stderr}"


def failures_of_page(page, blocks):
    """Yields the blocks of a page that do otherwise than they say."""
    with tempfile.TemporaryDirectory() as name:
        folder = pathlib.Path(name)
        (folder / "examples").symlink_to(TOP / "examples")
        for number, (kind, text) in enumerate(blocks, 1):
            for failure in failures_of_block(kind, text, folder):
                yield f"{page.relative_to(TOP)}, block {number}: {failure}"


def main():
    """Runs every block, and returns the exit status."""
    blocks = {page: BLOCK.findall(page.read_text(encoding="utf-8")) for page in PAGES}
    failures = [failure for page, found in blocks.items() for failure in failures_of_page(page, found)]
    failures += failures_of_units()
    count = sum(len(found) for found in blocks.values())
    if not count:
        failures.append("no blocks")
    return finish(failures, f"pages: {count} blocks, {len(failures)} failures")


if __name__ == "__main__":
    sys.exit(main())
