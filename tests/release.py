"""Tries the scripts that run, build and release relayd over a small repository, with programs and a kit that are scripts.

`./relayd` runs the released program where its sources and its kit are those that are there, and proves and builds one
otherwise: where a source is another, or one is more or less, however old its file is; where the release is damaged, can't be
unpacked, or doesn't start. tests/release.sh compares it with the one that is built, and brings it up to date. Several
commands and several builds run at once. See docs/DECISIONS.md, "The repository carries the program". It needs `xz`.
"""

import fcntl
import hashlib
import lzma
import os
import pathlib
import shutil
import subprocess
import sys
import tempfile

from lib.program import TOP, finish

SCRIPTS = ("relayd", "tests/build.sh", "tests/release.sh", "tests/lib/sources.sh")
# the sources of relayd, in the order of their names' bytes, and other files
SOURCES = {
    "HANDLES": "Handles allowed: none.\n",
    "crates.txt": "low:\nbeside: low\nrelayd: low\nabove: relayd\n",
    "crates/low/proofs/Low.antt": "a proof\n",
    "crates/low/specs/Low.antt": "a definition\n",
    "crates/low/src/lib.rt": "code\n",
    "crates/relayd/src/main.rt": "code of relayd\n",
}
OTHERS = {
    "README.md": "The kit `kit-1`: it is trusted.\n",
    "crates/low/README.md": "a page\n",
    "crates/low/must-fail/wrong.edit": "an edit\n",
    "crates/beside/src/lib.rt": "code of a crate that relayd doesn't use\n",
    "crates/above/src/main.rt": "code of a crate that uses relayd\n",
}
# a kit that notes what it is called with, unless it is asked for its name; its gate fails, or takes half a second where it
# is told what it builds
KIT = """#!/bin/sh
[ "$1" = version ] && echo "kit-1 logic 0" && exit
echo "$*" >>"$CALLS"
[ -n "${BUILDS:-}" ] || exit 1
sleep 0.5
mkdir -p crates/relayd/out && cp "$BUILDS" crates/relayd/out/relayd
"""
WORDS = ["verify", "a b"]
RELEASED = (0, "released: verify a b\n", "")
BUILT = (0, "built: verify a b\n", "")
TAKEN = ("relayd: this is the program of release/, which was proved elsewhere; "
         "./relayd --prove proves and builds it here, as ./test does\n")
OTHER_SOURCES = "relayd: release/ has the program of other sources, or of another kit\n"
DAMAGED = "release/relayd.xz is damaged: it doesn't have the program of release/SOURCES\n"
NO_XZ = "release/relayd.xz can't be unpacked: xz isn't installed\n"
DOES_NOT_START = "relayd: the program of release/ doesn't start on this machine\n"
SAME = "release/ has the program that is built here, byte for byte\n"
OLD = "release/ has the program of other sources, or none: tests/release.sh --update brings it up to date\n"
ANOTHER = "release/ has another program than the one that is built here of the same sources, by the kit kit-1\n"


def program(name):
    """Returns a program that prints its name and its words."""
    return f'#!/bin/sh\n[ "$1" = --help ] || echo "{name}: $*"\n'


def sum_of(data):
    """Returns the SHA-256 sum of bytes or of a text, as text."""
    return hashlib.sha256(data if isinstance(data, bytes) else data.encode()).hexdigest()


class Repository:
    """A small repository in a folder, in which a program was built and released, and then removed."""

    def __init__(self, folder, text=program("released")):
        self.top = folder / "repository"
        self.calls = folder / "calls"
        for name in SCRIPTS:
            (self.top / name).parent.mkdir(parents=True, exist_ok=True)
            shutil.copy(TOP / name, self.top / name)
        for name, contents in (*SOURCES.items(), *OTHERS.items()):
            self.write(name, contents)
        (folder / "bin").mkdir()
        (folder / "bin" / "rt").write_text(KIT)
        (folder / "bin" / "rt").chmod(0o755)
        (folder / "built").write_text(program("built"))
        (folder / "built").chmod(0o755)
        self.environment = {**os.environ, "PATH": f"{folder / 'bin'}:{os.environ['PATH']}", "CALLS": str(self.calls)}
        self.put_program(text)
        self.updated = self.run("tests/release.sh", "--update")
        shutil.rmtree(self.top / "crates" / "relayd" / "out")

    def write(self, name, contents):
        """Writes a file, which then is as if it were fifty years old."""
        path = self.top / name
        path.parent.mkdir(parents=True, exist_ok=True)
        path.write_text(contents)
        os.utime(path, (0, 0))

    def put_program(self, text):
        """Puts a program where the kit puts the one that it builds."""
        path = self.top / "crates" / "relayd" / "out" / "relayd"
        path.parent.mkdir(exist_ok=True)
        path.write_text(text)
        path.chmod(0o755)

    def start(self, *words):
        """Starts a script on words."""
        return subprocess.Popen([self.top / words[0], *words[1:]], env=self.environment, stdin=subprocess.DEVNULL,
                                stdout=subprocess.PIPE, stderr=subprocess.PIPE, text=True)

    def run(self, *words):
        """Runs a script on words, and returns its status and what it printed to each stream."""
        return ended(self.start(*words))

    def gates(self):
        """Returns what the kit's gate was called with since this was asked last, a line for each call."""
        found = self.calls.read_text() if self.calls.exists() else ""
        self.calls.unlink(missing_ok=True)
        return found


def ended(process):
    """Waits for a process, and returns its status and what it printed to each stream."""
    out, err = process.communicate()
    return process.returncode, out, err


def unlike(name, found, wanted):
    """Yields what was found, where it isn't what is wanted."""
    if found != wanted:
        yield f"{name}: {found!r}, and {wanted!r} is wanted"


def not_taken(name, repository, reason):
    """Yields what `./relayd` does otherwise than to say why it doesn't take the released program, and to begin a build."""
    status, out, err = repository.run("relayd", *WORDS)
    yield from unlike(f"{name}, not taken", (status, out, repository.gates()), (1, "", "ci\n"))
    wanted = f"{reason}proving and building relayd: 2 crates, half an hour to an hour on 4 processors the first time\n"
    # what README.md names may be another kit, and xz has a line of its own
    lines = [line for line in err.splitlines(keepends=True) if not line.startswith(("README.md names ", "xz: "))]
    yield from unlike(f"{name}, said", "".join(lines[:-1]), wanted)


def releases(folder):
    """A release has the program, its sum and that of its sources; it is unpacked once, and the built one goes before it."""
    repository = Repository(folder)
    release = repository.top / "release"
    packed = (release / "relayd.xz").read_bytes()
    yield from unlike("updated", repository.updated,
                      (0, f"release/ is brought up to date: SOURCES, and relayd.xz of {len(packed)} bytes\n", ""))
    yield from unlike("relayd.xz", lzma.decompress(packed), program("released").encode())
    listed = "".join(f"{sum_of(text)}  {name}\n" for name, text in SOURCES.items())
    wanted = f"program {sum_of(program('released'))}\nsources {sum_of(listed)}\nkit kit-1\n"
    yield from unlike("SOURCES", (release / "SOURCES").read_text(), wanted)
    yield from unlike("--sources", repository.run("tests/release.sh", "--sources"), (0, listed, ""))
    yield from unlike("the first time", repository.run("relayd", *WORDS), (*RELEASED[:2], TAKEN))
    yield from unlike("the second time", repository.run("relayd", *WORDS), RELEASED)
    repository.put_program(program("built"))
    yield from unlike("with a built program", repository.run("relayd", *WORDS), BUILT)
    os.utime(repository.top / "crates" / "low" / "src" / "lib.rt")
    yield from unlike("with a newer source, which is the same", repository.run("relayd", *WORDS), RELEASED)
    yield from unlike("files", [path.name for path in (release / "out").iterdir()], ["relayd"])
    yield from unlike("gates", repository.gates(), "")


def sources(folder):
    """A release is not taken where a source is another, whether it was unpacked before or not; taken where it is back."""
    changes = [*((name, text + "more\n") for name, text in SOURCES.items()), ("crates/low/src/lib.rt", None),
               ("crates/low/specs/New.antt", "a definition\n"), ("crates/relayd/src/new/new.rt", "code\n"),
               ("README.md", "The kit `kit-2`: it is trusted.\n")]
    repository = Repository(folder)
    for number, (name, text) in enumerate(changes * 2):
        before = {**SOURCES, **OTHERS}.get(name)
        if number == len(changes):
            yield from unlike("the first time", repository.run("relayd", *WORDS), (*RELEASED[:2], TAKEN))
        for now, wanted in ((text, None), (before, RELEASED)):
            if now is None:
                (repository.top / name).unlink()
            else:
                repository.write(name, now)
            if wanted is None:
                yield from not_taken(f"{name}, {number}", repository, OTHER_SOURCES)
            elif number >= len(changes):
                yield from unlike(f"{name} is back", repository.run("relayd", *WORDS), wanted)


def other_files(folder):
    """A release is taken whatever files are there that aren't sources."""
    repository = Repository(folder)
    new = (("crates/low/src/lib.rt~", ""), ("crates/low/out/kept.rt", ""), ("crates/new/src/lib.rt", ""))
    for name, text in (*OTHERS.items(), *new):
        repository.write(name, text + "more\n")
    yield from unlike("the first time", repository.run("relayd", *WORDS), (*RELEASED[:2], TAKEN))
    for name, text in OTHERS.items():
        repository.write(name, text)
        yield from unlike(name, repository.run("relayd", *WORDS), RELEASED)
    yield from unlike("gates", repository.gates(), "")


def damaged(folder):
    """A release is not taken where its program isn't that of its sums, and fails the check, whatever the sources are."""
    repository = Repository(folder)
    packed, sums = (repository.top / "release" / name for name in ("relayd.xz", "SOURCES"))
    kept, text = packed.read_bytes(), sums.read_text()
    other_sum = text.replace(sum_of(program("released")), sum_of(program("other")))
    changed = kept[:40] + bytes([kept[40] ^ 1]) + kept[41:]
    for name, data, said in (("cut", kept[:-1], text), ("empty", b"", text), ("no archive", b"text\n", text),
                             ("gone", None, text), ("changed", changed, text), ("another sum", kept, other_sum),
                             ("another program", lzma.compress(program("other").encode()), text)):
        packed.unlink()
        if data is not None:
            packed.write_bytes(data)
        sums.write_text(said)
        yield from not_taken(name, repository, DAMAGED)
        repository.put_program(program("released"))
        for sources_are, contents in (("the same sources", "code\n"), ("other sources", "other code\n")):
            repository.write("crates/low/src/lib.rt", contents)
            status, out, err = repository.run("tests/release.sh", "--check")
            yield from unlike(f"{name}, {sources_are}", (status, out, err.endswith(DAMAGED)), (1, "", True))
        repository.write("crates/low/src/lib.rt", "code\n")
        shutil.rmtree(repository.top / "crates" / "relayd" / "out")
        packed.write_bytes(kept)
    sums.unlink()
    yield from not_taken("no SOURCES", repository, "")
    status, out, _ = repository.run("tests/release.sh", "--check")
    yield from unlike("no SOURCES", (status, out), (1, ""))


def without_xz(folder):
    """A release is not taken where xz isn't installed, and fails the check."""
    repository = Repository(folder)
    links = folder / "without_xz"
    links.mkdir()
    for path in os.get_exec_path():
        for tool in pathlib.Path(path).iterdir() if os.path.isdir(path) else []:
            if tool.name not in ("xz", "rt") and not (links / tool.name).is_symlink():
                (links / tool.name).symlink_to(tool)
    repository.environment["PATH"] = f"{folder / 'bin'}:{links}"
    yield from not_taken("./relayd", repository, NO_XZ)
    yield from unlike("the check", repository.run("tests/release.sh", "--check"), (1, "", NO_XZ))


def not_starting(folder):
    """A release is not taken where its program doesn't start."""
    yield from not_taken("no such interpreter", Repository(folder, "#!/no/such/interpreter\n"), DOES_NOT_START)


def no_release(folder):
    """Without a release a program is proved and built as if there were none, and the check says that there is none."""
    repository = Repository(folder)
    shutil.rmtree(repository.top / "release")
    yield from not_taken("./relayd", repository, "")
    yield from unlike("the check", repository.run("tests/release.sh", "--check"), (0, OLD, ""))


def checks(folder):
    """The check compares the released program with the built one where the sources are the same."""
    repository = Repository(folder)
    status, out, err = repository.run("tests/release.sh", "--check")
    yield from unlike("no built program", (status, out, err), (1, "", ANOTHER))
    repository.put_program(program("released"))
    yield from unlike("the same", repository.run("tests/release.sh", "--check"), (0, SAME, ""))
    repository.put_program(program("built"))
    status, out, err = repository.run("tests/release.sh", "--check")
    differ = out.endswith(" differ: byte 38, line 2\n")
    yield from unlike("another program", (status, differ, err), (1, True, ANOTHER))
    repository.write("crates/low/src/lib.rt", "other code\n")
    yield from unlike("other sources", repository.run("tests/release.sh", "--check"), (0, OLD, ""))


def updates(folder):
    """A release is brought up to date by a program that isn't older than its sources, of the kit that README.md names."""
    repository = Repository(folder)
    release = repository.top / "release"
    kept = [(path.read_bytes(), path.stat().st_mtime_ns) for path in sorted(release.iterdir())]
    refused = "crates/relayd/out/relayd isn't built: ./test or ./relayd --prove builds it\n"
    yield from unlike("no program", repository.run("tests/release.sh", "--update"), (1, "", refused))
    repository.put_program(program("built"))
    repository.write("README.md", "The kit `kit-2`: it is trusted.\n")
    refused = "README.md names the kit kit-2, and this one is kit-1\n"
    yield from unlike("another kit", repository.run("tests/release.sh", "--update"), (1, "", refused))
    repository.write("README.md", OTHERS["README.md"])
    os.utime(repository.top / "crates" / "relayd" / "out" / "relayd", (1, 1))
    os.utime(repository.top / "crates" / "low" / "src" / "lib.rt", (2, 2))
    refused = ("crates/low/src/lib.rt is newer than crates/relayd/out/relayd: "
               "./test or ./relayd --prove builds it again\n")
    yield from unlike("a newer source", repository.run("tests/release.sh", "--update"), (1, "", refused))
    repository.put_program(program("released"))
    os.utime(repository.top / "crates" / "low" / "src" / "lib.rt", (0, 0))
    wanted = (0, "release/ is up to date\n", "")
    yield from unlike("the same program", repository.run("tests/release.sh", "--update"), wanted)
    found = [(path.read_bytes(), path.stat().st_mtime_ns) for path in sorted(release.iterdir())]
    yield from unlike("files", found, kept)
    repository.write("crates/low/src/lib.rt", "other code\n")
    repository.put_program(program("new"))
    status, out, _ = repository.run("tests/release.sh", "--update")
    yield from unlike("another program", (status, out[:28]), (0, "release/ is brought up to da"))
    yield from unlike("the check", repository.run("tests/release.sh", "--check"), (0, SAME, ""))
    shutil.rmtree(repository.top / "crates" / "relayd" / "out")
    yield from unlike("./relayd", repository.run("relayd", *WORDS), (0, "new: verify a b\n", TAKEN))


def at_once(folder):
    """Of several commands at once each runs a whole program, and of several builds each waits for the one before."""
    repository = Repository(folder)
    for found in [ended(process) for process in [repository.start("relayd", *WORDS) for _ in range(8)]]:
        yield from unlike("./relayd", (*found[:2], found[2] in ("", TAKEN)), (*RELEASED[:2], True))
    yield from unlike("files", [path.name for path in (repository.top / "release" / "out").iterdir()], ["relayd"])
    repository.environment["BUILDS"] = str(folder / "built")
    log = repository.top / "build.log"
    with open(log, "a", encoding="utf-8") as another:
        fcntl.flock(another, fcntl.LOCK_EX)
        builds = [repository.start("tests/build.sh") for _ in range(2)]
        for build in builds:
            yield from unlike("a build", build.stderr.readline(), "another build of relayd or the test command runs in this "
                              f"checkout, and this one waits for it; see {log}\n")
        yield from unlike("gates while they wait", repository.gates(), "")
    began = "proving and building relayd: 2 crates, half an hour to an hour on 4 processors the first time\n"
    yield from unlike("builds", sorted(map(ended, builds)), [(0, "", ""), (0, "", began)])
    yield from unlike("gates", repository.gates(), "ci\n")


def proves(folder):
    """`./relayd --prove` proves and builds the program though there is a released one, and that is run from then on."""
    repository = Repository(folder)
    repository.environment["BUILDS"] = str(folder / "built")
    yield from unlike("the released one", repository.run("relayd", *WORDS), (*RELEASED[:2], TAKEN))
    done = f"relayd is proved and built here: {repository.top / 'crates' / 'relayd' / 'out' / 'relayd'}\n"
    status, out, err = repository.run("relayd", "--prove")
    yield from unlike("--prove", (status, out, err.endswith(done), repository.gates()), (0, "", True, "ci\n"))
    yield from unlike("the built one", repository.run("relayd", *WORDS), BUILT)
    yield from unlike("--prove again", repository.run("relayd", "--prove"), (0, "", done))
    repository.write("crates/low/src/lib.rt", "other code\n")
    os.utime(repository.top / "crates" / "low" / "src" / "lib.rt")
    status, out, err = repository.run("relayd", *WORDS)
    newer = "relayd: crates/low/src/lib.rt is newer than the program, which is built again\n"
    found = status, out, err.startswith(OTHER_SOURCES + newer), repository.gates()
    yield from unlike("other sources", found, (*BUILT[:2], True, "ci\n"))


def main():
    """Tries each part in a folder of its own, and returns the exit status."""
    parts = (releases, sources, other_files, damaged, without_xz, not_starting, no_release, checks, updates, at_once, proves)
    failures = []
    for part in parts:
        with tempfile.TemporaryDirectory() as name:
            failures += [f"{part.__name__}: {failure}" for failure in part(pathlib.Path(name))]
    return finish(failures, f"release: {len(parts)} parts, {len(failures)} failures")


if __name__ == "__main__":
    sys.exit(main())
