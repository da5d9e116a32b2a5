"""Compares the run and the trace of programs by the built run_agrees, over seeded datagrams.

The programs are those of verdicts.py, kernel_vectors.json and kernel_verdicts.json, those in the rows of rows_bpf, the
examples, and the shipped programs, of which each bit and seeded pairs of bits are flipped too. A program in the rows
that the assembler refuses is passed over, and counted. Each program that is accepted runs over datagrams that are
empty, short and as long as they may be, some of them ChannelData and Send indications, with contexts of both sides, and
with helpers that look up, find nothing, or give drawn answers. Each with one flipped bit also runs over the datagrams
of a worked session.
"""

import pathlib
import re
import subprocess
import sys
import tempfile

from lib.kernel import vectors_of
from lib.program import TOP, build, finish, run
from verdicts import rows

FOLDER = TOP / "crates" / "run_agrees"
PROGRAM = FOLDER / "out" / "run_agrees"
EXAMPLES = TOP / "examples"
ROWS = TOP / "crates" / "rows_bpf" / "stdin"
# the datagrams of each program, and of each with flipped bits
DATAGRAMS, FEW_DATAGRAMS = 1_000, 20
# the datagrams of the worked session, over which a program with one flipped bit runs too
WORKED = 14
# the pairs of bits for each shipped program
PAIRS = 50_000
SHIPPED = ["relay/client", "relay/peer"]
# programs of a side that are made of these texts
OTHERS = [
    ["relay/client_with_options"],
    ["relay/refuse_network", "relay/peer"],
    ["relay/at_most_1200_bytes", "relay/peer"],
]
# a name in the rows, and its text; such a name in a row; and a row with a program that ends with an exit and is written out
NAMED = re.compile(r"let (\w+) = (.*)")
NAME = re.compile(r"\$([A-Z]\w*)")
ROW = re.compile(r"[a-z_]+ (?:[^;|\"]*: )?([^|\"{]*exit) -> .*")
# the status of a text that is refused
REFUSED = 1
COUNT = re.compile(r"(accepted|[EV]\d+): (\d+)\n")
CODE = re.compile(r"[EV]\d+")
RUNS = re.compile(r"(\d+) runs agree, (\d+) of them with a window\n")


def assembled(folder, text, may_be_refused=False):
    """Returns the bytes of a text; None where it is refused and may be.

    Any other text that isn't assembled ends the test.
    """
    source, target = folder / "text.s", folder / "program.bpf"
    source.write_text(text, encoding="utf-8")
    status, out, err = run(["assemble", source, target])
    if status == REFUSED and may_be_refused:
        return None
    if status:
        sys.exit(f"{text}{out}{err}")
    return target.read_bytes()


def text_of(names):
    """Returns the texts of examples/, one after the other."""
    return "".join((EXAMPLES / f"{name}.s").read_text(encoding="utf-8") for name in names)


def texts_of_rows():
    """Returns the texts of the programs in the rows of rows_bpf that end with an exit, each once."""
    lines = [line for line in ROWS.read_text(encoding="utf-8").splitlines() if not line.startswith("#")]
    names = dict(found.groups() for found in map(NAMED.fullmatch, lines) if found)
    written = [NAME.sub(lambda found: names[found[1]], line) for line in lines]
    programs = [found[1] for found in map(ROW.fullmatch, written) if found]
    return [f"{program}\n".replace("; ", "\n") for program in dict.fromkeys(programs)]


def programs(folder, shipped):
    """Returns the bytes of each program that is compared as it is, except those of the rows."""
    texts = ["".join(f"{line}\n" for line in program) for program, _ in rows()]
    texts += [text_of(names) for names in OTHERS]
    found = [assembled(folder, text) for text in texts] + shipped
    found += [path.read_bytes() for path in sorted(EXAMPLES.glob("*.bpf"))]
    vectors = vectors_of("kernel_vectors.json") + vectors_of("kernel_verdicts.json")
    accepted = [vector for vector in vectors if vector.get("profile") in (None, "accepted")]
    return found + [bytes.fromhex(vector["bytes_hex"]) for vector in accepted]


def compared(listed, datagrams, *words):
    """Runs the program over a list of programs, and returns its counts by name, and what is wrong, if anything is."""
    lines = "".join(f"{program.hex()}\n" for program in listed)
    status, out, err = run([str(datagrams), *words], program=PROGRAM, input=lines)
    counts = {name: int(count) for name, count in COUNT.findall(out)}
    found = RUNS.search(out)
    if status or not found:
        return counts, [f"status {status}: {out}{err}".strip()]
    counts["runs"], counts["windows"] = map(int, found.groups())
    return counts, []


def failures_of(counts, loaded, runs):
    """Yields what is wrong with the counts.

    Each program has one, each accepted program as many runs as this, and a window is set.
    """
    accepted = counts.get("accepted", 0)
    if accepted + sum(counts[name] for name in counts if CODE.fullmatch(name)) != loaded:
        yield f"not all of {loaded} programs are counted"
    if counts["runs"] != accepted * runs:
        yield f"{counts['runs']} runs of {accepted} programs"
    if not counts["windows"]:
        yield "no run sets a window"


def summed(counts):
    """Returns the counts as one phrase."""
    refusals = sorted((name for name in counts if CODE.fullmatch(name)), key=lambda name: (name[0], int(name[1:])))
    refused = ", ".join(f"{name} {counts[name]:,}" for name in refusals)
    return f"{counts.get('accepted', 0):,} programs accepted, refused: {refused}; {counts.get('runs', 0):,} runs"


def compare(folder):
    """Compares all programs, and the shipped ones with flipped bits, and returns the exit status."""
    shipped = [assembled(folder, text_of([name])) for name in SHIPPED]
    of_rows = [assembled(folder, text, may_be_refused=True) for text in texts_of_rows()]
    listed = programs(folder, shipped) + [program for program in of_rows if program is not None]
    bits = 8 * sum(map(len, shipped))
    # a title, the programs, how many are loaded, the seeded datagrams and the runs of each, and the other words
    works = [
        ("as they are", listed, len(listed), DATAGRAMS, DATAGRAMS, []),
        ("each bit flipped", shipped, bits, FEW_DATAGRAMS, FEW_DATAGRAMS + WORKED, ["flips"]),
        ("two bits flipped", shipped, PAIRS * len(shipped), FEW_DATAGRAMS, FEW_DATAGRAMS, ["pairs", str(PAIRS)]),
    ]
    failures = []
    phrases = [f"{len(of_rows)} texts in the rows, {of_rows.count(None)} of them refused by the assembler"]
    for title, given, loaded, datagrams, runs, words in works:
        counts, found = compared(given, datagrams, *words)
        found = found or failures_of(counts, loaded, runs)
        failures += [f"{title}: {failure}" for failure in found]
        phrases.append(f"{title}: {summed(counts)}")
    return finish(failures, f"runs and traces: {'; '.join(phrases)}; {len(failures)} failures")


def build_comparison():
    """Builds the program that compares, where it is not there."""
    if not PROGRAM.exists():
        subprocess.run(["rt", "run", "--", "0"], cwd=FOLDER, stdin=subprocess.DEVNULL, capture_output=True, check=True)


def main():
    """Builds both programs where they are not there, compares all, and returns the exit status."""
    build_comparison()
    build()
    with tempfile.TemporaryDirectory() as name:
        return compare(pathlib.Path(name))


if __name__ == "__main__":
    sys.exit(main())
