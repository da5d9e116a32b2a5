"""Assembles, disassembles and draws programs with the built relayd.

Each example's text has to give its bytes. Each program of the kernel's tests is disassembled, without slots
and with them, and both texts have to give the same bytes. Wrong texts and files have to be refused as the cases say. Graphs are
those that were worked by hand and, where Graphviz is installed, it reads each of them.
"""

import html
import json
import pathlib
import re
import shutil
import subprocess
import sys
import tempfile
from typing import NamedTuple

from lib.program import PASSED_OVER, TOP, finish, run

# a text, what `assemble` prints of it to standard error; the status is 1
REFUSED = [
    ("mov r11, 0\n", "refused L1 at line 1\n"),
    ("mov r0, 2147483648\n", "refused L2 at line 1\n"),
    ("ja x\n", "refused L3 at line 1\n"),
    ("a:\na:\n", "refused L4 at line 2\n"),
    ("lddw r0, 0\n" * 2049, "refused L5\n"),
    # a fault of a line comes before an unknown label on an earlier one
    ("ja x\nmov r0\n", "refused L1 at line 2\n"),
]
KEPT = b"what was there"

# a program whose first instruction takes two slots, its text, and its text with the slot of each instruction
WIDE = bytes.fromhex("1801000001000000 0000000000000000 9500000000000000")
WIDE_TEXT = "lddw r1, 1\nexit\n"
WIDE_WITH_SLOTS = "lddw r1, 1 ; 0\nexit ; 2\n"


class Graph(NamedTuple):
    """A graph that was worked by hand: the lines between the first two and the last one."""

    text: str
    lines: str
    # what is printed to standard error: a program that is accepted has no line there
    err: str = ""
    # the source map of the program, if the graph is one with the lines of its source
    source_map: str = ""


BEGINNING = "digraph program {\n  node [shape=box, fontname=monospace];\n"
BRANCHES = "ldxdw r2, [r1+16]\nmov r0, 0\njgt r2, 1204, end\nmov r0, 1\nend:\nexit\n"
# four bytes are read where they are proved, and one where none is: there the path goes by the taken branch
UNPROVED = ("ldxdw r2, [r1+0]\nldxdw r3, [r1+8]\nmov r4, r2\nadd r4, 4\njgt r4, r3, end\n"
            "ldxw r0, [r2+0]\nend:\nldxb r0, [r2+0]\nexit\n")
GRAPHS = [
    # two branches: the one that isn't taken is followed first, so that the last block is first reached with r0 = 1
    Graph(BRANCHES, r"""
  s0 [label="\
; r1 context\l\
ldxdw r2, [r1+16] ; 0\l\
mov r0, 0 ; 1\l\
jgt r2, 1204, +1 ; 2\l\
"];
  s3 [label="\
; r0 =0\l\
; r1 context\l\
; r2 0..1204\l\
mov r0, 1 ; 3\l\
"];
  s4 [label="\
; r0 =1\l\
; r1 context\l\
; r2 0..1204\l\
exit ; 4\l\
"];
  s0 -> s3 [label="not taken"];
  s0 -> s4 [label=taken];
  s3 -> s4;
"""),
    # the same with lines: one for instructions of the same line, and in each block anew; in a string DOT needs a backslash before `"`
    Graph(BRANCHES, r"""
  s0 [label="\
; r1 context\l\
ldxdw r2, [r1+16] ; 0 ; a\"\\.c:3\l\
mov r0, 0 ; 1\l\
jgt r2, 1204, +1 ; 2 ; a\"\\.c:4\l\
"];
  s3 [label="\
; r0 =0\l\
; r1 context\l\
; r2 0..1204\l\
mov r0, 1 ; 3 ; a\"\\.c:4\l\
"];
  s4 [label="\
; r0 =1\l\
; r1 context\l\
; r2 0..1204\l\
exit ; 4 ; a\"\\.c:9\l\
"];
  s0 -> s3 [label="not taken"];
  s0 -> s4 [label=taken];
  s3 -> s4;
""", source_map='0 a"\\.c:3 if (n > 1204)\n1 a"\\.c:3\n2 a"\\.c:4\n3 a"\\.c:4\n4 a"\\.c:9\n'),
    # a wide instruction, which is jumped over, and an instruction that no path leads to
    Graph("mov r0, 0\nja end\nlddw r0, 7\nend:\nexit\n", r"""
  s0 [label="\
; r1 context\l\
mov r0, 0 ; 0\l\
ja +2 ; 1\l\
"];
  s2 [label="\
; never reached\l\
lddw r0, 7 ; 2\l\
"];
  s4 [label="\
; r0 =0\l\
; r1 context\l\
exit ; 4\l\
"];
  s0 -> s4;
  s2 -> s4;
"""),
    # the block of the refusal has what is known on the path to it: no byte is proved, as it is by the other branch
    Graph(UNPROVED, r"""
  s0 [color=red, label="\
; r1 context\l\
ldxdw r2, [r1+0] ; 0\l\
ldxdw r3, [r1+8] ; 1\l\
mov r4, r2 ; 2\l\
add r4, 4 ; 3\l\
jgt r4, r3, +1 ; 4\l\
"];
  s5 [label="\
; r1 context\l\
; r2 datagram+0\l\
; r3 end\l\
; r4 datagram+4\l\
; 4 bytes proved\l\
ldxw r0, [r2+0] ; 5\l\
"];
  s6 [color=red, label="\
; r1 context\l\
; r2 datagram+0\l\
; r3 end\l\
; r4 datagram+4\l\
ldxb r0, [r2+0] ; 6\l\
exit ; 7\l\
"];
  s0 -> s5 [label="not taken"];
  s0 -> s6 [color=red, label=taken];
  s5 -> s6;
""", "refused V10 at 6\n"),
    # the same with lines, of which the map has none for some slots
    Graph(UNPROVED, r"""
  s0 [color=red, label="\
; r1 context\l\
ldxdw r2, [r1+0] ; 0 ; mine.c:2\l\
ldxdw r3, [r1+8] ; 1 ; mine.c:3\l\
mov r4, r2 ; 2\l\
add r4, 4 ; 3 ; mine.c:3\l\
jgt r4, r3, +1 ; 4\l\
"];
  s5 [label="\
; r1 context\l\
; r2 datagram+0\l\
; r3 end\l\
; r4 datagram+4\l\
; 4 bytes proved\l\
ldxw r0, [r2+0] ; 5 ; mine.c:4\l\
"];
  s6 [color=red, label="\
; r1 context\l\
; r2 datagram+0\l\
; r3 end\l\
; r4 datagram+4\l\
ldxb r0, [r2+0] ; 6 ; mine.c:5\l\
exit ; 7\l\
"];
  s0 -> s5 [label="not taken"];
  s0 -> s6 [color=red, label=taken];
  s5 -> s6;
""", "refused V10 at 6, mine.c:5\n", "0 mine.c:2\n1 mine.c:3\n3 mine.c:3\n4 mine.c:3\n5 mine.c:4\n6 mine.c:5\n7 mine.c:5\n"),
    # the branch that isn't taken is refused, and goes on to a block that a jump leads to, and that isn't reached before the refusal
    Graph("mov r0, 0\nldxdw r2, [r1+16]\njgt r2, 9, other\nmov r0, r3\nother:\nexit\n", r"""
  s0 [color=red, label="\
; r1 context\l\
mov r0, 0 ; 0\l\
ldxdw r2, [r1+16] ; 1\l\
jgt r2, 9, +1 ; 2\l\
"];
  s3 [color=red, label="\
; r0 =0\l\
; r1 context\l\
; r2 0..9\l\
mov r0, r3 ; 3\l\
"];
  s4 [label="\
; never reached\l\
exit ; 4\l\
"];
  s0 -> s3 [color=red, label="not taken"];
  s0 -> s4 [label=taken];
  s3 -> s4;
""", "refused V5 at 3\n"),
    # what the stack keeps, and a jump to the next slot
    Graph("stxdw [r10-8], r1\nstdw [r10-16], 0\nja next\nnext:\nmov r0, 0\nexit\n", r"""
  s0 [label="\
; r1 context\l\
stxdw [r10-8], r1 ; 0\l\
stdw [r10-16], 0 ; 1\l\
ja +0 ; 2\l\
"];
  s3 [label="\
; r1 context\l\
; stack-8 holds context\l\
; stack-16..-8 set\l\
mov r0, 0 ; 3\l\
exit ; 4\l\
"];
  s0 -> s3;
"""),
    # a jump back: the layout is refused before any slot is reached
    Graph("mov r0, 0\nadd r0, 1\njlt r0, 9, -2\nexit\n", r"""
  s0 [label="\
; never reached\l\
mov r0, 0 ; 0\l\
"];
  s1 [color=red, label="\
; never reached\l\
add r0, 1 ; 1\l\
jlt r0, 9, -2 ; 2\l\
"];
  s3 [label="\
; never reached\l\
exit ; 3\l\
"];
  s0 -> s1;
  s1 -> s3 [label="not taken"];
  s1 -> s1 [label=taken];
""", "refused V1 at 2\n"),
    # a jump that leaves the program, which ends in no exit
    Graph("mov r0, 0\nja +1\n", r"""
  s0 [color=red, label="\
; never reached\l\
mov r0, 0 ; 0\l\
ja +1 ; 1\l\
"];
""", "refused V2 at 1\n"),
]


def assembled(folder, text):
    """Assembles a text, and returns the bytes, or what was printed instead."""
    source, target = folder / "text.s", folder / "program.bpf"
    source.write_bytes(text)
    target.unlink(missing_ok=True)
    status, out, err = run(["assemble", source, target])
    if status:
        return f"{status} {out}{err}"
    program = target.read_bytes()
    return program if (out, err) == (f"wrote {len(program)} bytes\n", "") else f"0 {out}{err}"


def failures_of_examples(folder):
    """Yields the examples whose text gives other bytes."""
    for source in sorted((TOP / "examples").glob("*.s")):
        if assembled(folder, source.read_bytes()) != source.with_suffix(".bpf").read_bytes():
            yield f"{source.name}: other bytes"


def programs():
    """Returns the bytes of each example and of each program of the kernel's tests.

    A vector whose verdict is a refusal of the decoder is no program.
    """
    found = [path.read_bytes() for path in sorted((TOP / "examples").glob("*.bpf"))]
    for name in ("kernel_vectors.json", "kernel_verdicts.json"):
        vectors = json.loads((TOP / "tests" / name).read_text(encoding="utf-8"))["vectors"]
        decoded = [v for v in vectors if not v.get("profile", "").startswith("E")]
        found += [bytes.fromhex(vector["bytes_hex"]) for vector in decoded]
    return found


def failures_of_round_trips(folder, listed):
    """Yields the programs whose text, without slots or with them, does not give the same bytes."""
    file = folder / "listed.bpf"
    for number, program in enumerate(listed):
        file.write_bytes(program)
        for words in (["disassemble"], ["disassemble", "--slots"]):
            status, text, err = run([*words, file])
            if status:
                yield f"program {number}, {' '.join(words)}: {err}"
            elif assembled(folder, text.encode()) != program:
                yield f"program {number}, {' '.join(words)}: the text gives other bytes"


def failures_of_slots(folder):
    """Yields the texts of the program with a wide instruction that are not the worked ones."""
    file = folder / "wide.bpf"
    file.write_bytes(WIDE)
    for words, wanted in [(["disassemble"], WIDE_TEXT), (["disassemble", "--slots"], WIDE_WITH_SLOTS)]:
        got = run([*words, file])
        if got != (0, wanted, ""):
            yield f"{' '.join(words)}: {got}"


def unescaped(escape):
    """Returns what an escape of a label stands for: `\\l` ends a line that is drawn, and a backslash at the end of a line nothing."""
    return {"\n": "", "l": "\n"}.get(escape[1], escape[1])


def labels_of(graph):
    """Returns the lines of the labels of a graph, in their order among all of them."""
    quoted = re.findall(r'label="((?:[^"\\]|\\.)*)"', graph, re.DOTALL)
    lines = [line for label in quoted for line in re.sub(r"\\(.)", unescaped, label, flags=re.DOTALL).splitlines()]
    return sorted(lines + re.findall(r"label=(\w+)", graph))


def texts_of(picture):
    """Returns the texts of a picture in SVG, in their order among all of them."""
    found = re.findall(r"<text[^>]*>([^<]*)</text>", picture.read_text(encoding="utf-8"))
    return sorted(html.unescape(text).replace("\u00a0", " ") for text in found)


def failures_of_picture():
    """Yields where the picture of the pages has other texts than the graph that the command draws of its program."""
    status, graph, err = run(["graph", TOP / "examples" / "first_byte_class.bpf"])
    texts = texts_of(TOP / "docs" / "first_byte_class.svg")
    if status or err or texts != labels_of(graph):
        yield f"docs/first_byte_class.svg isn't the picture of its program: {texts}, {graph}{err}"


def failures_of_graphs(folder):
    """Yields the graphs that are not the worked ones, or that Graphviz doesn't read where it is installed."""
    file, lines, picture = folder / "program.bpf", folder / "program.lines", folder / "program.svg"
    has_graphviz = shutil.which("dot")
    if not has_graphviz:
        PASSED_OVER.append("pictures of graphs (no dot)")
    for graph in GRAPHS:
        assembled(folder, graph.text.encode())
        lines.write_text(graph.source_map, encoding="utf-8")
        wanted = f"{BEGINNING}{graph.lines[1:]}}}\n"
        got = run(["graph", file, *(["--lines", lines] if graph.source_map else [])])
        if got != (1 if graph.err else 0, wanted, graph.err):
            yield f"the graph of {graph.text!r}: {got}"
        if has_graphviz:
            drawn = subprocess.run(["dot", "-Tsvg", "-o", picture], input=wanted, text=True, capture_output=True, check=False)
            blocks = picture.read_text(encoding="utf-8").count('class="node"')
            if drawn.stderr or blocks != wanted.count('\n"];') or texts_of(picture) != labels_of(wanted):
                yield f"the picture of {graph.text!r}: {drawn.stderr}{texts_of(picture)}"


def failures_of_undrawn(folder):
    """Yields the files and source maps of which a graph has to be refused, and isn't."""
    lines = folder / "other.lines"
    # a file, its source map or None, and what `graph` has to do
    cases = [
        (WIDE[:12], None, (1, "", "refused E2\n")),
        (WIDE[:12], "0 mine.c:2\n", (1, "", "refused E2\n")),
        (bytes(8), '0 a"b:2\n', (1, "", 'refused E4 at 0, a"b:2\n')),
        # maps of other programs
        (WIDE, "0 mine.c:2\n", (1, "", "refused lines of another program: slot 2 isn't there\n")),
        (WIDE, "0 mine.c:2\n1 mine.c:2\n2 mine.c:2\n", (1, "", "refused lines of another program: no instruction begins at slot 1\n")),
        (WIDE, "0 mine.c\n", (1, "", "refused lines at line 1\n")),
    ]
    file = folder / "undrawn.bpf"
    for program, source_map, wanted in cases:
        file.write_bytes(program)
        lines.write_text(source_map or "", encoding="utf-8")
        got = run(["graph", file, *(["--lines", lines] if source_map else [])])
        if got != wanted:
            yield f"the graph of {program.hex()} with {source_map!r}: {got}"
    if (got := run(["graph", file, "--lines", "none"], cwd=folder)) != (3, "", "cannot read none\n"):
        yield f"the graph with a map that isn't there: {got}"


def failures_of_refusals(folder):
    """Yields the wrong texts that are not refused as they have to be, or that touch the output."""
    source, target = folder / "wrong.s", folder / "kept.bpf"
    for text, line in REFUSED:
        source.write_text(text, encoding="utf-8")
        target.write_bytes(KEPT)
        got = run(["assemble", source, target])
        if got != (1, "", line) or target.read_bytes() != KEPT:
            yield f"{text[:20]!r}: {got}"
        target.unlink()
        run(["assemble", source, target])
        if target.exists():
            yield f"{text[:20]!r}: a file was written"


def failures_of_files(folder):
    """Yields the files that are not reported as they have to be."""
    (folder / "good.s").write_text("exit\n", encoding="utf-8")
    (folder / "latin.s").write_bytes(b"exit ; \xe9\n")
    cases = [
        (["assemble", "missing.s", "out"], (3, "", "cannot read missing.s\n")),
        (["assemble", "latin.s", "out"], (3, "", "cannot read latin.s\n")),
        (["assemble", "good.s", "nowhere/out"], (3, "", "cannot write nowhere/out\n")),
        (["assemble", "good.s", "/dev/full"], (3, "", "cannot write /dev/full\n")),
        (["assemble", "good.s", "out"], (0, "wrote 8 bytes\n", "")),
        (["disassemble", "out"], (0, "exit\n", "")),
        (["disassemble", "missing"], (3, "", "cannot read missing\n")),
        (["disassemble", "good.s"], (1, "", "refused E2\n")),
    ]
    for words, wanted in cases:
        got = run(words, cwd=folder)
        if got != wanted:
            yield f"{' '.join(words)}: {got}"


def main():
    """Runs every case, and returns the exit status."""
    listed = programs()
    with tempfile.TemporaryDirectory() as name:
        folder = pathlib.Path(name)
        failures = [
            *failures_of_examples(folder),
            *failures_of_round_trips(folder, listed),
            *failures_of_slots(folder),
            *failures_of_graphs(folder),
            *failures_of_undrawn(folder),
            *failures_of_picture(),
            *failures_of_refusals(folder),
            *failures_of_files(folder),
        ]
    return finish(failures, f"texts: {len(listed)} programs there and back, {len(failures)} failures")


if __name__ == "__main__":
    sys.exit(main())
