"""Reads and writes source maps by the options --lines and --from, and compares what is printed with rows that are worked out by hand.

A map that `assemble` writes is compared with one that this script makes of the text; one that `order` writes, with where the text of
each instruction is afterwards: of programs whose instructions all differ, so that each is found again. Where clang and LLVM's tools
are there, rules in C with mistakes are compiled, and each refusal has to end in the line of C.
"""

import os
import random
import re
import shutil
import subprocess
import sys
import tempfile
from pathlib import Path

from lib.program import PASSED_OVER, PROGRAM, TOP, run, run_parts

SEEDS = 100
BLOCKS = TOP / "examples" / "shared_block.s"
# the tools that build.sh needs, by the variables that name them
TOOLS = {"CLANG": "clang", "OBJCOPY": "llvm-objcopy", "OBJDUMP": "llvm-objdump", "READELF": "llvm-readelf"}
# lines of a text, the slots of its instructions with their lines, and what commands print; `@` stands for the name of the file
TEXT = """; two instructions of one slot, and one of two
    mov r0, 1 ; one

end_of_nothing:
    lddw r1, 0x100000000
exit"""
LINES = "0 @:2 mov r0, 1 ; one\n1 @:5 lddw r1, 0x100000000\n3 @:6 exit\n"
# the commands over it and its map, each with its status, what it prints, and what it prints to standard error
COMMANDS = [
    (["verify"], 0, "accepted 3 instructions\n", ""),
    (["trace"], 0, "0 mov r0, 1 ; @:2\n1 lddw r1, 4294967296 ; @:5\n3 exit ; @:6\nexit 1\nwindow none\ndestination none\n", ""),
    (["disassemble"], 0, "mov r0, 1 ; 0 ; @:2\nlddw r1, 4294967296 ; 1 ; @:5\nexit ; 3 ; @:6\n", ""),
    (["explain"], 0, "0 mov r0, 1 ; r1 context ; @:2\n1 lddw r1, 4294967296 ; r0 =1; r1 context ; @:5\n3 exit ; r0 =1; r1 =4294967296 ; @:6\n", "at most 3 steps a run, 3 of 100000 steps of verification, 0 states kept\n"),
    (["explain", "--slot", "3"], 0, "3 exit ; r0 =1; r1 =4294967296 ; @:6\n", ""),
]
# maps of it that are refused, or that say less, each with what `verify` says of it
MAPS = [
    ("", "refused lines of another program: slot 3 isn't there\n"),
    ("0 a:1\n1 a:1", "refused lines of another program: slot 3 isn't there\n"),
    ("3 a:1\n", None), ("3 a:18446744073709551615 text  of a line", None), ("0 a:1\r\n3 a:1 text\r\n", None), ("0 a:b:1\n3 a:1\n", None),
    ("0 a:1\n3 a:1\n4 a:1\n", "refused lines of another program: no instruction begins at slot 4\n"),
    ("0 a:1\n2 a:1\n3 a:1\n", "refused lines of another program: no instruction begins at slot 2\n"),
    ("4095 a:1\n", "refused lines of another program: no instruction begins at slot 4095\n"), ("4096 a:1\n", "refused lines at line 1\n"),
    ("0 a:1\n0 a:1\n", "refused lines at line 2\n"), ("3 a:1\n1 a:1\n", "refused lines at line 2\n"), ("\n", "refused lines at line 1\n"),
    *((line, "refused lines at line 1\n") for line in (
        "0", "0 ", "0 a", "0 a:", "0 :1", "0 a:x", "0 a:-1", "0 a:01", "0  a:1", " 0 a:1", "00 a:1", "-1 a:1", "+0 a:1", "0x0 a:1", "0 a:1x",
        "0 a:18446744073709551616", "18446744073709551616 a:1", "a:1", "0\ta:1")),
    # the first fault of a line comes before that of the program
    ("9 a:1\n0 a:1\n", "refused lines at line 2\n"), ("9 a:1\n8\n", "refused lines at line 2\n"),
]
# texts, each with what `order` says of it by the map of its text, and the slots that have lines afterwards
ORDERS = [
    ("mov r0, 0\na:\njeq r0, 1, b\nadd r0, 1\nja a\nb:\nexit",
     "refused loop at 1, @:3\n1 jeq r0, 1, +2 ; @:3\n2 add r0, 1 ; @:4\n3 ja -3 ; @:5\n", None),
    ("mov r0, 0\na: \nja a", "refused loop at 1, @:3\n1 ja -1 ; @:3\n", None),
    ("ja b\na:\nja +9\nb:\nja a", "refused V2 at 1, @:3\n", None),
    ("ja b\nc:\njeq r0, 0, d\na:\nmov r0, 2\nexit\nb:\njeq r0, 0, a\njeq r0, 0, c\nexit\nd:\nmov r0, 7\nexit", "",
     "0 @:1 ja b\n1 @:8 jeq r0, 0, a\n2 @:9 jeq r0, 0, c\n3 @:10 exit\n4 @:3 jeq r0, 0, d\n6 @:12 mov r0, 7\n7 @:13 exit\n8 @:5 mov r0, 2\n"
     "9 @:6 exit\n"),
    ("ja b\na:\nexit\nja +9\nb:\nja a", "", "0 @:1 ja b\n1 @:6 ja a\n2 @:3 exit\n"),
    ("mov r0, 0\nja a\nmov r0, 1\na:\nexit", "", "0 @:1 mov r0, 0\n1 @:2 ja a\n2 @:3 mov r0, 1\n3 @:5 exit\n"),
]
# rules in C, each with the line of C in which its refusal ends
MISTAKES = [
    ("int program(struct context *ctx) {\n  u8 *data = ctx->data;\n  if (data + 1 > ctx->end)\n    return DISCARD;\n  return data[1];\n}",
     "refused V10 at", "mine.c:6: return data[1];"),
    ("int program(struct context *ctx) {\n  u64 n = 0;\n  while (n < ctx->length)\n    n += 3;\n  return n;\n}", "refused loop at", None),
    ("int program(struct context *ctx) {\n  return *(u16 *)((u8 *)ctx + 26);\n}", "refused V9 at", "mine.c:3: return *(u16 *)((u8 *)ctx + 26);"),
]


def made(folder, text, name="a.s"):
    """Writes a text, and assembles it with its map. Returns what `assemble` printed."""
    (folder / name).write_text(text, encoding="utf-8")
    return run(["assemble", name, "a.bpf", "--lines", "a.lines"], cwd=folder)


def commands(folder):
    """Prints a program by each command, with the lines of its map and without."""
    if made(folder, TEXT) != (0, "wrote 32 bytes\n", "") or (folder / "a.lines").read_text() != LINES.replace("@", "a.s"):
        yield f"assemble: {(folder / 'a.lines').read_text()}"
    for words, status, out, err in COMMANDS:
        found = run([words[0], "a.bpf", *words[1:], "--lines", "a.lines"], cwd=folder)
        printed = found[0], re.sub(" +;", " ;", found[1]), found[2]
        if printed != (status, out.replace("@", "a.s"), err):
            yield f"{words}: {printed}"
        bare = run([words[0], "a.bpf", *words[1:], *(["--slots"] if words == ["disassemble"] else [])], cwd=folder)
        if re.sub(r"(, | ; )a\.s:\d+", "", found[1]) != bare[1]:
            yield f"{words}: without --lines {bare}"
    if run(["verify", "a.bpf", "--lines", "none"], cwd=folder) != (3, "", "cannot read none\n"):
        yield "a map that isn't there"
    for command in (["assemble", "a.s"], ["order", "a.bpf"]):
        if run([*command, "b.bpf", "--lines", "none/b"], cwd=folder) != (3, "", "cannot write none/b\n"):
            yield f"{command}: a map that can't be written"
    made(folder, TEXT, "a b.s")
    if (folder / "a.lines").read_text() != LINES.replace("@", "a_b.s"):
        yield "a name with a blank"


def maps(folder):
    """Reads maps that are refused, by each command that reads one; a refused map writes nothing."""
    made(folder, TEXT)
    for text, refusal in MAPS:
        (folder / "b.lines").write_bytes(text.encode())
        wanted = (0, "accepted 3 instructions\n", "") if refusal is None else (1, "", refusal)
        if (found := run(["verify", "a.bpf", "--lines", "b.lines"], cwd=folder)) != wanted:
            yield f"{text!r}: {found}"
        if refusal is None:
            continue
        for words in (["explain", "a.bpf", "--lines", "b.lines"], ["trace", "a.bpf", "--lines", "b.lines"],
                      ["disassemble", "a.bpf", "--lines", "b.lines"], ["order", "a.bpf", "c.bpf", "--from", "b.lines"]):
            if (found := run(words, cwd=folder)) != (1, "", refusal):
                yield f"{words[0]}: {text!r}: {found}"
    if (folder / "c.bpf").exists():
        yield "a program is written beside a refused map"
    # a file that is no program has no slots, so that the map isn't compared with it
    (folder / "none.bpf").write_bytes(bytes(8))
    if run(["verify", "none.bpf", "--lines", "a.lines"], cwd=folder)[1] != "refused E4 at 0, a.s:2\n":
        yield "a file that is no program"


def orders(folder):
    """Puts programs in order with the maps of their texts."""
    for text, said, lines in ORDERS:
        made(folder, text)
        wanted = 1 if said else 0, said.replace("@", "a.s")
        status, _, err = run(["order", "a.bpf", "b.bpf", "--from", "a.lines", "--lines", "b.lines"], cwd=folder)
        if (status, err) != wanted:
            yield f"{text!r}: {status} {err}"
        elif lines is not None and (folder / "b.lines").read_text() != lines.replace("@", "a.s"):
            yield f"{text!r}: {(folder / 'b.lines').read_text()}"
        if lines is None and run(["order", "a.bpf", "b.bpf"], cwd=folder)[2] != re.sub(r", a\.s:\d+$", "", said.split("\n")[0].replace("@", "a.s")) + "\n":
            yield f"{text!r}: without a map"
    # without a map of its own, a program's slots are its source
    shutil.copy(BLOCKS, folder / "a.s")
    made(folder, BLOCKS.read_text())
    run(["order", "a.bpf", "b.bpf", "--lines", "b.lines"], cwd=folder)
    if (folder / "b.lines").read_text() != "0 a.bpf:0\n1 a.bpf:3\n2 a.bpf:4\n3 a.bpf:5\n4 a.bpf:6\n5 a.bpf:1\n6 a.bpf:2\n":
        yield f"slots: {(folder / 'b.lines').read_text()}"


def shuffled(rng):
    """A program of blocks in any order, each with instructions of its own, of which some are never reached."""
    count = rng.randrange(2, 9)
    blocks = []
    for i in range(count):
        body = [f"lddw r0, {i}" if rng.randrange(4) == 0 else f"mov r0, {1000 * i + k}" for k in range(rng.randrange(1, 4))]
        if i + 2 < count and rng.randrange(2):
            body.append(f"jeq r0, {7000 + i}, b{rng.randrange(i + 1, count)}")
        blocks.append([f"b{i}:", *body, f"ja b{i + 1 + rng.randrange(count - i - 1)}" if i + 1 < count else "exit"])
    rest = blocks[1:]
    rng.shuffle(rest)
    return "\n".join(line for block in [blocks[0], *rest] for line in block)


def moved(folder):
    """Puts shuffled programs in order, and looks where each instruction is afterwards, by its own text."""
    for seed in range(SEEDS):
        text = shuffled(random.Random(seed))
        made(folder, text)
        run(["order", "a.bpf", "b.bpf", "--from", "a.lines", "--lines", "b.lines"], cwd=folder)
        slots = dict(reversed(line.split(" ; ")) for line in run(["disassemble", "--slots", "b.bpf"], cwd=folder)[1].splitlines())
        entries = [line.split(" ", 2) for line in (folder / "b.lines").read_text().splitlines()]
        for slot, place, source in entries:
            if text.split("\n")[int(place.split(":")[1]) - 1] != source:
                yield f"{seed}: {place} isn't {source}"
            if source.split()[0] != slots[slot].split()[0] or (source[0] != "j" and source != slots[slot]):
                yield f"{seed}: {source} is at {slot}, {slots[slot]}"
        without = [text for slot, text in slots.items() if slot not in {entry[0] for entry in entries}]
        if any(not text.startswith("ja ") for text in without):
            yield f"{seed}: without a line: {without}"
        if len({entry[1] for entry in entries}) != len(entries):
            yield f"{seed}: a line has two places"


def in_c(folder):
    """Compiles rules with mistakes, and one without, and compares in which line of C each refusal ends."""
    if missing := [name for variable, name in TOOLS.items() if not shutil.which(os.environ.get(variable, name))]:
        PASSED_OVER.append(f"rules in C (no {', no '.join(missing)})")
        return
    build = TOP / "examples" / "c" / "build.sh"
    for text, refusal, line in MISTAKES:
        (folder / "mine.c").write_text(f'#include "relayd.h"\n{text}\n')
        words = [build, "mine.c", "mine.bpf"]
        found = subprocess.run(words, cwd=folder, env={**os.environ, "RELAYD": str(PROGRAM)}, text=True, capture_output=True, check=False)
        printed = found.stdout + found.stderr
        if found.returncode == 0 or refusal not in printed:
            yield f"{refusal}: {printed}"
        if line is not None and not printed.endswith(f"{line}\n"):
            yield f"{refusal}: {printed}"
        if line is None and "mine.c:" not in printed:
            yield f"{refusal}: {printed}"
    for source in sorted((TOP / "examples" / "c").glob("*.c")):
        subprocess.run([build, source, "c.bpf"], cwd=folder, env={**os.environ, "RELAYD": str(PROGRAM)}, capture_output=True, check=True)
        for line in (folder / "c.lines").read_text().splitlines():
            slot, place, *text = line.split(" ", 2)
            file, number = place.rsplit(":", 1)
            if text != [part for part in [Path(file).read_text().split("\n")[int(number) - 1].strip()] if part]:
                yield f"{source.name}: {line}"


def main():
    """Runs each part in a folder of its own, and returns the exit status."""
    with tempfile.TemporaryDirectory() as folder:
        return run_parts("source_maps", [commands, maps, orders, moved, in_c], Path(folder), summary=f"{len(MAPS)} maps, {len(ORDERS)} orders, {SEEDS} shuffled; ")


if __name__ == "__main__":
    sys.exit(main())
