"""Puts programs in an order in which every jump leads forward, and compares what they do before and after.

The blocks of the shipped programs and of the compiled ones are shuffled, so that jumps lead backward, which the verifier refuses; put in
order, they are accepted and answer events as a model of the rules does. A program that is in order comes back as it is. Loops are
named by a slot that lies on one, by a search of this script's own; faults are named where they are reached, and nowhere else.
"""

import pathlib
import random
import re
import sys
import tempfile

import relaying
from private_peers import with_peers
from lib.program import TOP, assembled, build, finish, run
from relaying import IP6, compare, systematic, systematic6

SEEDS = 20
LOOPS = 200
SHIPPED = TOP / "examples" / "relay"
COMPILED = TOP / "examples" / "c" / "compiled"
# texts in the form of the assembler, each with what `order` says of it and the text that it makes of it, if it makes one
ROWS = [
    ("in order", "mov r0, 0\njeq r0, 1, a\nmov r0, 1\na:\nexit", "wrote 32 bytes", "mov r0, 0\njeq r0, 1, +1\nmov r0, 1\nexit"),
    ("in order, with a block that is never reached", "mov r0, 0\nja a\nmov r0, 1\na:\nexit", "wrote 32 bytes",
     "mov r0, 0\nja +1\nmov r0, 1\nexit"),
    ("a block before its user", "ja b\na:\nmov r0, 0\nexit\nb:\nja a", "wrote 32 bytes", "ja +0\nja +0\nmov r0, 0\nexit"),
    ("a block that two share", "mov r0, 0\nja b\na:\nexit\nb:\njeq r0, 1, a\nmov r0, 1\nja a", "wrote 48 bytes",
     "mov r0, 0\nja +0\njeq r0, 1, +2\nmov r0, 1\nja +0\nexit"),
    ("a fall-through that is lost", "ja b\nc:\njeq r0, 0, d\na:\nmov r0, 2\nexit\nb:\njeq r0, 0, a\njeq r0, 0, c\nexit\nd:\nmov r0, 7\nexit",
     "wrote 80 bytes", "ja +0\njeq r0, 0, +6\njeq r0, 0, +1\nexit\njeq r0, 0, +1\nja +2\nmov r0, 7\nexit\nmov r0, 2\nexit"),
    ("an instruction of two slots", "ja b\na:\nlddw r0, 5\nexit\nb:\nja a", "wrote 40 bytes", "ja +0\nja +0\nlddw r0, 5\nexit"),
    ("a loop of one instruction", "mov r0, 0\na:\nja a", "refused loop at 1", None),
    ("a loop of three", "mov r0, 0\na:\njeq r0, 1, b\nadd r0, 1\nja a\nb:\nexit", "refused loop at 1", None),
    ("a loop that is not reached", "mov r0, 0\nja b\na:\nja a\nb:\nexit", "wrote 24 bytes", "mov r0, 0\nja +0\nexit"),
    ("a jump outside", "ja b\na:\nja +9\nb:\nja a", "refused V2 at 1", None),
    ("a jump before the program", "ja b\na:\nja -9\nb:\nja a", "refused V2 at 1", None),
    ("a jump into an instruction", "ja b\na:\nlddw r0, 5\nexit\nb:\nja -3", "refused V3 at 4", None),
    ("the end of the program", "ja b\na:\nexit\nb:\njeq r0, 1, a", "refused V4 at 2", None),
    ("a jump outside that is not reached", "ja b\na:\nexit\nja +9\nb:\nja a", "wrote 24 bytes", "ja +0\nja +0\nexit"),
]
# files that are no program, with what is said of them
FILES = [(b"", "refused E1\n"), (b"\x95", "refused E2\n"), (bytes.fromhex("9500000000000000") * 4_097, "refused E3\n"),
         (bytes(8), "refused E4 at 0\n")]


def listing(path):
    """Returns the instructions of a program by their slots, in their order."""
    status, out, err = run(["disassemble", "--slots", path])
    if status:
        sys.exit(err)
    return {int(slot): text for text, slot in (line.rsplit(" ; ", 1) for line in out.splitlines())}


def successors(slot, text, after):
    """Returns the slots that an instruction leads to, of which the first is that of a jump; `after` is the slot of the next one."""
    if text == "exit":
        return []
    jump = re.fullmatch(r"j\S* .*?([+-]\d+)", text)
    if jump is None:
        return [after]
    target = slot + 1 + int(jump[1])
    return [target] if text.startswith("ja") else [target, after]


def shuffled(path, source):
    """Returns the text of a program whose blocks are in another order, with jumps where one fell through to the next."""
    code = listing(path)
    slots = [*code, max(code) + 1]
    after = dict(zip(slots, slots[1:]))
    targets = {target for slot, text in code.items() for target in successors(slot, text, after[slot]) if target != after[slot]}
    blocks, block = [], []
    for slot, text in code.items():
        if slot in targets and block:
            blocks.append([*block, f"ja at{slot}"])
            block = []
        if not block:
            block = [f"at{slot}:"]
        found = successors(slot, text, after[slot])
        block.append(re.sub(r"[+-]\d+$", f"at{found[0]}", text) if re.match("j", text) else text)
        if not found or text.startswith("ja"):
            blocks.append(block)
            block = []
        elif text.startswith("j"):
            blocks.append([*block, f"ja at{after[slot]}"])
            block = []
    rest = blocks[1:]
    source.shuffle(rest)
    return "\n".join(line for block in [blocks[0], *rest] for line in block)


def order(folder, path):
    """Returns what `order` prints of a file, and the file that it makes."""
    target = folder / "ordered.bpf"
    target.unlink(missing_ok=True)
    status, out, err = run(["order", path, target])
    return status, out + err, target


def worked(folder):
    """Yields the worked rows that are answered otherwise."""
    for name, text, said, made in ROWS:
        path = assembled(folder, "row", text)
        status, printed, target = order(folder, path)
        if printed != said + "\n" or status != (0 if said.startswith("wrote") else 1):
            yield f"{name}: {printed!r} and {status} in place of {said!r}"
        elif made is not None and "\n".join(listing(target).values()) != made:
            yield f"{name}: {listing(target)} in place of {made!r}"
        elif status and target.exists():
            yield f"{name}: a refused program is written"
    for number, (data, said) in enumerate(FILES):
        path = folder / "file"
        path.write_bytes(data)
        status, printed, target = order(folder, path)
        if (status, printed) != (1, said) or target.exists():
            yield f"file {number}: {printed!r} and {status} in place of {said!r}"
    path = folder / "object"
    path.write_bytes(b"\x7fELF" + bytes(60))
    status, printed, target = order(folder, path)
    if status != 1 or "an object file: take its .text" not in printed or target.exists():
        yield f"an object file: {printed!r} and {status}"


def unchanged(folder):
    """Yields the programs in order that don't come back as they are."""
    for path in [assembled(folder, source.stem, source.read_text(encoding="utf-8")) for source in SHIPPED.glob("*.s")
                 if source.stem in ("client", "peer", "deny_private")] + [*COMPILED.glob("*.bpf")]:
        _, printed, target = order(folder, path)
        if not target.exists() or target.read_bytes() != path.read_bytes():
            yield f"{path.name}: {printed!r}, and the program is another one"


def answers(folder, seeds):
    """Yields what the shipped programs answer otherwise after their blocks were shuffled and put in order."""
    ip6 = ["--relay-ip6", IP6.hex()]
    events = [(systematic(), []), (systematic6(), ip6), (with_peers(relaying.PEERS, 8656, IP6), ip6)]
    sides = {side: assembled(folder, side, (SHIPPED / f"{side}.s").read_text(encoding="utf-8")) for side in ("client", "peer")}
    for seed in range(seeds):
        options = []
        for side, path in sides.items():
            mixed = assembled(folder, f"{side}-{seed}", shuffled(path, random.Random(seed)))
            _, refused, _ = run(["verify", mixed])
            _, printed, target = order(folder, mixed)
            if not target.exists() or "V1 at" not in refused:
                yield f"{side}, seed {seed}: {refused!r} and {printed!r}"
                return
            kept = target.rename(folder / f"{side}-{seed}-ordered.bpf")
            options += [f"--{side}", str(kept)]
        for pairs, words in events if seed < 3 else events[:1]:
            yield from compare(folder, f"seed {seed}", pairs, [*options, *words])


def lies_on_loop(code, slot):
    """Whether a path leads from a slot back to it, and one leads to it from slot 0."""
    slots = [*code, max(code) + 1]
    after = dict(zip(slots, slots[1:]))

    def reached(starts):
        seen, rest = set(), list(starts)
        while rest:
            at = rest.pop()
            if at not in seen and at in code:
                seen.add(at)
                rest += successors(at, code[at], after[at])
        return seen
    return slot in reached([0]) and slot in reached(successors(slot, code[slot], after[slot]))


def loops(folder):
    """Yields the drawn programs of which `order` says what isn't so."""
    for seed in range(LOOPS):
        source = random.Random(seed)
        count = source.randrange(3, 12)
        lines = [source.choice(["mov r0, 0", f"jeq r0, {source.randrange(4)}, {source.randrange(-4, 6):+d}", "add r0, 1",
                                f"ja {source.randrange(-4, 6):+d}", "exit"]) for _ in range(count)] + ["exit"]
        path = assembled(folder, "drawn", "\n".join(lines))
        code = listing(path)
        _, printed, target = order(folder, path)
        named = re.fullmatch(r"refused loop at (\d+)\n", printed)
        if named and not lies_on_loop(code, int(named[1])):
            yield f"drawn program {seed}: {printed!r}, of {lines}"
        if target.exists() and "V1" in run(["verify", target])[1]:
            yield f"drawn program {seed}: a jump leads backward, of {lines}"
        if target.exists() and any(lies_on_loop(code, slot) for slot in code):
            yield f"drawn program {seed}: a loop is not seen, of {lines}"


def main():
    """Prints the failures, and what ran."""
    build()
    with tempfile.TemporaryDirectory() as name:
        folder = pathlib.Path(name)
        failures = [*worked(folder), *unchanged(folder), *loops(folder), *answers(folder, SEEDS)]
    return finish(failures, f"ordering: {len(ROWS) + len(FILES) + 1} rows, {LOOPS} drawn programs, "
                  f"{SEEDS} orders of the shipped ones, {len(failures)} failures")


if __name__ == "__main__":
    sys.exit(main())
