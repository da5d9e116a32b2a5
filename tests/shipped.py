"""Compares the shipped programs with their texts. With --write it makes them of their texts.

    tests/shipped.py [--write]

The text of a program, examples/relay/client.s or peer.s, is its one source. `relayd assemble` makes its bytes, which
this writes to the constant of crates/programs/src/client.rt or peer.rt, an instruction a line, beside the text without its
comments; and from the lines of the text it makes the list of instructions that proofs compute with,
crates/programs/specs/Client.antt or Peer.antt.
"""

import pathlib
import re
import sys
import tempfile

from lib.program import TOP, assembled, finish

PROGRAMS = TOP / "crates" / "programs"

# what is said of each program: its title, and the docstring of its constant
TITLES = {"client": "client's side", "peer": "peers' side"}
DOCS = {
    "client": """\
/// The bytes of the program of the client's side, an instruction a line, made of examples/relay/client.s. It relays
/// ChannelData and Send indications of an IPv4 address and data, passes on whatever else begins as a STUN message does,
/// and sends nothing for any other datagram. [`law_client_serves`](crate::law_client_serves) states what it promises.
/// See docs/DECISIONS.md, "A plain Send indication".
""",
    "peer": """\
/// The bytes of the program of the peers' side, an instruction a line, made of examples/relay/peer.s. It relays
/// datagrams of peers that have a permission: as ChannelData where a channel is bound to the peer, and else as Data
/// indications. [`law_peer_serves`](crate::law_peer_serves) states what it promises.
""",
}

USES = """\
use Rattle.std.specs.Prelude.{List, [], ◌∷◌, pos, negsuc}
use Rattle.insn.specs.declared.condition.Condition.TheVariants.{Eq, Ne, Gt, Lt}
use Rattle.insn.specs.declared.instruction.Insn.{Insn}
use Rattle.insn.specs.declared.instruction.Insn.TheVariants.{Alu, Mov, Swap, Jump, JumpIf, Load, LoadImm, Store, Call, Exit}
use Rattle.insn.specs.declared.instruction.Operand.TheVariants.{Reg, Imm}
use Rattle.insn.specs.declared.operator.AluOp.TheVariants.{Add, Rsh, Lsh, Xor}
use Rattle.insn.specs.declared.operator.SwapOp.TheVariants.{ToBig}
use Rattle.insn.specs.declared.register.Reg.TheVariants.{R0, R1, R2, R3, R4, R5, R6, R7, R8, R9, R10}
use Rattle.insn.specs.declared.size.Size.TheVariants.{Byte, Half, Word, Double}
use Rattle.insn.specs.declared.size.SwapSize.TheVariants as swap
use Rattle.insn.specs.declared.width.Width.TheVariants.{W64}
"""

SIZES = {"b": "Byte", "h": "Half", "w": "Word", "dw": "Double"}
OPERATORS = {"add": "Add", "rsh": "Rsh", "lsh": "Lsh", "xor": "Xor"}
CONDITIONS = {"jeq": "Eq", "jne": "Ne", "jgt": "Gt", "jlt": "Lt"}
SWAPS = {"be16": "Half", "be32": "Word"}
MEMORY = re.compile(r"\[r(\d+)([+-]\d+)\]")
WIDE = "lddw"


def lines_of(text):
    """Returns the instructions of a text, without comments, and the slot of each label."""
    lines, labels, slot = [], {}, 0
    for line in text.splitlines():
        line = line.split(";")[0].strip()
        if line.endswith(":"):
            labels[line[:-1]] = slot
        elif line:
            lines.append(line)
            slot += 2 if line.startswith(WIDE) else 1
    return lines, labels


def number(value):
    """Returns an integer as definitions write it."""
    return f"(pos {value})" if value >= 0 else f"(negsuc {-value - 1})"


def operand(word):
    """Returns a register or a number of 32 bits as an operand."""
    if word.startswith("r"):
        return f"(Reg R{word[1:]})"
    return f"(Imm {number(int(word, 0))})"


def place(word):
    """Returns the register and the displacement of a memory operand."""
    register, displacement = MEMORY.fullmatch(word).groups()
    return f"R{register}", number(int(displacement))


def instruction(line, slot, labels):
    """Returns the instruction of a line at a slot as definitions write it."""
    name, *rest = line.split(None, 1)
    words = [word.strip() for word in rest[0].split(",")] if rest else []
    if name == "exit":
        return "Exit"
    if name == "call":
        return f"Call (pos {words[0]})"
    if name == "ja":
        return f"Jump {number(labels[words[0]] - slot - 1)}"
    if name in CONDITIONS:
        left, right, label = words
        return f"JumpIf W64 {CONDITIONS[name]} R{left[1:]} {operand(right)} {number(labels[label] - slot - 1)}"
    if name.startswith("ld") and name != WIDE:
        base, displacement = place(words[1])
        return f"Load {SIZES[name[3:]]} R{words[0][1:]} {base} {displacement}"
    if name.startswith("st"):
        base, displacement = place(words[0])
        return f"Store {SIZES[name.removeprefix('stx').removeprefix('st')]} {base} {operand(words[1])} {displacement}"
    target = f"R{words[0][1:]}"
    if name == WIDE:
        return f"LoadImm {target} {int(words[1], 0)}"
    if name in SWAPS:
        return f"Swap ToBig swap.{SWAPS[name]} {target}"
    if name == "mov":
        return f"Mov W64 {target} {operand(words[1])}"
    return f"Alu W64 {OPERATORS[name]} {target} {operand(words[1])}"


def definition(side, lines, labels):
    """Returns the file of definitions that has the instructions of a program."""
    rows, slot = [], 0
    for line in lines:
        rows.append(instruction(line, slot, labels))
        slot += 2 if line.startswith(WIDE) else 1
    listed = "\n    ∷ ".join([*rows, "[]"])
    return (f"-- Interface. The instructions of the program of the {TITLES[side]}. tests/shipped.py makes this file.\n{USES}\n"
            f"abbrev pub {side}_program : List Insn\n{side}_program =\n    {listed}\n")


def code(text):
    """Yields the lines of a text without comments."""
    for line in text.splitlines():
        left = line.partition(";")[0].rstrip()
        if left:
            yield left


def constant(side, text, lines, encoded):
    """Returns the file of code that has the bytes of a program, and its text."""
    rows, start = [], 0
    for line in lines:
        end = start + (16 if line.startswith(WIDE) else 8)
        rows.append("    " + " ".join(f"0x{byte:02x}," for byte in encoded[start:end]) + f" // {line}\n")
        start = end
    written = "\n".join(code(text)).strip()
    return (f"//! The program of the {TITLES[side]}. tests/shipped.py makes this file.\n\n{DOCS[side]}"
            f"pub const {side.upper()}: &[u8] = &[\n{''.join(rows)}];\n\n"
            f"/// Returns the text of [`{side.upper()}`] in assembly, without its comments. It assembles to these bytes.\n"
            f"pub fn {side}_text() -> &'static str {{\n    \"{written}\n\"\n}}\n")


def made_of_texts():
    """Yields the path of each file that is made of a text, and what it has to contain."""
    with tempfile.TemporaryDirectory() as name:
        for side in ("client", "peer"):
            text = (TOP / "examples" / "relay" / f"{side}.s").read_text(encoding="utf-8")
            lines, labels = lines_of(text)
            encoded = assembled(pathlib.Path(name), side, text).read_bytes()
            yield PROGRAMS / "src" / f"{side}.rt", constant(side, text, lines, encoded)
            yield PROGRAMS / "specs" / f"{side.title()}.antt", definition(side, lines, labels)


def main():
    """Prints the files that are not made of their texts, or writes them."""
    failures = []
    for path, wanted in made_of_texts():
        if path.read_text(encoding="utf-8") == wanted:
            continue
        if "--write" in sys.argv[1:]:
            path.write_text(wanted, encoding="utf-8")
        else:
            failures.append(f"{path.relative_to(TOP)} is not what tests/shipped.py makes of its text")
    return finish(failures, f"shipped programs: 4 files, {len(failures)} failures")


if __name__ == "__main__":
    sys.exit(main())
