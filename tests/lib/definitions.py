"""The files of definitions, and the tables of docs/DEFINITIONS.md, which are made of their first comments."""

import re

from lib.crates import named
from lib.headline import BELIEVED, CRATES, NAMES, WORD
from lib.program import TOP

PAGE = TOP / "docs" / "DEFINITIONS.md"
KINDS = MEANING, _, INTERNAL = "Meaning", "Interface", "Internal"
# how the first line of a file begins
KIND = re.compile(rf"-- ({'|'.join(KINDS)})\. ")
DEFINED = re.compile(r"^(?:(?:abbrev|unfoldable) )?pub (?:(?:abbrev|unfoldable|record|data) )?([^\W\d][\w'-]*) *[({:]",
                     re.MULTILINE)
# what a comment has in parentheses where a definition is by a standard, or by the memory, context and helpers of programs
STANDARD = re.compile(r" \(((?:RFC \d|draft-|this profile)[^()]*)\)")
# the head of a public function, a public trait, and a ghost clause of a model or of another impl
CONTRACT = re.compile(r"^ *pub (?:const )?fn \w.*?(?=^ *\{|;$)|^pub trait .*?^\}|^ *ghost \w+(?::| =) \{.*?\};$",
                      re.MULTILINE | re.DOTALL)
GROUP = re.compile(r"\(((?:`[^\W\d][\w'-]*`(?:, |, and | and )?)+)\)")
# the standards of files whose first comment doesn't name all of them
STANDARDS = {
    "attributes/specs/Addresses.antt": "RFC 8656, 18",
    "control/specs/Control.antt": "RFC 8489, 9.2.4; RFC 8656, 7, 8, 10 and 12",
    "control/specs/Replies.antt": "RFC 8489, 6.3; RFC 8656, 7 to 12",
    "control/specs/Values.antt": "RFC 8656, 7.2",
    "credentials/specs/Results.antt": "RFC 8489, 9.2.4",
    "helpers/specs/LookUps.antt": "this profile",
    "insn/specs/Codes.antt": "RFC 9669, 3.1",
    "programs/specs/Runs.antt": "this profile",
    "rules/specs/ByRules.antt": "RFC 8489, 6.3; RFC 8656, 7 to 12",
    "rules/specs/Discards.antt": "RFC 8656, 11.3 and 12.7",
    "semantics/specs/Access.antt": "RFC 9669, 5; this profile",
    "semantics/specs/Calls.antt": "this profile",
    "semantics/specs/Loading.antt": "this profile",
    "semantics/specs/Records.antt": "this profile",
    "stun/specs/Attributes.antt": "RFC 8489, 14",
    "stun/specs/Datagrams.antt": "RFC 8489, 5; RFC 8656, 12.4",
    "stun/specs/ErrorCodes.antt": "RFC 8489, 14.8",
    "stun/specs/Refusals.antt": "RFC 8489, 6.3",
    "tables/specs/Changes.antt": "RFC 8656, 7 to 12",
}
MOST_NAMES = 12
# the last line of the page that is written by hand
MADE = "<!-- What follows is made of the first comment of each file, by `python3 tests/definitions.py --write`. -->\n"
HEAD = "| File | Kind | What it says | Names | Standard |\n|---|---|---|---|---|\n"


def specs(crate="*"):
    """Returns the files of definitions, of one crate or of all, except the lists of modules."""
    found = [path for path in CRATES.glob(f"{crate}/specs/**/*.antt") if path.name not in ("Lib.antt", "laws.antt")]
    return sorted(found)


def kind_of(path):
    """Returns the kind that a file of definitions says that it is; None where it says none."""
    found = KIND.match(path.read_text(encoding="utf-8"))
    return found and found[1]


def sentence_of(path):
    """Returns the first paragraph of a file's first comment without its kind, and the standards that it has in parentheses."""
    lines = []
    for line in path.read_text(encoding="utf-8").splitlines():
        if not line.startswith("-- "):
            break
        lines.append(line[3:])
    text = " ".join(lines).partition(". ")[2]
    further = STANDARDS.get(path.relative_to(CRATES).as_posix())
    standards = "; ".join([*STANDARD.findall(text), *([further] if further else [])])
    return STANDARD.sub("", text).replace("|", "\\|"), re.sub(r"\bsections? ", "", standards)


def cited():
    """Returns the names of each file of definitions that the contract of a public function cites, or a model or a law of a trait,
    or that docs/HEADLINE.md has beside the file."""
    found = {}
    for path in CRATES.glob("*/src/**/*.rt"):
        text = path.read_text(encoding="utf-8")
        words = set(WORD.findall("\n".join(CONTRACT.findall(text))))
        for crate, module, names in NAMES.findall(text):
            for name, _, alias in (word.strip().partition(" as ") for word in names.split(",")):
                if (alias or name) in words:
                    found.setdefault(f"{crate}/specs/{module.replace('.', '/')}.antt", set()).add(name)
    for line in (TOP / "docs" / "HEADLINE.md").read_text(encoding="utf-8").splitlines():
        names = re.findall(r"`([^`]*)`", " ".join(GROUP.findall(line)))
        for file in BELIEVED.findall(line):
            found.setdefault(file, set()).update(names)
    return found


def names_of(path, known):
    """Returns the names of a file that the page has: those that are cited, or, where meaning has none, all.

    Of many it has the last ones, which use those before them.
    """
    defined = list(dict.fromkeys(DEFINED.findall(path.read_text(encoding="utf-8"))))
    names = [name for name in defined if name in known]
    if not names and kind_of(path) == MEANING:
        names = defined
    more = "…, " if len(names) > MOST_NAMES else ""
    return more + ", ".join(f"`{name}`" for name in names[-MOST_NAMES:])


def row(crate, path, known):
    """Returns the row of a file of a crate."""
    name = path.relative_to(CRATES / crate / "specs").with_suffix("").as_posix()
    says, standard = sentence_of(path)
    cells = (f"[`{name}`](../{path.relative_to(TOP).as_posix()})", kind_of(path), says, names_of(path, known), standard)
    return f"|{'|'.join(f' {cell} ' if cell else ' ' for cell in cells)}|\n"


def tables():
    """Returns the tables of the page: of each crate with definitions its files, those of meaning first."""
    names, parts = cited(), []
    for crate in named():
        files = [path for kind in KINDS for path in specs(crate) if kind_of(path) == kind]
        rows = [row(crate, path, names.get(path.relative_to(CRATES).as_posix(), ())) for path in files]
        if rows:
            parts.append(f"\n## {crate}\n\n{HEAD}{''.join(rows)}")
    return "".join(parts)


def made_page():
    """Returns the page as it has to be: what is written by hand, and the tables."""
    by_hand, _, _ = PAGE.read_text(encoding="utf-8").partition(MADE)
    return by_hand + MADE + tables()
