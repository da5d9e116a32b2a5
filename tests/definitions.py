"""Compares the pages with the files that they name, and counts what has a limit.

Each file of definitions says in its first line whether it is meaning, interface or internal, what is meaning names
nothing internal, and docs/DEFINITIONS.md has the tables that are made of their first comments; with `--write` these are
written there first. No two files define the same name, laws aside, and what a line of a page names in parentheses is in
a file of definitions that it links. What a file of definitions names that docs/HEADLINE.md lists is listed there too,
laws aside. Each file that a page links or names is there, unless it is one that a build makes (in a folder `out`), with
as many lines as the page says. Each decision that the code or a page names is on the one of docs/DECISIONS.md and
docs/DESIGN.md that it says, and the code names each of theirs. The picture of docs/ARCHITECTURE.md is that of
crates.txt, and the calls on the path of a datagram are those of the sources. There are no more test functions than
CONTRIBUTING.md says, and no more edits that must fail in either folder of a crate, and each edit can be applied. No
clause and no comment of the code is wider than its limit.
"""

import re
import sys

from lib.calls import Function, path
from lib.crates import picture
from lib.definitions import CRATES, DEFINED, GROUP, INTERNAL, MEANING, PAGE, kind_of, made_page, specs
from lib.headline import BELIEVED, USED, is_law, named_by, words_of_tables
from lib.program import TOP, finish

LINK = re.compile(r"\]\(([^)#:]*)(?:#([^)]*))?\)")
NAMED = re.compile(r"`((?:crates|docs|tests|examples)/(?![\w./-]*\bout/)[\w./-]+)`")
LINES = re.compile(r"`([\w./]+\.(?:antt|rt))`(?:\]\([^)]*\))? \((\d+) lines\)")
TABLE = re.compile(r"^\| Function \|.*\n\|[-| ]+\n((?:\|.*\n)+)", re.MULTILINE)
FUNCTION = re.compile(r"`(?:\w+::)*([a-z]\w*[a-z0-9])(?:\(.*?\))?`")
SEARCH = re.compile(r"`git grep -lw (\w+) crates`")
LINKED = re.compile(r"\]\(([^)#:]*specs/[\w/]+\.antt)\)")
# the pages of decisions, and how decisions of either page are named, one or several
DECIDED = ("docs/DECISIONS.md", "docs/DESIGN.md")
CITED = re.compile(r'(docs/(?:DECISIONS|DESIGN)\.md)((?:(?:,| and) "[^"]*")+)')
TEST = re.compile(r"^ *#\[test\]$", re.MULTILINE)
EDIT = re.compile(r"^(file|old|new):(?: (.*))?$", re.MULTILINE)
# what docs/HEADLINE.md quotes, and the files that have it
QUOTE = re.compile(r"^```rust\n(.*?)^```", re.MULTILINE | re.DOTALL)
QUOTED = ("loader/src/loaded.rt", "machine/src/verified_run.rt", "relay/src/amplification.rt", "relay/src/confining.rt",
          "relay/src/isolation.rt", "relay/src/relay.rt", "relay/src/shipped.rt")
# how many test functions there may be, and how many edits that must fail in a folder of a crate
MOST_TESTS = 60
MOST_EDITS = 8
# how wide a line of code may be, and what may be wider: imports, tactics, texts, and bytes with their instruction
MOST_COLUMNS = 120
MAY_BE_WIDE = re.compile(r'\s*(ghost use |use |#\[tactic|0x\w\w, .* // )|(?!\s*//).*"')
# where the path of a datagram begins
TURN = Function("serving", "ServedEndpoints", "serve")
# the folders of a crate that have them: the gate tries those of the first one, tests/wrong_bodies.py those of the second one
EDITS = ("must-fail", "wrong-bodies")


def sources():
    """Returns the files of code."""
    return sorted(path for path in CRATES.glob("*/src/**/*.rt"))


def pages():
    """Returns the pages."""
    return [*TOP.glob("*.md"), *(TOP / "docs").glob("*.md"), *CRATES.glob("*/README.md"),
            *(TOP / "tests").glob("measuring/*/README.md")]


def failures_of_definitions():
    """Yields the files of definitions that do not say what they are, and whether the page of them is another one."""
    for path in specs():
        if kind_of(path) is None:
            yield f"{path.relative_to(CRATES)}: neither meaning nor interface nor internal"
    if PAGE.read_text(encoding="utf-8") != made_page():
        yield "docs/DEFINITIONS.md: python3 tests/definitions.py --write writes another page"


def failures_of_meaning():
    """Yields the files of meaning that name an internal one."""
    for path in specs():
        text = path.read_text(encoding="utf-8")
        used = [CRATES / crate / "specs" / (name.replace(".", "/") + ".antt") for crate, name in USED.findall(text)]
        internal = [file for file in used if file.exists() and kind_of(file) == INTERNAL]
        if kind_of(path) == MEANING and internal:
            yield f"{path.relative_to(CRATES)}: names {internal[0].relative_to(CRATES)}, which is internal"


def failures_of_names():
    """Yields the names that two files define, of one crate or of two, laws aside."""
    definers = {}
    for path in specs():
        for name in [] if is_law(path) else DEFINED.findall(path.read_text(encoding="utf-8")):
            definers.setdefault(name, set()).add(path.relative_to(CRATES).as_posix())
    for name, files in sorted(definers.items()):
        if len(files) > 1:
            yield f"{name} is defined in {' and in '.join(sorted(files))}"


def failures_of_named_definitions():
    """Yields the definitions that a line of a page names and that none of the files has which it links."""
    for page in pages():
        for line in page.read_text(encoding="utf-8").splitlines():
            files = [page.parent / name for name in LINKED.findall(line)]
            text = "\n".join(file.read_text(encoding="utf-8") for file in files if file.exists())
            for name in re.findall(r"`([^`]*)`", " ".join(GROUP.findall(line))) if files else []:
                if not re.search(rf"(?<![\w'-]){re.escape(name)}(?![\w'-])", text):
                    yield f"{page.relative_to(TOP)}: {name} isn't in {', '.join(file.name for file in files)}"


def anchors(page):
    """Returns the anchors of a page's headings."""
    headings = re.findall(r"^#+ (.*)$", page.read_text(encoding="utf-8"), re.MULTILINE)
    return {re.sub(r"[^\w -]", "", heading.lower()).replace(" ", "-") for heading in headings}


def leads_nowhere(page, name, anchor):
    """Returns whether a link of a page leads to no file, or to no heading."""
    target = page.parent / name if name else page
    return not target.exists() or (anchor and anchor not in anchors(target))


def lines_in(path):
    """Returns the number of lines of a file; None where it is not there."""
    return len(path.read_text(encoding="utf-8").splitlines()) if path.exists() else None


def failures_of_pages():
    """Yields the links and names of pages that lead nowhere."""
    for page in pages():
        text = page.read_text(encoding="utf-8")
        missing = [f"{name}#{anchor}" for name, anchor in LINK.findall(text) if leads_nowhere(page, name, anchor)]
        missing += [name for name in NAMED.findall(text) if not (TOP / name).exists()]
        if re.search(r"^(<<<<<<<|>>>>>>>) ", text, re.MULTILINE):
            yield f"{page.relative_to(TOP)}: a merge is unresolved"
        for name, count in LINES.findall(text):
            if lines_in(CRATES / name) != int(count):
                yield f"{page.relative_to(TOP)}: {name} has another number of lines"
        for name in missing:
            yield f"{page.relative_to(TOP)}: {name} is not there"


def failures_of_searches():
    """Yields the words that CONTRIBUTING.md searches for, and that few files have."""
    texts = [path.read_text(encoding="utf-8") for path in (*specs(), *sources())]
    for word in SEARCH.findall((TOP / "CONTRIBUTING.md").read_text(encoding="utf-8")):
        if sum(re.search(rf"\b{word}\b", text) is not None for text in texts) < 3:
            yield f"CONTRIBUTING.md: hardly a file has {word}"


def failures_of_functions():
    """Yields the functions and laws that the tables of a crate's README name, and that the crate lacks."""
    for page in sorted(CRATES.glob("*/README.md")):
        files = [*(page.parent / "src").rglob("*.rt"), *(page.parent / "specs").rglob("*.antt")]
        code = "\n".join(path.read_text(encoding="utf-8") for path in files)
        for table in TABLE.findall(page.read_text(encoding="utf-8")):
            for name in FUNCTION.findall("\n".join(row.split("|")[1] for row in table.splitlines())):
                if not re.search(rf"\bfn {name}\b|^ *(?:abbrev )?pub {name}\b", code, re.MULTILINE):
                    yield f"{page.relative_to(TOP)}: no function and no law {name}"


def failures_of_headline():
    """Yields what docs/HEADLINE.md lacks among what must be believed, though a file that it lists names it, or a clause of its
    tables does.

    The files of the programs' part may name only what that part has. Those of the relay's part, which goes on from
    there, may name what either has. A file is in one of them.
    """
    text = (TOP / "docs" / "HEADLINE.md").read_text(encoding="utf-8")
    believed = text[text.index("## What must be believed\n"):]
    programs, relay = believed.split("## What must be believed of the relay\n")
    for part, known in ((programs, programs), (relay, believed)):
        for name in sorted(set(BELIEVED.findall(part))):
            for used in sorted(set(named_by(CRATES / name))):
                if used not in known:
                    yield f"docs/HEADLINE.md: {used}, which {name} names"
    for name in sorted(set(BELIEVED.findall(programs)) & set(BELIEVED.findall(relay))):
        yield f"docs/HEADLINE.md: {name} is in both parts"
    code = "".join((CRATES / name).read_text(encoding="utf-8") for name in QUOTED)
    for block in QUOTE.findall(text):
        for line in block.splitlines():
            if f"{line}\n" not in code:
                yield f"docs/HEADLINE.md: no code has {line}"
    for function, used in words_of_tables(text[:text.index("## What must be believed\n")]):
        if used not in believed:
            yield f"docs/HEADLINE.md: {used}, which a clause of {function} names"


def citations(files):
    """Yields each decision that files name: the file, the page that it says, and the title."""
    for file in files:
        for page, cited in CITED.findall(file.read_text(encoding="utf-8")):
            for title in re.findall(r'"([^"]*)"', cited):
                yield file, page, title


def failures_of_decisions():
    """Yields the decisions that the code or a page names and that aren't on the page that it says, those that no code names, and
    those that are there twice."""
    pages_of = {}
    for page in DECIDED:
        for title in re.findall(r"^### (.*)$", (TOP / page).read_text(encoding="utf-8"), re.MULTILINE):
            pages_of.setdefault(title, []).append(page)
    scripts = [path for folder in ("tests", "examples", "packaging") for path in sorted((TOP / folder).rglob("*.py"))]
    of_code = list(citations([*sources(), *sorted(CRATES.rglob("*.antt")), *scripts]))
    for file, page, title in [*of_code, *citations(pages())]:
        if page not in pages_of.get(title, []):
            yield f"{file.relative_to(TOP)}: no decision {title} on {page}"
    named = {title for _, _, title in of_code}
    for title, found in pages_of.items():
        if title not in named:
            yield f"{found[0]}: no code names {title}"
        if len(found) > 1:
            yield f"the decision {title} is in {' and in '.join(found)}"


def failures_of_lines(title, made):
    """Yields the lines that the text after a title of docs/ARCHITECTURE.md lacks of what is made from the sources, or has beyond it."""
    text = (TOP / "docs" / "ARCHITECTURE.md").read_text(encoding="utf-8")
    written = text[text.index(title):].split("```\n")[1].splitlines()
    for line in sorted({*written} ^ {*made}):
        yield f"docs/ARCHITECTURE.md, {title}: {'not' if line in written else 'lacks'} {line.strip()}"
    if sorted(written) == sorted(made) and written != made:
        yield f"docs/ARCHITECTURE.md, {title}: another order"


def failures_of_picture():
    """Yields how the picture of docs/ARCHITECTURE.md differs from crates.txt."""
    yield from failures_of_lines("## Two halves", picture())


def failures_of_path():
    """Yields how the calls on the path of a datagram differ from those of the sources."""
    yield from failures_of_lines("## The path of a datagram", path(TURN))


def failures_of_tests():
    """Yields the number of test functions, where there are too many."""
    count = sum(len(TEST.findall(path.read_text(encoding="utf-8"))) for path in sources())
    if count > MOST_TESTS:
        yield f"{count} test functions, and {MOST_TESTS} at most are allowed"


def failures_of_columns():
    """Yields the lines of code that are too wide."""
    for path in sources():
        for number, line in enumerate(path.read_text(encoding="utf-8").splitlines(), 1):
            if len(line) > MOST_COLUMNS and not MAY_BE_WIDE.match(line):
                yield f"{path.relative_to(TOP)}:{number} has {len(line)} columns, more than {MOST_COLUMNS}"


def edits_of(crate):
    """Returns the edits of a crate that must fail, by their folder: those that the gate tries, and those that it leaves out."""
    return {folder: sorted((crate / folder).glob("*.edit")) for folder in EDITS}


def lacking(edit):
    """Returns the first text that an edit replaces and that isn't in its file once; None where it can be applied."""
    texts, file, old = {}, None, None
    for word, text in EDIT.findall(edit.read_text(encoding="utf-8")):
        if word == "file":
            file = edit.parents[1] / text
            texts.setdefault(file, file.read_text(encoding="utf-8") if file.exists() else "")
        elif word == "old":
            old = text
        elif texts[file].count(old) != 1:
            return old
        else:
            texts[file] = texts[file].replace(old, text)
    return None


def failures_of_edits():
    """Yields the edits that can't be applied, and their number in a folder of a crate, where there are too many."""
    for crate in sorted(CRATES.iterdir()):
        for folder, edits in edits_of(crate).items():
            if len(edits) > MOST_EDITS:
                yield f"crates/{crate.name}/{folder}: {len(edits)} edits, and {MOST_EDITS} at most are allowed"
            for edit in edits:
                text = lacking(edit)
                if text is not None:
                    yield f"{edit.relative_to(TOP)}: its file has this not at all or more than once: {text}"


def main():
    """Writes the page of definitions where that is asked for, compares all, and returns the exit status."""
    if sys.argv[1:] == ["--write"]:
        PAGE.write_text(made_page(), encoding="utf-8")
    cases = (failures_of_definitions, failures_of_meaning, failures_of_names, failures_of_named_definitions,
             failures_of_pages, failures_of_searches, failures_of_functions, failures_of_headline,
             failures_of_decisions, failures_of_picture, failures_of_path, failures_of_tests, failures_of_columns,
             failures_of_edits)
    failures = [found for case in cases for found in case()]
    return finish(failures, f"definitions and pages: {len(specs())} files, {len(failures)} failures")


if __name__ == "__main__":
    sys.exit(main())
