"""What docs/HEADLINE.md has to list among what must be believed: what a clause of its tables names, and what a file of
definitions names.
"""

import re

from lib.program import TOP

CRATES = TOP / "crates"
USED = re.compile(r"^use Rattle\.(\w+)\.specs\.([\w.]+?)(?:\.\{|$| as )", re.MULTILINE)
BUILT_IN = re.compile(r"^use (?!Rattle\.)\w+\.([\w.]+?)(?:\.\{|$| as )", re.MULTILINE)
DECLARED = re.compile(r"^use Rattle\.(\w+)\.specs\.declared\.([\w.]+?)\.(?:The\w+|[A-Z]\w*)", re.MULTILINE)
CONTRACTS = re.compile(r"^use Rattle\.(\w+)\.specs\.contracts\.([\w.]+)\.(\w+)\.\{", re.MULTILINE)
BELIEVED = re.compile(r"\(\.\./crates/([\w/]+/specs/[\w/]+\.antt)\)")
# a row of a table: what holds, the functions with their files, and their clauses
ROW = re.compile(r"^\| (?:.*) \| (.*) \| (.*) \|$", re.MULTILINE)
FUNCTION = re.compile(r"\[`(?:\w+::)*(\w+)`\]\(\.\./crates/([\w/]+\.rt)\)")
NAMES = re.compile(r"ghost use Rattle\.(\w+)\.specs\.([\w.]+)\.\{([^}]*)\}")
CLAUSE = re.compile(r"^ *ensures\*? (?:(\w+) )?\{(.*?)\}$(?=\s*(?:ensures|requires|\{))", re.MULTILINE | re.DOTALL)
WORD = re.compile(r"[^\W\d][\w'-]*")
# what the verifier and the flat machine are made of: their links of the chain are used up by the links above them
INSIDE = ("interval", "absstate", "verifier", "operations", "flat")


def is_law(path):
    """Returns whether a file of definitions has laws."""
    return "laws" in path.relative_to(CRATES).parts


def declared_in(crate, module):
    """Returns the file of code that a module of declared types comes from."""
    path = CRATES / crate / "src" / (module.replace(".", "/") + ".rt")
    return path if path.exists() or "." not in module else declared_in(crate, module.rpartition(".")[0])


def named_by(path):
    """Yields what a file of definitions names, each as the page has to name it.

    That is types that the code declares, files of the kit and of its logic, and files of definitions, whatever their first
    line says. A law is proved, so nobody has to believe the files of laws.
    """
    text = path.read_text(encoding="utf-8") if path.exists() else ""
    for module in BUILT_IN.findall(text):
        yield f"`{module}`"
    for crate, module in DECLARED.findall(text):
        if (CRATES / crate).exists():
            yield f"(../{declared_in(crate, module).relative_to(TOP)})"
    for crate, module in USED.findall(text):
        used = CRATES / crate / "specs" / (module.replace(".", "/") + ".antt")
        if not (CRATES / crate).exists():
            yield f"`{module.removeprefix('declared.')}`"
        elif used.exists() and not is_law(used):
            yield f"(../{used.relative_to(TOP)})"
    for crate, module, name in CONTRACTS.findall(text):
        yield from model_names(crate, module, name)


def model_names(crate, module, name):
    """Yields the files of definitions that the model of a type names, each as the page has to name it."""
    code = declared_in(crate, module).read_text(encoding="utf-8")
    found = re.search(rf"^impl(?:<.*>)? Model for {name}\b.*?^}}", code, re.MULTILINE | re.DOTALL)
    for used, path, _ in NAMES.findall(found[0]) if found else []:
        file = CRATES / used / "specs" / (path.replace(".", "/") + ".antt")
        if file.exists():
            yield f"(../{file.relative_to(TOP)})"


def clauses_of(code, function, wanted):
    """Returns the text of the clauses of a function that a cell names, or of all of them where it names none."""
    start = re.search(rf"\bfn {function}\b", code)
    if start is None:
        return ""
    head = re.match(r".*?(?=^ *\{)", code[start.start():], re.MULTILINE | re.DOTALL)[0]
    head = re.sub(r"\n *//.*|\n(?=\n)", "", head)
    clauses = CLAUSE.findall(head + "{")
    named = [text for name, text in clauses if f"`{name}`" in wanted]
    return " ".join(named or [text for _, text in clauses])


def words_of_tables(text):
    """Yields each function that the tables of a page name, with each file of definitions whose words its clauses have.

    A link of the chain that is inside the verifier or the flat machine is left out.
    """
    for functions, wanted in ROW.findall(text):
        for function, name in FUNCTION.findall(functions):
            code = (CRATES / name).read_text(encoding="utf-8")
            words = set(WORD.findall(clauses_of(code, function, wanted)))
            for crate, module, names in NAMES.findall(code) if not name.startswith(INSIDE) else []:
                file = CRATES / crate / "specs" / (module.replace(".", "/") + ".antt")
                known = {word.strip().split(" as ")[-1] for word in names.split(",")}
                if file.exists() and words & known and not is_law(file) and crate not in INSIDE:
                    yield function, f"(../{file.relative_to(TOP)})"
