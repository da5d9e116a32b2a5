#!/usr/bin/env python3
"""Compares the manual pages and the completion with the help texts of relayd. With --write it makes them of these.

    packaging/manual.py [--write] [--program FILE]

What `relayd --help` and `relayd help COMMAND` print is their one source: packaging/man has a page for relayd and one for each
command, with what `BEYOND` adds, and packaging/relayd.bash completes commands, options, and files where the help has one. The
program is the one that ./relayd runs, or the one of --program.
"""

import argparse
import pathlib
import re
import subprocess
import sys
import textwrap
from typing import NamedTuple

FOLDER = pathlib.Path(__file__).resolve().parent
TOP = FOLDER.parent
# the day of the version, which the pages have at their foot
DAY = "2026-11-29"
DOCUMENTS = "/usr/share/doc/relayd"
ENTRY = re.compile(r" +(\S.*?)  +(\S.*)")
# options and a lone hyphen, whose hyphens are typed as they are
TYPED = re.compile(r"(?<![\w-])-[\w-]*")
# of a usage or an entry, what stands for something else and what is typed
WORD = re.compile(r"<([^>]+)>|[\w-]+")
EXIT_STATUS = "The exit status is "
# how the help names the values of options, and arguments, that are paths of files
PATHS = ("FILE", "MAP", "IN", "OUT", "EVENTS")


class Help(NamedTuple):
    """What a help text says: its paragraphs, the line of usage without the name, and the rows of each list by its title."""

    paragraphs: list
    usage: str
    lists: dict


class Beyond(NamedTuple):
    """What a page has beyond the help text: the document that says more, examples and files, each with what it is."""

    document: str
    examples: tuple = ()
    files: tuple = ()


# by the command; the page of the whole is that of the empty one
BEYOND = {
    "": Beyond("README.md"),
    "assemble": Beyond("docs/PROGRAMS.md", examples=(
        ("relayd assemble client.s client.bpf && relayd verify client.bpf", "Makes a text a program, and verifies it."),)),
    "order": Beyond("docs/C.md", examples=(
        ("relayd order compiled.bpf client.bpf && relayd verify client.bpf", "Orders a compiled program, and verifies it."),)),
    "disassemble": Beyond("docs/PROGRAMS.md", examples=(
        ("relayd disassemble --slots client.bpf", "Prints a program as text, with the slot of each instruction."),)),
    "verify": Beyond("docs/REFUSALS.md", examples=(
        ("relayd verify client.bpf", "Says whether a program may be loaded."),)),
    "explain": Beyond("docs/REFUSALS.md", examples=(
        ("relayd explain client.bpf", "Prints the path to the instruction that is refused."),
        ("relayd explain --slot 3 client.bpf", "Prints what the verifier knew at slot 3."))),
    "graph": Beyond("docs/C.md", examples=(
        ("relayd graph client.bpf | dot -Tsvg >client.svg",
         "Draws the blocks of a program, each with what is known at its first slot, and its jumps, by Graphviz."),
        ("relayd graph client.bpf --lines client.lines | dot -Tsvg >client.svg", "The same with the lines of the source."))),
    "trace": Beyond("docs/PROGRAMS.md", examples=(
        ("relayd trace client.bpf --data 01020304", "Runs a program over a datagram of four bytes."),)),
    "replay": Beyond("docs/EVENTS.md", examples=(
        ("relayd replay --confine --users users --relay-ip 203.0.113.1 --why calls.record",
         "Answers what a server has recorded, each answer with its reason."),)),
    "serve": Beyond("docs/DEPLOYMENT.md", examples=(
        ("relayd serve --port 3478 --user alice:secret --log", "Serves clients of this machine, and prints each allocation."),
        ("relayd serve --port 3478 --listen 192.0.2.10 --relay-ip 203.0.113.1 --users /etc/relayd/users --stats 60",
         "Serves at one address, gives clients another as the relayed one, and prints the counters once a minute."),
        ("relayd serve --port 0 --listen 192.0.2.10 --relay-ip 203.0.113.1 --users /etc/relayd/users --rounds 0",
         "Tests a configuration: binds the sockets, prints where it listens, and ends.")),
        files=(
            ("/etc/relayd/users", "The users of the units of systemd, NAME:PASSWORD a line. It has none at first."),
            ("/usr/lib/systemd/system/relayd@.service", "The unit of a process, whose instance is its first relayed port."),
            ("/usr/lib/systemd/system/relayd.target", "The unit that starts a process for each core."),
            ("/run/relayd/PORT.prom", "The metrics of the process of that first relayed port."))),
    "check": Beyond("docs/DEPLOYMENT.md", examples=(
        ("relayd check 203.0.113.1:3478", "Asks a server for the address of this machine as the server sees it."),
        ("relayd check 203.0.113.1:3478 --user ann:secret",
         "Makes an allocation, too, and sends a datagram over it to this machine and back."))),
}


def printed(program, *words):
    """Returns what the program prints on these words."""
    return subprocess.run([program, *words], capture_output=True, text=True, check=True, stdin=subprocess.DEVNULL).stdout


def help_of(program, command):
    """Reads the help text of a command, or of the whole program."""
    words = ["help", command] if command else ["--help"]
    text, *parts = re.split(r"^(?=[A-Z]\w+:)", printed(program, *words), flags=re.MULTILINE)
    usage, rows = "", {}
    for part in parts:
        title, _, body = part.partition(":")
        if title == "Usage":
            usage = body.strip().removeprefix("relayd ")
        else:
            rows[title] = [ENTRY.fullmatch(line).groups() for line in body.strip("\n").split("\n")]
    return Help([" ".join(paragraph.split()) for paragraph in text.strip().split("\n\n")], usage, rows)


def options_of(text):
    """Returns the names of each option of a help text, and the name of its value, which is empty where it takes none."""
    found = []
    for term, _ in text.lists.get("Options", []):
        names, _, value = term.partition(" <")
        found.append((names.split(", "), value.rstrip(">")))
    return found


def typed(words):
    """Returns what is typed, whose hyphens a page must not make others."""
    return words.replace("-", "\\-")


def name_of(command):
    """Returns the name of the page of a command, or of that of the whole program."""
    return f"relayd-{command}" if command else "relayd"


def prose(text):
    """Returns the lines of a text for a page."""
    lines = textwrap.wrap(text.replace("\\", "\\e"), 78, break_long_words=False, break_on_hyphens=False)
    lines = [TYPED.sub(lambda word: typed(word[0]), line) for line in lines]
    return [f"\\&{line}" if line[0] in ".'" else line for line in lines]


def marked(words):
    """Returns the words of a usage or of an entry: what is typed in bold, and what stands for something else in italics."""
    words = words.replace("[OPTIONS]", "[<OPTIONS>]")
    return WORD.sub(lambda word: f"\\fI{word[1]}\\fR" if word[1] else f"\\fB{typed(word[0])}\\fR", words)


def entries(title, rows):
    """Returns the lines of a section that is a list."""
    return [f".SH {title}", *(line for term, text in rows for line in (".TP", marked(term), *prose(text)))] if rows else []


def sentence(text):
    """Returns a text that ends as a sentence does."""
    return text if text.endswith(".") else f"{text}."


def examples(rows):
    """Returns the lines of the section of examples."""
    lines = []
    for command, text in rows:
        lines += [".PP", *prose(text), ".PP", ".nf", ".RS 4", typed(command), ".RE", ".fi"]
    return [".SH EXAMPLES", *lines[1:]] if rows else []


def heading(command, version, about):
    """Returns the first lines of a page, up to its name."""
    name = name_of(command)
    source = f"relayd help {command}" if command else "relayd --help"
    return [f'.\\" packaging/manual.py makes this page of what {source} prints.',
            f'.TH {name.upper()} 1 {DAY} "{version}" "User Commands"',
            ".SH NAME", f"{typed(name)} \\- {about[0].lower()}{about[1:]}"]


def page(command, version, texts):
    """Returns the manual page of a command, or of the whole program."""
    text, beyond = texts[command], BEYOND[command]
    status = [paragraph for paragraph in texts[""].paragraphs if paragraph.startswith(EXIT_STATUS)]
    others = [name_of(other) for other in ([""] if command else sorted(filter(None, texts)))]
    lines = heading(command, version, text.paragraphs[0])
    lines += [".SH SYNOPSIS", marked(f"relayd {text.usage}"), ".SH DESCRIPTION", *prose(sentence(text.paragraphs[0]))]
    for title, rows in text.lists.items():
        lines += entries(title.upper(), [(term, sentence(row)) for term, row in rows])
    lines += entries("FILES", beyond.files)
    lines += [".SH EXIT STATUS", *(line for paragraph in status for line in prose(paragraph))]
    lines += examples(beyond.examples)
    lines += [".SH SEE ALSO", *(f".BR {typed(other)} (1)," for other in others), f"{DOCUMENTS}/{beyond.document}"]
    return "".join(f"{line}\n" for line in lines)


COMPLETION = """\
# Completion of the command line of relayd in bash. packaging/manual.py makes this file of what relayd's help prints.
# shellcheck shell=bash
_relayd() {
  local word=${COMP_WORDS[COMP_CWORD]} before=${COMP_WORDS[COMP_CWORD-1]}
  local commands="COMMANDS"
  # the options, those whose value is a file, those with another value, and whether the arguments are files
  local options="OPTIONS" files="" values="" arguments=""
  case ${COMP_WORDS[1]} in
CASES
  esac
  # bash takes --option=value apart at the sign
  if [ "$word" = "=" ]; then
    word=""
  elif [ "$before" = "=" ]; then
    before=${COMP_WORDS[COMP_CWORD-2]}
  fi
  COMPREPLY=()
  if [[ $COMP_CWORD -eq 1 ]]; then
    mapfile -t COMPREPLY < <(compgen -W "$commands $options" -- "$word")
  elif [[ ${COMP_WORDS[1]} == help ]]; then
    mapfile -t COMPREPLY < <(compgen -W "$commands" -- "$word")
  elif [[ " $values " == *" $before "* ]]; then
    return
  elif [[ " $files " == *" $before "* ]] || [[ $arguments && $word != -?* ]]; then
    compopt -o filenames 2>/dev/null
    mapfile -t COMPREPLY < <(compgen -f -- "$word")
  else
    mapfile -t COMPREPLY < <(compgen -W "$options" -- "$word")
  fi
}
complete -F _relayd relayd
"""


def listed(words):
    """Returns words as a string of bash, on as many lines as they need."""
    return '"' + " \\\n      ".join(textwrap.wrap(" ".join(words), 110, break_long_words=False, break_on_hyphens=False)) + '"'


def case(command, text):
    """Returns the lines of the completion that say what a command takes."""
    rows = options_of(text)
    has_files = any(term.strip("<>") in PATHS for term, _ in text.lists.get("Arguments", []))
    found = {
        "options": [name for names, _ in rows for name in names if name.startswith("--")],
        "files": [names[-1] for names, value in rows if value in PATHS],
        "values": [names[-1] for names, value in rows if value and value not in PATHS],
        "arguments": ["files"] if has_files else [],
    }
    said = "".join(f"    {name}={listed(words)}\n" for name, words in found.items() if words)
    return f"  {command})\n{said}    ;;"


def completion(texts):
    """Returns the completion of bash."""
    options = " ".join(name for names, _ in options_of(texts[""]) for name in names if name.startswith("--"))
    cases = "\n".join(case(command, text) for command, text in texts.items() if command)
    commands = " ".join(name for name, _ in texts[""].lists["Commands"])
    return COMPLETION.replace("COMMANDS", commands).replace("OPTIONS", options).replace("CASES", cases)


def without_help(texts):
    """Yields the options of examples that the help of their command hasn't."""
    for command, beyond in BEYOND.items():
        known = [name for names, _ in options_of(texts[command]) for name in names]
        for example, _ in beyond.examples:
            if lacking := [word for word in re.findall(r"(?<= )--[\w-]+", example) if word not in known]:
                yield f"{example}: relayd {command} has no {' '.join(lacking)}"


def made(program):
    """Returns what each file has to contain, by its path, and what is wrong with the table of this script."""
    texts = {"": help_of(program, "")}
    texts |= {command: help_of(program, command) for command, _ in texts[""].lists["Commands"] if command != "help"}
    version = printed(program, "--version").split(",")[0]
    files = {FOLDER / "man" / f"{name_of(command)}.1": page(command, version, texts) for command in texts}
    return files | {FOLDER / "relayd.bash": completion(texts)}, list(without_help(texts))


def options():
    """Reads the command line."""
    parser = argparse.ArgumentParser(description="Compares the manual pages and the completion with the help texts of relayd.")
    parser.add_argument("--write", action="store_true", help="write them")
    parser.add_argument("--program", type=pathlib.Path, help="the program; the one that ./relayd runs by default")
    return parser.parse_args()


def main():
    """Prints the files that are not made of the help texts, or writes them, and returns the exit status."""
    given = options()
    program = given.program or printed(TOP / "tests" / "release.sh", "--program").strip()
    files, failures = made(pathlib.Path(program).resolve())
    for path, wanted in files.items():
        if given.write:
            path.write_text(wanted, encoding="utf-8")
        elif not path.exists() or path.read_text(encoding="utf-8") != wanted:
            failures.append(f"{path.relative_to(TOP)} is not what packaging/manual.py makes of the program")
    failures += [f"{path.relative_to(TOP)} is of no command" for path in (FOLDER / "man").iterdir() if path not in files]
    print("\n".join([*failures, f"manual: {len(files)} files, {len(failures)} failures"]))
    return 1 if failures else 0


if __name__ == "__main__":
    sys.exit(main())
