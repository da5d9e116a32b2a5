"""Runs the merge gate, and prints what each crate's proof, tests and must-fail edits took, in processor seconds.

    tests/gate_cost.py [FOLDER]

FOLDER is the top of the repository; a fresh clone, so that nothing else is built in it. Nothing that was kept is taken
(`--anew`). The figures are read from the system while `rt ci` runs, five times a second; the last line has what the system
counted in all. "base" is the proof of a crate that its edits begin with, and the same once more after them. After the
table come the edits that took more than 20 seconds. A run that is interrupted prints what it has seen so far.
"""

import os
import pathlib
import re
import resource
import subprocess
import sys
import threading
import time
from typing import NamedTuple

from lib.program import TOP

STEPS = ("proof", "tests", "base", "edits")
TICKS = os.sysconf("SC_CLK_TCK")
SLOW_EDIT = 20


class Process(NamedTuple):
    """What a process works on, and the processor seconds that it has taken."""

    crate: str
    step: str
    edit: str
    seconds: float


def words_of(pid):
    """Returns the command line of a process."""
    return pathlib.Path(f"/proc/{pid}/cmdline").read_text(encoding="utf-8", errors="replace").split("\0")


def stat_of(pid):
    """Returns what the system knows of a process, from its state on."""
    return pathlib.Path(f"/proc/{pid}/stat").read_text(encoding="utf-8", errors="replace").rpartition(")")[2].split()


def work_of(pid, parent):
    """Returns the crate and the step that a process works on, and the number of its edit: its parent's where it names none."""
    words = words_of(pid)
    if "--crate-name" not in words:
        return parent
    crate = words[words.index("--crate-name") + 1]
    if not pathlib.Path(os.readlink(f"/proc/{pid}/cwd")).name.startswith("rt-edit-"):
        return crate, "tests" if "--test" in words else "proof", ""
    kept = pathlib.Path(words[words.index("--incremental") + 1]).name if "--incremental" in words else "0"
    return (crate, "base", "") if kept == "seed" else (crate, "edits", kept)


def sample(gate, seen):
    """Reads the time of each process below the gate's into `seen`, by its number and its start."""
    below = {gate: ("", "", "")}
    for pid in sorted(int(name) for name in os.listdir("/proc") if name.isdigit()):
        try:
            fields = stat_of(pid)
            parent, began = int(fields[1]), int(fields[19])
            if parent not in below:
                continue
            known = seen.get((pid, began))
            below[pid] = known[:3] if known and known.crate else work_of(pid, below[parent])
            seen[pid, began] = Process(*below[pid], (int(fields[11]) + int(fields[12])) / TICKS)
        except (OSError, ValueError):
            continue  # it has ended


def edits_of(top, crate):
    """Returns the names of a crate's edits in the order in which the gate tries them."""
    return sorted(path.stem for path in (top / "crates" / crate / "must-fail").glob("*.edit"))


def slow_edits(top, crate, processes):
    """Returns the edits of a crate that took long, each with its seconds."""
    took = {}
    for it in processes:
        took[it.edit] = took.get(it.edit, 0) + it.seconds
    names = edits_of(top, crate)
    return [(seconds, f"{crate}/{names[int(edit)]}") for edit, seconds in took.items() if seconds > SLOW_EDIT]


def show(name, figures):
    """Prints a line of the table: the figures, and their sum."""
    print(f"{name:<16}" + "".join(f"{n:>8.0f}" for n in (*figures, sum(figures))), flush=True)


def watch(top):
    """Runs the gate until it ends or is interrupted. Returns its status and the processes that were seen."""
    seen, ended = {}, threading.Event()
    with subprocess.Popen(["rt", "ci", "--anew"], cwd=top) as gate:
        threading.Thread(target=lambda: (gate.wait(), ended.set())).start()
        try:
            while not ended.wait(0.2):
                sample(gate.pid, seen)
        except KeyboardInterrupt:
            print("interrupted")
    return gate.returncode, seen.values()


def main():
    """Runs the gate, and prints the table."""
    top = pathlib.Path(sys.argv[1] if len(sys.argv) > 1 else TOP).resolve()
    begun = time.monotonic()
    status, processes = watch(top)
    used = resource.getrusage(resource.RUSAGE_CHILDREN)
    by_crate = {}
    for it in processes:
        by_crate.setdefault(it.crate or "the rest", []).append(it)
    print(f"{'crate':<16}" + "".join(f"{step:>8}" for step in (*STEPS, "sum")))
    for crate in [*re.findall(r"^(\w+):", (top / "crates.txt").read_text(encoding="utf-8"), re.M), "the rest"]:
        own = by_crate.get(crate, [])
        show(crate, [sum(it.seconds for it in own if (it.step or "proof") == step) for step in STEPS])
    slow = []
    for crate, own in by_crate.items():
        slow += slow_edits(top, crate, [it for it in own if it.step == "edits"])
    for seconds, edit in sorted(slow, reverse=True):
        print(f"{seconds:6.0f}  {edit}")
    print(f"{len(slow)} edits took more than {SLOW_EDIT} seconds")
    minutes, program, system = (time.monotonic() - begun) / 60, used.ru_utime / 60, used.ru_stime / 60
    print(f"{minutes:.0f} minutes; {program:.0f} processor minutes of the program, {system:.0f} of the system")
    sys.exit(status)


if __name__ == "__main__":
    main()
