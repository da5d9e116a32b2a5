"""Runs the scripts of the test command over the program that the gate leaves, and prints what each printed.

Those over files and streams run side by side, as many at once as there are processors. Those that bind ports, or that measure
time or memory, run alone after these. What a script printed comes whole, once it and those before it in the list have ended. One
that fails doesn't keep the others from running; those that failed are named at the end.
"""

import os
import subprocess
import sys
import time
from concurrent.futures import ThreadPoolExecutor

from lib.program import TOP, build, finish

# walked_tables compiles for two minutes, so it begins first; refused_memory takes each processor that the others leave, and is the
# only one here that binds ports
SIDE_BY_SIDE = ["walked_tables", "shipped", "refusals", "kernel_vectors", "kernel_verdicts", "verdicts", "run_agrees",
                "texts", "source_maps", "traces", "sizes", "files", "changed_inputs", "ordering", "c_programs", "replay", "relaying", "failing_io", "memory",
                "release", "packaging", "refused_memory"]
# worst_programs measures time and memory; the others bind ports, and most wait for what a server does
ALONE = ["pages", "worst_programs", "serve", "check", "time_limited", "recording", "server_log", "hostile", "hostile_programs", "shadow",
         "clock", "clients", "allocations"]


def ran(script):
    """Runs a script, and returns its status, what it printed, and how many seconds it took."""
    began = time.monotonic()
    words = [sys.executable, TOP / "tests" / f"{script}.py"]
    found = subprocess.run(words, stdout=subprocess.PIPE, stderr=subprocess.STDOUT, stdin=subprocess.DEVNULL, check=False)
    return found.returncode, found.stdout, time.monotonic() - began


def failed(scripts, results):
    """Prints what each script printed, once it has ended, and yields the names of those that failed."""
    for script, (status, printed, seconds) in zip(scripts, results):
        sys.stdout.buffer.write(printed)
        print(f"{script}: {f'status {status}, ' if status else ''}{seconds:.0f} s", flush=True)
        if status:
            yield f"{script} failed"


def main():
    """Runs every script, and returns the exit status."""
    build()
    with ThreadPoolExecutor(len(os.sched_getaffinity(0))) as pool:
        failures = list(failed(SIDE_BY_SIDE, pool.map(ran, SIDE_BY_SIDE)))
    failures += failed(ALONE, map(ran, ALONE))
    return finish(failures, f"scripts: {len(SIDE_BY_SIDE) + len(ALONE)} were run, {len(failures)} failures")


if __name__ == "__main__":
    sys.exit(main())
