"""The built relayd, how a test runs it, and how a test ends."""

import functools
import pathlib
import subprocess
import sys
import traceback

TOP = pathlib.Path(__file__).resolve().parents[2]
# the script that proves and builds relayd where it is not there or too old
BUILD = TOP / "tests" / "build.sh"
# the program itself, for a test that restricts the process
PROGRAM = TOP / "crates" / "relayd" / "out" / "relayd"
# what can't be tried here, each with its reason; the last line of a test has it
PASSED_OVER = []


@functools.cache
def build():
    """Builds the program where it is not there or too old; once in a test. The one of release/ is never taken for it."""
    subprocess.run([BUILD], check=True)


def run(words, program=None, **options):
    """Runs the program on these words, relayd by default, and returns its status and what it printed to each stream.

    A stream that `options` redirects is None.
    """
    if program is None:
        build()
        program = PROGRAM
    pipes = {"stdout": subprocess.PIPE, "stderr": subprocess.PIPE, **options}
    ran = subprocess.run([program, *words], text=True, check=False, **pipes)
    return ran.returncode, ran.stdout, ran.stderr


def assembled(folder, name, text):
    """Assembles a text to a file of this name in a folder, and returns its path. A text that is refused ends the test."""
    source, target = folder / f"{name}.s", folder / f"{name}.bpf"
    source.write_text(text, encoding="utf-8")
    status, out, err = run(["assemble", source, target])
    if status:
        sys.exit(f"{name}: {out}{err}{text}")
    return target


def shipped(folder, side):
    """Assembles the shipped program of a side to a file of a folder, and returns its path."""
    return assembled(folder, side, (TOP / "examples" / "relay" / f"{side}.s").read_text(encoding="utf-8"))


def preloadable(folder, name):
    """Compiles preloaded/NAME.c to a library in a folder, which a program can be run with by LD_PRELOAD, and returns its path."""
    source, library = TOP / "tests" / "preloaded" / f"{name}.c", folder / f"{name}.so"
    subprocess.run(["gcc", "-O1", "-Wall", "-shared", "-fPIC", "-o", library, source, "-ldl"], check=True)
    return library


def explained(path):
    """Returns the line that names the command which explains why the program in a file is refused."""
    return f"relayd explain {path} shows why\n"


def run_parts(name, parts, *given, summary="", program=None):
    """Runs the parts of a test, each of which yields what is wrong, prints that and a line that sums it up, and returns the exit
    status. The program is built first, unless the parts are over another one."""
    if program is None:
        build()
    failures = [failure for part in parts for failure in failures_of(part, given)]
    return finish(failures, f"{name}: {summary}{len(parts)} parts, {len(failures)} failures")


def failures_of(part, given):
    """Yields what a part of a test finds wrong, under its name, and the error that it ends by, if it does: the others run all the
    same."""
    try:
        for failure in part(*given):
            yield f"{part.__name__}: {failure}"
    except (Exception, SystemExit):
        yield f"{part.__name__}: {traceback.format_exc()}"


def finish(failures, summary):
    """Prints the failures and a line that sums them up, with what was passed over, and returns the exit status."""
    passed_over = f"; passed over: {', '.join(dict.fromkeys(PASSED_OVER))}" if PASSED_OVER else ""
    print("\n".join([*failures, f"{summary}{passed_over}"]))
    return 1 if failures else 0
