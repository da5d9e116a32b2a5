"""Runs relayd on programs of the Linux kernel's verifier self-tests.

Each program of kernel_verdicts.json has to be accepted or refused as this profile's tables say, and where the
kernel runs it, the low 32 bits of its verdict have to agree. The table of docs/LINUX.md has to list the programs on which
the kernel and this profile differ, and no other one.
"""

import re
import sys

from lib.kernel import exit_failure, line_of_verify, opcodes, run_each, vectors_of
from lib.program import TOP

ROW = re.compile(r"^\| `(.+?)` \| (accepts|rejects) \| `?(accepted|[EV]\d+ at \d+)`? \|", re.MULTILINE)


def expected_line(vector):
    """Returns the line that verify has to print."""
    profile = vector["profile"]
    count = len(opcodes(bytes.fromhex(vector["bytes_hex"])))
    line = f"accepted {count} instructions" if profile == "accepted" else f"refused {profile}"
    return line + "\n"


def failure_of(vector, program):
    """Returns what is wrong with relayd's output on one vector, or None."""
    line, expected = line_of_verify(program), expected_line(vector)
    if line != expected:
        return f"verify prints {line}where {expected}is expected"
    number = vector["kernel_r0"]
    if number is None or not expected.startswith("accepted"):
        return None
    return exit_failure(program, vector["datagram_hex"], number)


def failures_of_page(vectors):
    """Prints the programs on which the page and the vectors differ, and returns how many there are."""
    page = (TOP / "docs" / "LINUX.md").read_text(encoding="utf-8")
    listed = set(ROW.findall(page))
    differing = {(vector["name"], f"{vector['kernel']}s", vector["profile"]) for vector in vectors
                 if (vector["kernel"] == "accept") != (vector["profile"] == "accepted")}
    for row in listed ^ differing:
        print(f"docs/LINUX.md: {row} is {'not there' if row in differing else 'no difference'}")
    agreeing = len(vectors) - len(differing)
    if f"{len(vectors)} programs" not in page or f"For {agreeing} of them" not in page:
        print("docs/LINUX.md: other counts")
        return 1
    return len(listed ^ differing)


def main():
    """Runs each program, compares the page, and returns the exit status."""
    vectors = vectors_of("kernel_verdicts.json")
    return run_each(vectors, failure_of, "kernel verdicts") or failures_of_page(vectors) != 0


if __name__ == "__main__":
    sys.exit(main())
