"""Runs relayd on programs with the exit value that the Linux kernel's own tests expect of them.

Each program of kernel_vectors.json has to be accepted, and the low 32 bits of its verdict have to be
those that the kernel expects.
"""

import sys

from lib.kernel import exit_failure, line_of_verify, opcodes, run_each, vectors_of


def failure_of(vector, program):
    """Returns what is wrong with relayd's output on one vector, or None."""
    count = len(opcodes(bytes.fromhex(vector["bytes_hex"])))
    line = line_of_verify(program)
    if line != f"accepted {count} instructions\n":
        return f"verify prints {line}"
    return exit_failure(program, vector["datagram_hex"], vector["expected_r0_low32"])


if __name__ == "__main__":
    sys.exit(run_each(vectors_of("kernel_vectors.json"), failure_of, "kernel vectors"))
