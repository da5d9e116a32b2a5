"""Prints how many requests a second `control::respond` answers on full tables, SHA-1's part of that time, and what calls of the
tables alone take.

    tests/control_speed.py

Nothing is asserted. A figure is the best of several runs, less that of a run without requests, so that the start of
the process and the filling of the tables aren't counted.
"""

import sys
import tempfile
import time

from lib.measuring import built
from lib.program import run

ROUNDS = 20
COUNT = 50_000
CALLS = 1_000_000
# each METHOD of the program that answers requests, and what they are
REQUESTS = {
    "allocate": "Allocate, repeated",
    "allocate-anew": "Allocate, error 508",
    "refresh": "Refresh",
    "create-permission": "CreatePermission",
    "channel-bind": "ChannelBind",
}


def timed(program, method, count):
    """Returns how long a run takes, in seconds."""
    start = time.perf_counter()
    status, _, err = run([method, str(count)], program)
    if status:
        sys.exit(f"{method} {count}: {err}")
    return time.perf_counter() - start


def best_times(program):
    """Returns how long the work of each METHOD takes once, in seconds.

    Each round runs every METHOD, so that a slow moment of the machine doesn't fall on one of them alone.
    """
    rounds = [
        {(method, count): timed(program, method, count) for method in ("empty", "sha1", *REQUESTS) for count in (0, COUNT)}
        for _ in range(ROUNDS)
    ]
    best = {key: min(times[key] for times in rounds) for key in rounds[0]}
    print(f"start and filling: {best['empty', 0] * 1e3:.1f} ms")
    return {method: max(best[method, COUNT] - best[method, 0], 1e-9) / COUNT for method, _ in best}


def main():
    """Builds the program, and prints a line for each kind of requests."""
    with tempfile.TemporaryDirectory() as folder:
        program = built("control_speed", folder)
        taken = best_times(program)
        print(f"SHA-1 over a request and its reply: {taken['sha1'] * 1e6:.2f} us")
        for method, title in REQUESTS.items():
            part = 100 * taken["sha1"] / taken[method]
            print(f"{title}: {1 / taken[method]:,.0f} requests a second, SHA-1 {part:.0f} %")
        _, out, _ = run(["tables", str(CALLS)], program)
        print(out, end="")


if __name__ == "__main__":
    main()
