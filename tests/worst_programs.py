"""Verifies the programs that are known to take longest, and prints what each takes; times and memory are bounded.

    tests/worst_programs.py [SEEDS]

The paths of each program come to one slot in many states of which none covers another: so many, and compared so long, as a
budget of 100,000 abstract steps allows. With SEEDS so many programs more are made of the same parts, drawn anew for each seed,
and the slowest of them is printed. Times are of the processor, and their bound is several times what is expected, so that a
slower machine passes; the bound of memory is one and a half times that of the program that takes most.
"""

import pathlib
import random
import subprocess
import sys
import tempfile

from lib.program import PROGRAM, assembled, build, finish

# bounds of a verification: processor time in seconds, and memory in MiB, of which the process itself takes a few
MOST_SECONDS, MOST_MEMORY = 4, 150
BYTES = 512
# two numbers of which nothing is known, from the context: the source's record in r2, the transaction id in r3
HEAD = ["ldxdw r2, [r1+24]", "ldxdw r3, [r1+32]"]
UNKNOWN = ["ldxdw r{}, [r1+24]".format(register) for register in (4, 5, 6, 7, 8)]
TAIL = ["mov r0, 0", "exit"]
PRIMES = [number for number in range(2, 50) if all(number % factor for factor in range(2, number))]
# a chain of jumps, at the target of each of which a state is kept
LONG = 4_000


def forks(bodies, first=0):
    """Returns lines that go past each body or into it, whatever was done before."""
    lines = []
    for number, body in enumerate(bodies, first):
        register, bit = divmod(number, 30)
        lines += [f"jset r{2 + register}, {1 << bit}, past{number}", *body, f"past{number}:"]
    return lines


def chain(jumps, register=2):
    """Returns jumps over nothing."""
    return [f"jset r{register}, 1, +0"] * jumps


def sums(count, register):
    """Returns bodies that add other numbers to a register."""
    return [[f"add r{register}, {1 << number}"] for number in range(count)]


def marks(count, place):
    """Returns bodies that set other bytes of the stack."""
    return [[f"stb [r10-{BYTES - place(number)}], 0"] for number in range(count)]


def pointers(count, registers):
    """Returns bodies that keep a pointer in other groups of the stack."""
    return [[f"stxdw [r10-{8 * (number + 1)}], r{registers[number % len(registers)]}"] for number in range(count)]


def bounds(count):
    """Returns jumps that leave other intervals in five registers."""
    return [f"jgt r{4 + number % 5}, {1000 * (number + 1)}, +0" for number in range(count)]


def stores(count):
    """Returns jumps that are never taken, and stores of pointers that they lead to, so that each store keeps a state."""
    jumps = [f"jeq r0, 1, store{number}" for number in range(count)]
    stored = [(f"store{number}:", f"stxdw [r10-{8 * (number % 64 + 1)}], r{(1, 10)[number // 64 % 2]}") for number in range(count)]
    return jumps, [line for pair in stored for line in pair]


def spans(count, registers):
    """Returns forks that first leave some registers as they are, and then add a number to each: of a smaller span to the one, and
    of a greater span to the other."""
    lines = []
    for number in range(count):
        lines += [f"jset r2, {1 << number}, into{number}", f"ja past{number}", f"into{number}:"]
        for place, register in enumerate(registers):
            span = (2 << (number, count - 1 - number)[place]) - 1
            lines += ["ldxdw r8, [r1+24]", f"and r8, {span}", f"add r{register}, r8"]
        lines += ["mov r8, 0", f"past{number}:"]
    return lines


def anchors(count):
    """Returns bodies that move a pointer into the datagram by a number that was read."""
    return [["mov r6, r9", f"and r7, {(1 << number) | 1}", "add r6, r7", "ldxdw r7, [r1+24]"] for number in range(count)]


def linked(pointers, count):
    """Returns the lines of a program that keeps pointers at one place of the datagram on the stack, and after forks some at
    another place that may be the same."""
    lines = ["mov r0, 0", "ldxdw r9, [r1+24]", "ldxdw r6, [r1+0]", "ldxdw r8, [r1+16]", "and r8, 255"]
    for register in (7, 5, 4):
        lines += [f"mov r{register}, r6", f"add r{register}, r8"]
    lines += [f"stxdw [r10-{8 * (group + 1)}], r{7 if group < count else 4}" for group in range(pointers)]
    lines += ["mov r6, 0", "mov r8, 0", "mov r1, 0"]
    for number in range(count):
        lines += [f"jset r9, {1 << number}, +1", f"stxdw [r10-{8 * (number + 1)}], r5"]
    return lines + ["mov r4, 0", "mov r5, 0", "mov r7, 0", *chain(1, 9), "exit"]


def wide_numbers(count):
    """Returns the lines of a program whose forks add to numbers of the widest spans."""
    registers = (8, 7, 6, 5, 4, 3, 2, 0)
    lines = ["ldxdw r9, [r1+24]", "ldxdw r0, [r1+24]", "rsh r0, 6"]
    lines += [f"mov r{register}, r0" for register in registers[:-1]] + ["mov r1, 0"]
    for number in range(count):
        lines += [f"jset r9, {1 << number}, +1", f"add r{registers[number // 2]}, {1 + number % 2}"]
    return lines + ["exit"]


def products(registers, count):
    """Returns the lines of a program whose forks multiply intervals by other primes: none is known exactly, and none contains
    another."""
    lines = ["mov r0, 0", "ldxdw r9, [r1+24]", "ldxdw r8, [r1+16]", "and r8, 1", "add r8, 1", "mov r1, 0"]
    lines += [f"mov r{2 + number}, r8" for number in range(registers)]
    for number in range(count):
        lines += [f"jset r9, {1 << number}, +1", f"mul r{2 + number % registers}, {PRIMES[number]}"]
    return lines + ["exit"]


def reaching(count):
    """Returns the lines of a program that keeps pointers at other places of the datagram on the stack, and whose forks compare
    one of them with the end."""
    lines = ["mov r0, 0", "ldxdw r9, [r1+24]", "ldxdw r6, [r1+0]", "ldxdw r7, [r1+8]", "ldxdw r8, [r1+16]", "and r8, 255"]
    for number in range(count):
        lines += ["mov r5, r6", "add r5, r8", f"stxdw [r10-{8 * (number + 1)}], r5"]
    lines += ["mov r6, 0", "mov r8, 0", "mov r1, 0", "mov r5, 0"]
    for number in range(count):
        lines += [f"jset r9, {1 << number}, past{number}", f"ldxdw r5, [r10-{8 * (number + 1)}]", "mov r4, r5", "add r4, 4",
                  f"jgt r4, r7, past{number}", f"past{number}:", "mov r4, 0", "mov r5, 0"]
    return lines + [*chain(1, 9), "exit"]


def full_marks(count):
    """Returns the lines of a program that sets 64 bytes of the stack, and whose forks set other ones."""
    lines = ["mov r0, 0", "ldxdw r9, [r1+24]", "mov r1, 0"]
    lines += [f"stdw [r10-{BYTES - 8 * group}], 0" for group in range(8)]
    for number in range(count):
        lines += [f"jset r9, {1 << number}, +1", f"stb [r10-{BYTES - 64 - 30 * number}], 0"]
    return lines + [*chain(1, 9), "exit"]


def offsets(count):
    """Returns the lines of a program that keeps a pointer to the stack in its groups, and whose forks put another one there. Its offset
    is a number of Fibonacci's, so that a hash by the golden ratio has the same leading bits for both."""
    lines = ["mov r0, 0", "ldxdw r9, [r1+24]", "mov r1, 0", "mov r7, r10", "mov r8, r10", "add r8, 832040"]
    lines += [f"stxdw [r10-{8 * (number + 1)}], r7" for number in range(count)]
    for number in range(count):
        lines += [f"jset r9, {1 << number}, +1", f"stxdw [r10-{8 * (number + 1)}], r8"]
    return lines + ["mov r7, 0", "mov r8, 0", *chain(1, 9), "exit"]


def shared_products(registers, count):
    """Returns the lines of a program whose forks multiply one of two intervals by a prime. Each interval begins with 0; of two paths
    neither has intervals that all contain the other's, and on all paths they leave out about as much together."""
    lines = ["mov r0, 0", "ldxdw r9, [r1+24]", "ldxdw r8, [r1+16]", "and r8, 1", "mov r1, 0"]
    lines += [f"mov r{2 + number}, r8" for number in range(registers)]
    for number, prime in enumerate(PRIMES[:count]):
        first, second = (2 + place % registers for place in (number, number + 1))
        lines += [f"jset r9, {1 << number}, +2", f"mul r{first}, {prime}", "ja +1", f"mul r{second}, {prime}"]
    return lines + ["exit"]


def longest_programs():
    """Returns the texts of programs that are known to take longer than others, so that a server gives them up."""
    return {
        "products that four registers share, 14 forks": shared_products(4, 14),
    }


def known_programs():
    """Returns the texts of the programs that are known, with their names."""
    zero = ["mov r0, 0", "mov r9, 0"]
    datagram = ["ldxdw r9, [r1+0]", "ldxdw r7, [r1+24]", "mov r6, r9"]
    kept = [f"stxdw [r10-{8 * (group + 1)}], r1" for group in range(64)]
    registers = (0, 3, 4, 5, 6, 7, 8, 9)
    a_byte = [line for register in registers for line in (f"ldxdw r{register}, [r1+24]", f"and r{register}, 255")]
    jumps, stored = stores(1_900)
    wide = [[f"add r{registers[number // 2]}, {256 << number}"] for number in range(16)]
    return {
        "sums in r0": HEAD + zero + forks(sums(16, 0)) + TAIL,
        "sums in the last register": HEAD + zero + forks(sums(16, 9)) + TAIL,
        "sums in two registers": HEAD + zero + forks([*sums(8, 0), *sums(8, 9)]) + TAIL,
        "sums of a byte in a register": HEAD[:1] + a_byte[-2:] + zero[:1] + forks([[f"add r9, {256 << n}"] for n in range(16)]) + TAIL,
        "sums of bytes in eight registers": HEAD[:1] + a_byte + forks(wide) + TAIL,
        "sums of numbers of other spans": HEAD[:1] + zero + spans(16, [9]) + TAIL,
        "sums of numbers of other spans in two registers": HEAD[:1] + zero + spans(16, [9, 0]) + TAIL,
        "marks": HEAD + forks(marks(16, lambda number: number)) + TAIL,
        "marks with a chain": HEAD + forks(marks(14, lambda number: number)) + chain(3) + TAIL,
        "marks of all words": HEAD + forks(marks(16, lambda number: 32 * number + 1)) + TAIL,
        "marks of one bit of their words": HEAD + forks(marks(8, lambda number: 64 * number)) + chain(3) + TAIL,
        "pointers on the stack": HEAD + forks(pointers(16, [1])) + TAIL,
        "two kinds of pointers on the stack": HEAD + forks(pointers(16, [1, 10])) + TAIL,
        "intervals of five registers": UNKNOWN + bounds(20) + TAIL,
        "places of the datagram": HEAD + datagram + forks(anchors(12)) + TAIL,
        "32 states, and 4,000 jumps": HEAD + zero + forks(sums(5, 0)) + chain(LONG) + TAIL,
        "64 pointers, 32 states, and 4,000 jumps": HEAD + zero[:1] + kept + forks(sums(5, 0)) + chain(LONG - 100) + TAIL,
        "64 pointers, of which each target stores one": HEAD + zero + kept + jumps + forks(sums(6, 9)) + stored + TAIL,
        "16 pointers, of which 10 are linked otherwise": linked(16, 10),
        "64 pointers, of which 13 are linked otherwise": linked(64, 13),
        "wide numbers": wide_numbers(15),
        "products of primes in a register": products(1, 13),
        "products of primes in two registers": products(2, 13),
        "lengths from other places": reaching(13),
        "marks whose word is full": full_marks(13),
        "pointers to the stack whose offsets have one hash": offsets(13),
    }


def drawn(seed):
    """Returns the text of a program of parts that are drawn."""
    source = random.Random(seed)
    bodies = []
    for _ in range(source.randrange(12, 18)):
        bodies.append(source.choice([
            lambda: [f"add r{source.choice((0, 9))}, {1 << source.randrange(30)}"],
            lambda: [f"stb [r10-{source.randrange(1, BYTES + 1)}], 0"],
            lambda: [f"stxdw [r10-{8 * source.randrange(1, 65)}], r{source.choice((1, 10))}"],
            lambda: [f"jgt r{source.randrange(4, 9)}, {source.randrange(1 << 30)}, +0"],
            lambda: ["mov r9, 0"],
        ])())
    start = HEAD + UNKNOWN + ["mov r0, 0", "mov r9, 0"]
    return start + forks(bodies) + chain(source.choice((0, 1, 3, 100))) + TAIL


def measure(folder, text):
    """Returns what the verification of a text prints, and its processor time and greatest memory."""
    target = assembled(folder, "program", "\n".join(text) + "\n")
    code = ("import resource, subprocess, sys\n"
            "ran = subprocess.run(sys.argv[1:], capture_output=True, text=True)\n"
            "used = resource.getrusage(resource.RUSAGE_CHILDREN)\n"
            "print(used.ru_utime + used.ru_stime, used.ru_maxrss, ran.stdout, end='')\n")
    ran = subprocess.run([sys.executable, "-c", code, PROGRAM, "verify", target], capture_output=True, text=True, check=True)
    seconds, kilobytes, verdict = ran.stdout.split(maxsplit=2)
    return verdict.strip(), float(seconds), int(kilobytes) / 1024


def main():
    """Prints a line for each program, and one for the slowest of those that are drawn."""
    build()
    seeds = int(sys.argv[1]) if len(sys.argv) > 1 else 12
    failures = []
    with tempfile.TemporaryDirectory() as name:
        folder = pathlib.Path(name)
        programs = dict(known_programs())
        slowest = ("", 0.0, 0.0)
        for title, text in [*programs.items(), *((f"seed {seed}", drawn(seed)) for seed in range(seeds))]:
            verdict, seconds, memory = measure(folder, text)
            if title in programs:
                print(f"{title}: {verdict}, {seconds:.2f} s, {memory:.0f} MiB", flush=True)
            slowest = max(slowest, (title, seconds, memory), key=lambda row: row[1]) if title not in programs else slowest
            if seconds > MOST_SECONDS or memory > MOST_MEMORY:
                failures.append(f"{title}: {seconds:.2f} s, {memory:.0f} MiB")
        print(f"the slowest of {seeds} seeds, {slowest[0]}: {slowest[1]:.2f} s, {slowest[2]:.0f} MiB")
    return finish(failures, f"worst programs: {len(programs)} and {seeds} seeds, {len(failures)} failures")


if __name__ == "__main__":
    sys.exit(main())
