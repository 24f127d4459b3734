#!/usr/bin/env python3
"""What each input of growth.sh takes, against what it took when that was last written down: at one size no more than 1.25 times the
instructions, which valgrind counts, nor 1.15 times the memory. The bounds of growth.sh leave room for a program that is ten times
slower; these don't, and a machine may be busy meanwhile.

    tests/held.py [--hold] [NAME..]     NAME is an input; all without one. With --hold what they take is written down

tests/growing/held.tsv has a line for each: its size, millions of instructions, and megabytes. P21 names the program, which may be
one that was compiled without a proof (`benchmarks/unproved.py --as-proved`).
"""

import argparse
import concurrent.futures
import os
import pathlib
import re
import subprocess
import sys
import tempfile
from collections import namedtuple

sys.path.insert(0, str(pathlib.Path(__file__).resolve().parent / "growing"))
import measure  # noqa: E402
import needs  # noqa: E402

HELD = pathlib.Path(measure.__file__).with_name("held.tsv")
INSTRUCTIONS_TIMES, MEMORY_TIMES = 1.25, 1.15
# An input is held at the first size at which a run takes so many seconds.
SECONDS = 0.015
# Its memory is the least of so many runs: of the program's own file the system has more or fewer pages at hand.
RUNS = 3
COUNTING = ("valgrind", "--tool=cachegrind", "--cache-sim=no", "--cachegrind-out-file=/dev/null")

Held = namedtuple("Held", "size instructions megabytes")


def instructions(words):
    """Millions of instructions that a run takes."""
    ran = subprocess.run([*COUNTING, *words], stdin=subprocess.DEVNULL, capture_output=True, check=False)
    found = re.search(rb"I\s+refs:\s+([\d,]+)", ran.stderr)
    if not found or ran.returncode not in (0, 1):
        sys.exit(f"valgrind counted nothing of {words}: {ran.stderr[-500:].decode(errors='replace')}")
    return int(found[1].replace(b",", b"")) / 1e6


def taken(launcher, row, size):
    """What an input takes at a size."""
    with measure.input_of(row, size) as made:
        words = [measure.PROGRAM, *made.arguments]
        return Held(size, instructions(words), min(measure.run(launcher, words)[1] for _ in range(RUNS)) / 1e6)


def size_to_hold(launcher, row):
    """The first size of an input at which a run takes long enough to tell, or its last one."""
    size = row.least
    while 2 * size <= row.most:
        with measure.input_of(row, size) as made:
            seconds, _ = measure.run(launcher, [measure.PROGRAM, *made.arguments])
        if seconds >= SECONDS:
            break
        size *= 2
    return size


def written_down():
    """What is written down of each input."""
    lines = (line.split("\t") for line in HELD.read_text().splitlines())
    return {name: Held(int(size), float(instructions), float(megabytes)) for name, size, instructions, megabytes in lines}


def write_down(found):
    """Writes down what inputs take, in the order of the inputs."""
    lines = ((row.name, found[row.name]) for row in measure.ROWS if row.name in found)
    HELD.write_text("".join(f"{name}\t{it.size}\t{it.instructions:.1f}\t{it.megabytes:.1f}\n" for name, it in lines))


def wrong_with(launcher, row, was):
    """What is wrong with an input, by what is written down of it, or nothing."""
    if was is None:
        return f"{row.name}: nothing is written down of it: tests/held.py --hold {row.name}"
    now = taken(launcher, row, was.size)
    if now.instructions <= INSTRUCTIONS_TIMES * was.instructions and now.megabytes <= MEMORY_TIMES * was.megabytes:
        return None
    return f"{row.name}: {now.instructions:.1f} million instructions and {now.megabytes:.1f} MB, where {was.instructions} and {was.megabytes} are held"


def main():
    parser = argparse.ArgumentParser(prog="tests/held.py", description=__doc__.splitlines()[0])
    parser.add_argument("names", metavar="NAME", nargs="*", help="inputs; all without one")
    parser.add_argument("--hold", action="store_true", help="write down what they take")
    given = parser.parse_args()
    needs.wanted("valgrind")
    rows = [row for row in measure.ROWS if row.name in (given.names or [row.name])]
    held = written_down()
    with tempfile.TemporaryDirectory() as folder, concurrent.futures.ThreadPoolExecutor(os.cpu_count()) as threads:
        launcher = measure.built_launcher(folder)
        if given.hold:
            found = threads.map(lambda row: taken(launcher, row, size_to_hold(launcher, row)), rows)
            write_down({**held, **{row.name: it for row, it in zip(rows, found)}})
            return 0
        wrong = [it for it in threads.map(lambda row: wrong_with(launcher, row, held.get(row.name)), rows) if it]
    print("\n".join([*wrong, f"{len(rows) - len(wrong)} inputs take what is held of them, {len(wrong)} more"]))
    return int(bool(wrong))


if __name__ == "__main__":
    sys.exit(main())
