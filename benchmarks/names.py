#!/usr/bin/env python3
"""What it takes to compare two files up to the names of their instances: benchmarks/names.py [SIZE..]

The boundary model of docs/PERFORMANCE.md is given other names and another order, and once more with one coordinate changed.
For each size it prints the processor time and the peak memory of tools/p21-diff --names, and what it said last; and the same
for tools/p21-table --names over one file. P21 names another program than ./p21.
"""

import os
import pathlib
import random
import re
import subprocess
import sys
import tempfile

import models

ROOT = pathlib.Path(__file__).resolve().parent.parent
NAME = re.compile(r"#(\d+)")
os.environ.setdefault("P21", str(ROOT / "p21"))


def renamed(lines, chance):
    """Lines with other names, in another order."""
    names = [int(line[1 : line.index("=")]) for line in lines]
    new = dict(zip(names, chance.sample(range(1, 2 * len(names)), len(names))))
    found = [NAME.sub(lambda name: f"#{new[int(name[1])]}", line) for line in lines]
    chance.shuffle(found)
    return found


def measured(tool, *words):
    """The seconds and the bytes of a run, and its last line."""
    process = subprocess.Popen([ROOT / "tools" / tool, "--names", *words], stdout=subprocess.PIPE, stderr=subprocess.DEVNULL)
    output = process.stdout.read().decode()
    _, _, usage = os.wait4(process.pid, 0)
    return usage.ru_utime + usage.ru_stime, usage.ru_maxrss * 1024, output.splitlines()[-1]


def main():
    sizes = [int(size) for size in sys.argv[1:]] or [1_000, 10_000, 100_000, 1_000_000]
    with tempfile.TemporaryDirectory() as folder:
        for size in sizes:
            lines = models.boundary(size)
            at = next(at for at in range(len(lines) // 2, len(lines)) if "=CARTESIAN_POINT('',(0.,50." in lines[at])
            changed = [*lines[:at], lines[at].replace("(0.,50.", "(0.125,50."), *lines[at + 1 :]]
            paths = [f"{folder}/{name}.step" for name in ("as_it_is", "shuffled", "changed")]
            for path, each in zip(paths, (lines, renamed(lines, random.Random(1)), renamed(changed, random.Random(2)))):
                models.write(path, each)
            for words in (paths[:2], paths[::2]):
                seconds, peak, line = measured("p21-diff", models.SCHEMA, *words)
                print(f"p21-diff {len(lines):>9} {seconds:8.2f} s {peak / 1e6:8.1f} MB  {line}", flush=True)
            seconds, peak, line = measured("p21-table", "-j", "1", models.SCHEMA, paths[1])
            print(f"p21-table {len(lines):>8} {seconds:8.2f} s {peak / 1e6:8.1f} MB  {line[-80:]}", flush=True)


if __name__ == "__main__":
    main()
