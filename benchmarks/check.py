#!/usr/bin/env python3
"""Times `p21 check`, `p21 canon` and `p21 same` beside `sha256sum`, `LC_ALL=C sort` and a plain Rust program that has the file whole
in memory (checking/plain.rs): points, points with blanks as some converters write them, a boundary model, and the same shuffled,
of 1,000,000 instances and of a tenth. `check.py SCHEMA FILE..` adds one file of the instances of real ones, which have one
data section each and are accepted under that schema; the plain program doesn't know it. Prints a table: the least processor
time of several runs, that of each command also as a multiple of that of `sha256sum`, and of `check` of that of the plain
program; and the peak resident memory of `check`, that of `canon` beside the canonical text, and of `same` beside `canon`.
`same` reads the file twice.
Needs rt, rustc and python3. A folder in TMPDIR with 200 MB of room, best in memory, takes the files.
"""

import os
import re
import subprocess
import sys
import tempfile

import models
from measure import peak_memory, seconds
from programs import HERE, OUT, p21, plain

P21, REAL = p21(), sys.argv[1:]
PLAIN = plain("checking")
RUNS = 3
SIZES = (100_000, 1_000_000)
FILES = {
    "points": models.points,
    "points with blanks": lambda count: models.spaced(models.points(count)),
    "boundary model": models.boundary,
    "boundary model, shuffled": lambda count: models.shuffled(models.boundary(count)),
}


def files(path):
    """Writes each file there, one after the other: its name, its schema, its bytes."""
    for name, lines in FILES.items():
        for count in SIZES:
            yield name, models.SCHEMA, models.write(path, lines(count))
    if REAL:
        head, parts = models.merged(REAL[1:])
        yield "real files, merged", REAL[0], models.write(path, parts, head)


def cells(found, made):
    """Some numbers of a row, where those of the plain program may be missing."""
    return " | ".join("" if number is None else made.format(number) for number in found)


OUT.mkdir(exist_ok=True)
# So that sort takes bytes as they are.
os.environ["LC_ALL"] = "C"
subprocess.run(["rustc", "--edition", "2021", "-C", "opt-level=3", "-o", PLAIN, HERE / "checking/plain.rs"], check=True)
with tempfile.TemporaryDirectory() as folder:
    path = os.path.join(folder, "file")
    names = ("check", "canon", "same", "plain check", "plain canon", "sha256sum", "sort")
    columns = ["file", "instances", "MB", *(f"{name}, ms" for name in names), *(f"{name} to sha256sum" for name in names[:3])]
    columns += ["check to plain", "peak of check, MB", "canon to canonical text", "same to canon", "peak of plain, MB"]
    print(f"| {' | '.join(columns)} |")
    print("|" + "---|" * len(columns))
    for name, schema, size in files(path):
        programs = {
            "check": [P21, "check", schema, path],
            "canon": [P21, "canon", schema, path],
            "same": [P21, "same", schema, path, path],
            "sha256sum": ["sha256sum", path],
            "sort": ["sort", path],
        }
        if schema == models.SCHEMA:
            programs |= {f"plain {which}": [PLAIN, which, schema, path] for which in ("check", "canon")}
        said = [subprocess.run(programs[which], capture_output=True, text=True).stdout for which in programs if which.endswith("check")]
        found = re.fullmatch(r"accepted, instances (\d+), canonical bytes (\d+)\n", said[0])
        if not found or said.count(said[0]) != len(said):
            sys.exit(f"{name}: {said}")
        best = {which: min(seconds(words) for _ in range(RUNS)) for which, words in programs.items()}
        peak, kept, beside = (peak_memory(programs[which]) for which in names[:3])
        plain = peak_memory(programs["plain check"]) / 1e6 if "plain check" in programs else None
        to_plain = best["check"] / best["plain check"] if "plain check" in best else None
        print(
            f"| {name} | {int(found[1]):,} | {size / 1e6:.1f} | "
            + cells((best[which] * 1e3 if which in best else None for which in names), "{:.0f}")
            + f" | {cells((*(best[which] / best['sha256sum'] for which in names[:3]), to_plain), '{:.2f}')}"
            f" | {peak / 1e6:.1f} | {kept / int(found[2]):.2f} | {beside / kept:.2f} | {cells([plain], '{:.1f}')} |",
            flush=True,
        )
