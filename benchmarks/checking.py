#!/usr/bin/env python3
"""Times a program that lexes, parses and checks a file in pieces of 64 KiB, moves each record into what it means and drops
that, beside the program that only lexes and parses, and one that also writes each canonical statement: points; oriented
edges with their two derived places; one set of references, and ten times as many; instances of five parts. Prints a table:
the least processor time of several runs, checking as a multiple of parsing, printing as one of checking, the canonical
megabytes that printing adds in a second, and the peak resident memory of the check.
Needs rt, rustc and python3. A folder in TMPDIR with 100 MB of room, best in memory, takes the files.
"""

import os
import subprocess
import sys
import tempfile

import models
from measure import peak_memory, seconds
from programs import built

PARSING = built("parsing")
CHECKING = built("checking")
PRINTING = built("printing")
RUNS = 5
FILES = {
    "1,000,000 points": models.points(1_000_000),
    "1,000,000 oriented edges": models.edges(1_000_000),
    "100,000 references in one set": models.one_set(100_000),
    "1,000,000 references in one set": models.one_set(1_000_000),
    "100,000 instances of five parts": models.complexes(100_000),
}

with tempfile.TemporaryDirectory() as folder:
    path = os.path.join(folder, "file")
    parsing = [PARSING, path]
    checking = [CHECKING, models.SCHEMA, path]
    printing = [PRINTING, models.SCHEMA, path]
    print(
        "| file | MB | parsing, ms | checking, ms | printing, ms | checking to parsing | printing to checking"
        " | MB a second of printing alone | peak memory, MB |"
    )
    print("|---|---|---|---|---|---|---|---|---|")
    for name, lines in FILES.items():
        size = models.write(path, lines)
        counted = subprocess.run(printing, stdout=subprocess.PIPE, text=True, check=True).stdout.split()
        if counted[0] != str(len(lines)):
            sys.exit(f"{name}: counts {counted}")
        parsed, checked, printed = (min(seconds(words) for _ in range(RUNS)) for words in (parsing, checking, printing))
        speed = int(counted[1]) / 1e6 / (printed - checked) if printed > checked else 0.0
        print(
            f"| {name} | {size / 1e6:.1f} | {parsed * 1e3:.0f} | {checked * 1e3:.0f} | {printed * 1e3:.0f}"
            f" | {checked / parsed:.2f} | {printed / checked:.2f} | {speed:.0f} | {peak_memory(checking) / 1e6:.1f} |",
            flush=True,
        )
