#!/usr/bin/env python3
"""Times a program that feeds a file to a session in pieces of 64 KiB and finishes, beside the program that lexes, parses,
checks and prints each instance and keeps nothing: points; a boundary model with references forward and backward; the same
shuffled; each with a tenth of the instances too. Prints a table: the least processor time of several runs, the session as a
multiple of the rest, the time as a multiple of that for a tenth, peak memory, and that as a multiple of the canonical text.
Needs rt, rustc and python3. A folder in TMPDIR with 100 MB of room, best in memory, takes the files.
"""

import os
import subprocess
import sys
import tempfile

import models
from measure import peak_memory, seconds
from programs import built

PRINTING = built("printing")
SESSIONS = built("sessions")
RUNS = 3
COUNT = 1_000_000
MODELS = {
    "points": models.points,
    "boundary model": models.boundary,
    "boundary model, shuffled": lambda count: models.shuffled(models.boundary(count)),
}

with tempfile.TemporaryDirectory() as folder:
    path = os.path.join(folder, "file")
    printing = [PRINTING, models.SCHEMA, path]
    session = [SESSIONS, models.SCHEMA, path]
    print(
        "| file | instances | MB | printing, ms | session, ms | session to printing | to a tenth of the file"
        " | peak memory, MB | memory to canonical text |"
    )
    print("|---|---|---|---|---|---|---|---|---|")
    for name, made in MODELS.items():
        tenth = 0.0
        for count in (COUNT // 10, COUNT):
            lines = made(count)
            size = models.write(path, lines)
            counted = subprocess.run(session, stdout=subprocess.PIPE, text=True, check=True).stdout.split()
            if counted[0] != str(len(lines)):
                sys.exit(f"{name}: counts {counted}")
            printed, fed = (min(seconds(words) for _ in range(RUNS)) for words in (printing, session))
            peak = peak_memory(session)
            growth = f"{fed / tenth:.1f}" if tenth else "-"
            print(
                f"| {name} | {len(lines):,} | {size / 1e6:.1f} | {printed * 1e3:.0f} | {fed * 1e3:.0f} | {fed / printed:.2f}"
                f" | {growth} | {peak / 1e6:.1f} | {peak / int(counted[1]):.2f} |",
                flush=True,
            )
            tenth = fed
