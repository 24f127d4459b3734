#!/usr/bin/env python3
"""Times the library's check of a file in memory beside `p21 check`: a C program (library/check.c) over the static library that
reads schema and file into memory first. Points, a boundary model, and the same shuffled, of 1,000,000 instances and of a
tenth. The two run in turn, and a ratio is the median of those of the pairs. Prints a table: the median processor time of
each process and of the call alone; both as a multiple of the program's; and the peak resident memory, that of the
library's process without the file.
Needs rt, a C compiler (CC) and python3. A folder in TMPDIR with 100 MB of room, best in memory, takes the files.
"""

import os
import statistics
import subprocess
import sys
import tempfile

import models
from measure import peak_memory, seconds
from programs import HERE, OUT, ROOT, p21

P21, LIBRARY = p21(), str(OUT / "library_check")
PAIRS = 9
SIZES = (100_000, 1_000_000)
FILES = {
    "points": models.points,
    "boundary model": models.boundary,
    "boundary model, shuffled": lambda count: models.shuffled(models.boundary(count)),
}


def said(words):
    """The lines that a program prints."""
    return subprocess.run(words, capture_output=True, text=True, check=True).stdout.splitlines()


made = OUT / "library"
subprocess.run([ROOT / "making/build-library", made], check=True, stdout=subprocess.DEVNULL)
how = ["-std=gnu11", "-O2", "-I", made / "include", "-o", LIBRARY, HERE / "library/check.c", made / "lib/libp21.a"]
subprocess.run([os.environ.get("CC", "cc"), *how], check=True)
with tempfile.TemporaryDirectory() as folder:
    path = os.path.join(folder, "file")
    program = [P21, "check", models.SCHEMA, path]
    library = [LIBRARY, models.SCHEMA, path]
    print("| file | instances | MB | program, ms | library, ms | call alone, ms | library to program | call to program"
          " | peak of the program, MB | of the library without the file, MB |")
    print("|" + "---|" * 10)
    for name, lines in FILES.items():
        for count in SIZES:
            made = lines(count)
            size = models.write(path, made)
            if said(library)[:1] != said(program):
                sys.exit(f"{name}: {said(library)}")
            runs = [(seconds(program), seconds(library), float(said(library)[1])) for _ in range(PAIRS)]
            whole, inside, alone = map(statistics.median, zip(*runs))
            ratios = [statistics.median(run[at] / run[0] for run in runs) for at in (1, 2)]
            peak, other = peak_memory(program), peak_memory(library) - size
            print(
                f"| {name} | {len(made):,} | {size / 1e6:.1f} | {whole * 1e3:.0f} | {inside * 1e3:.0f} | {alone * 1e3:.0f}"
                f" | {ratios[0]:.3f} | {ratios[1]:.3f} | {peak / 1e6:.1f} | {other / 1e6:.1f} |",
                flush=True,
            )
