#!/usr/bin/env python3
"""Times what C and Python ask of an accepted file: all its instances with all their values, beside its canonical file, the table of who
refers to whom, look-ups by name, and an iteration in Python. A boundary model of 1,000,000 instances and of a tenth. A C program
(library/instances.c) and this one, five runs of each, of which the median is printed; the ratio is that within one run. Prints a
table.
  benchmarks/instances.py [PREFIX]     what making/build-library has put below PREFIX is timed; without one it is built
Needs rt without PREFIX, a C compiler (CC) and python3. A folder in TMPDIR with 200 MB of room, best in memory, takes the files.
"""

import os
import statistics
import subprocess
import sys
import tempfile

import models
from programs import HERE, OUT, ROOT

RUNS = 5
SIZES = (100_000, 1_000_000)
ITERATED = """
import sys, time
import p21
model = p21.read(sys.argv[1], sys.argv[2])
begun = time.process_time()
count = sum(1 for instance in model)
print(time.process_time() - begun)
assert count == len(model)
"""


def numbers(words, **more):
    """The numbers that a program prints, a line for each."""
    return [float(line) for line in subprocess.run(words, capture_output=True, text=True, check=True, **more).stdout.split()]


prefix = sys.argv[1] if len(sys.argv) > 1 else OUT / "library"
if len(sys.argv) == 1:
    subprocess.run([ROOT / "making/build-library", prefix], check=True, stdout=subprocess.DEVNULL)
program = str(OUT / "library_instances")
OUT.mkdir(parents=True, exist_ok=True)
how = ["-std=gnu11", "-O2", f"-I{prefix}/include", "-o", program, HERE / "library/instances.c", f"{prefix}/lib/libp21.a"]
subprocess.run([os.environ.get("CC", "cc"), *how], check=True)
python = dict(os.environ, PYTHONPATH=str(ROOT / "python"), P21_LIBRARY=os.path.abspath(f"{prefix}/lib/libp21.so"))
print("| instances | values | canonical file, ms | all values, ms | ratio | users, ms | a look-up, ns | iterated in Python, s |")
print("|" + "---|" * 8)
with tempfile.TemporaryDirectory() as folder:
    path = os.path.join(folder, "file")
    for count in SIZES:
        made = models.boundary(count)
        models.write(path, made)
        runs = [numbers([program, models.SCHEMA, path]) for _ in range(RUNS)]
        canonical, walked, users, lookup, values = map(statistics.median, zip(*runs))
        ratio = statistics.median(run[1] / run[0] for run in runs)
        iterated = statistics.median(numbers([sys.executable, "-c", ITERATED, models.SCHEMA, path], env=python)[0] for _ in range(RUNS))
        print(
            f"| {len(made):,} | {values:,.0f} | {canonical:.0f} | {walked:.0f} | {ratio:.2f} | {users:.0f} | {lookup:.0f} | {iterated:.2f} |",
            flush=True,
        )
