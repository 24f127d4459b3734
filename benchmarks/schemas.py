#!/usr/bin/env python3
"""Times a program that reads the declarations of a schema beside `sha256sum`: entities without attributes, 5,000 and ten
times as many; entities of ten attributes in chains of ten, 1,000 and as many as 16 MB hold; and 16 MB of WHERE runs and
remarks. Prints a table: the least processor time of several runs without that of an empty schema, as a multiple of
that of `sha256sum` without that of an empty file, and the peak resident memory.
Needs rt and python3. A folder in TMPDIR with 20 MB of room, best in memory, takes the files.
"""

import os
import subprocess
import sys
import tempfile

from measure import peak_memory, seconds
from programs import built
from schema_texts import LARGE, as_many, bare, chained, ruled, write

PROGRAMS = {"reading": [built("schemas")], "sha256sum": ["sha256sum"]}
RUNS = 5
SCHEMAS = {
    "5,000 entities without attributes": bare(5_000),
    "50,000 entities without attributes": bare(50_000),
    "1,000 entities of ten attributes": chained(1_000),
    "16 MB of entities of ten attributes": as_many(chained(65_535), LARGE),
    "16 MB of rules and remarks": as_many(ruled(), LARGE),
}


def least(words):
    return min(seconds(words) for _ in range(RUNS))


with tempfile.TemporaryDirectory() as folder:
    path = os.path.join(folder, "schema")
    write(path, [])
    started = {program: least([*words, path]) for program, words in PROGRAMS.items()}
    print("| schema | MB | reading, ms | ns a byte | reading to sha256sum | peak memory, MB |")
    print("|---|---|---|---|---|---|")
    for name, lines in SCHEMAS.items():
        write(path, lines)
        size = os.path.getsize(path)
        counted = subprocess.run([*PROGRAMS["reading"], path], stdout=subprocess.PIPE, text=True, check=True).stdout
        if counted.split() != [str(len(lines)), "0"]:
            sys.exit(f"{name}: counts {counted}")
        best = {program: max(0, least([*words, path]) - started[program]) for program, words in PROGRAMS.items()}
        peak = peak_memory([*PROGRAMS["reading"], path])
        ratio = f"{best['reading'] / best['sha256sum']:.1f}" if best["sha256sum"] > 0.005 else "-"
        print(
            f"| {name} | {size / 1e6:.1f} | {best['reading'] * 1e3:.1f} | {best['reading'] * 1e9 / size:.1f} | {ratio}"
            f" | {peak / 1e6:.1f} |"
        )
