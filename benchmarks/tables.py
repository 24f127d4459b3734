#!/usr/bin/env python3
"""Times a program that reads a schema with all its tables beside one that reads its declarations alone: entities without
attributes, 5,000 and ten times as many; entities of ten attributes in chains of ten, 1,000 and as many as 16 MB hold;
and 31 levels of diamonds. Prints a table: the least processor time of several runs without that of an empty schema,
as a multiple of that of the declarations alone, and the peak resident memory, also for one byte of the text.
Needs rt and python3. A folder in TMPDIR with 20 MB of room, best in memory, takes the files.
"""

import os
import subprocess
import sys
import tempfile

from measure import peak_memory, seconds
from programs import built
from schema_texts import LARGE, as_many, bare, chained, ladder, write

PROGRAMS = {"alone": [built("schemas")], "tables": [built("tables")]}
RUNS = 5
SCHEMAS = {
    "5,000 entities without attributes": bare(5_000),
    "50,000 entities without attributes": bare(50_000),
    "1,000 entities of ten attributes": chained(1_000),
    "16 MB of entities of ten attributes": as_many(chained(65_535), LARGE),
    "31 levels of diamonds": ladder(31),
}


def least(words):
    return min(seconds(words) for _ in range(RUNS))


with tempfile.TemporaryDirectory() as folder:
    path = os.path.join(folder, "schema")
    write(path, [])
    started = {program: least([*words, path]) for program, words in PROGRAMS.items()}
    print("| schema | MB | text alone, ms | with tables, ms | ratio | peak memory, MB | bytes of memory for one of the text |")
    print("|---|---|---|---|---|---|---|")
    for name, lines in SCHEMAS.items():
        write(path, lines)
        size = os.path.getsize(path)
        for words in PROGRAMS.values():
            counted = subprocess.run([*words, path], stdout=subprocess.PIPE, text=True, check=True).stdout
            if counted.split() != [str(len(lines)), "0"]:
                sys.exit(f"{name}: {words} counts {counted}")
        best = {program: max(0, least([*words, path]) - started[program]) for program, words in PROGRAMS.items()}
        peak = peak_memory([*PROGRAMS["tables"], path])
        ratio = f"{best['tables'] / best['alone']:.1f}" if best["alone"] > 0.0005 else "-"
        # A run of less than a millisecond ends before its memory is looked at.
        memory = f"{peak / 1e6:.1f} | {peak / size:.1f}" if peak else "- | -"
        print(
            f"| {name} | {size / 1e6:.2f} | {best['alone'] * 1e3:.1f} | {best['tables'] * 1e3:.1f} | {ratio}"
            f" | {memory} |"
        )
