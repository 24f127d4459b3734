#!/usr/bin/env python3
"""Times a program that lexes and parses a file, in pieces of 64 KiB, drops each statement and counts them, beside the
program that only lexes. Prints a table: the least processor time of several runs, parsing as a multiple of lexing, and
the peak resident memory.
Needs rt, rustc and python3. A folder in TMPDIR with 100 MB of room, best in memory, takes the files.
"""

import os
import tempfile

from models import END, HEAD
from measure import peak_memory, seconds
from programs import built

PROGRAMS = {"lexing": built("lexing"), "parsing": built("parsing")}
RUNS = 5
SIZE = 43_000_000


def lines(line):
    number, size = 0, 0
    while size < SIZE:
        number += 1
        text = line(number)
        size += len(text)
        yield text


def points():
    return lines(lambda number: f"#{number}=CARTESIAN_POINT('',(0.,1.5,2.25));\n")


def edges():
    return lines(lambda number: f"#{number}=ORIENTED_EDGE('',*,*,#{number},.F.);\n")


def lists():
    names = ",".join(f"#{name}" for name in range(1, 1_001))
    return lines(lambda number: f"#{number}=CLOSED_SHELL('',({names}));\n")


def one_record():
    yield "#1=CLOSED_SHELL('',(#1000000"
    for name in range(64_000_000 // 9):
        yield f",#{1_000_001 + name % 8_000_000}"
    yield "));\n"


FILES = {"points": points, "oriented edges": edges, "lists of 1,000 names": lists, "one record of 64 MB": one_record}

with tempfile.TemporaryDirectory() as folder:
    print("| file | MB | lexing, ms | parsing, ms | parsing to lexing | peak memory, MB | memory to text |")
    print("|---|---|---|---|---|---|---|")
    path = os.path.join(folder, "file")
    for name, pieces in FILES.items():
        with open(path, "w") as file:
            file.writelines([HEAD, *pieces(), END])
        size = os.path.getsize(path)
        best = {program: min(seconds([words, path]) for _ in range(RUNS)) for program, words in PROGRAMS.items()}
        peak = peak_memory([PROGRAMS["parsing"], path])
        print(
            f"| {name} | {size / 1e6:.0f} | {best['lexing'] * 1e3:.0f} | {best['parsing'] * 1e3:.0f}"
            f" | {best['parsing'] / best['lexing']:.2f} | {peak / 1e6:.1f} | {peak / size:.1f} |"
        )
