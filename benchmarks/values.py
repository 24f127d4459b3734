#!/usr/bin/env python3
"""Times a program that reads a million values, keeps them all and writes their canonical spellings, beside a plain Rust
program that does the same with `f64`, `u64` and `String`. Each gives the same output; the script compares them.
Prints a table: the least processor time of several runs, their ratio, the peak resident memory, and for one value the
allocations and the bytes allocated, where valgrind is there: those of the lists and of the output are among them.
Needs rt, rustc and python3.
"""

import os
import re
import shutil
import subprocess
import sys
import tempfile

from measure import peak_memory, seconds
from programs import built, plain

PROGRAMS = [built("values"), plain("values")]
COUNT = 1_000_000
RUNS = 9
LETTERS = "abcdefghijklmnopqrstuvwxyzABCDEFGHIJKLMNOPQRSTUVWXYZ"


def real(number):
    """Like 12.5, -0.0325 and 1.E-07 in turn."""
    forms = (f"{1 + number % 999}.5", f"-0.0{1 + number % 999:03}", f"{1 + number % 9}.E-07")
    return forms[number % 3]


def label(number):
    number = number * 2_654_435_761
    return "".join(LETTERS[(number >> 5 * place) % 52] for place in range(8))


KINDS = {"reals": real, "names": "#{}".format, "labels": label}


def allocations(words):
    """How many allocations a value has, and the bytes of all of them."""
    if not shutil.which("valgrind"):
        return "", ""
    counting = ["valgrind", "--tool=dhat", "--dhat-out-file=/dev/null", *words]
    said = subprocess.run(counting, stdout=subprocess.DEVNULL, stderr=subprocess.PIPE, text=True).stderr
    total, blocks = re.search(r"Total:\s+([\d,]+) bytes in ([\d,]+) blocks", said).groups()
    return tuple(f"{int(number.replace(',', '')) / COUNT:.1f}" for number in (blocks, total))


with tempfile.TemporaryDirectory() as folder:
    print("| values | program | ms | ratio | peak memory, MB | allocations a value | bytes allocated a value |")
    print("|---|---|---|---|---|---|---|")
    for kind, spelled in KINDS.items():
        path = os.path.join(folder, kind)
        with open(path, "w") as file:
            file.writelines(f"{spelled(number)}\n" for number in range(1, COUNT + 1))
        commands = [[program, kind, path] for program in PROGRAMS]
        ours, theirs = (subprocess.run(words, stdout=subprocess.PIPE, check=True).stdout for words in commands)
        if ours != theirs:
            sys.exit(f"the two spell {kind} otherwise")
        runs = [[seconds(words) for words in commands] for _ in range(RUNS)]
        best = [min(run[program] for run in runs) for program in (0, 1)]
        for program, name in enumerate(("p21_values", "plain Rust")):
            peak = peak_memory(commands[program])
            count, size = allocations(commands[program])
            ratio = best[program] / best[1]
            print(f"| {kind} | {name} | {best[program] * 1e3:.0f} | {ratio:.2f} | {peak / 1e6:.1f} | {count} | {size} |")
