#!/usr/bin/env python3
"""Times a program that only lexes a file, in pieces of 64 KiB, and counts its tokens, beside `sha256sum`, `wc -l` and a
plain Rust program that makes the same tokens of a file that it reads whole. Both count the same; the script compares.
Prints a table: the least processor time of several runs, our time as a part of each other one, and the peak resident
memory.
Needs rt, rustc and python3. A folder in TMPDIR with 200 MB of room, best in memory, takes the files.
"""

import os
import subprocess
import sys
import tempfile

from measure import peak_memory, seconds
from programs import built, plain

PROGRAMS = {
    "p21_tokens": [built("lexing")],
    "plain Rust": [plain("lexing")],
    "sha256sum": ["sha256sum"],
    "wc -l": ["wc", "-l"],
}
RUNS = 7
SIZE = 64 << 20


def points():
    return (f"#{number}=CARTESIAN_POINT('',(0.,1.5,2.25));\n" for number in range(1, 1_000_001))


def repeated(part):
    return (part for _ in range(SIZE // len(part)))


def long_strings():
    """Strings of 64 KiB."""
    words = "The quick brown fox jumps over the lazy dog. "
    return repeated(f"'{(words * 1_500)[: (1 << 16) - 3]}'\n")


def blanks_and_comments():
    blanks = (" " * 60 + "\n") * 8
    return repeated(f"{blanks}/* {'a comment that says nothing much ' * 16}*/\n")


FILES = {"1,000,000 points": points, "long strings": long_strings, "blanks and comments": blanks_and_comments}


def tokens(words):
    return int(subprocess.run(words, stdout=subprocess.PIPE, check=True).stdout)


with tempfile.TemporaryDirectory() as folder:
    print("| file | MB | tokens | program | ms | MB a second | p21_tokens' time to this one's | peak memory, MB |")
    print("|---|---|---|---|---|---|---|---|")
    path = os.path.join(folder, "file")
    for name, pieces in FILES.items():
        with open(path, "w") as file:
            file.writelines(pieces())
        size = os.path.getsize(path)
        commands = {program: [*words, path] for program, words in PROGRAMS.items()}
        count, plain = (tokens(commands[program]) for program in ("p21_tokens", "plain Rust"))
        if count != plain:
            sys.exit(f"the two count {count} and {plain} tokens in {name}")
        runs = [{program: seconds(words) for program, words in commands.items()} for _ in range(RUNS)]
        best = {program: min(run[program] for run in runs) for program in commands}
        for program in commands:
            time_taken, peak = best[program], peak_memory(commands[program])
            ratio = best["p21_tokens"] / time_taken
            print(
                f"| {name} | {size / 1e6:.1f} | {count:,} | {program} | {time_taken * 1e3:.0f} | {size / 1e6 / time_taken:.0f}"
                f" | {ratio:.2f} | {peak / 1e6:.1f} |"
            )
