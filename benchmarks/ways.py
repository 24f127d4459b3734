#!/usr/bin/env python3
"""Prints how many instances a session takes straight from their bytes, and how many token by token (docs/ARCHITECTURE.md).

    benchmarks/ways.py [SCHEMA FILE..]      without these, the files of the other benchmarks, of 10,000 instances each

The program has no counter, so valgrind counts the calls by which a session keeps an instance that came token by token; the
others of an accepted file went the shorter way. Each instance with one leaf that is written in external mapping has to be counted:
that shows that the program has these functions apart, and not inlined. P21 names another program than ./p21. Needs valgrind.
"""

import os
import pathlib
import re
import subprocess
import sys
import tempfile

import models

ROOT = pathlib.Path(__file__).resolve().parent.parent
COUNT = 10_000
# What takes an instance that came token by token, by itself or in what it is compiled into, and what keeps one either way.
TAKES, KEEPS = ("p21_stream_kept::kept::Kept::take_instance", "p21_stream::progress::take"), "p21_stream_kept::kept::Kept::keep_found"
FILES = {
    "points": models.points,
    "points with blanks": lambda count: models.spaced(models.points(count)),
    "points with comments": lambda count: models.commented(models.points(count)),
    "points, names with zeros": lambda count: models.padded(models.points(count)),
    "boundary model": models.boundary,
    "boundary model, shuffled": lambda count: models.shuffled(models.boundary(count)),
    "oriented edges": models.edges,
    "points, and one shape of all": models.one_set,
    "instances of five parts": models.complexes,
}


def program():
    """The program itself, and not the script that builds it."""
    if "P21" not in os.environ:
        subprocess.run([ROOT / "p21", "--version"], stdout=subprocess.DEVNULL, check=True)
    return os.environ.get("P21", str(ROOT / "crates" / "p21" / "out" / "p21"))


def calls(profile):
    """How often these functions call the other. A name stands in a profile once, behind its number."""
    names, within, called, count = {}, None, None, 0
    for line in profile.splitlines():
        kind, _, rest = line.partition("=")
        if kind in ("fn", "cfn"):
            number, _, symbol = rest.partition(" ")
            names.setdefault(number, symbol)
            if kind == "fn":
                within, called = names[number], None
            else:
                called = names[number]
        elif kind == "calls" and within in TAKES and called == KEEPS:
            count += int(rest.split()[0])
    return count


def ways(schema, path, folder):
    """How many instances of a file go straight, and how many by tokens."""
    profile = pathlib.Path(folder, "profile")
    words = ["valgrind", "--tool=callgrind", f"--callgrind-out-file={profile}", program(), "check", schema, path]
    run = subprocess.run(words, capture_output=True, text=True, check=False)
    accepted = re.fullmatch(r"accepted, instances (\d+), canonical bytes \d+\n", run.stdout)
    if not accepted:
        sys.exit(f"{path}: {run.stdout}{run.stderr}")
    by_tokens = calls(profile.read_text())
    return int(accepted[1]) - by_tokens, by_tokens


def is_counted(folder):
    """Does the program have these functions apart? Then an instance with one leaf in external mapping is counted."""
    made = f"{folder}/file"
    models.write(made, models.leaves(100))
    return ways(models.SCHEMA, made, folder)[1] == 100


def row(name, straight, by_tokens):
    """A row of the table."""
    count = straight + by_tokens
    return f"| {name} | {count:,} | {straight:,} | {by_tokens:,} | {100 * straight / max(count, 1):.2f} |"


def main():
    """Prints a table."""
    with tempfile.TemporaryDirectory() as folder:
        made = f"{folder}/file"
        if not is_counted(folder):
            sys.exit("an instance that goes the general way isn't counted: the program has the function inlined")
        print("| file | instances | straight from their bytes | token by token | straight, % |\n|---|---|---|---|---|")
        if sys.argv[1:]:
            for path in sys.argv[2:]:
                print(row(os.path.basename(path), *ways(sys.argv[1], path, folder)), flush=True)
            return
        for name, lines in FILES.items():
            models.write(made, lines(COUNT))
            print(row(name, *ways(models.SCHEMA, made, folder)), flush=True)


if __name__ == "__main__":
    main()
