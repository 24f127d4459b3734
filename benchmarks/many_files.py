#!/usr/bin/env python3
"""Times tools/p21-table, one file at a time, beside `p21 canon S FILE | sha256sum` for each of 300 files.

Prints the least processor time of several runs of both, and the first as a multiple of the second. P21 names another
program than ./p21. A folder in TMPDIR with 50 MB of room takes the files.
"""

import os
import pathlib
import subprocess
import tempfile

import models
from measure import seconds

ROOT = pathlib.Path(__file__).resolve().parent.parent
RUNS = 3
FILES = 300
TABLE = '"$0" -j 1 "$1" "$2" 2> /dev/null'
EACH = 'for file in "$2"/*.step; do "$P21" canon "$1" "$file" | sha256sum; done'


def program():
    """The program that is timed: not the script that builds it, which looks for newer sources at each call."""
    if "P21" not in os.environ:
        subprocess.run([ROOT / "p21", "--version"], stdout=subprocess.DEVNULL, check=True)
    return os.environ.get("P21", str(ROOT / "crates" / "p21" / "out" / "p21"))


def main():
    """Makes files of 50 to some 6,000 instances, and times both over them."""
    os.environ["P21"] = program()
    with tempfile.TemporaryDirectory() as folder:
        for number in range(FILES):
            models.write(f"{folder}/{number:03}.step", models.boundary(50 + 20 * number))
        tool = str(ROOT / "tools" / "p21-table")
        table = min(seconds(["sh", "-c", TABLE, tool, models.SCHEMA, folder]) for _ in range(RUNS))
        each = min(seconds(["sh", "-c", EACH, "each", models.SCHEMA, folder]) for _ in range(RUNS))
    print(f"p21-table -j 1: {table:.2f} s")
    print(f"p21 canon | sha256sum for each: {each:.2f} s")
    print(f"ratio: {table / each:.2f}")


if __name__ == "__main__":
    main()
