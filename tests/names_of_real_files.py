#!/usr/bin/env python3
"""Compares real files up to the names of their instances: tests/names_of_real_files.py SCHEMA FILE..

Each file is given other names and another order by a seed: the tools must say that it is the same, and the program must write the
same bytes for both, or refuse both as 59. Then a real of one point is changed too, and just that value must be listed, and other bytes
written. At last a real of each of so many instances is changed, and `p21 diff --names` must list just these, under both names.
docs/RECIPES.md says where such files are to be had. P21 names another program than ./p21.
"""

import itertools
import json
import os
import random
import re
import subprocess
import sys
import tempfile

PATHS = [os.path.abspath(path) for path in sys.argv[1:]]

from renaming import shuffled  # pylint: disable=wrong-import-position
from tooling import ROOT  # pylint: disable=wrong-import-position

POINT = re.compile(rb"#\d+ *= *(?:IFC)?CARTESIAN_?POINT *\([^;]*?(-?\d+\.\d*(?:E[-+]?\d+)?) *\) *\) *;")
REAL = re.compile(rb"(?<=[(,])-?\d+\.\d*(?:E[-+]?\d+)?(?=[,)])")
NAME = re.compile(rb"\s*#(\d+)")
# So many instances are changed in each file.
EDITS = (1, 5, 20, 50, 100, 200)


def answer(tool, *arguments):
    """What a tool prints, and its status."""
    done = subprocess.run([ROOT / "tools" / tool, *arguments], capture_output=True, check=False, text=True)
    return done.stdout.splitlines(), done.returncode, done.stderr


def tried(schema, path, seed, folder):
    """What is wrong with the answers about a file."""
    with open(path, "rb") as file:
        text = file.read()
    other = f"{folder}/other.step"
    with open(other, "wb") as file:
        file.write(shuffled(text, seed)[0])
    rows = [json.loads(line) for line in answer("p21-table", "--names", "--format", "json", schema, path, other)[0]]
    if [row["sha256"] for row in rows] != 2 * [rows[0]["sha256"]] or [row["number"] for row in rows] not in ([None, None], [59, 59]):
        yield f"shuffled: {rows}"
    lines, status, error = answer("p21-diff", "--names", schema, path, other)
    if status != 0 or len(lines) != 1 or not lines[0].startswith("same up to names: "):
        yield f"shuffled: {lines[-1:]} {status} {error}"
    points = list(POINT.finditer(text))
    if points:
        found = points[len(points) // 2]
        with open(other, "wb") as file:
            file.write(shuffled(text[: found.start(1)] + b"12345.678" + text[found.end(1) :], seed)[0])
        lines, status, error = answer("p21-diff", "--names", "--format", "json", schema, path, other)
        objects = [json.loads(line) for line in lines]
        changed = json.loads(answer("p21-table", "--names", "--format", "json", schema, other)[0][0])
        if changed["sha256"] == rows[0]["sha256"] and rows[0]["sha256"]:
            yield "one value changed: the same hash"
        if status != 1 or len(objects) != 2 or objects[0]["attribute"] != "COORDINATES":
            yield f"one value changed: {len(objects) - 1} lines, {lines[:2]} {error}"
    print(f"{path}: {rows[0]['answer']}, instances {rows[0]['instances']}", flush=True)


def changed(text, count, chance):
    """A file of which a real of each of so many instances is changed, or of all that have one, and the names of these."""
    reals = {}
    for found in REAL.finditer(text, text.index(b"DATA")):
        name = NAME.match(text, text.rfind(b";", 0, found.start()) + 1)
        if name:
            reals.setdefault(int(name[1]), []).append(found)
    names = chance.sample(sorted(reals), min(count, len(reals)))
    for number, found in enumerate(sorted(map(chance.choice, map(reals.get, names)), key=lambda each: -each.start())):
        text = text[: found.start()] + b"%d.625" % (7000 + number) + text[found.end() :]
    return text, names


def paired(schema, path, seed, folder):
    """What `p21 diff --names` lists otherwise than the edits."""
    with open(path, "rb") as file:
        text = file.read()
    other = f"{folder}/edited.step"
    for count in EDITS:
        edited, names = changed(text, count, random.Random(seed + count))
        after, renamed = shuffled(edited, seed)
        with open(other, "wb") as file:
            file.write(after)
        done = subprocess.run(
            [os.environ["P21"], "diff", "--names", "--format", "jsonl", schema, path, other], capture_output=True, check=False, text=True
        )
        rows = [json.loads(line) for line in done.stdout.splitlines()]
        found = sorted((row.get("a"), row.get("b")) for row in rows[:-1])
        if done.returncode != 1 or found != sorted((name, renamed[name]) for name in names):
            yield f"{len(names)} values changed: {rows[-1:]} {done.returncode} {done.stderr}"


def main():
    schema, *paths = PATHS
    wrong = 0
    with tempfile.TemporaryDirectory() as folder:
        for seed, path in enumerate(paths):
            for line in itertools.chain(tried(schema, path, seed, folder), paired(schema, path, seed, folder)):
                print(f"{path}: {line}")
                wrong += 1
    print(f"{len(paths)} files, {wrong} wrong answers")
    sys.exit(int(wrong > 0))


if __name__ == "__main__":
    main()
