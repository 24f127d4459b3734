#!/usr/bin/env python3
"""Whether nearly all instances of usual files go straight from their bytes, which is what makes the program fast: a bound on the
share of each file, as benchmarks/ways.py counts it by valgrind.

    tests/ways.py [SCHEMA FILE]..

Of points 99.9 of 100 instances go straight at least, of other models and of each real FILE 99.5: one that a piece of the file cuts
doesn't, and longer ones are cut more often. Without arguments the pairs are those of the environment variable P21_REAL, separated
by blanks. P21 names the program. The status is 77 where valgrind isn't there, or the program has the functions inlined that are
counted.
"""

import os
import pathlib
import sys
import tempfile

ROOT = pathlib.Path(__file__).resolve().parent.parent
sys.path.insert(0, str(ROOT / "benchmarks"))

import models  # noqa: E402
import needs  # noqa: E402
import ways  # noqa: E402

COUNT = 6_000
OF_POINTS, OF_OTHERS = 99.9, 99.5


def shares(folder):
    """Each file with its share, and the bound on it."""
    made = f"{folder}/file"
    for name, lines in ways.FILES.items():
        models.write(made, lines(COUNT))
        yield name, ways.ways(models.SCHEMA, made, folder), OF_POINTS if name == "points" else OF_OTHERS
    words = sys.argv[1:] or os.environ.get("P21_REAL", "").split()
    for schema, path in zip(words[::2], words[1::2]):
        yield os.path.basename(path), ways.ways(schema, path, folder), OF_OTHERS


def main():
    needs.wanted("valgrind")
    failed = count = 0
    with tempfile.TemporaryDirectory() as folder:
        if not ways.is_counted(folder):
            needs.skipped("the program has the functions inlined that are counted")
        for name, (straight, by_tokens), bound in shares(folder):
            share = 100 * straight / max(straight + by_tokens, 1)
            count += 1
            failed += share < bound
            print(f"{name}: {straight} of {straight + by_tokens}, {share:.2f} %, at least {bound} %{'' if share >= bound else ': FAILED'}")
    print(f"{count - failed} passed, {failed} failed")
    return int(failed > 0)


if __name__ == "__main__":
    sys.exit(main())
