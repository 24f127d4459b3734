#!/usr/bin/env python3
"""Times look-ups in a schema of 5,000 entities of ten attributes in chains of ten: whether the entity of an attribute is
one of the first entity of its chain, the name of the attribute, and its type in the entity's own set. Prints a table:
the least processor time of several runs without that of a run that looks nothing up, for one look-up.
Needs rt and python3.
"""

import os
import tempfile

from measure import seconds
from programs import built
from schema_texts import chained, write

PROGRAM = built("lookups")
RUNS = 7
# Each attribute of each entity, as often as the program looks it up.
LOOKUPS = 5_000 * 10 * 20


def least(words):
    return min(seconds(words) for _ in range(RUNS))


with tempfile.TemporaryDirectory() as folder:
    path = os.path.join(folder, "schema")
    write(path, chained(5_000))
    nothing = least([PROGRAM, path, "nothing"])
    print("| look-up | ns |")
    print("|---|---|")
    for name in ("is_a", "place_name", "own_type"):
        print(f"| `{name}` | {(least([PROGRAM, path, name]) - nothing) * 1e9 / LOOKUPS:.1f} |")
