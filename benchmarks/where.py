#!/usr/bin/env python3
"""Times how refusals are listed, with their places and without: a file of 80,000 points (3.9 MB), of which none, the last one,
the last 1,000 and all are refused. Prints a table: the least processor time of several runs of `p21 check`, of `check --where`, of `check --all`,
of `check --all --where` in lines and as JSON, and of `tools/p21-where --all` in lines and as text, each of the last three also as
a multiple of `check --all`. P21 names another program than that of this tree; the tool asks the same one.
"""

import os
import resource
import subprocess
import sys
import tempfile
import time

import models
from programs import HERE, p21

P21 = p21()
INSTANCES = 80_000
TOOL = str(HERE.parent / "tools" / "p21-where")
WAYS = {
    "`check`": ([P21, "check"], 5),
    "`check --where`": ([P21, "check", "--where"], 5),
    "`check --all`": ([P21, "check", "--all"], 5),
    "`check --all --where`": ([P21, "check", "--all", "--where"], 5),
    "`--format jsonl`": ([P21, "check", "--all", "--where", "--format", "jsonl"], 5),
    "`p21-where --all --format lines`": ([TOOL, "--all", "--format", "lines"], 2),
    "`p21-where --all`": ([TOOL, "--all"], 1),
}
BESIDE = "`check --all`"


def write_file(path, refused):
    """Writes the file, in which the last so many instances lack an attribute."""
    lines = models.points(INSTANCES)
    accepted = INSTANCES - refused
    models.write(path, lines[:accepted] + [line.replace(line[line.index(",(") + 1 : -3], "$") for line in lines[accepted:]])


def seconds(words, wanted):
    """The processor time of a command and of those that it runs, which ends with the status that is wanted."""
    before = resource.getrusage(resource.RUSAGE_CHILDREN)
    status = subprocess.run(words, stdout=subprocess.DEVNULL, stderr=subprocess.DEVNULL, check=False).returncode
    after = resource.getrusage(resource.RUSAGE_CHILDREN)
    if status != wanted:
        sys.exit(f"{words} ended with {status}")
    return after.ru_utime + after.ru_stime - before.ru_utime - before.ru_stime


def main():
    """Prints the table."""
    os.environ["P21"] = P21
    os.environ["PATH"] = f"{os.path.dirname(P21)}:{os.environ['PATH']}"
    print(f"{time.strftime('%-d %B %Y')}, a load of {os.getloadavg()[0]:.0f}")
    print(f"| refusals | {' | '.join(WAYS)} |")
    print("|" + "---|" * (len(WAYS) + 1))
    with tempfile.TemporaryDirectory() as folder:
        path = os.path.join(folder, "file")
        for refused in (0, 1, 1_000, INSTANCES):
            write_file(path, refused)
            found = {}
            for name, (words, runs) in WAYS.items():
                found[name] = min(seconds([*words, models.SCHEMA, path], int(refused > 0)) for _ in range(runs))
            names = list(WAYS)
            beside = names.index(BESIDE)
            row = [f"{found[name]:.3f}" + (f", {found[name] / found[BESIDE]:.1f} times" if names.index(name) > beside else "") for name in names]
            print(f"| {refused:,} | {' | '.join(row)} |", flush=True)


if __name__ == "__main__":
    main()
