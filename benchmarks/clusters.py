#!/usr/bin/env python3
"""Measures how many small files a second the recipe for Slurm does with 1, 2 and 4 jobs of one check at a time, on the real
Slurm that tests/clusters.py starts on this machine.

    benchmarks/clusters.py [--files COUNT]

The seconds are from the first table's beginning to the last one's end. It wants what tests/clusters.py wants.
"""

import argparse
import pathlib
import sys

sys.path.insert(0, str(pathlib.Path(__file__).resolve().parent.parent / "tests"))

import clusters


def seconds(there, jobs):
    """How long so many jobs take over the list."""
    script = clusters.recipe("table.sh").replace("array=0-1", f"array=0-{jobs - 1}").replace("cpus-per-task=4", "cpus-per-task=1")
    for shard in there.folder.glob("shard.*"):
        shard.unlink()
    (there.folder / "table.sh").write_text(script.replace("shard=$(", "date +%s.%N > begun.$SLURM_ARRAY_TASK_ID\nshard=$(", 1))
    there.run("split", "-d", "-n", f"l/{jobs}", "list", "shard.")
    there.run("sbatch", "--wait", "table.sh", capture_output=True)
    tables = [there.folder / f"shard.{job:02}.tsv" for job in range(jobs)]
    rows = sum(len(table.read_text().splitlines()) - 1 for table in tables)
    assert rows == len(there.files), rows
    begun = min(float((there.folder / f"begun.{job}").read_text()) for job in range(jobs))
    return max(table.stat().st_mtime for table in tables) - begun


def main():
    """Prints a line for each number of jobs."""
    parser = argparse.ArgumentParser(description=__doc__, formatter_class=argparse.RawDescriptionHelpFormatter)
    parser.add_argument("--files", type=int, default=6000, help="how many files the list has")
    count = parser.parse_args().files
    with clusters.place(count, with_long=False) as there:
        clusters.start_slurm(there)
        for jobs in (1, 2, 4):
            taken = seconds(there, jobs)
            print(f"{jobs} jobs: {count} files in {taken:.1f} s, {count / taken:.0f} a second", flush=True)


if __name__ == "__main__":
    main()
