#!/usr/bin/env python3
"""Times `p21 param` on whole numbers of a million and of ten million digits beside `sha256sum` on the same files.
Prints a table: the shortest of several runs, the ratio of the two with the time that each needs for a file of one
digit taken off, and the peak memory of p21 beside the size of the file. Needs python3.
"""

import os
import subprocess
import tempfile
import time

from programs import p21

PROGRAM = p21()
RUNS = 7


def seconds(words):
    """The shortest of several runs."""
    times = []
    for _ in range(RUNS):
        begun = time.perf_counter()
        subprocess.run(words, stdout=subprocess.DEVNULL, check=True)
        times.append(time.perf_counter() - begun)
    return min(times)


def peak_memory(words):
    """The peak resident memory in bytes: that of the moment at which the first byte of the answer comes, since the
    program writes its answer at once when the whole of it is known."""
    with subprocess.Popen(words, stdout=subprocess.PIPE) as process:
        os.read(process.stdout.fileno(), 1)
        with open(f"/proc/{process.pid}/status") as status:
            peak = next(line for line in status if line.startswith("VmHWM:"))
        process.stdout.read()
    return int(peak.split()[1]) * 1024


def number_file(folder, digits):
    path = os.path.join(folder, str(digits))
    with open(path, "w") as file:
        file.write(("1234567890" * (digits // 10 + 1))[:digits])
    return path


with tempfile.TemporaryDirectory() as folder:
    one = number_file(folder, 1)
    p21_start = seconds([PROGRAM, "param", one])
    sha_start = seconds(["sha256sum", one])
    print("| digits | p21 param, ms | sha256sum, ms | ratio once started | peak memory, MB | bytes of memory for one of the file |")
    print("|---|---|---|---|---|---|")
    print(f"| 1 | {p21_start * 1e3:.1f} | {sha_start * 1e3:.1f} | | | |")
    for digits in (1_000_000, 10_000_000):
        path = number_file(folder, digits)
        p21 = seconds([PROGRAM, "param", path])
        sha = seconds(["sha256sum", path])
        ratio = (p21 - p21_start) / (sha - sha_start)
        peak = peak_memory([PROGRAM, "param", path])
        print(
            f"| {digits:,} | {p21 * 1e3:.1f} | {sha * 1e3:.1f} | {ratio:.1f} | {peak / 1e6:.1f} | {peak / digits:.1f} |"
        )
