"""What the benchmarks measure of a program that they run."""

import os
import subprocess
import sys
import time


def seconds(words):
    """The processor time of one run, for the program and for the system in its name."""
    process = subprocess.Popen(words, stdout=subprocess.DEVNULL)
    _, status, usage = os.wait4(process.pid, 0)
    if status:
        sys.exit(f"{words} ended with {status}")
    return usage.ru_utime + usage.ru_stime


def peak_memory(words):
    """The most resident bytes that are seen in one run, looked at each millisecond."""
    peak = 0
    with subprocess.Popen(words, stdout=subprocess.DEVNULL) as process:
        while process.poll() is None:
            with open(f"/proc/{process.pid}/status") as status:
                lines = [line for line in status if line.startswith("VmHWM:")]
            peak = max([peak, *(int(line.split()[1]) * 1024 for line in lines)])
            time.sleep(0.001)
    return peak
