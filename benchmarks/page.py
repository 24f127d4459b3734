#!/usr/bin/env python3
"""What the page takes for large files in Chromium and Firefox: benchmarks/page.py PAGE [--pairs] [--refusals] [NUMBER..]

The boundary model of docs/PERFORMANCE.md, repeated to so many megabytes, is chosen in both browsers. For each it prints the
seconds from the choice to the answer, by the clock and of a processor in all processes of the browser, the same of sha256sum
over the file just before, and the peak of the memory of the process that runs the page. With --pairs a second file is chosen, in
which one value is another, and then it is compared up to names too; --by-names leaves that out. With --refusals the number is
that of the refusals of a file, and the longest time is printed for which the page did nothing else. With --browser NAME one
browser alone is tried.
"""

import os
import pathlib
import resource
import subprocess
import sys
import tempfile
import time
from typing import NamedTuple

import models

sys.path.insert(0, str(pathlib.Path(__file__).resolve().parent.parent / "tests"))
from web import browser, firefox  # pylint: disable=wrong-import-position

INSTANCES_OF_A_MEGABYTE = 22_200
ANSWERED = "document.getElementById('answer').hasAttribute('data-whole') && document.getElementById('verdict').textContent"
KNOWN = f"document.querySelector('.known') !== null && {ANSWERED}"
REFUSED = "document.getElementById('verdict').textContent === 'Refused'"
# Says how long the page did nothing else, by a clock that should tick each ten milliseconds.
TICKING = """(() => { let last = performance.now(); window.longest = 0;
    setInterval(() => { const now = performance.now(); window.longest = Math.max(window.longest, now - last - 10); last = now; }, 10); return 0; })()"""
MOST_SECONDS = 3600
TICKS = os.sysconf("SC_CLK_TCK")


class Taken(NamedTuple):
    """Seconds by the clock, and of a processor."""

    clock: float
    processor: float

    def __str__(self):
        return f"{self.clock:.1f} s, {self.processor:.1f} of a processor"

    def beside(self, other):
        """How many times as long as something else this took, by the clock and of a processor."""
        return f"{self.clock / other.clock:.1f} and {self.processor / other.processor:.1f} times"


def hashed(path):
    """What sha256sum takes for a file."""
    before = resource.getrusage(resource.RUSAGE_CHILDREN)
    begun = time.monotonic()
    subprocess.run(["sha256sum", path], check=True, stdout=subprocess.DEVNULL)
    clock = time.monotonic() - begun
    after = resource.getrusage(resource.RUSAGE_CHILDREN)
    return Taken(clock, after.ru_utime + after.ru_stime - before.ru_utime - before.ru_stime)


def of_session(leader):
    """The folders of the processes that a browser started in its session."""
    for folder in pathlib.Path("/proc").iterdir():
        try:
            if folder.name.isdigit() and os.getsid(int(folder.name)) == leader:
                yield folder
        except OSError:
            continue


def processor_of_session(leader):
    """The seconds of a processor that all processes of a browser took so far, and those that they waited for."""
    ticks = 0
    for folder in of_session(leader):
        try:
            fields = (folder / "stat").read_text().rpartition(")")[2].split()
            ticks += sum(int(field) for field in fields[11:15])
        except OSError:
            continue
    return ticks / TICKS


def peak_of_session(leader):
    """The largest peak of memory, in bytes, of the processes that a browser started in its session."""
    peaks = [0]
    for folder in of_session(leader):
        try:
            words = (folder / "status").read_text().split()
            peaks.append(int(words[words.index("VmHWM:") + 1]) * 1024)
        except (OSError, ValueError):
            continue
    return max(peaks)


class Opened:
    """The page in a browser, with a schema chosen."""

    def __init__(self, made, page):
        self.made = made
        made.open(f"file://{pathlib.Path(page).resolve()}")
        made.wait("document.body.dataset.ready !== undefined")
        made.choose("#schema", models.SCHEMA)
        made.wait(ANSWERED)

    def seconds(self, act, until=ANSWERED):
        """What is taken from what is done to what it leads to, and what that is."""
        self.made.ask("document.getElementById('answer').removeAttribute('data-whole')")
        before = processor_of_session(self.made.process.pid)
        begun = time.monotonic()
        act()
        found = self.made.wait(until, MOST_SECONDS)
        return Taken(time.monotonic() - begun, processor_of_session(self.made.process.pid) - before), found

    def chosen(self, field, path):
        """The same of a file that is chosen."""
        return self.seconds(lambda: self.made.choose(field, path))

    @property
    def peak(self):
        """The peak of memory of its largest process so far, in megabytes."""
        return peak_of_session(self.made.process.pid) / 1e6

    def end(self):
        """Closes the browser, and answers its peak of memory in megabytes."""
        peak = self.peak
        self.made.close()
        return peak


def alone(opened, path, _):
    """A file."""
    by_hash = hashed(path)
    taken, verdict = opened.chosen("#first", path)
    yield f"{verdict}: {taken}; sha256sum {by_hash}: {taken.beside(by_hash)}; peak {opened.end():.0f} MB"


def pair(opened, path, other):
    """Two files."""
    taken, verdict = opened.chosen("#first", path)
    yield f"the first, {verdict}: {taken}"
    by_hash = hashed(path)
    taken, verdict = opened.chosen("#second", other)
    yield f"by names, {verdict}: {taken}; sha256sum {by_hash}: {taken.beside(by_hash)}; peak {opened.peak:.0f} MB"
    if "--by-names" not in sys.argv:
        taken, _ = opened.seconds(lambda: opened.made.ask("document.querySelector('[name=way][value=shapes]').click()"), KNOWN)
        known = opened.made.ask("document.querySelector('.known').textContent")
        yield f"up to names, {known}: {taken}; {taken.beside(by_hash)}; peak {opened.peak:.0f} MB"
    opened.end()


def refused(opened, path, _):
    """A file with many refusals."""
    opened.made.ask(TICKING)
    first, _ = opened.seconds(lambda: opened.made.choose("#first", path), REFUSED)
    yield f"the first refusals: {first}"
    rest, verdict = opened.seconds(lambda: None)
    longest = opened.made.ask("window.longest")
    yield f"all placed, {verdict}: {rest} more; longest pause {longest:.0f} ms; peak {opened.end():.0f} MB"


def write_other(path, other):
    """Writes a file in which one value is another."""
    is_changed = False
    with open(path, encoding="ascii") as given, open(other, "w", encoding="ascii") as made:
        for number, line in enumerate(given):
            found = line.replace("12.5", "12.75") if number > 1000 and not is_changed else line
            is_changed = is_changed or found != line
            made.write(found)


def write_refused(path, count):
    """Writes a file with so many refusals, of an attribute that is missing."""
    with open(path, "w", encoding="ascii") as file:
        file.write(models.HEAD)
        file.writelines(f"#{number}=CARTESIAN_POINT('',$);\n" for number in range(1, count + 1))
        file.write(models.END)


def main():
    page, *words = sys.argv[1:]
    act = pair if "--pairs" in words else refused if "--refusals" in words else alone
    numbers = [int(word) for word in words if word.isdigit()]
    wanted = words[words.index("--browser") + 1] if "--browser" in words else None
    with tempfile.TemporaryDirectory() as folder:
        path, other = os.path.join(folder, "model.step"), os.path.join(folder, "other.step")
        for number in numbers or ([500_000] if act is refused else [45, 437]):
            if act is refused:
                write_refused(path, number)
            else:
                models.write(path, models.boundary(number * INSTANCES_OF_A_MEGABYTE))
                write_other(path, other)
            for name, start in (("Chromium", browser.Browser), ("Firefox", firefox.Firefox)):
                if wanted in (None, name):
                    for said in act(Opened(start(), page), path, other):
                        print(f"{name} {os.path.getsize(path) / 1e6:.0f} MB, {said}", flush=True)


if __name__ == "__main__":
    main()
