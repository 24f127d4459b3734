#!/usr/bin/env python3
"""Runs all tests that stand beside the gate, as many side by side as the machine has processors, and prints a line for each as it
ends: whether it passed, the seconds that it took, those of a processor, and the last line that it wrote. The whole of what a part
wrote follows where it failed. A part that lacks what it needs, or some of it, ends with status 77 and says in its last line what is
missing: it is counted as skipped, and not as passed. At the end stands what each part took, the longest first.

The environment variable P21 names the program; without it, it is the one that ./p21 builds where it is missing or old.
"""

import argparse
import collections
import os
import pathlib
import signal
import subprocess
import sys
import tempfile
import threading
import time

from needs import SKIPPED

TESTS = pathlib.Path(__file__).resolve().parent
ALL = sys.maxsize
# A part that is broken off has so many seconds to end.
SECONDS_TO_END = 10

# A script below this folder with its words, of which PROGRAM and JOBS stand for the program and the number of processors; the parts that
# end before it begins, by their scripts or names; and how many processors it takes.
Part = collections.namedtuple("Part", "script words behind takes", defaults=((), (), 1))
# How a part ended, its seconds by the clock and of a processor, and what it wrote.
Ended = collections.namedtuple("Ended", "part how seconds of_processor text")

# What takes longest begins first. page_module.py takes the page that page.py builds, and release.py packs what others build, and builds it
# once more. What measures time, or takes all processors by itself, has the machine for itself at the end.
PARTS = [
    Part("platforms.py", ("build",)),
    Part("bindings.sh"),
    Part("page.py"),
    *(Part("platforms.py", (name,), ("platforms.py build",)) for name in ("aarch64-linux", "x86_64-windows", "tools-as-on-windows")),
    Part("page_module.py", behind=("page.py",)),
    Part("release.py", behind=("platforms.py", "bindings.sh", "page.py", "page_module.py")),
    *map(Part, ["fail_alloc.sh", "want_of_memory.sh", "numbering.py", "tools_where.py", "tools_names.py", "hostile/calls.py"]),
    *map(Part, ["hostile/allocations.py", "tools_diff.py", "tools_table.py", "going_on.py", "edges.py", "hostile/larger.py"]),
    Part("fuzz.py", ("--cases", "10000", "--seed", "1")),
    *map(Part, ["clusters.py", "published.py", "two_ways.py", "worked_cases.py", "lint.sh", "hostile/transfers.py", "guided.sh"]),
    *map(Part, ["program.sh", "texts.py", "canonical_form.py", "definitions.py", "edits.py"]),
    Part("wrong_bodies.sh", ("--count",)),
    *map(Part, ["records.py", "refusals.py", "patterns.py", "library.py", "copies.py", "install.sh"]),
    Part("pages.sh", ("PROGRAM",)),
    *map(Part, ["every_refusal.py", "record_places.py", "differences.py", "pairs.py", "ranks.py", "room.py", "ways.py"]),
    *map(Part, ["hostile/devices.sh", "hostile/changing.py", "hostile/large.py", "hostile/stack.py", "hostile/memory.py"]),
    Part("held.py", takes=ALL),
    Part("growth.sh", ("--jobs", "JOBS"), takes=ALL),
]


def arguments():
    """The command line."""
    parser = argparse.ArgumentParser(prog="tests/all.sh", description=__doc__, formatter_class=argparse.RawDescriptionHelpFormatter)
    parser.add_argument("names", metavar="PART", nargs="*", help="the path of a script below tests, as hostile/devices.sh; all without one")
    parser.add_argument("-j", "--jobs", metavar="N", type=int, help="how many processors the parts take together; all without it")
    parser.add_argument("--logs", metavar="FOLDER", type=pathlib.Path, help="where what each part writes is kept, in a file of its own")
    given = parser.parse_args()
    given.jobs = given.jobs or len(os.sched_getaffinity(0))
    if given.jobs < 1:
        parser.error("it takes one processor at least")
    for name in given.names:
        if not os.access(TESTS / name, os.X_OK) or (TESTS / name).is_dir():
            parser.error(f"{TESTS / name} is no test that can be run")
    return given


def chosen(names):
    """The parts of these names in their order, or all, with each script of a tool's tests."""
    known = {part.script for part in PARTS}
    tools = [Part(path.name) for path in sorted(TESTS.glob("tools_*.py")) if path.name not in known]
    parts = PARTS[:-2] + tools + PARTS[-2:]
    if not names:
        return parts
    return [part for part in parts if part.script in names] + [Part(name) for name in names if name not in {part.script for part in parts}]


def name_of(part):
    """A part in a line: its script, with the words that it is given."""
    return " ".join([part.script, *part.words])


class Runs:
    """The parts that run, those that wait, and how the others ended."""

    def __init__(self, parts, jobs, logs):
        self.waiting = list(parts)
        self.jobs, self.logs = jobs, logs
        self.running = {}
        self.ended = []
        self.is_broken_off = False
        self.change = threading.Condition()

    def may_begin(self, part):
        """Has all ended that a part waits for, and are there processors for it? One that takes more than there are has all."""
        unended = {name for it in [*self.waiting, *self.running] for name in (it.script, name_of(it))}
        return not unended.intersection(part.behind) and (not self.running or self.taken() + part.takes <= self.jobs)

    def taken(self):
        """How many processors are taken."""
        return sum(part.takes for part in self.running)

    def begin(self, part):
        """Begins a part."""
        words = [{"PROGRAM": os.environ["P21"], "JOBS": str(self.jobs)}.get(word, word) for word in part.words]
        path = self.logs / f"{name_of(part).replace('/', '-').replace(' ', '_')}.log"
        begun = time.monotonic()
        with open(path, "wb") as log:
            # A session of its own, so that it can be ended with all that it began.
            how = {"stdin": subprocess.DEVNULL, "stdout": log, "stderr": subprocess.STDOUT, "start_new_session": True}
            process = subprocess.Popen([TESTS / part.script, *words], cwd=TESTS, **how)
        self.running[part] = process
        threading.Thread(target=self.await_end, args=(part, process, begun, path)).start()

    def await_end(self, part, process, begun, path):
        """Waits for a part, and says how it ended."""
        _, status, usage = os.wait4(process.pid, 0)
        process.returncode = os.waitstatus_to_exitcode(status)
        how = {0: "passed", SKIPPED: "skipped"}.get(process.returncode, "FAILED")
        text = path.read_text(errors="replace")
        ended = Ended(part, how, round(time.monotonic() - begun), round(usage.ru_utime + usage.ru_stime), text)
        with self.change:
            del self.running[part]
            if not self.is_broken_off:
                self.ended.append(ended)
                tell(ended)
            self.change.notify()

    def run(self):
        """Runs all parts."""
        with self.change:
            while self.waiting or self.running:
                for part in [it for it in self.waiting if self.may_begin(it)]:
                    if self.may_begin(part):
                        self.waiting.remove(part)
                        self.begin(part)
                self.change.wait()

    def break_off(self):
        """Ends what runs, with all that it began."""
        with self.change:
            self.is_broken_off = True
            for how in (signal.SIGTERM, signal.SIGKILL):
                for process in self.running.values():
                    os.killpg(process.pid, how)
                self.change.wait_for(lambda: not self.running, SECONDS_TO_END)


def tell(ended):
    """Prints how a part ended, and all that it wrote where it failed."""
    last = ended.text.rstrip().rpartition("\n")[2][:120]
    print(f"{name_of(ended.part)}: {ended.how}, {ended.seconds} s, {ended.of_processor} of a processor: {last}", flush=True)
    if ended.how == "FAILED":
        print(ended.text, flush=True)


def tell_all(ended, seconds):
    """Prints what each part took, the longest first, and how many ended how."""
    print("\nseconds by the clock, and of a processor:")
    for it in sorted(ended, key=lambda it: -it.seconds):
        print(f"{it.seconds:6} {it.of_processor:6}  {name_of(it.part)}{'' if it.how == 'passed' else f': {it.how}'}")
    counts = collections.Counter(it.how for it in ended)
    whole = sum(it.of_processor for it in ended)
    print(f"{counts['passed']} passed, {counts['FAILED']} failed, {counts['skipped']} skipped, {seconds:.0f} s, {whole} of a processor")
    return counts


def main():
    given = arguments()
    begun = time.monotonic()
    os.environ["PYTHONDONTWRITEBYTECODE"] = "1"
    # An end by a signal ends what runs too.
    signal.signal(signal.SIGTERM, lambda *_: sys.exit(128 + signal.SIGTERM))
    with tempfile.TemporaryDirectory(prefix="p21-parts-") as folder:
        logs = (given.logs or pathlib.Path(folder)).resolve()
        logs.mkdir(parents=True, exist_ok=True)
        runs = Runs(chosen(given.names), given.jobs, logs)
        try:
            runs.run()
        finally:
            runs.break_off()
    return int(tell_all(runs.ended, time.monotonic() - begun)["FAILED"] > 0)


if __name__ == "__main__":
    sys.exit(main())
