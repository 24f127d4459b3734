"""The program p21, run by itself or with a library that lets its allocations, reads and writes fail.

The environment variable P21 names the program; without it, it is ./p21 of the repository. Where P21_FAILS_ITSELF is set, the
program has in it what the library does, and none is loaded.
"""

import collections
import os
import pathlib
import shutil
import signal
import subprocess
import sys
import tempfile
import time

sys.path.append(str(pathlib.Path(__file__).resolve().parents[1]))
import needs  # noqa: E402

ROOT = pathlib.Path(__file__).resolve().parents[2]

Answer = collections.namedtuple("Answer", "status output error")
Counts = collections.namedtuple("Counts", "allocations refused reads writes")

OUT_OF_MEMORY = Answer(3, b"", b"out of memory\n")
READ_FAULT = Answer(3, b"", b"read fault\n")


def built_program():
    """The program itself and no script that builds it, since the library is loaded into all that runs."""
    given = os.environ.get("P21")
    if given:
        return os.path.abspath(given)
    subprocess.run([ROOT / "p21", "--version"], check=True, stdout=subprocess.DEVNULL)
    return str(ROOT / "crates" / "p21" / "out" / "p21")


class Rigged:
    """A program in a folder of its own, which is taken away at the end of a `with` block."""

    def __init__(self, program=None):
        self.program = os.path.abspath(program) if program else built_program()
        memory = "/dev/shm" if os.path.isdir("/dev/shm") else None
        self.folder = pathlib.Path(tempfile.mkdtemp(prefix="hostile-", dir=memory))
        self.library = self.folder / "failing.so"
        source = pathlib.Path(__file__).with_name("failing.c")
        subprocess.run([needs.compiler(), "-O2", "-shared", "-fPIC", source, "-o", self.library], check=True)
        self.counts = self.folder / "counts"
        self.streams = [self.folder / "output", self.folder / "error"]

    def __enter__(self):
        return self

    def __exit__(self, *_):
        shutil.rmtree(self.folder)

    def write(self, name, text):
        """Writes a file into the folder."""
        (self.folder / name).write_bytes(text if isinstance(text, bytes) else text.encode())

    def answer(self, arguments):
        """What the program answers by itself. Names of files are those of the folder."""
        return self.spawned(arguments, {})

    def failing(self, arguments, meanwhile=None, **failures):
        """What it answers, and its counts, where the library lets fail what `failures` says.

        `meanwhile` is called once, where the program stops itself.
        """
        environment = {name: str(value) for name, value in failures.items()}
        if not os.environ.get("P21_FAILS_ITSELF"):
            environment.update(LD_PRELOAD=str(self.library))
        environment.update(COUNTS=str(self.counts))
        self.counts.write_text("0 0 0 0")
        answer = self.spawned(arguments, environment, meanwhile)
        return answer, Counts(*map(int, self.counts.read_text().split()))

    def traced(self, arguments, **failures):
        """The same, and for each refused allocation the places in the program that may be those of the calls to it."""
        trace = self.folder / "trace"
        trace.unlink(missing_ok=True)
        answer, counts = self.failing(arguments, TRACE=trace, **failures)
        lines = trace.read_text().splitlines() if trace.exists() else []
        return answer, counts, [[int(word, 16) for word in line.split()] for line in lines]

    def spawned(self, arguments, environment, meanwhile=None):
        """A run with nothing to read; a signal is a status below 0."""
        flags = os.O_WRONLY | os.O_CREAT | os.O_TRUNC
        actions = [(os.POSIX_SPAWN_OPEN, 0, "/dev/null", os.O_RDONLY, 0)]
        actions += [(os.POSIX_SPAWN_OPEN, i + 1, str(path), flags, 0o600) for i, path in enumerate(self.streams)]
        words = [self.program, *(self.path(word) for word in arguments)]
        child = os.posix_spawn(self.program, words, environment, file_actions=actions)
        status = os.waitpid(child, os.WUNTRACED)[1]
        if os.WIFSTOPPED(status):
            meanwhile()
            os.kill(child, signal.SIGCONT)
            status = os.waitpid(child, 0)[1]
        status = os.waitstatus_to_exitcode(status)
        output, error = (path.read_bytes() for path in self.streams)
        return Answer(status, output, error)

    def path(self, word):
        """The path of a file of the folder; another word as it is."""
        path = self.folder / word
        return str(path) if word and path.is_file() else word


class Tally:
    """Counts the runs of a script's parts, and names those that answer anything else than what they must."""

    SHOWN = 10

    def __init__(self):
        self.runs = self.wrong = self.all_runs = self.all_wrong = 0
        self.begun = time.monotonic()

    def check(self, name, found, *wanted):
        """One run: what was found is one of what is wanted."""
        self.runs += 1
        if found in wanted:
            return
        self.wrong += 1
        if self.wrong <= self.SHOWN:
            print(f"  {name}: found {shortened(found)}, wanted {shortened(wanted[0])}")

    def part(self, name, more=""):
        """Ends a part, and prints its line."""
        print(f"{name}: {self.runs} runs, {self.wrong} wrong{more}", flush=True)
        self.all_runs += self.runs
        self.all_wrong += self.wrong
        self.runs = self.wrong = 0

    def end(self):
        """Prints the last line and ends the script."""
        taken = time.monotonic() - self.begun
        print(f"{self.all_runs} runs, {self.all_wrong} wrong, {taken:.0f} s")
        sys.exit(self.all_wrong > 0)


def shortened(answer):
    """An answer in a line."""
    text = str(tuple(answer)) if isinstance(answer, tuple) else str(answer)
    return text if len(text) <= 200 else text[:200] + ".."
