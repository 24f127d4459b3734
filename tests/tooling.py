"""What the tests of the tools share: files that are made, and runs that are held against what they must answer."""

import fnmatch
import os
import pathlib
import resource
import subprocess
import sys
import tempfile
import time

import exchange
import needs

ROOT = pathlib.Path(__file__).resolve().parent.parent
SCHEMA = "examples/product.exp"
# A tool that takes longer never ends.
MOST_SECONDS = 300

# What runs a command without the right of root to read whatever it is, so that root too may not read what is forbidden.
AS_OTHERS = ["setpriv", "--bounding-set=-dac_override,-dac_read_search"] if os.geteuid() == 0 else []

# What runs a tool in place of the system, and the rows that are otherwise then and left out, as patterns of names between bars.
RUN_BY = os.environ.get("P21_TOOLS_RUN_BY", "").split()
OTHERWISE = os.environ.get("P21_TOOLS_OTHERWISE", "").split("|")

# The files that stand in the repository are named from its top.
os.chdir(ROOT)
os.environ.setdefault("P21", str(ROOT / "p21"))

FRAME = exchange.header("PRODUCT_MODEL") + "{data}\n" + exchange.END


def file_of(instances, changes=()):
    """A file of the example's schema with these lines in its data section, changed by pairs of texts."""
    text = FRAME.format(data=f"DATA;\n{instances}\nENDSEC;")
    for old, new in changes:
        assert text.count(old) == 1, old
        text = text.replace(old, new)
    return text


def seconds_of_runs():
    """The seconds of a processor that the runs took that have ended, whatever else the machine does."""
    usage = resource.getrusage(resource.RUSAGE_CHILDREN)
    return usage.ru_utime + usage.ru_stime


class Tests:
    """The runs of one tool. Files that are made stand in a folder of their own, which `{here}` names."""

    def __init__(self, tool):
        self.tool = tool
        self.program = os.environ["P21"]
        self.folder = tempfile.TemporaryDirectory()
        self.here = pathlib.Path(self.folder.name)
        self.passed = self.failed = 0

    def make(self, name, text):
        """A file of this name and text."""
        path = self.here / name
        path.write_bytes(text.encode("utf-8") if isinstance(text, str) else text)
        return str(path)

    def run(self, arguments, text=None, file=None, program=None, before=()):
        """What the tool writes to each stream, and its status. It is given a text by a pipe, or an open file. It may run another
        program, and be run by the words of another one before it."""
        command = [*before, *RUN_BY, f"tools/{self.tool}", *(argument.format(here=self.here) for argument in arguments)]
        given = {"input": text} if file is None else {"stdin": file}
        given["env"] = dict(os.environ, P21=program or self.program)
        done = subprocess.run(command, capture_output=True, check=False, timeout=MOST_SECONDS, **given)
        return done.stdout.decode(), done.stderr.decode(), done.returncode

    def rigged(self, name, lines):
        """A program that runs these lines of a shell in front of the real one, which `$real` names. The command is `$1`, and
        `$*` all that it is given."""
        path = self.here / name
        path.write_text(f"#!/bin/sh\nreal='{os.path.abspath(self.program)}'\n{lines}\nexec \"$real\" \"$@\"\n")
        path.chmod(0o755)
        return str(path)

    def full_disk(self, arguments):
        """What the tool says where nothing can be written to its output, and its status."""
        with open("/dev/full", "wb") as full:
            done = subprocess.run([*RUN_BY, f"tools/{self.tool}", *arguments], stdout=full, stderr=subprocess.PIPE, check=False)
        return done.stderr.decode(), done.returncode

    def peak(self, arguments):
        """The megabytes that the tool itself takes at most, without those of the program."""
        command = [f"tools/{self.tool}", *arguments]
        run = subprocess.Popen(command, stdout=subprocess.DEVNULL, stderr=subprocess.DEVNULL)
        found = 0
        while run.poll() is None:
            status = pathlib.Path(f"/proc/{run.pid}/status").read_text().split()
            found = max(found, int(status[status.index("VmHWM:") + 1]) if "VmHWM:" in status else 0)
            time.sleep(0.01)
        return found / 1000

    def judge(self, name, wanted, found):
        """One row: what is found is what is wanted."""
        if any(fnmatch.fnmatchcase(name, pattern) for pattern in OTHERWISE):
            return
        if wanted == found:
            self.passed += 1
        else:
            self.failed += 1
            print(f"{self.tool}, {name}:\n  wanted {wanted}\n  found  {found}")

    def expect(self, name, arguments, status, output, error="", **how):
        """A run that writes just these lines to each stream and ends with this status."""
        lines = [text.format(here=self.here) + "\n" if text else "" for text in ("\n".join(output), error)]
        self.judge(name, (*lines, status), self.run(arguments, **how))

    def end(self, left_out=""):
        """Says how many rows passed, and what was left out for want of something, and ends with status 0, 1 or that of a test that
        is skipped."""
        print(f"{self.tool}: {self.passed} passed, {self.failed} failed" + (f"; left out: {left_out}" if left_out else ""))
        sys.exit(1 if self.failed else needs.SKIPPED if left_out else 0)
