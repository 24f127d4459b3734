#!/usr/bin/env python3
"""Makes each call by itself with its allocations refused: each one alone, and each with all behind it.

A program of the crates below makes the call that it is told (calls.rattle), and has memory enough up to the call. A refused
call answers want of memory; a buffer or text to which it was to append is as it was, and a lexer, a parser and a session
answer the same again, with and without memory. Where one allocation alone is refused, the answer may be that of a call with
none refused, where a smaller growth is tried and finds memory, and those are counted. So it may where no allocation is
refused but such ones. The calls that take no memory are made with every allocation refused.

The program is built without a proof, which takes some minutes of a processor. Arguments name the calls, all without any.
"""

import pathlib
import re
import shutil
import subprocess
import sys
import tempfile

from cases import CALLED, CALLED_CANONICAL, DEMO, HEAD, ROOT
from rigged import Answer, Rigged, Tally, needs

HERE = pathlib.Path(__file__).resolve().parent
SOURCE = HERE / "calls.rattle"

DEPENDENCIES = "p21_canon p21_schema p21_express_graph p21_grammar p21_mapping p21_stream p21_tokens p21_values"
TEXTS = {"DEMO": DEMO, "HEAD": HEAD, "CALLED": CALLED, "CALLED_CANONICAL": CALLED_CANONICAL}

# The calls that take no memory.
WITHOUT_MEMORY = {"Accepted", "same", "serves", "look-ups", "new readers", "blanks and a remark"}

DONE = Answer(0, b"ready\ndone\n", b"")
REFUSED = Answer(0, b"ready\nrefused\n", b"")


def literal(text):
    """A text as the source spells it."""
    return '"' + text.replace("\\", "\\\\").replace('"', '\\"').replace("\n", "\\n").replace("\r", "\\r") + '"'


def program(folder):
    """Builds the program that makes the calls, beside a copy of the crates."""
    for name in ("HANDLES", "crates.txt"):
        shutil.copy(ROOT / name, folder)
    shutil.copytree(ROOT / "crates", folder / "crates", ignore=shutil.ignore_patterns("out", "must-fail"))
    (folder / "benchmarks").mkdir()
    builder = shutil.copy(ROOT / "benchmarks/unproved.py", folder / "benchmarks")
    with open(folder / "crates.txt", "a") as file:
        print(f"p21_called: {DEPENDENCIES}", file=file)
    source = folder / "crates/p21_called/src"
    source.mkdir(parents=True)
    (source / "main.rt").write_text(SOURCE.read_text())
    (source / "texts.rt").write_text("".join(f"pub const {name}: &str = {literal(text)};\n" for name, text in TEXTS.items()))
    output = folder / "called"
    subprocess.run([builder, "p21_called", output, "--quick"], check=True)
    return output


def calls():
    """The names of the calls, in the order of the source."""
    return re.findall(r'^        "([^"]*)" =>', SOURCE.read_text(), re.M)


def refused_in_turn(rigged, tally, call):
    """Each allocation of a call refused, alone and with all behind it."""
    plain, counts = rigged.failing([call], BEHIND_WRITE=1)
    tally.check(f"{call}, with memory", plain, DONE)
    tally.check(f"{call}: whether it takes memory", counts.allocations == 0, call in WITHOUT_MEMORY)
    done_without = set()
    unseen = 0
    for on in (0, 1):
        for at in range(1, counts.allocations + 1):
            found, counted = rigged.failing([call], BEHIND_WRITE=1, REFUSE=at, REFUSE_ON=on)
            unseen += found == DONE
            if found == DONE and not on:
                done_without.add(at)
            may_be_done = not on or done_without.issuperset(range(at, counts.allocations + 1))
            name = f"{call}, allocation {at}{' and on' if on else ''}"
            tally.check(name, (found, counted.refused > 0), (REFUSED, True), *[(DONE, True)] * may_be_done)
    tally.part(call, f", {counts.allocations} allocations, {unseen} as if nothing had been refused")


def without_memory(rigged, tally, call):
    """A call that takes no memory, with every allocation refused."""
    found, counted = rigged.failing([call], BEHIND_WRITE=1, REFUSE=1, REFUSE_ON=1)
    tally.check(f"{call}, every allocation refused", (found, counted.allocations), (DONE, 0))
    tally.part(f"{call}, without memory")


def main():
    needs.wanted("rt")
    tally = Tally()
    with tempfile.TemporaryDirectory() as folder, Rigged(program(pathlib.Path(folder))) as rigged:
        for call in sys.argv[1:] or calls():
            if call in WITHOUT_MEMORY:
                without_memory(rigged, tally, call)
            else:
                refused_in_turn(rigged, tally, call)
    tally.end()


if __name__ == "__main__":
    main()
