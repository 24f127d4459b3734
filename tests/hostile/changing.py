#!/usr/bin/env python3
"""Runs the program on files that are changed while it reads them.

The program stops itself in front of a read, the file is changed, and it goes on. It has to answer what it answers to a
file of the bytes that it was given: those that stood there before up to the place of the change, then those that stand
there now. Each read of few bytes is tried in turn. The environment variable P21 names the program.
"""

import os
import subprocess

from cases import CONVERTED, CONVERTED_CANONICAL, file_of, write_all
from rigged import Answer, Rigged, Tally

# Bytes of a read.
FEW = 16
OTHER = file_of("#7=POINT('another file',1.,1.);\n#8=POINT('of other bytes, and longer',1.,1.);\n#9=POINT($,1.,1.);\n")


def overwritten(rigged, text):
    """Writes over the file, and cuts it where the text ends: it stays the same file."""
    with open(rigged.folder / "file", "r+b") as file:
        file.write(text.encode())
        file.truncate()


def appended(rigged, text):
    with open(rigged.folder / "file", "ab") as file:
        file.write(text.encode())


def replaced(rigged, text):
    rigged.write("new", text)
    os.rename(rigged.folder / "new", rigged.folder / "file")


def removed(rigged, _):
    os.unlink(rigged.folder / "file")


# Each change by its name: what does it, with which text, and what stands then in the file that is open.
CHANGES = {
    "written over by another file": (overwritten, OTHER, OTHER),
    "cut to half": (overwritten, CONVERTED[: len(CONVERTED) // 2], CONVERTED[: len(CONVERTED) // 2]),
    "cut to nothing": (overwritten, "", ""),
    "with a remark behind it": (appended, "/* more */", CONVERTED + "/* more */"),
    "with a statement behind it": (appended, "X;", CONVERTED + "X;"),
    "with `FOO` for `POINT`": (overwritten, CONVERTED.replace("POINT", "FOO"), CONVERTED.replace("POINT", "FOO")),
    "with another number": (overwritten, CONVERTED.replace("-2.5", "-2.6"), CONVERTED.replace("-2.5", "-2.6")),
    "replaced by another file": (replaced, OTHER, CONVERTED),
    "removed": (removed, None, CONVERTED),
}


def reads_of(rigged):
    """How many reads of few bytes the schema takes, and how many a whole file."""
    schema = len((rigged.folder / "demo.exp").read_bytes())
    return -(-schema // FEW) + 1, -(-len(CONVERTED) // FEW) + 1


def given(now, reads):
    """What a reader is given of a file that becomes `now` behind so many of its reads."""
    place = min(reads * FEW, len(CONVERTED))
    return CONVERTED[:place] + now[place:]


def one_file(rigged, tally):
    """`canon` of a file that changes in front of each read."""
    before, reads = reads_of(rigged)
    for name, (change, text, now) in CHANGES.items():
        for read in range(reads):
            rigged.write("given", given(now, read))
            wanted = rigged.answer(["canon", "demo.exp", "given"])
            rigged.write("file", CONVERTED)
            found = rigged.failing(
                ["canon", "demo.exp", "file"],
                lambda change=change, text=text: change(rigged, text),
                READ_MOST=FEW,
                READ_STOPS=before + read + 1,
            )[0]
            tally.check(f"a file {name}, in front of read {read + 1}", found, wanted)
    tally.part("files that change while they are read")


def two_names(rigged, tally):
    """`same` of one file by two names, that changes in front of each read."""
    before, reads = reads_of(rigged)
    paths = ["file", str(rigged.folder / "." / "file")]
    for name in ("written over by another file", "with `FOO` for `POINT`", "with another number", "removed"):
        change, text, now = CHANGES[name]
        for read in range(2 * reads):
            rigged.write("first", given(now, read) if read < reads else CONVERTED)
            rigged.write("second", given(now, max(0, read - reads)))
            wanted = rigged.answer(["same", "demo.exp", "first", "second"])
            rigged.write("file", CONVERTED)
            found = rigged.failing(
                ["same", "demo.exp", *paths],
                lambda change=change, text=text: change(rigged, text),
                READ_MOST=FEW,
                READ_STOPS=before + read + 1,
            )[0]
            tally.check(f"one file twice, {name}, in front of read {read + 1}", found, wanted)
    tally.part("one file compared with itself that changes while it is read")


def schemas(rigged, tally):
    """A schema that changes in front of each read."""
    before, _ = reads_of(rigged)
    text = (rigged.folder / "demo.exp").read_text()
    now = text.replace("tally", "count")
    for read in range(before):
        rigged.write("given", text[: read * FEW] + now[read * FEW :])
        wanted = rigged.answer(["schema", "given"])
        rigged.write("file", text)
        found = rigged.failing(
            ["schema", "file"], lambda: overwritten(rigged, now), READ_MOST=FEW, READ_STOPS=read + 1
        )[0]
        tally.check(f"a schema in front of read {read + 1}", found, wanted)
    tally.part("a schema that changes while it is read")


def onto_itself(rigged, tally):
    """A canonical file that is written over its source: all is read before a byte is written."""
    path = rigged.folder / "file"
    for append, begins in ((False, CONVERTED_CANONICAL), (True, "")):
        rigged.write("file", CONVERTED)
        with open(path, "ab" if append else "r+b") as output:
            words = [rigged.program, "canon", rigged.path("demo.exp"), str(path)]
            run = subprocess.run(words, stdout=output, stderr=subprocess.PIPE, check=False)
        left = path.read_bytes().decode()
        wanted = CONVERTED + CONVERTED_CANONICAL if append else begins + CONVERTED[len(begins) :]
        tally.check(f"append {append}", Answer(run.returncode, left, run.stderr), Answer(0, wanted, b""))
    tally.part("a canonical file written onto its source")


def main():
    tally = Tally()
    with Rigged() as rigged:
        write_all(rigged)
        one_file(rigged, tally)
        two_names(rigged, tally)
        schemas(rigged, tally)
        onto_itself(rigged, tally)
    tally.end()


if __name__ == "__main__":
    main()
