#!/usr/bin/env python3
"""Runs the program on texts that are larger than those of large.py, since a body may answer want of memory from some size on.

1,000,000 references in one set, 3,000,000 names that come late, a line of 200 MB, 5,000,000 elements of one list, a name of
100,000 letters: each is accepted, its canonical text is the one that is known here, and where one thing in it is wrong, that is
what is refused. It takes some minutes and 4 GB of memory. The environment variable P21 names the program.
"""

import hashlib
import random

from cases import HEAD, file_of, write_all
from rigged import Answer, Rigged, Tally

REFERENCES = 1_000_000
LATE = 3_000_000
LETTERS = 200_000_000
ELEMENTS = 5_000_000
LONG_NAME = 100_000
SCHEMA = "SCHEMA s; ENTITY a; x : LIST OF INTEGER; END_ENTITY; ENTITY b; s : STRING; END_ENTITY; END_SCHEMA;"


def canonical(rigged, schema, name):
    """The length of a canonical file and its hash; the answer where there is none."""
    found = rigged.answer(["canon", schema, name])
    return (len(found.output), hashlib.sha256(found.output).hexdigest()) if found.status == 0 and not found.error else found


def expected(pieces):
    """The same of a canonical file that is known."""
    hash_of, size = hashlib.sha256(), 0
    for piece in pieces:
        hash_of.update(piece)
        size += len(piece)
    return size, hash_of.hexdigest()


def refused(text):
    return Answer(1, b"", text.encode())



def references(rigged, tally):
    """A set of references to instances that stand behind it, by falling names; one that is named twice, and one that isn't there."""
    names = range(REFERENCES + 1, 1, -1)
    points = "".join(f"#{name}=POINT($,1.,1.);\n" for name in names)

    def with_set(members):
        return file_of(f"#1=CLOUD(({','.join(members)}),(),(TALLY(1)));\n{points}")

    rising = sorted(f"#{name}" for name in names)
    rigged.write("set", with_set([f"#{name}" for name in names]))
    lines = [f"#1=CLOUD(({','.join(rising)}),(),(TALLY(1)));\n", *(f"#{name}=POINT($,1.,1.);\n" for name in reversed(names))]
    tally.check("a set of references", canonical(rigged, "demo.exp", "set"), expected(map(str.encode, [HEAD, "DATA;\n", *lines, "ENDSEC;\nEND-ISO-10303-21;\n"])))
    rigged.write("set", with_set([*rising, "#2"]))
    tally.check("a reference twice", rigged.answer(["check", "demo.exp", "set"]), refused("refused 52 NotDistinct in #1\n"))
    rigged.write("set", with_set([*rising, f"#{REFERENCES + 2}"]))
    tally.check("a reference into nothing", rigged.answer(["check", "demo.exp", "set"]), refused("refused 56 Dangling in #1\n"))
    tally.part(f"{REFERENCES} references in one set")


def late_names(rigged, tally):
    """Instances whose names come late: the greatest first, then all others by chance."""
    names = list(range(1, LATE + 1))
    random.Random(1).shuffle(names)
    names.insert(0, 2**64 - 1)
    rigged.write("late", file_of("".join(f"#{name}=POINT($,1.,1.);\n" for name in names)))
    names.sort()
    pieces = [HEAD, "DATA;\n", *(f"#{name}=POINT($,1.,1.);\n" for name in names), "ENDSEC;\nEND-ISO-10303-21;\n"]
    tally.check("names that come late", canonical(rigged, "demo.exp", "late"), expected(map(str.encode, pieces)))
    tally.part(f"{LATE} late names")


def long_texts(rigged, tally):
    """A line of very many bytes, a list of very many elements, and long names."""
    rigged.write("s.exp", SCHEMA)
    head, end = HEAD.replace("DEMO", "S").encode() + b"DATA;\n", b"ENDSEC;\nEND-ISO-10303-21;\n"
    line = b"#1=B('" + b"a" * LETTERS + b"');\n"
    rigged.write("line", head + line + end)
    tally.check(f"a line of {LETTERS} letters", canonical(rigged, "s.exp", "line"), expected([head, line, end]))
    elements = b",".join(b"%d" % (k % 10) for k in range(ELEMENTS))
    for wanted, last in ((expected([head, b"#1=A((", elements, b",7));\n", end]), b"7"), (refused("refused 49 WrongKind in #1\n"), b"7.")):
        rigged.write("list", head + b"#1=A((" + elements + b"," + last + b"));\n" + end)
        tally.check(f"{ELEMENTS} elements, {last.decode()} behind", canonical(rigged, "s.exp", "list"), wanted)
    name = "E" * LONG_NAME
    rigged.write("long.exp", f"SCHEMA s; ENTITY {name}; {name.lower()[1:]} : STRING; END_ENTITY; END_SCHEMA;")
    line = f"#1={name}('');\n".encode()
    rigged.write("named", head + line + end)
    tally.check(f"a name of {LONG_NAME} letters", canonical(rigged, "long.exp", "named"), expected([head, line, end]))
    rigged.write("named", head + line.replace(b"E(", b"F(") + end)
    tally.check("another last letter", canonical(rigged, "long.exp", "named"), refused("refused 41 UnknownEntity in #1\n"))
    tally.part("long texts")


def main():
    tally = Tally()
    with Rigged() as rigged:
        write_all(rigged)
        references(rigged, tally)
        late_names(rigged, tally)
        long_texts(rigged, tally)
    tally.end()


if __name__ == "__main__":
    main()
