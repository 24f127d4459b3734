#!/usr/bin/env python3
"""Runs the program on large texts, and on texts at the borders of its limits.

A file of 100,000 points, a string of 1,000,000 letters, a schema of 5,000 entities; the largest parameter, schema and
number of declarations that are read, each beside the smallest that is refused. The environment variable P21 names the
program.
"""

import random

from cases import HEAD, file_of, write_all
from rigged import Answer, Rigged, Tally

MANY = 100_000
LARGEST_TEXT = 16_777_216
MOST_DECLARATIONS = 65_535
MOST_SECTIONS_OF_TWO_BYTES = 65_536
LARGEST_NUMBER = 2**32 - 1
DEEPEST = 64


def answered(text):
    return Answer(0, text.encode(), b"")


def refused(text):
    return Answer(1, b"", text.encode())


def too_large(rigged, name):
    """A schema over a limit, with what is said behind the line."""
    path = rigged.folder / name
    return refused(f"schema refused S9 TooLarge\nnote: {path}: p21-adapt may make a copy of it that fits; p21-adapt {path} -o COPY\n")


def points(names):
    return file_of("".join(f"#{name}=POINT($,1.,1.);\n" for name in names))


def many_instances(rigged, tally):
    """Points by rising and by other names, in one section and in many."""
    names = list(range(1, MANY + 1))
    orders = {"rising": names, "falling": names[::-1], "mixed": random.Random(1).sample(names, MANY)}
    for order, given in orders.items():
        rigged.write(order, points(given))
        found = rigged.answer(["check", "demo.exp", order])
        tally.check(f"{MANY} points, {order}", found, answered("accepted, instances 100000, canonical bytes 2289047\n"))
    tally.check("rising and mixed", rigged.answer(["same", "demo.exp", "rising", "mixed"]), answered("same\n"))
    rigged.write("other", points(names).replace(f"#{MANY}=POINT($,1.,1.)", f"#{MANY}=POINT($,1.,2.)"))
    found = rigged.answer(["same", "demo.exp", "rising", "other"])
    tally.check("another last point", found, Answer(1, b"different\n", b""))
    rigged.write("again", points([*names, MANY // 2]))
    found = rigged.answer(["check", "demo.exp", "again"])
    tally.check("a name again", found, refused(f"refused 40 DuplicateName in #{MANY // 2}\n"))
    sections = "".join(f"DATA('{name}',('DEMO'));\n#{name}=POINT($,1.,1.);\nENDSEC;\n" for name in range(10_000))
    rigged.write("sections", f"{HEAD}{sections}END-ISO-10303-21;\n")
    canonical = rigged.answer(["canon", "demo.exp", "sections"])
    tally.check("10,000 sections", canonical.output.count(b"DATA('"), 10_000)
    rigged.write("canonical", canonical.output)
    tally.check("10,000 sections again", rigged.answer(["canon", "demo.exp", "canonical"]), canonical)
    # So many that a section has a number of more than two bytes.
    sections = "".join(f"DATA('{name:05}',('DEMO'));\n#{name}=POINT($,1.,1.);\nENDSEC;\n" for name in range(MOST_SECTIONS_OF_TWO_BYTES + 100))
    text = f"{HEAD}{sections}END-ISO-10303-21;\n"
    rigged.write("sections", text)
    found = rigged.answer(["check", "demo.exp", "sections"])
    tally.check("more sections", found, answered(f"accepted, instances {MOST_SECTIONS_OF_TWO_BYTES + 100}, canonical bytes {len(text)}\n"))
    tally.part("many instances")


def long_records(rigged, tally):
    """One value of very many bytes or elements, and lists one in another."""
    letters = "'" + "a" * 1_000_000 + "'"
    rigged.write("text", letters)
    tally.check("a string of 1,000,000 letters", rigged.answer(["param", "text"]), answered(letters + "\n"))
    digits = "7" * 1_000_000
    rigged.write("text", digits)
    tally.check("1,000,000 digits", rigged.answer(["param", "text"]), answered(digits + "\n"))
    rigged.write("text", "0" * 1_000_000 + "7")
    tally.check("1,000,000 zeros", rigged.answer(["param", "text"]), answered("7\n"))
    reals = ",".join(f"{k}." for k in random.Random(2).sample(range(MANY), MANY))
    rigged.write("bag", file_of(f"#1=CLOUD((),(({reals})),(TALLY(1)));\n"))
    rigged.write("bag.sorted", rigged.answer(["canon", "demo.exp", "bag"]).output)
    tally.check("a bag of 100,000", rigged.answer(["same", "demo.exp", "bag", "bag.sorted"]), answered("same\n"))
    for depth, wanted in ((DEEPEST, "49 WrongKind in #1"), (DEEPEST + 1, "21 TooDeep at statement 8")):
        rigged.write("deep", file_of(f"#1=POINT($,{'(' * depth}{')' * depth},1.);\n"))
        found = rigged.answer(["check", "demo.exp", "deep"])
        tally.check(f"{depth} lists one in another", found, refused(f"refused {wanted}\n"))
    tally.part("long records")


def large_texts(rigged, tally):
    """Parameters and schemas of as many bytes as are read, and of one more."""
    for size, wanted in ((LARGEST_TEXT, answered("1\n")), (LARGEST_TEXT + 1, refused("refused 23 FileTooLong\n"))):
        rigged.write("text", "1".rjust(size))
        tally.check(f"a parameter of {size} bytes", rigged.answer(["param", "text"]), wanted)
    schema = "SCHEMA s; END_SCHEMA;"
    for size, wanted in ((LARGEST_TEXT, answered("SCHEMA S\n")), (LARGEST_TEXT + 1, too_large(rigged, "s.exp"))):
        rigged.write("s.exp", schema.rjust(size))
        tally.check(f"a schema of {size} bytes", rigged.answer(["schema", "s.exp"]), wanted)
    tally.part("the largest texts")


def large_schemas(rigged, tally):
    """Schemas of many declarations, and of large numbers."""
    rigged.write("s.exp", "SCHEMA s;" + "".join(f"ENTITY e{k}; END_ENTITY;" for k in range(5_000)) + "END_SCHEMA;")
    found = rigged.answer(["schema", "s.exp"])
    tally.check("5,000 entities", (found.status, found.output.count(b"\n"), found.error), (0, 5_001, b""))
    for count in (MOST_DECLARATIONS, MOST_DECLARATIONS + 1):
        wanted = answered("SCHEMA S\n") if count == MOST_DECLARATIONS else too_large(rigged, "s.exp")
        types = "".join(f"TYPE t{k} = REAL; END_TYPE;" for k in range(count))
        rigged.write("s.exp", f"SCHEMA s;{types}END_SCHEMA;")
        tally.check(f"{count} types", rigged.answer(["schema", "s.exp"]), wanted)
    for number in (LARGEST_NUMBER, LARGEST_NUMBER + 1):
        wanted = answered("SCHEMA S\n") if number == LARGEST_NUMBER else refused("schema refused S7 Bounds\n")
        for of in (f"LIST [0:{number}] OF REAL", f"STRING({number})"):
            rigged.write("s.exp", f"SCHEMA s; TYPE t = {of}; END_TYPE; END_SCHEMA;")
            tally.check(of, rigged.answer(["schema", "s.exp"]), wanted)
    tally.part("large schemas")


def main():
    tally = Tally()
    with Rigged() as rigged:
        write_all(rigged)
        many_instances(rigged, tally)
        long_records(rigged, tally)
        large_texts(rigged, tally)
        large_schemas(rigged, tally)
    tally.end()


if __name__ == "__main__":
    main()
