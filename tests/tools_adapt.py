#!/usr/bin/env python3
"""Runs tools/p21-adapt over listings that are made, one for each way in which it writes a declaration again and for each that
it names and leaves. P21 names another program than ./p21.
"""

import subprocess

from tooling import Tests, seconds_of_runs

# What stands in a listing, what the copy has in its place, and the lines about it.
EDITS = [
    ("ENTITY a; x : REAL; END_ENTITY;", None, ["0 edits: the same files", "read"]),
    (
        "ENTITY a; x : LIST [1:n] OF REAL; END_ENTITY;",
        "ENTITY a; x : LIST [1:?] OF REAL; END_ENTITY;",
        ["line 2: more files: LIST [1:n] -> LIST [1:?]", "1 edit: more files", "read"],
    ),
    (
        "ENTITY a; x : ARRAY [1:2*3] OF SET [0 : 1+1] OF REAL; END_ENTITY;",
        "ENTITY a; x : ARRAY [1:6] OF SET [0:2] OF REAL; END_ENTITY;",
        ["line 2: the same files: ARRAY [1:2*3] -> ARRAY [1:6]", "line 2: the same files: SET [0 : 1+1] -> SET [0:2]"]
        + ["2 edits: the same files", "read"],
    ),
    (
        "CONSTANT most : INTEGER := 4; END_CONSTANT; ENTITY a; x : STRING (most) FIXED; END_ENTITY;",
        "CONSTANT most : INTEGER := 4; END_CONSTANT; ENTITY a; x : STRING (4) FIXED; END_ENTITY;",
        ["line 2: the same files: STRING (most) -> STRING (4)", "1 edit: the same files", "read"],
    ),
    (
        "ENTITY a; x : STRING (n) FIXED; y : BINARY(m); END_ENTITY;",
        "ENTITY a; x : STRING; y : BINARY; END_ENTITY;",
        ["line 2: more files: STRING (n) FIXED -> STRING", "line 2: more files: BINARY(m) -> BINARY"]
        + ["2 edits: more files", "read"],
    ),
    (
        "ENTITY a; END_ENTITY; TYPE s = SELECT (a); END_TYPE; TYPE u = s; WHERE w : TRUE; END_TYPE; TYPE v = u; END_TYPE;",
        "ENTITY a; END_ENTITY; TYPE s = SELECT (a); END_TYPE; TYPE u = SELECT (a); WHERE w : TRUE; END_TYPE;"
        " TYPE v = SELECT (a); END_TYPE;",
        ["line 2: the same files: TYPE u = s; -> TYPE u = SELECT (a);"]
        + ["line 2: the same files: TYPE v = u; -> TYPE v = SELECT (a);", "2 edits: the same files", "read"],
    ),
    (
        "ENTITY a; END_ENTITY; TYPE t = a; END_TYPE; ENTITY b; x : LIST OF t; END_ENTITY;",
        "ENTITY a; END_ENTITY;  ENTITY b; x : LIST OF a; END_ENTITY;",
        ["line 2: the same files: TYPE T = a -> nothing", "line 2: the same files: t -> a", "2 edits: the same files", "read"],
    ),
    (
        "ENTITY a; x : NUMBER; END_ENTITY; ENTITY b SUBTYPE OF (a); SELF\\a.x RENAMED y : REAL; END_ENTITY;",
        "ENTITY a; x : NUMBER; END_ENTITY; ENTITY b SUBTYPE OF (a); SELF\\a.x : REAL; END_ENTITY;",
        ["line 2: the same files: SELF\\a.x RENAMED y -> SELF\\a.x", "1 edit: the same files", "read"],
    ),
    (
        "ENTITY a; END_ENTITY; ENTITY b SUBTYPE OF (a) ABSTRACT SUPERTYPE OF (ONEOF (c, d)); END_ENTITY;"
        " ENTITY c SUBTYPE OF (b); END_ENTITY; ENTITY d SUBTYPE OF (b); END_ENTITY;",
        "ENTITY a; END_ENTITY; ENTITY b ABSTRACT SUPERTYPE OF (ONEOF (c, d)) SUBTYPE OF (a); END_ENTITY;"
        " ENTITY c SUBTYPE OF (b); END_ENTITY; ENTITY d SUBTYPE OF (b); END_ENTITY;",
        ["line 2: the same files: SUBTYPE OF (a) ABSTRACT SUPERTYPE OF (ONEOF (c, d)) -> ABSTRACT SUPERTYPE OF (ONEOF (c, d)) SUBTYPE OF (a)"]
        + ["1 edit: the same files", "read"],
    ),
    (
        "ENTITY a SUPERTYPE OF (ONEOF (c, d, C)); END_ENTITY; ENTITY c; END_ENTITY; ENTITY d; END_ENTITY;",
        "ENTITY a SUPERTYPE OF (ONEOF (c, d)); END_ENTITY; ENTITY c; END_ENTITY; ENTITY d; END_ENTITY;",
        ["line 2: the same files: ONEOF of A names c twice -> once", "1 edit: the same files", "read"],
    ),
    # What is read over stays as it is.
    (
        "FUNCTION f(x : LIST [1:n] OF REAL) : STRING (m); END_FUNCTION; ENTITY a; WHERE w : 'LIST [1:n] OF'; END_ENTITY;"
        " (* x : STRING (n); *)",
        None,
        ["0 edits: the same files", "read"],
    ),
    # What is left to do by hand.
    (
        "ENTITY a; x : ARRAY [1:n] OF REAL; END_ENTITY;",
        None,
        ["0 edits: the same files", "not read: schema refused S6 LeftOut", "  line 2 of the copy: n] OF REAL; END_ENTITY;"]
        + ["  in ENTITY A, line 2", "  docs/SCHEMAS.md says what to write there"],
    ),
    (
        "TYPE s = EXTENSIBLE SELECT (a); END_TYPE; ENTITY a; END_ENTITY;",
        None,
        ["0 edits: the same files", "not read: schema refused S6 LeftOut"]
        + ["  line 2 of the copy: EXTENSIBLE SELECT (a); END_TYPE; ENTITY a; END_ENTITY;", "  in TYPE S, line 2"]
        + ["  write the SELECT or ENUMERATION with its whole list", "  docs/SCHEMAS.md says what to write there"],
    ),
]

GEOMETRY = """SCHEMA geometry;
TYPE length = REAL; END_TYPE;
TYPE angle = REAL; END_TYPE;
ENTITY point; x : length; END_ENTITY;
ENTITY curve; END_ENTITY;
END_SCHEMA;
"""


def whole(text):
    """A listing with these declarations in its second line."""
    return f"SCHEMA s;\n{text}\nEND_SCHEMA;\n"


def edits(tests):
    """Each edit: the copy, the lines about it, and the status, which is that of the program about the copy."""
    for text, wanted, lines in EDITS:
        listing = tests.make("listing.exp", whole(text))
        copy = whole(text if wanted is None else wanted)
        status = 0 if lines[-1] == "read" else 1
        output, error, found = tests.run([listing])
        tests.judge(text, (copy, status), (output, found))
        tests.judge(f"{text}: lines", lines, error.splitlines())
        read = subprocess.run([tests.program, "schema", tests.make("copy.exp", output)], capture_output=True, check=False)
        tests.judge(f"{text}: the program", status, read.returncode)


def taken(tests):
    """Declarations of another listing, with those that they name."""
    geometry = tests.make("geometry.exp", GEOMETRY)
    part = tests.make("part.exp", "SCHEMA part;\nUSE FROM geometry (point);\nENTITY a; p : point; END_ENTITY;\nEND_SCHEMA;\n")
    copy = str(tests.here / "copy.exp")
    lines = "line 2: the same files: USE FROM geometry (point); -> ENTITY point; x : length; END_ENTITY; TYPE length = REAL; END_TYPE;\n"
    lines += "1 edit: the same files\nread\n"
    tests.judge("a listing that is given", ("", lines, 0), tests.run(["--from", geometry, "-o", copy, part]))
    output = subprocess.run([tests.program, "schema", copy], capture_output=True, check=False).stdout.decode()
    tests.judge("what was taken", ["SCHEMA PART", "POINT(X)", "A(P)"], [line.strip() for line in output.splitlines()])
    lines = ["0 edits: the same files", "not read: schema refused S6 LeftOut", "  line 2 of the copy: USE FROM geometry (point);"]
    lines += ["  give the listing that declares it with --from", "  docs/SCHEMAS.md says what to write there"]
    _, error, status = tests.run([part])
    tests.judge("a listing that isn't given", (lines, 1), (error.splitlines(), status))


# A chain of so many TYPEs that are names of a SELECT, each of the one before, takes at most so many seconds of a processor.
CHAIN, MOST_OF_CHAIN = 6_000, 30


def chain(tests):
    """A chain of renamed SELECTs has the list in place of each name, a circle has none, and neither takes long."""
    first = "ENTITY a; END_ENTITY; TYPE t0 = SELECT (a); END_TYPE;"
    circle = f"ENTITY a; END_ENTITY; TYPE t0 = t{CHAIN - 1}; END_TYPE;"
    for name, front, body in (("a chain", first, "SELECT (a)"), ("a circle", circle, None)):
        types = [f"TYPE t{number} = {{}}; END_TYPE;" for number in range(1, CHAIN)]
        text = whole(" ".join([front, *(line.format(f"t{number}") for number, line in enumerate(types))]))
        wanted = text if body is None else whole(" ".join([front, *(line.format(body) for line in types)]))
        begun = seconds_of_runs()
        output, _, status = tests.run([tests.make("chain.exp", text)])
        took = seconds_of_runs() - begun
        tests.judge(f"{name} of renamed SELECTs", (True, 0 if body else 1), (output == wanted, status))
        tests.judge(f"{name} of renamed SELECTs: {took:.1f} s", True, took < MOST_OF_CHAIN)


def marks(tests):
    """A byte order mark goes; and files that can't be read or written."""
    listing = tests.make("mark.exp", b"\xef\xbb\xbf" + whole("ENTITY a; END_ENTITY;").encode())
    lines = "line 1: the same files: byte order mark -> nothing\n1 edit: the same files\nread\n"
    tests.judge("a byte order mark", (whole("ENTITY a; END_ENTITY;"), lines, 0), tests.run([listing]))
    for given in (["{here}/none.exp"], [listing, "-o", "{here}/none/copy.exp"]):
        tests.judge(f"{given[-1]}", 3, tests.run(given)[2])


def main():
    tests = Tests("p21-adapt")
    edits(tests)
    taken(tests)
    chain(tests)
    marks(tests)
    tests.end()


if __name__ == "__main__":
    main()
