#!/usr/bin/env python3
"""Values at which the room ends that a session has for a line.

A session writes the canonical line of a usual instance into room of 16,384 bytes, and takes an instance token by token where
its line is longer. Each file here has instances of one entity, each with a string so long that the room ends in front of, in,
or behind the value at the end of the line. The canonical spelling of each value was worked out by hand. `p21 canon` has to
write these lines, for the file as it is and in pieces that are shorter than any instance. P21 names the program.
"""

import sys
from pathlib import Path

ROOT = Path(__file__).resolve().parent.parent
sys.path[:0] = [str(ROOT / "tests"), str(ROOT / "tests" / "hostile")]
import exchange  # noqa: E402
from rigged import Answer, Rigged, Tally  # noqa: E402

ROOM = 16_384
# How many bytes of a line may stand in front of the value.
IN_FRONT = range(ROOM - 64, ROOM + 2)
PIECE = 4096
SCHEMA_FILE, FILE = "room.exp", "room.step"

SCHEMA = """SCHEMA room;
TYPE choice = ENUMERATION OF (red, green); END_TYPE;
TYPE measure = REAL; END_TYPE;
TYPE some = SELECT (measure, choice, text); END_TYPE;
ENTITY text; a, b : STRING; END_ENTITY;
ENTITY below SUBTYPE OF (text); c : INTEGER; END_ENTITY;
ENTITY beside SUBTYPE OF (text); d : LOGICAL; END_ENTITY;
ENTITY size; a : STRING; b : REAL; END_ENTITY;
ENTITY whole; a : STRING; b : INTEGER; END_ENTITY;
ENTITY either; a : STRING; b : NUMBER; END_ENTITY;
ENTITY code; a : STRING; b : BINARY; END_ENTITY;
ENTITY mark; a : STRING; b : choice; END_ENTITY;
ENTITY flag; a : STRING; b : LOGICAL; END_ENTITY;
ENTITY link; a : STRING; b : OPTIONAL text; END_ENTITY;
ENTITY chosen; a : STRING; b : some; END_ENTITY;
ENTITY sizes; a : STRING; b : LIST OF REAL; END_ENTITY;
ENTITY texts; a : STRING; b : SET OF STRING; END_ENTITY;
ENTITY links; a : STRING; b : SET OF text; END_ENTITY;
ENTITY rows; a : STRING; b : BAG OF LIST OF INTEGER; END_ENTITY;
END_SCHEMA;
"""

# Of each entity the values, and how each is spelled.
VALUES = {
    "TEXT": [
        ("''", "''"),
        ("'ab'", "'ab'"),
        ("'a''b'", "'a''b'"),
        ("'\\\\'", "'\\\\'"),
        ("'\\X\\E9'", "'\\X2\\00E9\\X0\\'"),
        ("'\\S\\i'", "'\\X2\\00E9\\X0\\'"),
        ("'\u00e9'", "'\\X2\\00E9\\X0\\'"),
        ("'\u20ac'", "'\\X2\\20AC\\X0\\'"),
        ("'\\X2\\00E900E8\\X0\\'", "'\\X2\\00E9\\X0\\\\X2\\00E8\\X0\\'"),
        ("'\\X4\\0001F600\\X0\\'", "'\\X4\\0001F600\\X0\\'"),
        ("'\\PA\\a'", "'a'"),
        ("'a\x7fb'", "'ab'"),
    ],
    "SIZE": [
        ("-1.25", "-1.25"),
        ("1.5E10", "1.5E10"),
        ("12.5E-3", "1.25E-2"),
        ("0.001", "1.E-3"),
        ("-0.", "0."),
        ("123456.", "1.23456E5"),
        ("100.E0", "1.E2"),
        ("1.5E-100", "1.5E-100"),
        ("-12345678901234567890123456789012345678.5", "-1.23456789012345678901234567890123456785E37"),
    ],
    "WHOLE": [("0", "0"), ("+7", "7"), ("-007", "-7"), ("-12", "-12")],
    "EITHER": [("7", "7."), ("-700", "-7.E2"), ("1.5", "1.5"), ("-1000", "-1.E3")],
    "CODE": [('"0"', '"0"'), ('"0A"', '"0A"'), ('"23B"', '"23B"')],
    "MARK": [(".RED.", ".RED."), (".GREEN.", ".GREEN.")],
    "FLAG": [(".T.", ".T."), (".U.", ".U.")],
    "LINK": [("$", "$"), ("#10000", "#10000"), ("#00010000", "#10000")],
    "CHOSEN": [("MEASURE(1.5)", "MEASURE(1.5)"), ("MEASURE(-2.5E7)", "MEASURE(-2.5E7)"), ("CHOICE(.RED.)", "CHOICE(.RED.)"), ("#10000", "#10000")],
    "SIZES": [("()", "()"), ("(1.,2.5,-3.)", "(1.,2.5,-3.)"), ("(1.5E7)", "(1.5E7)")],
    "TEXTS": [("()", "()"), ("('b','a')", "('a','b')"), ("('a','\\X\\E9')", "('\\X2\\00E9\\X0\\','a')")],
    "LINKS": [("()", "()"), ("(#10001,#10000)", "(#10000,#10001)"), ("(#00010000)", "(#10000)")],
    "ROWS": [("()", "()"), ("((2,1),(1))", "((1),(2,1))"), ("((),(3))", "((),(3))")],
}
# Instances in external mapping, whose last part has the long string.
PARTS = [("(BELOW(7)BESIDE(.T.)TEXT('{}','b'))",) * 2, ("(BESIDE(.T.)TEXT('{0}','b')BELOW(7))", "(BELOW(7)BESIDE(.T.)TEXT('{0}','b'))")]

FRONT = exchange.front("ROOM")
BACK = f"#10000=TEXT('','');\n#10001=TEXT('','');\n{exchange.BACK}"


def forms():
    """Each kind of file: its name, and its instances with what is written of them, both with a place for the string."""
    for entity, values in VALUES.items():
        yield entity, [(f"{entity}('{{}}',{value})", f"{entity}('{{}}',{spelling})") for value, spelling in values]
    yield "external mapping", PARTS


def file(instances):
    """A file and its canonical file: each instance with a string of each length, up to where the room ends."""
    lines, canonical = [], []
    for source, written in instances:
        for size in IN_FRONT:
            name = f"#{len(lines) + 1}="
            string = "a" * (size - len(name) - written.index("{"))
            lines.append(f"{name}{source.format(string)};\n")
            canonical.append(f"{name}{written.format(string)};\n")
    return ("".join([FRONT, *of, BACK]).encode() for of in (lines, canonical))


def main():
    tally = Tally()
    words = ["canon", SCHEMA_FILE, FILE]
    with Rigged() as rigged:
        rigged.write(SCHEMA_FILE, SCHEMA)
        for name, instances in forms():
            source, canonical = file(instances)
            rigged.write(FILE, source)
            wanted = Answer(0, canonical, b"")
            tally.check(f"{name}, as it is", rigged.answer(words), wanted)
            tally.check(f"{name}, in pieces", rigged.failing(words, READ_MOST=PIECE)[0], wanted)
    tally.part("values at the end of the room for a line")
    tally.end()


if __name__ == "__main__":
    main()
