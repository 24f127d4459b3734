#!/usr/bin/env python3
"""Runs tools/p21-where over the texts of docs/FAULTS.md, the examples, and files that are made, cut, packed or changed.

P21 names another program than ./p21. Whatever the file is, the first line is that of the program.
"""

import gzip
import json
import pathlib
import random
import re
import runpy
import subprocess
import sys
import time
import urllib.parse

import texts
from tooling import MOST_SECONDS, ROOT, SCHEMA, Tests, file_of, seconds_of_runs

sys.path.insert(0, str(ROOT / "tools"))

import p21_files as files  # noqa: E402
import p21_reading as reading  # noqa: E402
from p21_schemas import Outline, name_of  # noqa: E402

DEMO = "examples/demo.exp"

# For each text of docs/FAULTS.md where it is refused, what is marked there, and what is said of it first.
FAULTS = {
    "1 BadByte": ("8:4", "p", "the byte 70, p"),
    "2 OpenString": ("8:11", "'", "it begins here and ends nowhere"),
    "3 OpenComment": ("8:1", "/", "it begins here and ends nowhere"),
    "4 BadDirective": ("8:15", "p", "the byte 70, p"),
    "5 BadCodePoint": ("8:20", "\\", "the byte 5C, \\"),
    "6 NotUtf8": ("9:19", "\\xfc", "the byte FC, which is ü in ISO 8859-1"),
    "7 BadNumber": ("8:25", "I", "the byte 49, I"),
    "8 NumberRange": ("8:24", "1.E10000", None),
    "9 BadBinary": ("8:13", "3", "the byte 33, 3"),
    "10 NameRange": ("8:21", "6", "the byte 36, 6"),
    "11 BadName": ("8:21", " ", "the byte 20"),
    "20 Unexpected": ("9:1", "#2", 'wanted here: ";"'),
    "21 TooDeep": ("8:75", "(", None),
    "24 EndsEarly": ("11:24", "", "the file ends here"),
    "25 AfterEnd": ("10:1", "ISO-10303-21", "wanted here: nothing but blanks and remarks behind END-ISO-10303-21;"),
    "26 LeftOut": ("8:4", "!MY_POINT", None),
    "30 HeaderShape": ("4:32", ")", "FILE_NAME has 7 parameters, and here are 6; without one: authorization"),
    "31 SchemaName": (
        "5:14",
        "'AUTOMOTIVE_DESIGN { 1 0 10303 214 1 1 1 1 }'",
        "the file is of AUTOMOTIVE_DESIGN, the schema text of PRODUCT_MODEL",
    ),
    "32 SectionShape": ("7:1", "DATA", "wanted here: DATA; or DATA('name',('SCHEMA'));"),
    "33 SectionTwice": ("9:6", "'a'", None),
    "40 DuplicateName": ("9:1", "#01", "#1 stands in line 8 too"),
    "41 UnknownEntity": ("8:4", "SPHERICAL_SURFACE", "the schema PRODUCT_MODEL has no entity SPHERICAL_SURFACE"),
    "42 Abstract": ("8:4", "CURVE", "CURVE is abstract; its subtypes: LINE, CIRCLE"),
    "43 PartMissing": ("8:5", "LENGTH_UNIT", "a supertype without a part: NAMED_UNIT"),
    "44 PartTwice": ("8:31", "NAMED_UNIT", "NAMED_UNIT has a part already"),
    "45 Count": ("8:24", ")", "CALENDAR_DATE has 3 attributes, and here are 2 values; without one: DAY_COMPONENT"),
    "46 Missing": ("8:25", "$", "CALENDAR_DATE"),
    "47 StarNotDerived": ("8:25", "*", "CALENDAR_DATE"),
    "48 DerivedNotStar": ("8:12", "$", "the schema derives this value: only * may stand here"),
    "49 WrongKind": ("8:24", "80", "CARTESIAN_POINT"),
    "50 Width": ("8:11", "'a key of more than thirty-two characters'", "PERSON"),
    "51 Bounds": ("8:23", "()", "CARTESIAN_POINT"),
    "52 NotDistinct": ("8:34", "#02", "the same as #2"),
    "53 UnknownItem": ("8:14", ".MEGA.", "SI_UNIT"),
    "54 SelectType": ("8:22", "80.", "MEASURE_WITH_UNIT"),
    "55 TwoRedeclarations": ("8:5", "COUNTED", "AMOUNT is declared anew by COUNTED and MEASURED"),
    "56 Dangling": ("8:20", "#2", "the file has no #2"),
    "57 WrongTarget": ("8:20", "#2", "#2 is of the entity DIRECTION"),
    "58 OneOf": ("8:32", "PLANE_ANGLE_UNIT", "NAMED_UNIT says ONEOF of LENGTH_UNIT and PLANE_ANGLE_UNIT"),
    "S1 Token": ("1:11", "(", None),
    "S2 Syntax": ("1:21", "", "the text ends too early"),
    "S3 Duplicate": ("3:8", "A", "in ENTITY A, line 3"),
    "S4 UnknownName": ("2:15", "length", "in ENTITY A, line 2"),
    "S5 Circular": ("3:8", "b", "in ENTITY B, line 3"),
    "S6 LeftOut": ("2:1", "USE", None),
    "S7 Bounds": ("2:23", "1", "in ENTITY A, line 2"),
    "S8 RedeclaredPlace": ("4:8", "SELF\\a.z : REAL := 0.0;", "in ENTITY B, line 3"),
}

# The same for each file of examples/refused.
REFUSED = {
    "BadByte": ("1:1", "\\xef", "the byte EF"),
    "BadDirective": ("5:15", "p", "the byte 70, p"),
    "Count": ("11:31", ")", "AXIS2_PLACEMENT_3D has 4 attributes, and here are 3 values; without one: REF_DIRECTION"),
    "Dangling": ("10:29", "#3", "the file has no #3"),
    "EndsEarly": ("11:24", "", "the file ends here"),
    "Missing": ("10:11", "$", "PERSON"),
    "NotUtf8": ("9:19", "\\xfc", "the byte FC, which is ü in ISO 8859-1"),
    "SchemaName": (
        "6:14",
        "'AUTOMOTIVE_DESIGN { 1 0 10303 214 1 1 1 1 }'",
        "the file is of AUTOMOTIVE_DESIGN, the schema text of PRODUCT_MODEL",
    ),
    "UnknownEntity": ("11:4", "SPHERICAL_SURFACE", "the schema PRODUCT_MODEL has no entity SPHERICAL_SURFACE"),
    "WrongKind": ("9:30", "80", "CARTESIAN_POINT"),
}

# Instances of the schema DEMO. The value at fault stands between « and », which aren't part of the text.
VALUES = [
    ("an element of a list in a list", "#1=CLOUD((),((1.),(2.,«3»,4.)),(TALLY(1)));"),
    ("the first of two faults", "#1=CLOUD((),((1.),(«2»,3,4.)),(TALLY(1)));"),
    ("the value of a typed parameter", "#1=CLOUD((),(),(DISTANCE(1.),TALLY(«1.»)));"),
    ("a type that the select doesn't offer", "#1=CLOUD((),(),(DISTANCE(1.),«LENGTH(1.)»));"),
    ("too many elements", "#1=CLOUD((),(),«(TALLY(1),TALLY(2),TALLY(3),TALLY(4))»);"),
    ("equal elements by other spellings", "#1=CLOUD((),(),(DISTANCE(1.),«DISTANCE(10.E-1)»));"),
    ("no value in a list", "#1=CLOUD((),((1.,«$»)),(TALLY(1)));"),
    ("a star in a list", "#1=CLOUD((),((1.,«*»)),(TALLY(1)));"),
    ("an item", "#1=MARKED($,«.BLUE.»);"),
    ("a value in parts", "#1=(MARKED(.RED.)POINT(1.,«2»)SHAPE($));"),
    ("a derived value in parts", "#1=(ORIGIN()POINT(«0.»,2.)SHAPE($));"),
    ("too many values", "#1=POINT($,1.,2.,«3.»,4.);"),
    ("a part with a value too few", "#1=(POINT(1.«)»SHAPE('a'));"),
    ("the second reference", "#1=CLOUD((#2,«#3»),(),(TALLY(1)));\n#2=POINT($,1.,1.);"),
    ("the third reference", "#2=POINT($,1.,1.);\n#1=CLOUD((#2,#4),(),(«#3»));\n#3=MARKED($,.RED.);\n#4=ORIGIN($,*,1.);"),
    ("an instance behind a remark", "/* #1=POINT();; ' */ #1 /**/ = POINT($,1.,«''»);"),
    ("signs in strings", "#1=POINT(';#1,=(''\\S\\'',1.,«2»);"),
    ("a name with zeros", "#0001=POINT($,1.,«.T.»);"),
    ("a sign of a page behind its alphabet", "#1=POINT('\\PA\\\\S\\' 4; (',1.,«2»);"),
    ("a sign of a page behind numbers", "#1=POINT('\\X2\\00C4\\X0\\\\S\\' (;3',1.,«2»);"),
    ("a sign of a page behind a number", "#1=POINT('\\X\\41\\S\\'(;',1.,«2»);\n#2=POINT('\\\\','S;',3);"),
]

# Schema texts that are refused, with the place between « and ».
SCHEMAS = [
    ("a letter that EXPRESS doesn't have", "SCHEMA s; ENTITY «ü»; END_ENTITY; END_SCHEMA;"),
    ("an open string", "SCHEMA s «'»v1; END_SCHEMA;"),
    ("a remark in a remark", "SCHEMA s;\n«(»* a (* b *)\nEND_SCHEMA;"),
    ("a word that is no name", "SCHEMA s;\n ENTITY «list»; END_ENTITY;\nEND_SCHEMA;"),
    ("no colon", "SCHEMA s; ENTITY a;\n x «REAL»; END_ENTITY; END_SCHEMA;"),
    ("an attribute twice", "SCHEMA s; ENTITY a;\n x : REAL;\n «X» : REAL; END_ENTITY; END_SCHEMA;"),
    ("an item twice", "SCHEMA s; TYPE t = ENUMERATION OF (a, b, «A»); END_TYPE; END_SCHEMA;"),
    (
        "an entity twice, whose rules name its supertype",
        "SCHEMA s; ENTITY a; END_ENTITY; ENTITY b; END_ENTITY;\n"
        "ENTITY «B» SUBTYPE OF (a); WHERE w : SELF\\a.x > 0; END_ENTITY; END_SCHEMA;",
    ),
    ("a supertype twice", "SCHEMA s; ENTITY a; END_ENTITY;\nENTITY b SUBTYPE OF (a, «a»); END_ENTITY; END_SCHEMA;"),
    (
        "an entity twice in a ONEOF",
        "SCHEMA s; ENTITY c; END_ENTITY; ENTITY a; END_ENTITY;\n"
        "ENTITY b SUPERTYPE OF (ONEOF (a, «A»)) SUBTYPE OF (c); END_ENTITY; END_SCHEMA;",
    ),
    (
        "a type twice, with a rule",
        "SCHEMA s; ENTITY t; END_ENTITY;\nTYPE «t» = ENUMERATION OF (x, y); WHERE w : SELF <> x; END_TYPE; END_SCHEMA;",
    ),
    (
        "an attribute declared anew twice",
        "SCHEMA s; ENTITY a; x : NUMBER; END_ENTITY; FUNCTION b; END_FUNCTION; ENTITY b SUBTYPE OF (a);\n"
        " SELF\\a.x : REAL;\n «SELF\\A.X : INTEGER;» END_ENTITY; END_SCHEMA;",
    ),
    ("an unknown supertype", "SCHEMA s; ENTITY a SUBTYPE OF («b»); END_ENTITY; END_SCHEMA;"),
    ("a type as a supertype", "SCHEMA s; TYPE b = REAL; END_TYPE; ENTITY a SUBTYPE OF («b»); END_ENTITY; END_SCHEMA;"),
    ("an unknown type in a select", "SCHEMA s; TYPE t = REAL; END_TYPE;\nTYPE u = SELECT (t, «v»); END_TYPE; END_SCHEMA;"),
    ("a type that renames an entity", "SCHEMA s; ENTITY a; END_ENTITY; TYPE t = «a»; END_TYPE; END_SCHEMA;"),
    ("a circle of types", "SCHEMA s; TYPE t = u; END_TYPE; TYPE «u» = t; END_TYPE; END_SCHEMA;"),
    (
        "a type that renames a select",
        "SCHEMA s; TYPE t = SELECT (a); END_TYPE; TYPE a = REAL; END_TYPE;\nTYPE u = «t»; END_TYPE; END_SCHEMA;",
    ),
    ("a computed bound", "SCHEMA s; ENTITY a; x : LIST [1:«n»] OF REAL; END_ENTITY; END_SCHEMA;"),
    ("a width of nothing", "SCHEMA s; TYPE t = STRING(«0»); END_TYPE; END_SCHEMA;"),
    (
        "the second redeclaration",
        "SCHEMA s; ENTITY a; x : NUMBER; END_ENTITY; ENTITY b SUBTYPE OF (a);\n"
        " SELF\\a.x : REAL;\n «SELF\\a.y : REAL;» END_ENTITY; END_SCHEMA;",
    ),
    ("two schemas", "SCHEMA s; END_SCHEMA;\n«SCHEMA» t; END_SCHEMA;"),
    ("33 aggregates", f"SCHEMA s; ENTITY a;\n x : {'LIST OF ' * 32}«LIST» OF REAL; END_ENTITY; END_SCHEMA;"),
    ("no schema", "«»"),
]

# A schema in which an attribute is declared anew, by types that name one another.
EXPLAINED = """SCHEMA s;
TYPE t = LIST OF u; END_TYPE;
TYPE u = ENUMERATION OF (red, green); END_TYPE;
ENTITY a; a : t; END_ENTITY;
ENTITY b SUBTYPE OF (a); SELF\\a.a : u; END_ENTITY;
END_SCHEMA;
"""


def parts(output):
    """Of what the tool prints: the first line, the line and column, what is marked, and the line behind that."""
    lines = output.splitlines() + [""] * 5
    marks = re.search(r"\^+", lines[3])
    marked = lines[2][marks.start() : marks.end()] if marks else None
    return lines[0], ":".join(lines[1].split(":")[-2:]), marked, lines[4].strip() or None


def unmarked(text):
    """A text without its marks, with the line and column that they stand at, and what stands between them."""
    front, marked, back = re.split("[«»]", text)
    place = f"{front.count(chr(10)) + 1}:{len(front) - front.rfind(chr(10))}"
    return front + marked + back, place, marked


def program_line(tests, schema, path):
    """The line of the program without its notes, and its status."""
    done = subprocess.run([tests.program, "check", schema, path], capture_output=True, check=False)
    return texts.without_notes((done.stdout + done.stderr).decode().rstrip("\n")), done.returncode


def faults(tests):
    """Each text of docs/FAULTS.md."""
    rows = {title.split(": ", 1)[1]: row for title, *row in texts.faults(tests.here)}
    # The tool reads no parameter alone, and numbers no file.
    for title in ("12 NotOneParameter", "59 Alike"):
        rows.pop(title)
    tests.judge("the texts of docs/FAULTS.md", sorted(FAULTS), sorted(rows))
    for title, (place, marked, note) in FAULTS.items():
        given, line = rows[title]
        output, error, status = tests.run(given[1:])
        tests.judge(title, (line, place, marked, note, "", 1), (*parts(output), error, status))


def refused(tests):
    """Each file of examples/refused."""
    files = {path.stem: str(path) for path in pathlib.Path("examples/refused").iterdir()}
    tests.judge("the files of examples/refused", sorted(REFUSED), sorted(files))
    for name, wanted in REFUSED.items():
        line, status = program_line(tests, SCHEMA, files[name])
        output, error, found = tests.run([SCHEMA, files[name]])
        tests.judge(name, (line, *wanted, "", status), (*parts(output), error, found))


def values(tests):
    """Values of instances."""
    for name, instances in VALUES:
        text, place, marked = unmarked(file_of(instances, [("PRODUCT_MODEL", "DEMO")]))
        path = tests.make("values.step", text)
        line, status = program_line(tests, DEMO, path)
        output, error, found = tests.run([DEMO, path])
        tests.judge(name, (line, place, marked, "", status), (*parts(output)[:3], error, found))


def schemas(tests):
    """Schema texts."""
    for name, text in SCHEMAS:
        text, place, marked = unmarked(text)
        path = tests.make("refused.exp", text)
        said = subprocess.run([tests.program, "schema", path], capture_output=True, check=False).stderr.decode()
        line = texts.without_notes(said.rstrip("\n"))
        output, error, status = tests.run([path])
        tests.judge(name, (line, place, marked, "", 1), (*parts(output)[:3], error, status))


# A schema in which attributes are derived through two supertypes and by a supertype of them.
DERIVING = """SCHEMA deriving;
ENTITY a ABSTRACT SUPERTYPE; x, y : REAL; END_ENTITY;
ENTITY b SUBTYPE OF (a); x2 : REAL; DERIVE SELF\\a.y : REAL := 1.0; z : REAL := 2.0; END_ENTITY;
ENTITY c SUBTYPE OF (a); END_ENTITY;
ENTITY d ABSTRACT SUPERTYPE OF (ONEOF (e, f)) SUBTYPE OF (b, c); w : REAL; END_ENTITY;
ENTITY e SUBTYPE OF (d); DERIVE SELF\\c.x : REAL := 3.0; SELF\\d.w : REAL := 4.0; END_ENTITY;
ENTITY f SUBTYPE OF (d); SELF\\a.x : REAL; END_ENTITY;
END_SCHEMA;
"""


def attributes(tests):
    """The attributes of each entity are those that the program lists, which has `*` for one that is derived, and ABSTRACT in front
    of an entity that wants a subtype; and so is the name of the schema."""
    derived = 0
    for path in (SCHEMA, DEMO, "tests/naming.exp", "tests/guided/schema.exp", tests.make("deriving.exp", DERIVING)):
        listed = subprocess.run([tests.program, "schema", path], capture_output=True, check=True, text=True).stdout.splitlines()
        text = pathlib.Path(path).read_bytes()
        outline = Outline(text)
        found = [f"SCHEMA {name_of(text)}"]
        for entity in outline.entities:
            above = outline.derived(entity)
            derived += len(above)
            names = ("*" if place in above else place[1] for place in outline.places(entity))
            found.append(f"{'ABSTRACT ' if outline.is_abstract(entity) else ''}{entity}({','.join(names)})")
        tests.judge(f"the listing of {path}", sorted(listed[1:]), sorted(found[1:]))
        tests.judge(f"the name of {path}", listed[0], found[0])
    tests.judge("some attributes are derived", True, derived > 5)


def explained(tests):
    """What is said of an attribute: where it is declared, where anew, and which types are named."""
    path = tests.make("explained.exp", EXPLAINED)
    made = tests.make("explained.step", file_of("#1=B(.BLUE.);", [("PRODUCT_MODEL", "S")]))
    lines = ["  B", "  > A  .BLUE.", "       a : t;", "       SELF\\a.a : u; (in b)"]
    lines += ["       t = LIST OF u;", "       u = ENUMERATION OF (red, green);"]
    tests.judge("what stands at an attribute", lines, tests.run([path, made])[0].splitlines()[4:])


def hints(tests):
    """What is said to help, in the last line."""
    rows = [
        ("small letters", "#1=point($,1.,2.);", "keywords are written in upper case"),
        ("a path", "#1=POINT('C:\\x',1.,2.);", "a backslash that is meant as a character is written twice"),
        (
            "ISO 8859-1",
            b"#1=POINT('\xfc',1.,2.);",
            "where the file is in ISO 8859-1, iconv -f ISO-8859-1 -t UTF-8 makes UTF-8 of it",
        ),
        ("a digit that is wanted", "#1=POINT('a',-.5,2.);", "the byte 2E, ."),
    ]
    for name, instance, wanted in rows:
        text = instance if isinstance(instance, bytes) else instance.encode("ascii")
        path = tests.make("hint.step", file_of("MARK", [("PRODUCT_MODEL", "DEMO")]).encode("ascii").replace(b"MARK", text))
        tests.judge(name, wanted, tests.run([DEMO, path])[0].splitlines()[-1].strip())


def kinds(tests):
    """Files of other kinds, each with its refusal at statement 1, and with what is said of it at the end."""
    step = pathlib.Path("examples/product.step").read_bytes()
    rows = [
        ("gzip", 1, gzip.compress(step), "this is packed by gzip: unpack it with gunzip"),
        ("gzip, cut", 1, gzip.compress(step)[:300], "this is packed by gzip: unpack it with gunzip"),
        ("zip", 20, b"PK\x03\x04" + step, "this is a zip archive: unpack it with unzip"),
        (
            "a byte order mark",
            1,
            b"\xef\xbb\xbf" + step,
            "a byte order mark stands in front: tail -c +4 prints the file without it",
        ),
        ("UTF-16", 1, step.decode().encode("utf-16"), "this is UTF-16: iconv -f UTF-16 -t UTF-8 makes UTF-8 of it"),
        (
            "UTF-16 without a mark",
            20,
            step.decode().encode("utf-16-le"),
            "this is UTF-16 without a mark: iconv -f UTF-16LE -t UTF-8 (or UTF-16BE) makes UTF-8 of it",
        ),
        (
            "UTF-16 without a mark, the other half of each first",
            20,
            step.decode().encode("utf-16-be"),
            "this is UTF-16 without a mark: iconv -f UTF-16LE -t UTF-8 (or UTF-16BE) makes UTF-8 of it",
        ),
        ("UTF-16, cut", 1, step.decode().encode("utf-16")[:301], "this is UTF-16: iconv -f UTF-16 -t UTF-8 makes UTF-8 of it"),
        ("XML", 1, b"<?xml version='1.0'?>\n<a/>", "this is XML or HTML, and not clear text"),
        ("a program", 20, pathlib.Path("/bin/sh").read_bytes(), None),
        ("a schema", 20, pathlib.Path(SCHEMA).read_bytes(), "this is a schema text: are schema and file exchanged?"),
        (
            "a schema behind remarks",
            7,
            b"-- a\n(* b *) (* c *)-- d\n" + pathlib.Path(SCHEMA).read_bytes(),
            "this is a schema text: are schema and file exchanged?",
        ),
        ("a long line of dashes", 7, b"-- " * 1000, None),
        ("many remarks", 20, b"(* a *) " * 500, None),
    ]
    for name, number, data, note in rows:
        path = tests.make("kind", data)
        line, _ = program_line(tests, SCHEMA, path)
        output, error, status = tests.run([SCHEMA, path])
        lines = output.splitlines()
        said = lines[-1].strip() if note else None
        tests.judge(name, (line, note, "", 1), (lines[0], said, error, status))
        tests.judge(f"{name}: the refusal", [str(number), "1"], re.findall(r"\b\d+\b", line))


def others(tests):
    """Answers without a place, pipes, and exchanged arguments."""
    step = "examples/product.step"
    tests.expect("accepted", [SCHEMA, step], 0, ["accepted, instances 128, canonical bytes 4872"])
    tests.expect("a schema that is read", [SCHEMA], 0, ["SCHEMA PRODUCT_MODEL"])
    tests.expect("a file that isn't there", [SCHEMA, "{here}/none"], 3, ["cannot open {here}/none", "  {here}/none: there is no such file"])
    tests.expect("a folder", [SCHEMA, "{here}"], 3, ["read fault", "  {here} is a folder"])
    exchanged = ["schema refused S2 Syntax", f"{step}:1:1", "  ISO-10303-21;", "  ^^^"]
    exchanged.append("  this is a STEP file: are schema and file exchanged?")
    tests.expect("exchanged arguments", [step, SCHEMA], 1, exchanged)
    made = tests.make("demo.step", file_of("#1=POINT($,1.,2);", [("PRODUCT_MODEL", "DEMO")]))
    line, place, *_ = tests.run(["--schema", DEMO, SCHEMA, made])[0].splitlines()
    tests.judge("by the schema that the file names", ("refused 49 WrongKind in #1", f"{made}:8:15"), (line, place))
    line, *_ = tests.run(["--schema", "examples/none.exp", SCHEMA, made])[0].splitlines()
    tests.judge("by a further schema that isn't there", "cannot open examples/none.exp", line)
    other = tests.make("other.step", file_of("", [("PRODUCT_MODEL", "OTHER")]))
    *_, command = tests.run(["--schema", DEMO, SCHEMA, other])[0].splitlines()
    wanted = f"    sed '1s/SCHEMA product_model/SCHEMA OTHER/' {SCHEMA} > renamed.exp"
    tests.judge("by no schema that the file names", wanted, command)
    path = tests.make("cut.step", "ISO-10303-21;\nHEADER;\n")
    shown = ["refused 24 EndsEarly at statement 3", f"{path}:3:1", "  HEADER;", "          ^", "  the file ends here"]
    tests.expect("a file that ends behind a statement", [SCHEMA, path], 1, shown)
    path = tests.make("large.exp", "SCHEMA s;\n".ljust(16_777_217))
    output, error, status = tests.run([path])
    lines = output.splitlines()
    wanted = "schema refused S9 TooLarge", f"{path}:2:16777207", "  a schema text has at most 16777216 bytes", "", 1
    tests.judge("a schema text over the limit", wanted, (lines[0], lines[1], lines[-1], error, status))
    path = tests.make("long.step", file_of("", [("PRODUCT_MODEL", "A" * 80)]))
    line = tests.run([SCHEMA, path])[0].splitlines()[2]
    tests.judge("a long text at the place", f"  FILE_SCHEMA(('{'A' * 59} ..", line)
    count = pathlib.Path("examples/refused/Count.step")
    output, _, status = tests.run([SCHEMA, "/dev/stdin"], count.read_bytes())
    tests.judge("a pipe", ("refused 45 Count in #3", "11:31", ")", 1), (*parts(output)[:3], status))
    with count.open("rb") as file:
        output, _, status = tests.run([SCHEMA, "/dev/stdin"], file=file)
    tests.judge("a file as standard input", ("refused 45 Count in #3", "11:31", ")", 1), (*parts(output)[:3], status))
    output, _, status = tests.run(["/dev/stdin", str(count)], pathlib.Path(SCHEMA).read_bytes())
    tests.judge("a schema from a pipe", ("refused 45 Count in #3", "11:31", ")", 1), (*parts(output)[:3], status))
    output, _, status = tests.run(["/dev/stdin"], b"SCHEMA s;\n USE FROM t; END_SCHEMA;")
    tests.judge("a schema text from a pipe", ("schema refused S6 LeftOut", "2:2", "USE", 1), (*parts(output)[:3], status))


def renaming(tests):
    """The command that is printed where the schema's name is another one makes file and schema agree."""
    for name, text in (("one line", "SCHEMA draft 'v';"), ("two lines", "-- draft\nSCHEMA\n  draft;")):
        schema = tests.make("draft.exp", f"{text} END_SCHEMA;")
        path = tests.make("made.step", file_of(""))
        command = tests.run([schema, path])[0].splitlines()[-1]
        subprocess.run(command, shell=True, check=True, cwd=tests.here)
        found = program_line(tests, str(tests.here / "renamed.exp"), path)
        tests.judge(f"renaming, {name}", ("accepted, instances 0, canonical bytes 161", 0), found)


def changed(tests):
    """Files that are cut, and files with a byte changed: the first line and the status are those of the program."""
    data = pathlib.Path("examples/product-other.step").read_bytes()
    chance = random.Random("places")
    made = [(f"cut behind {size} bytes", data[:size]) for size in range(0, len(data), 397)]
    for _ in range(30):
        at, byte = chance.randrange(len(data)), chance.choice(b"#'(),;=$*.\\/!&@\x80\xfcAz0 \n\"")
        made.append((f"byte {byte:02X} at {at}", data[:at] + bytes([byte]) + data[at + 1 :]))
    for name, text in made:
        path = tests.make("changed.step", text)
        line, status = program_line(tests, SCHEMA, path)
        output, error, found = tests.run([SCHEMA, path])
        lines = output.splitlines()
        has_place = len(lines) > 1 and re.fullmatch(re.escape(path) + r":\d+:\d+", lines[1]) is not None
        tests.judge(name, (line, status == 1, "", status), (lines[0], has_place, error, found))


# Texts in place of one of the file, with what is marked there and what was wanted, as each token says by itself.
WANTED = [
    ("behind an instance", [("MARK", "#1=POINT($,1.,1.)")], "ENDSEC", '";"'),
    ("behind a value", [("MARK", "#1=POINT($,1. 2.);")], "2.", '")" or ","'),
    ("a value", [("MARK", "#1=POINT($,,2.);")], ",", "a value or \"(\""),
    ("behind the name", [("MARK", "#1 POINT($,1.,2.);")], "POINT", '"="'),
    ("behind the keyword", [("MARK", "#1=POINT;")], ";", '"("'),
    ("a statement of the data", [("MARK", "POINT($,1.,2.);")], "POINT", "ENDSEC or the name of an instance"),
    ("the first word", [("ISO-10303-21;\nHEADER;", "HEADER;")], "HEADER", "ISO-10303-21"),
    ("the second word", [("\nHEADER;\n", "\n")], "FILE_DESCRIPTION", "HEADER"),
    ("a further record", [("(('DEMO'));", "(('DEMO'));FILE_NAME();")], "FILE_NAME", "a record of another keyword"),
    ("a record left out", [("FILE_NAME('','',(''),(''),'','','');\n", "")], "FILE_SCHEMA", None),
    ("a text for a list", [("(''),'2;1'", "'','2;1'")], "''", "a list of texts, or $"),
    ("a number for a text", [("'2;1'", "2.1")], "2.1", "a text or $"),
    ("a number in a list", [("(''),(''),", "(''),(1),")], "(1)", "a list of texts, or $"),
    ("several schemas", [("'DEMO'", "'DEMO','DEMO'")], "('DEMO','DEMO')", "a list of one text"),
    ("another schema", [("'DEMO'", "'OTHER'")], "'OTHER'", "DEMO"),
    ("a section's name alone", [("DATA;", "DATA('a');")], "DATA", "DATA; or DATA('name',('SCHEMA'));"),
]


def expected(tests):
    """What was wanted at a place, and what stands there."""
    for name, changes, found, wanted in WANTED:
        made = file_of("MARK" if changes[0][0] == "MARK" else "", [("PRODUCT_MODEL", "DEMO"), *changes])
        output, error, status = tests.run(["--format", "json", DEMO, tests.make("wanted.step", made)])
        row = json.loads(output)
        if wanted is None:
            row["expected"] = wanted = row["expected"] if row["expected"].startswith("FILE_NAME(a text or $, ") else None
        tests.judge(name, (found, wanted, "", 1), (row["found"], row["expected"], error, status))


# What is said of the texts of docs/FAULTS.md stands there in the section of the refusal, and so do these words.
IN_SECTIONS = {
    20: [*files.VALUES.values(), files.VALUE, *files.SIGNS.values()],
    25: [files.WANTED[25]],
    30: [*files.SHAPES.values(), "parameter 3 of FILE_NAME, author"]
    + [name for record, parameters in files.PARAMETERS.items() for name in (record, *parameters)],
    31: [FAULTS["31 SchemaName"][2]],
    32: files.WANTED[32].split(" or "),
    45: [FAULTS["45 Count"][2]],
}


def documented(tests):
    """Each refusal's own section says what was wanted in the words that are printed."""
    sections = re.split(r"^### (\d+) \w+\n", pathlib.Path("docs/FAULTS.md").read_text(encoding="utf-8"), flags=re.M)
    said = dict(zip(map(int, sections[1::2]), sections[2::2]))
    for number, phrases in IN_SECTIONS.items():
        tests.judge(f"section {number}", [], [words for words in phrases if words not in said[number]])


# Instances with a value too few: what stands behind it, and which attribute is said to have none.
MISSING = [
    ("a value in front of a list", SCHEMA, "#1=CARTESIAN_POINT(«(»80.,50.));", "NAME"),
    ("the list", SCHEMA, "#1=CARTESIAN_POINT(''«)»;", "COORDINATES"),
    ("what the types leave open", SCHEMA, "#1=CALENDAR_DATE(2024,3«)»;", "DAY_COMPONENT"),
]


def missing(tests):
    """Which value is missing, where types decide it."""
    for name, schema, instances, wanted in MISSING:
        named = "PRODUCT_MODEL" if schema == SCHEMA else "DEMO"
        text, place, marked = unmarked(file_of(instances, [("PRODUCT_MODEL", named)]))
        output, error, status = tests.run([schema, tests.make("missing.step", text)])
        line, found, mark, note = parts(output)
        tests.judge(name, (place, marked, wanted, "", 1), (found, mark, note.rpartition(": ")[2], error, status))


# Instances of the schema DEMO with several refusals. Each place stands between « and »; the refusals are in the order of the list:
# those of records, then those of references, each with the number of its place in the text.
SEVERAL = [
    (
        "records and references",
        "#1=POINT($,1.,«2»);\n«#1»=POINT($,1.,2.);\n#2=«SPHERE»(#9);\n#3=POINT($,1.«)»;\n"
        "#4=CLOUD((«#6»,#5,«#7»,«#8»,#2),((1.,«2»)),());\n#5=CLOUD((#11,«#12»,«#13»),(),(«#14»,TALLY(1),«#15»));\n"
        "«#1»=POINT($,1.,2.);\n#11=POINT($,1.,1.);\n#13=MARKED($,.RED.);\n#15=MARKED($,«.BLUE.»);\n#16=CLOUD((«#13»,«#17»),(),(#11));",
        [(49, "#1", 0), (40, "#1", 1), (41, "#2", 2), (45, "#3", 3), (49, "#4", 7), (40, "#1", 12), (53, "#15", 13)]
        + [(56, "#5", 8), (57, "#5", 9), (56, "#5", 10), (57, "#16", 14), (56, "#16", 15)],
        "refusals 12",
    ),
    (
        "references that are all of one number",
        "#1=CLOUD((«#2»,#3,«#4»),(),(«#4»,#3,«#2»));\n#2=MARKED($,.RED.);\n#3=POINT($,1.,1.);\n#4=CLOUD((«#1»),(),(TALLY(1)));",
        [(57, "#1", 0), (57, "#1", 1), (57, "#1", 2), (57, "#1", 3), (57, "#4", 4)],
        "refusals 5",
    ),
    (
        "a broken statement",
        "#1=POINT($,1.,«2»);\n#2=POINT($,1.,#9);\n#3=POINT($,1.,2.) «#4»=POINT($,1.,«3»);",
        [(49, "#1", 0), (49, "#2", None), (20, "at statement 10", 1), (49, "#4", 2)],
        "refusals 4",
    ),
    (
        "one that ends the reading",
        "#1=POINT($,1.,«2»);\n#2=POINT($,1.,#9);\nENDSEC\n«#4»=POINT($,1.,3);",
        [(49, "#1", 0), (49, "#2", None), (20, "at statement 10", 1)],
        "refusals 3, read {} bytes",
    ),
    (
        "lists in lists, and types",
        "#1=CLOUD((),((1.,«2»),(3,4)),(TALLY(1)));\n#2=CLOUD((),(),(TALLY(1),«TALLY(01)»));\n#3=CLOUD((),(),(DISTANCE(«1»)));\n"
        "#4=(ORIGIN()POINT(«1.»,2.)SHAPE($));\n#5=ORIGIN($,*,«*»);\n#6=(POINT(1.«)»SHAPE($));\n#7=«SHAPE»($);\n#8=(«POINT»(1.,2.));",
        [(49, "#1", 0), (52, "#2", 1), (49, "#3", 2), (48, "#4", 3), (47, "#5", 4), (45, "#6", 5), (42, "#7", 6), (43, "#8", 7)],
        "refusals 8",
    ),
]


def several(tests):
    """All refusals of files, each at its place, and how many."""
    for name, instances, refusals, count in SEVERAL:
        front, *rest = re.split("[«»]", file_of(instances, [("PRODUCT_MODEL", "DEMO")]))
        places = []
        for marked, behind in zip(rest[::2], rest[1::2]):
            places.append((front.count("\n") + 1, len(front) - front.rfind("\n"), marked))
            front += marked + behind
        count = count.format(front.find("ENDSEC\n"))
        path = tests.make("several.step", front)
        output, error, status = tests.run(["--all", "--format", "json", DEMO, path])
        rows = [json.loads(line) for line in output.splitlines()]
        found = [(row["number"], row["instance"] or f"at statement {row['statement']}") for row in rows]
        tests.judge(f"{name}: the refusals", ([refusal[:2] for refusal in refusals], "", 1), (found, error, status))
        for row, (number, instance, place) in zip(rows, refusals):
            at = row["line"], row["column"], row["found"] if number not in (40, 45) else places[place][2]
            tests.judge(f"{name}: {number} {instance}", at if place is None else places[place], at)
        rests = [None] * (len(refusals) - 1) + [count.partition(", ")[2] or None]
        tests.judge(f"{name}: the rest", rests, [row["rest"] for row in rows])
        lines = tests.run(["--all", DEMO, path])[0].splitlines()
        said = [line for line in lines if line.startswith("refus")]
        tests.judge(f"{name}: the lines", ([row["answer"] for row in rows], count), (said[:-1], lines[-1]))
        output, error, status = tests.run(["--all", "--most", "2", "--format", "lines", DEMO, path])
        lines = output.splitlines()
        tests.judge(f"{name}: two of them", (2, True, "", 1), (len(lines), lines[1].endswith("; no more were looked for"), error, status))


def behind_broken(tests):
    """Behind statements that were passed over an instance is shown by itself, with its own attributes: one lost an apostrophe, one its `;`."""
    instances = "#1=POINT('a,1.,1.);\n#2=POINT('b',1.,1.)\n#3=POINT($,1.,2);\n#4=CLOUD((#3),(),(TALLY(1)));\n#5=CLOUD((#4),(),(TALLY(1)));"
    path = tests.make("behind.step", file_of(instances, [("PRODUCT_MODEL", "DEMO")]))
    output, error, status = tests.run(["--all", DEMO, path])
    lines = output.splitlines()
    refusals = ["1 BadByte at statement 8", "20 Unexpected at statement 9", "49 WrongKind in #3", "57 WrongTarget in #5"]
    found = [line for line in lines if line.startswith("refus")]
    tests.judge("behind broken statements", ([*(f"refused {line}" for line in refusals), "refusals 4"], "", 1), (found, error, status))
    behind = lines[lines.index("refused 49 WrongKind in #3") :]
    tests.judge("behind broken statements: the text", ["  #3=POINT($,1.,2);"], behind[2:3])
    tests.judge("behind broken statements: the attribute", True, [">", "Y", "2"] in [line.split() for line in behind])


def first_of_all(tests):
    """The first of all refusals is the one that is shown alone, with all that is said of it."""
    paths = ["examples/refused", "examples/product.step", f"{tests.here}/none"]
    for number, (_, instances) in enumerate(VALUES):
        paths.append(tests.make(f"value{number}.step", unmarked(file_of(instances, [("PRODUCT_MODEL", "DEMO")]))[0]))
    alone = tests.run(["--format", "json", "--schema", DEMO, SCHEMA, *paths])
    together = tests.run(["--all", "--format", "json", "--schema", DEMO, SCHEMA, *paths])
    rows = {row["file"]: row for row in map(json.loads, reversed(together[0].splitlines()))}
    for row in map(json.loads, alone[0].splitlines()):
        tests.judge(f"the first of all in {row['file']}", row, {**rows.pop(row["file"]), "rest": None})
    tests.judge("files with refusals", (set(), alone[1:]), (set(rows), together[1:]))
    lines = tests.run(["--all", SCHEMA, "examples/refused"])[0].splitlines()
    counts = [line.partition(": ")[0] for line in lines if re.search(r": refusals 1(, read \d+ bytes)?$", line)]
    tests.judge("a folder alone", [f"examples/refused/{name}.step" for name in sorted(REFUSED)], counts)
    found = tests.run(["--most", "1", DEMO, f"{tests.here}/several.step"])
    tests.judge("--most alone", tests.run(["--all", "--most", "1", DEMO, f"{tests.here}/several.step"]), found)
    for most in ("0", "-1", "x", ""):
        output, error, status = tests.run(["--all", f"--most={most}", SCHEMA, "examples/refused/Count.step"])
        tests.judge(f"--most {most}", ("", 2), (output, status))
    log = json.loads(tests.run(["--all", "--format", "sarif", DEMO, f"{tests.here}/several.step"])[0])
    results = log["runs"][0]["results"]
    rules = {rule["id"] for rule in log["runs"][0]["tool"]["driver"]["rules"]}
    found = wrong_in(log, "log"), len(results), {result["ruleId"] for result in results} - rules
    tests.judge("SARIF, all", ([], len(SEVERAL[-1][2]), set()), found)


# Of so many points of a file each second one is wrong.
MANY = 800


def many(tests):
    """A file with hundreds of refusals: each at the coordinate that is wrong, in one run of few seconds."""
    chance = random.Random("many")
    instances, places = [], []
    for number in range(1, MANY + 1):
        values = [f"{chance.randrange(1000)}." for _ in range(3)]
        front = f"#{number}=CARTESIAN_POINT('',("
        if number % 2:
            at = chance.randrange(3)
            places.append((7 + number, len(front) + 1 + sum(len(value) + 1 for value in values[:at])))
            values[at] = values[at].rstrip(".")
        instances.append(f"{front}{','.join(values)}));")
    path = tests.make("many.step", file_of("\n".join(instances)))
    begun = time.monotonic()
    output, error, status = tests.run(["--all", "--format", "json", SCHEMA, path])
    took = time.monotonic() - begun
    found = [(row["line"], row["column"]) for row in map(json.loads, output.splitlines())]
    tests.judge("many refusals", (places, "", 1), (found, error, status))
    tests.judge(f"many refusals: {took:.1f} s", True, took < 60)


# A file of so many bytes with one refusal takes at most so many times what `sha256sum` takes. A machine that does other work may be slow in
# some of so many rounds.
LARGE, MOST_TIMES, ROUNDS = 144_000_000, 4, 8


def speed(tests):
    """The time for a large file with one refusal near its end, beside that of sha256sum in the same run; the best of some rounds."""
    point = "#%d=CARTESIAN_POINT('',(%d.,0.,0.));"
    block = "\n".join(point % (number, number) for number in range(10_000_000, 10_001_000))
    count = LARGE // len(block)
    blocks = (block.replace("#1000", f"#{number:04}") for number in range(1001, 1001 + count))
    data = file_of("MARK").partition("MARK")
    path = tests.here / "large.step"
    with open(path, "w") as file:
        file.write(data[0])
        file.writelines(f"{text}\n" for text in blocks)
        file.write("#1=CARTESIAN_POINT('',(80,0.,0.));" + data[2])
    best = {}

    def times(name):
        return best[name] / best["sha256sum"]

    for _ in range(ROUNDS):
        for name, command in [
            ("sha256sum", ["sha256sum", path]),
            ("alone", ["tools/p21-where", "--format", "lines", SCHEMA, path]),
            ("all", ["tools/p21-where", "--all", "--format", "lines", SCHEMA, path]),
        ]:
            begun = time.monotonic()
            output = subprocess.run(command, capture_output=True, check=False, text=True).stdout
            best[name] = min(best.get(name, MOST_SECONDS), time.monotonic() - begun)
            if name != "sha256sum":
                tests.judge(f"a large file, {name}", f"{path}:{count * 1000 + 8}:24: 49 WrongKind in #1", output.rpartition(": CARTESIAN")[0])
        if max(times("alone"), times("all")) <= MOST_TIMES:
            break
    for name in ("alone", "all"):
        tests.judge(f"a large file, {name}: {times(name):.1f} times the time of sha256sum", True, times(name) <= MOST_TIMES)
    print(f"p21-where, a file of {path.stat().st_size // 10**6} MB: " + ", ".join(f"{name} {took:.2f} s" for name, took in best.items()))
    path.unlink()


# What SARIF 2.1.0 demands of each object of a log: the properties that must be there, and of each that may be there its kind.
TEXT, COUNT, BOOLEAN = str, int, bool
SARIF = {
    "log": ({"version", "runs"}, {"$schema": TEXT, "version": TEXT, "runs": ["run"]}),
    "run": (
        {"tool"},
        {"tool": "tool", "columnKind": TEXT, "invocations": ["invocation"], "results": ["result"], "properties": dict},
    ),
    "tool": ({"driver"}, {"driver": "driver"}),
    "driver": ({"name"}, {"name": TEXT, "semanticVersion": TEXT, "rules": ["rule"]}),
    "rule": (
        {"id"},
        {
            "id": TEXT,
            "name": TEXT,
            "shortDescription": "texts",
            "fullDescription": "texts",
            "help": "texts",
            "defaultConfiguration": "configuration",
        },
    ),
    "texts": ({"text"}, {"text": TEXT, "markdown": TEXT}),
    "configuration": (set(), {"level": TEXT}),
    "invocation": (
        {"executionSuccessful"},
        {"executionSuccessful": BOOLEAN, "exitCode": COUNT, "toolExecutionNotifications": ["notification"]},
    ),
    "notification": ({"message"}, {"level": TEXT, "message": "message", "locations": ["location"]}),
    "message": ({"text"}, {"text": TEXT}),
    "result": (
        {"message"},
        {
            "ruleId": TEXT,
            "ruleIndex": COUNT,
            "level": TEXT,
            "message": "message",
            "locations": ["location"],
            "properties": dict,
        },
    ),
    "location": (set(), {"physicalLocation": "physical", "logicalLocations": ["logical"]}),
    "physical": ({"artifactLocation"}, {"artifactLocation": "artifact", "region": "region"}),
    "artifact": (set(), {"uri": TEXT}),
    "region": (set(), {"startLine": COUNT, "startColumn": COUNT}),
    "logical": (set(), {"name": TEXT, "fullyQualifiedName": TEXT, "kind": TEXT}),
}


def wrong_in(value, kind):
    """What in a part of a log isn't as SARIF demands."""
    if isinstance(kind, list):
        found = [wrong for element in value for wrong in wrong_in(element, kind[0])] if isinstance(value, list) else [f"{value}: no list"]
        return found + ([f"{kind[0]} twice"] if kind == ["rule"] and len({rule["id"] for rule in value}) < len(value) else [])
    if not isinstance(kind, str):
        return [] if isinstance(value, kind) else [f"{value} is no {kind.__name__}"]
    needed, known = SARIF[kind]
    found = [f"{kind} without {name}" for name in sorted(needed - set(value))] + [f"{kind}.{name}" for name in sorted(set(value) - set(known))]
    return found + [wrong for name in value if name in known for wrong in wrong_in(value[name], known[name])]


def forms(tests):
    """All files of examples/refused and what can't be read, in each form."""
    names = [f"examples/refused/{name}.step" for name in sorted(REFUSED)]
    given = [SCHEMA, "examples/refused", "examples/product.step", f"{tests.here}/none"]
    places = [REFUSED[pathlib.Path(name).stem][0] for name in names]
    answers = [program_line(tests, SCHEMA, name)[0] for name in names]
    gone = f"cannot open {tests.here}/none: there is no such file"
    output, error, status = tests.run(["--format", "lines", *given])
    fronts = [f"{name}:{place}: {answer.removeprefix('refused ')}: " for name, place, answer in zip(names, places, answers)]
    lines = output.splitlines()
    found = [line[: len(front)] for line, front in zip(lines, fronts)]
    tests.judge("lines", (fronts, f"{tests.here}/none: {gone}", 11, "", 3), (found, lines[-1], len(lines), error, status))
    output, error, status = tests.run(["--format", "json", *given])
    rows = [json.loads(line) for line in output.splitlines()]
    found = [(row["file"], f"{row['line']}:{row['column']}", row["answer"]) for row in rows[:-1]]
    tests.judge("JSON", (list(zip(names, places, answers)), gone, "", 3), (found, rows[-1]["answer"], error, status))
    parted = [f"refused {row['number']} {row['name']} " + (f"in {row['instance']}" if row["instance"] else f"at statement {row['statement']}") for row in rows[:-1]]
    tests.judge("JSON, the parts of an answer", answers, parted)
    output, error, status = tests.run(["--format", "sarif", *given])
    log = json.loads(output)
    run = log["runs"][0]
    tests.judge("SARIF, its rules", ([], "2.1.0", "", 3), (wrong_in(log, "log"), log["version"], error, status))
    regions = [result["locations"][0]["physicalLocation"] for result in run["results"]]
    found = [(at["artifactLocation"]["uri"], f"{at['region']['startLine']}:{at['region']['startColumn']}") for at in regions]
    tests.judge("SARIF, places", list(zip(names, places)), found)
    rules = run["tool"]["driver"]["rules"]
    found = [(result["ruleId"], result["level"]) for result in run["results"]]
    wanted = [(rules[result["ruleIndex"]]["id"], "error") for result in run["results"]]
    tests.judge("SARIF, rules", (wanted, [str(row["number"]) for row in rows[:-1]]), (found, [number for number, _ in found]))
    said = run["invocations"][0]
    found = (said["executionSuccessful"], said["exitCode"], said["toolExecutionNotifications"][0]["message"]["text"])
    tests.judge("SARIF, what can't be read", (False, 3, gone), found)
    output, error, status = tests.run(["--format", "sarif", SCHEMA, "examples/product.step"])
    tests.judge("SARIF, nothing", ([], [], "", 0), (json.loads(output)["runs"][0]["results"], wrong_in(json.loads(output), "log"), error, status))
    made = tests.make("a b\u00fc.step", file_of("#1=PERSON($,$,$,$);"))
    at = json.loads(tests.run(["--format", "sarif", SCHEMA, made])[0])["runs"][0]["results"][0]["locations"][0]
    uri = f"file://{urllib.parse.quote(str(tests.here))}/a%20b%C3%BC.step"
    tests.judge("SARIF, a name with a blank", uri, at["physicalLocation"]["artifactLocation"]["uri"])
    count = pathlib.Path("examples/refused/Count.step").read_bytes()
    output, error, status = tests.run(["--format", "lines", SCHEMA, "-"], count)
    tests.judge("standard input", ("-:11:31: 45 Count in #3", "", 1), (output.rpartition(": AXIS2")[0], error, status))
    output, error, status = tests.run([SCHEMA, "examples/product.step", "--format", "text", "examples/refused/Missing.step"])
    heads = [line for line in output.splitlines() if line.startswith("examples/") and ": " in line]
    wanted = ["examples/product.step: accepted, instances 128, canonical bytes 4872", "examples/refused/Missing.step: refused 46 Missing in #2"]
    tests.judge("text of several files, options among names", (wanted, "", 1), (heads, error, status))


def helps(tests):
    """The help of a rule is the section of docs/FAULTS.md on it, and as text what the program prints of it."""
    page = pathlib.Path("docs/FAULTS.md").read_text()
    sections = dict(re.findall(r"^### (S?\d+) \w+\n\n((?:(?!##).*\n)*)", page, re.M))
    files = [tests.make("left.step", file_of("#1=!X();")), tests.make("header.step", file_of("", [("'','','');", "'','');")]))]
    given = ["--format", "sarif", SCHEMA, "examples/refused", *files]
    rules = json.loads(tests.run(given)[0])["runs"][0]["tool"]["driver"]["rules"]
    tests.judge("rules with a help", 12, len(rules))
    for rule in rules:
        section = sections[rule["id"]].strip("\n")
        tests.judge(f"help of {rule['id']} in Markdown", section, rule["help"]["markdown"])
        told = subprocess.run([tests.program, "faults", rule["id"]], capture_output=True, check=True, text=True).stdout
        tests.judge(f"help of {rule['id']} as text", told.partition("\n")[2].strip("\n"), rule["help"]["text"])
        first = rule["fullDescription"]["text"]
        is_first = any(paragraph.replace("`", "") == first for paragraph in section.split("\n\n"))
        tests.judge(f"what {rule['id']} is in full", (True, True), (is_first, 40 < len(first) < 1024))
    schema = tests.make("circular.exp", "SCHEMA s; TYPE t = u; END_TYPE; TYPE u = t; END_TYPE; END_SCHEMA;")
    (rule,) = json.loads(tests.run(["--format", "sarif", schema])[0])["runs"][0]["tool"]["driver"]["rules"]
    tests.judge("help on a schema", ("S5", sections["S5"].strip("\n")), (rule["id"], rule["help"]["markdown"]))


# The instances of two files, and how many refusals of each number these have, counted by hand.
COUNTED = ["#1=PERSON($,$,$,$);\n#2=PERSON($,$,$,$);\n#3=CARTESIAN_POINT((0.));\n#4=PERSON($,$,$,$);", "#1=CARTESIAN_POINT((0.));\n#2=VERTEX_POINT('',#9);"]
BY_RULE, BY_FILE = {"46 Missing": 3, "45 Count": 2, "56 Dangling": 1}, [4, 2]
# With --most, how many are listed, and what is said of all. With 3 the program looks for 4 in a file, and the first has as many.
MOSTS = [
    ([], 6, None),
    (["--most", "6"], 6, None),
    (["--most", "5"], 5, "5 of 6 refusals are listed, as --most says: 3 of 46 Missing, 2 of 45 Count, 1 of 56 Dangling"),
    (["--most", "4"], 4, "4 of 6 refusals are listed, as --most says: 3 of 46 Missing, 2 of 45 Count, 1 of 56 Dangling"),
    (["--most", "3"], 3, "3 of at least 6 refusals are listed, as --most says: 3 of 46 Missing, 2 of 45 Count, 1 of 56 Dangling"),
    (["--most", "1"], 1, "1 of at least 4 refusals are listed, as --most says: 2 of 46 Missing, 1 of 45 Count, 1 of 56 Dangling"),
]


def counts(tests):
    """How many refusals there are, of which a log has a part at most, with a sentence."""
    files = [tests.make(f"counted{number}.step", file_of(text)) for number, text in enumerate(COUNTED)]
    everything = json.loads(tests.run(["--all", "--format", "sarif", SCHEMA, *files])[0])["runs"][0]["results"]
    uris = [f"file://{file}" for file in files]
    for most, listed, sentence in MOSTS:
        output, error, status = tests.run(["--all", *most, "--format", "sarif", SCHEMA, *files])
        log = json.loads(output)
        run = log["runs"][0]
        said = [told["message"]["text"] for told in run["invocations"][0].get("toolExecutionNotifications", [])]
        name = f"SARIF {' '.join(most)}"
        wanted = [] if sentence is None else [sentence]
        tests.judge(name, ([], listed, wanted, "".join(f"p21-where: {line}\n" for line in wanted), 1), (wrong_in(log, "log"), len(run["results"]), said, error, status))
        tests.judge(f"{name}: it is a run that was done", True, run["invocations"][0]["executionSuccessful"])
        if listed < 3:
            continue
        tests.judge(f"{name}: those in front", everything[:listed], run["results"])
        grouped = {"found": 6, "listed": listed, "allLookedFor": listed != 3, "byRule": BY_RULE, "byFile": dict(zip(uris, BY_FILE))}
        tests.judge(f"{name}: counts", grouped, run["properties"]["refusals"])
        tests.judge(f"{name}: the greatest first", list(BY_RULE), list(run["properties"]["refusals"]["byRule"]))
    output, _, _ = tests.run(["--most", "3", "--format", "lines", SCHEMA, *files])
    tests.judge("lines: of each file", [3, 2], [sum(line.startswith(file) for line in output.splitlines()) for file in files])
    # Where nothing else is said, the program looks for one more than 25,000, and without --all for the first alone.
    asked = tests.here / "asked"
    program = tests.rigged("rigged", f'case "$1" in check) echo "$*" >> {asked} ;; esac')
    tests.run(["--all", "--format", "sarif", SCHEMA, files[0]], program=program)
    tests.judge("what is looked for in SARIF", f"check --all --most 25001 --where --format jsonl -- {SCHEMA} {files[0]}", asked.read_text().splitlines()[0])
    asked.unlink()
    output, _, _ = tests.run(["--format", "sarif", SCHEMA, *files], program=program)
    tests.judge("the first of each in SARIF", (f"check --where --format jsonl -- {SCHEMA} {files[0]}", 2), (asked.read_text().splitlines()[0], len(json.loads(output)["runs"][0]["results"])))
    asked.unlink()
    tests.run(["--all", "--format", "json", SCHEMA, files[0]], program=program)
    tests.judge("what is looked for in JSON", f"check --all --where --format jsonl -- {SCHEMA} {files[0]}", asked.read_text().splitlines()[0])
    log = runpy.run_path("tools/p21-where")
    kept = log["Log"](None)
    report = log["Report"]
    for line in ["refused 46 Missing in #1"] * 25_000 + ["refused 45 Count in #3"]:
        kept.take(report(files[0], line, 1, ""))
    kept.take(report(files[1], "refused 45 Count in #1", 1, "", counted="refusals 1, no more were looked for"))
    why = "the most that GitHub takes of one run; --most N lists N"
    sentence = f"25,000 of at least 25,002 refusals are listed, {why}: 25,000 of 46 Missing, 2 of 45 Count"
    tests.judge("more than 25,000", (25_000, sentence, 0), (len(kept.rows), kept.sentence(), kept.room))


def seeking(tests):
    """Statements and instances are found where reading each statement finds them, in whatever order they are asked for."""
    chance = random.Random("seeking")
    parts_of_files = ["#1=A('');", "#02 /* ; ' */ = A('a;b');", "#3=A('\\S\\';','it''s;');", "/* #4=A(); ' */", "ENDSEC;DATA;", "#5 =A('/*','ENDSEC;');", "X('*/');\n"]
    for number in range(80):
        data = "".join(chance.choice(parts_of_files) for _ in range(chance.randrange(1, 30))).encode()
        found = [statement for statement in files.statements(data) if statement.start < len(data) or statement.end > statement.start]
        ends = [0, *(statement.end for statement in files.statements(data))][:-1]
        wanted = [max(end for end in ends if end <= place) for place in range(len(data) + 1)]
        asked = files.Ends(data)
        tests.judge(f"statements {number}", wanted, [asked.before(place) for place in range(len(data) + 1)])
        places = [chance.randrange(len(data) + 1) for _ in range(100)]
        tests.judge(f"statements in any order {number}", [wanted[place] for place in places], [asked.before(place) for place in places])
        names = {files.name_at(data, it.start): it.start for it in reversed(found) if data[it.start : it.start + 1] == b"#"}
        for looked_for in ({1, 3, 5, 9}, {2}, {*range(1, 10)}):
            checked = files.Checked(SCHEMA, SCHEMA, data)
            checked.look_for(looked_for)
            tests.judge(f"instances {number}, {looked_for}", {name: names[name] for name in looked_for & set(names)}, checked.known)


def columns(tests):
    """Lines and columns of places in any order are those that counting from the beginning gives."""
    chance = random.Random("columns")
    kept, reading.PIECE = reading.PIECE, 7
    for number in range(200):
        text = "".join(chance.choice(["a", "\u00fc", "\n", "x\U0001f600", "'"]) for _ in range(chance.randrange(1, 60)))
        data, lines = text.encode("utf-8"), reading.Lines(text.encode("utf-8"))
        for _ in range(12):
            front = text[: chance.randrange(len(text) + 1)]
            wanted = front.count("\n") + 1, len(front) - front.rfind("\n")
            tests.judge(f"columns {number}", wanted, lines.place(len(front.encode("utf-8"))))
        tests.judge(f"lines {number}", data.count(b"\n") + 1, lines.number(len(data)))
    reading.PIECE = kept


# A schema whose sets hold lists, in which elements may be equal.
SETS = "SCHEMA s; ENTITY a; x : SET OF LIST OF INTEGER; y : SET OF SET OF INTEGER; END_ENTITY; END_SCHEMA;"
EQUALS = [
    ("a list again", "#1=A(((1,1),(2),«(1,01)»),());"),
    ("equal elements of an inner set", "#1=A(((1,1)),((1,2),(3,«+3»),(4)));"),
    ("equal elements of the last set", "#1=A((),((1,2),(1,3,«1»)));"),
    ("the last set again", "#1=A((),((1,2),(1,3),«(1,2)»));"),
]


def equals(tests):
    """The second of two equal elements, where those of a list may be equal."""
    schema = tests.make("sets.exp", SETS)
    for name, instances in EQUALS:
        text, place, marked = unmarked(file_of(instances, [("PRODUCT_MODEL", "S")]))
        found = tests.run([schema, tests.make("sets.step", text)])[0]
        tests.judge(name, ("refused 52 NotDistinct in #1", place, marked), parts(found)[:3])


# What a string is put together of by chance: signs, and directives or what looks like them.
STRINGS = ["a", ";", "(", ")", ",", "''", "S", "X0", "PA", "/*", "\\\\", "\\S\\'", "\\S\\\\", "\\S\\ ", "\\PA\\", "\\X\\41"]
STRINGS += ["\\X2\\00C4\\X0\\", "\\X2\\00C400C5\\X0\\", "\\X4\\0001F600\\X0\\", "\\", "\\X0\\", "\\S", "\u00fc"]


def strings(tests):
    """A string that the program takes ends where the program sees its end: each sign behind the string is a byte of another one."""
    chance, taken = random.Random("strings"), 0
    for number in range(600):
        text = f"'{''.join(chance.choice(STRINGS) for _ in range(chance.randrange(1, 7)))}'"
        path = tests.make("string.step", file_of(f"#1=POINT({text},1.,2.);", [("PRODUCT_MODEL", "DEMO")]))
        if program_line(tests, DEMO, path)[1] == 0:
            taken += 1
            data = f"{text},1".encode()
            tests.judge(f"the end of {text}", len(data) - 2, reading.end_of_string(data, 0))
            words = [data[slice(*at)] for at in reading.lexemes(data, 0, len(data))]
            tests.judge(f"the words of {text}", [text.encode(), b",", b"1"], words)
    tests.judge("many strings are taken", True, taken > 150)


def unfinished(tests):
    """A statement without an end is none that goes on for ever, whatever is asked of it."""
    ways = [
        lambda text: [list(part.values) for part in reading.read_parts(text)],
        lambda text: list(reading.values_of_all(text, reading.read_parts(text))),
    ]
    for text in (b"#1=A(1,2", b"#1=A(", b"#1=(A(1)B(", b"#1=A((1,2),(3", b"#1=A('1", b"#1=A(1,(2),", b"#1", b"#1=(", b"A"):
        for asked in ways:
            try:
                found = asked(text)
            except reading.Unfinished as trouble:
                found = str(trouble)
            tests.judge(f"{text} has no end", "the text ends inside a statement", found)


# Programs that don't answer: in front of all, behind a line, or where something is asked about a schema; and what is said.
SILENT = [
    ("ends by a signal", "kill -9 $$", "ended by signal 9"),
    ("ends by a signal behind a line", "echo 'refused 45 Count in #3' >&2; kill -9 $$", "refused 45 Count in #3 ended by signal 9"),
    ("has no memory", "echo 'out of memory' >&2; exit 3", "out of memory"),
]
ASKED = 'case "$*" in */dev/stdin*) {} ;; esac'


def silent(tests):
    """What the program didn't answer is no answer: the status is 3, and its sentence is said in each form."""
    count, product = "examples/refused/Count.step", "examples/product.step"
    for name, lines, sentence in SILENT:
        program = tests.rigged("silent", f'[ "$1" = check ] && {{ {lines}; }}')
        for options in ([], ["--all"], ["--most", "1"]):
            output, error, status = tests.run([*options, SCHEMA, product, count], program=program)
            wanted = [f"{path}: {sentence}" for path in (product, count)]
            tests.judge(f"a program that {name}, {options}", (wanted, "", 3), (output.splitlines(), error, status))
            output, error, status = tests.run([*options, "--format", "lines", SCHEMA, count], program=program)
            tests.judge(f"a program that {name}, lines, {options}", (f"{count}: {sentence}\n", "", 3), (output, error, status))
            output, error, status = tests.run([*options, "--format", "json", SCHEMA, count], program=program)
            row = json.loads(output)
            tests.judge(f"a program that {name}, JSON, {options}", (sentence, None, "", 3), (row["answer"], row["number"], error, status))
            output, error, status = tests.run([*options, "--format", "sarif", SCHEMA, count], program=program)
            run = json.loads(output)["runs"][0]
            said = run["invocations"][0]
            found = run["results"], said["executionSuccessful"], said["exitCode"], said["toolExecutionNotifications"][0]["message"]["text"]
            tests.judge(f"a program that {name}, SARIF, {options}", ([], False, 3, sentence, "", 3), (*found, error, status))
        found = tests.run(["--format", "sarif", SCHEMA, count], program=tests.rigged("silent", lines))
        tests.judge(f"a program that {name} and doesn't say its version", ("", f"p21-where: {sentence}\n", 3), found)
        output, error, status = tests.run([SCHEMA], program=program)
        tests.judge(f"a program that {name}, a schema", (f"{sentence}\n", "", 3), (output, error, status))
        program = tests.rigged("silent", ASKED.format(lines))
        for path in ("WrongKind", "BadByte", "Missing", "NotUtf8"):
            for options in ([], ["--all"], ["--format", "json"], ["--format", "sarif"], ["--format", "lines", "--all"]):
                given = [*options, SCHEMA, f"examples/refused/{path}.step"]
                tests.judge(f"a program that {name} isn't asked about {path}, {options}", tests.run(given), tests.run(given, program=program))
        schema = tests.make("twice.exp", "SCHEMA s; ENTITY a; x : REAL; x : REAL; END_ENTITY; END_SCHEMA;")
        found = tests.run([schema], program=program)
        tests.judge(f"a program that {name} when asked about a schema", ("", f"p21-where: {sentence}\n", 3), found)


def without_proc(tests):
    """Where /proc isn't mounted, a file is read and placed as where it is. Root alone can try it: what is left out without it."""
    before = ["unshare", "--mount", "sh", "-c", 'umount -l /proc && exec "$@"', "-"]
    if subprocess.run([*before, "true"], capture_output=True, check=False).returncode != 0:
        return "a system without /proc"
    for options in ([], ["--all"], ["--format", "json"]):
        given = [*options, SCHEMA, "examples/refused/WrongKind.step"]
        tests.judge(f"without /proc, {options}", tests.run(given), tests.run(given, before=before))
    accepted = ("accepted, instances 128, canonical bytes 4872\n", "", 0)
    tests.judge("without /proc, an accepted file", accepted, tests.run([SCHEMA, "examples/product.step"], before=before))
    return ""


def cut_short(tests):
    """A file that is cut short while the program reads it, which is said."""
    points = "\n".join(f"#{number}=POINT($,1.,{'2.' if number < 9000 else '2'});" for number in range(1, 9001))
    path = tests.make("cut.step", file_of(points, [("PRODUCT_MODEL", "DEMO")]))
    cutting = f'"$real" "$@"; status=$?; : > {path}; exit $status'
    found = tests.run([DEMO, path], program=tests.rigged("cutting", cutting))
    tests.judge("a file cut short with the answer", ("it changed while it was read\n", "", 3), found)


# Very many references of one instance that are refused, all of which take at most so many seconds of a processor. Where each was looked for
# by itself, it was 19 and 52.
REFERRING = "SCHEMA s; ENTITY a; x : LIST OF a; END_ENTITY; ENTITY b; END_ENTITY; END_SCHEMA;"
REFERENCES = [
    ("to another entity", 800, "#2", 57, 8),
    ("to nothing", 8_000, "#3", 56, 16),
]


def references(tests):
    """An instance with very many references that are refused: each has its place."""
    schema = tests.make("referring.exp", REFERRING)
    for name, count, reference, number, seconds in REFERENCES:
        instances = f"#1=A(({','.join([reference] * count)}));\n#2=B();"
        path = tests.make("references.step", file_of(instances, [("PRODUCT_MODEL", "S")]))
        begun = seconds_of_runs()
        output, error, status = tests.run(["--all", "--format", "json", schema, path])
        took = seconds_of_runs() - begun
        rows = [json.loads(line) for line in output.splitlines()]
        places = [(number, 8, 7 + 3 * at) for at in range(count)]
        found = [(row["number"], row["line"], row["column"]) for row in rows]
        wrong = [pair for pair in zip(places, found) if pair[0] != pair[1]]
        tests.judge(f"{count} references {name}", (count, [], "", 1), (len(rows), wrong[:3], error, status))
        tests.judge(f"{count} references {name}: {took:.1f} s", True, took < seconds)
    path = tests.make("references.step", file_of(f"#1=A(({','.join(['#3'] * 400_000)}));", [("PRODUCT_MODEL", "S")]))
    rows = [json.loads(line) for line in tests.run(["--most", "3", "--format", "json", schema, path])[0].splitlines()]
    tests.judge("a long instance", [(8, 7), (8, 10), (8, 13)], [(row["line"], row["column"]) for row in rows])


# Instances of which a value is refused and nothing more is said: plain ones, with remarks, blanks, strings and others around the value,
# and values that are no word.
PLAIN = """#1=POINT($,1.,2);#2=POINT('a''b',1.,$);
#03 /*#4=POINT(*/ = POINT ( 'a;''#3=' , 1. , .T. ) ;
#4=POINT('\\S\\' ;#4,=ORIGIN(',1.,3);
#5=CLOUD((),((1.),(2.,3)),(TALLY(1.)));
#6=POINT('\u00e9',1.,'b\u00e4h');\t#7=POINT('\u00e9',1., 7 );
#8=(MARKED(.BLUE.)POINT(1.,1.)SHAPE('a'));#9=MARKED($,.BLUE.);
#10=ORIGIN($,*,"0F");#11=ORIGIN($,*,/**/12345678901234567890);#12=ORIGIN($,1.,1.);
#13=POINT($,1.,5);"""


def plain_lines(tests):
    """A line of a list says what the object of its refusal says, whichever way it is made."""
    path = tests.make("plain.step", file_of(PLAIN, [("PRODUCT_MODEL", "DEMO")]))
    output, error, status = tests.run(["--all", "--format", "json", DEMO, path])
    rows = [json.loads(line) for line in output.splitlines()]
    wanted = [
        f"{path}:{row['line']}:{row['column']}: {row['number']} {row['name']} in {row['instance']}: "
        f"{row['attribute']} is {row['found']}, wanted: {row['expected']}"
        for row in rows
        if not row["notes"]
    ]
    lines = tests.run(["--all", "--format", "lines", DEMO, path])[0].splitlines()
    tests.judge("13 plain lines", (13, "", 1), (len(lines), error, status))
    tests.judge("plain lines", wanted, [line for line, row in zip(lines, rows) if not row["notes"]])
    tests.judge("a plain line", f"{path}:8:15: 49 WrongKind in #1: POINT.Y is 2, wanted: x, y : distance; distance = REAL", lines[0])


# What the program tells of a refusal without a place, in place of its answer.
UNPLACED = '{"file":"x","number":56,"name":"Dangling","instance":3}'


def unplaced(tests):
    """Where the program tells no place, none is shown, and the tool says so."""
    program = tests.rigged("unplaced", f"case \"$*\" in *--where*) echo '{UNPLACED}' >&2; exit 1 ;; esac")
    note, path = "the program tells no place of it", "examples/refused/Dangling.step"
    wanted = (f"refused 56 Dangling in #3\n  {note}\n", "", 1)
    tests.judge("a text without a place", wanted, tests.run([SCHEMA, path], program=program))
    wanted = (f"{path}: 56 Dangling in #3: {note}\n", "", 1)
    tests.judge("a line without a place", wanted, tests.run(["--format", "lines", SCHEMA, path], program=program))
    row = json.loads(tests.run(["--format", "json", SCHEMA, path], program=program)[0])
    tests.judge("JSON without a place", (56, "#3", None, None), (row["number"], row["instance"], row["line"], row["column"]))
    result = json.loads(tests.run(["--format", "sarif", SCHEMA, path], program=program)[0])["runs"][0]["results"][0]
    tests.judge("SARIF without a place", False, "region" in result["locations"][0]["physicalLocation"])


def lists(tests):
    """The listing of a schema isn't asked for, which may be many times as long as the schema."""
    program = tests.rigged("listing", '[ "$1" = schema ] && { echo "the listing is asked for" >&2; exit 3; }')
    for given in (["examples/refused"], ["--all", "examples/refused"], ["examples/product.step"], []):
        tests.judge(f"{given} without a listing", tests.run([SCHEMA, *given]), tests.run([SCHEMA, *given], program=program))
    schema = tests.make("unknown.exp", "SCHEMA s; ENTITY a; x : length; END_ENTITY; END_SCHEMA;")
    tests.judge("a schema without a listing", tests.run([schema]), tests.run([schema], program=program))


# Texts that a pattern could take very many ways through, that have very many digits, or that are deep.
STRANGE = [
    ("60 dashes", b"-" * 60),
    ("dashes and remarks", b"--(**)" * 700),
    ("remarks that are open", b"/*" * 100_000),
    ("an apostrophe behind many", b"'" * 100_001),
    ("backslashes", b"#1=A('" + b"\\" * 100_001),
    ("parentheses", b"ISO-10303-21;" + b"(" * 100_000),
]
DIGITS = [
    ("a name of 5,000 digits", "#" + "9" * 5000 + "=POINT($,1.,1.);", "refused 10 NameRange at statement 8"),
    ("a name behind 5,000 zeros", "#" + "0" * 5000 + "1=POINT($,1.,2);", "refused 49 WrongKind in #1"),
    ("a reference behind 5,000 zeros", "#1=CLOUD((#" + "0" * 5000 + "7),(),(TALLY(1)));", "refused 56 Dangling in #1"),
    ("a number of 5,000 digits", "#1=CLOUD((),(),(TALLY(1),TALLY(" + "9" * 5000 + "),TALLY(1)));", "refused 52 NotDistinct in #1"),
]


def strange(tests):
    """Texts of strangers are read to their end: as a file, and as a schema."""
    for name, data in STRANGE:
        path = tests.make("strange", data)
        line, status = program_line(tests, SCHEMA, path)
        output, error, found = tests.run([SCHEMA, path])
        tests.judge(f"{name}, a file", (line, "", status), (output.splitlines()[0], error, found))
        output, error, found = tests.run([path])
        tests.judge(f"{name}, a schema", ("schema refused", "", 1), (output[:14], error, found))
    for name, instance, wanted in DIGITS:
        path = tests.make("digits.step", file_of(instance, [("PRODUCT_MODEL", "DEMO")]))
        output, error, status = tests.run([DEMO, path])
        has_place = re.fullmatch(re.escape(path) + r":8:\d+", output.splitlines()[1]) is not None
        tests.judge(name, (wanted, True, "", 1), (output.splitlines()[0], has_place, error, status))


# Of texts twice and three times as long: how many bytes of memory one more byte takes at most.
MOST_MEMORY = 4


def memory(tests):
    """The memory that grows with a text: lists, strings, parts, references and words."""
    lists = "SCHEMA s; ENTITY a; x : LIST OF INTEGER; y : LIST OF a; END_ENTITY; END_SCHEMA;"
    schema = tests.make("lists.exp", lists)
    rows = [
        ("elements", lambda n: "#1=A((" + "1," * n + "'x'),());"),
        ("apostrophes", lambda n: "#1=A('" + "''" * n + "',());"),
        ("remarks", lambda n: "/**/" * n + "#1=A('',());"),
        ("references", lambda n: "#1=A((),(" + "#1," * n + "#2));"),
        ("parts", lambda n: "#1=(" + "A((),())" * n + ");"),
        ("values too many", lambda n: "#1=A(" + "1," * n + "1);"),
    ]
    for name, made in rows:
        sizes, peaks = [], []
        for count in (100_000, 300_000):
            path = tests.make("long.step", file_of(made(count), [("PRODUCT_MODEL", "S")]))
            sizes.append(pathlib.Path(path).stat().st_size / 1e6)
            peaks.append(tests.peak([schema, path]))
        grown = (peaks[1] - peaks[0]) / (sizes[1] - sizes[0])
        tests.judge(f"memory, {name}: {grown:.1f} bytes a byte", True, grown <= MOST_MEMORY)
    for name, made in (("words", lambda n: ";" * n), ("names", lambda n: ",".join(f"a{k}" for k in range(n // 4)) + ",a1 : REAL;")):
        sizes, peaks = [], []
        for count in (100_000, 400_000):
            path = tests.make("long.exp", f"SCHEMA s; ENTITY a; {made(count)} END_ENTITY; END_SCHEMA;")
            sizes.append(pathlib.Path(path).stat().st_size / 1e6)
            peaks.append(tests.peak([path]))
        grown = (peaks[1] - peaks[0]) / (sizes[1] - sizes[0])
        tests.judge(f"memory, {name} of a schema: {grown:.1f} bytes a byte", True, grown <= MOST_MEMORY)


def controls(tests):
    """Names and texts with control characters are printed without them, and so is what the program says of them."""
    name = "a\x1b[31m\n\udcff.step"
    written = "a\\x1b[31m\\n\\xff.step"
    text = file_of("#1=POINT('\x1b]0;x\x07',1.,2);", [("PRODUCT_MODEL", "DEMO")])
    path = tests.make(name, text)
    shown = f"{tests.here}/{written}"
    line, _ = program_line(tests, DEMO, tests.make("plain.step", text))
    found = tests.run([DEMO, path])
    tests.judge("a name with an escape, and one that isn't UTF-8", (line, shown), (found[0].splitlines()[0], found[0].splitlines()[1].rsplit(":", 2)[0]))
    tests.judge("a text with an escape", (False, "", 1), ("\x1b" in found[0] or "\x07" in found[0], *found[1:]))
    schema = tests.make("remark.exp", "SCHEMA s; ENTITY a; x : (* \x1b[2J *) REAL; END_ENTITY; END_SCHEMA;")
    made = tests.make("made.step", file_of("#1=A('');", [("PRODUCT_MODEL", "S")]))
    tests.judge("a schema with an escape", "  > X  ''\n       x : (* \\x1b[2J *) REAL;\n", tests.run([schema, made])[0].partition("  A\n")[2])
    missing = tests.run([SCHEMA, f"{tests.here}/none\x1b[1m\n"])
    shown = f"{tests.here}/none\\x1b[1m\\n"
    tests.judge("a file that isn't there", (f"cannot open {shown}\n  {shown}: there is no such file\n", "", 3), missing)
    renamed = tests.make("b\n.exp", "SCHEMA draft; END_SCHEMA;")
    command = tests.run([renamed, tests.make("made.step", file_of(""))])[0].splitlines()[-1]
    subprocess.run(["bash", "-c", command], check=True, cwd=tests.here)
    tests.judge("a command for a name with a line feed", b"SCHEMA PRODUCT_MODEL", (tests.here / "renamed.exp").read_bytes()[:20])


def limits(tests):
    """A device without an end, and an output to which nothing can be written."""
    reading.MOST_COPIED, most = 1 << 22, reading.MOST_COPIED
    try:
        found = reading.lasting("/dev/zero")
    except reading.Trouble as trouble:
        found = str(trouble)
    reading.MOST_COPIED = most
    tests.judge("a device without an end", "/dev/zero has more than 4194304 bytes and is no plain file: save it as one first", found)
    error = "p21-where: [Errno 28] No space left on device\n"
    tests.judge("a full disk", (error, 3), tests.full_disk([SCHEMA, "examples/refused/Count.step"]))
    tests.judge("a full disk, help", (error, 3), tests.full_disk(["--help"]))


def main():
    tests = Tests("p21-where")
    groups = [faults, refused, values, schemas, attributes, explained, hints, kinds, others, renaming, changed]
    groups += [expected, documented, missing, forms, several, behind_broken, first_of_all, many, helps, counts, seeking, columns, equals]
    groups += [strings, unfinished, silent, cut_short, references, plain_lines, unplaced, lists, strange, controls, limits, memory, speed]
    for group in groups:
        group(tests)
    tests.end(without_proc(tests))


if __name__ == "__main__":
    main()
