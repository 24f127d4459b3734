#!/usr/bin/env python3
"""Runs tools/p21-diff over the examples and over pairs of files that are made. P21 names another program than ./p21."""

import json
import subprocess
import time

from tooling import FRAME, ROOT, SCHEMA, Tests, file_of

POINT = "#1=CARTESIAN_POINT('',(0.,0.,0.));"
PERSON = "#2=PERSON('ek',$,$,$);"
UNIT = "#3=(LENGTH_UNIT()NAMED_UNIT(*)SI_UNIT(.MILLI.,.METRE.));"
LONG = "p" * 150

# Each row: a name, the file A, the file B, the options, and the lines that are printed.
ROWS = [
    ("the same text", file_of(POINT), file_of(POINT), [], []),
    (
        "order and spelling don't count",
        file_of(f"{POINT}\n{PERSON}"),
        file_of(f"{PERSON}\n/* moved */ #01 = CARTESIAN_POINT('',(0.0,-0.,0.E5)) ;"),
        [],
        [],
    ),
    (
        "a value",
        file_of(POINT),
        file_of(POINT, [("0.,0.,0.", "0.,0.,7.5")]),
        [],
        ["changed #1 CARTESIAN_POINT.COORDINATES[3]: 0. -> 7.5"],
    ),
    (
        "two elements of a value",
        file_of(POINT),
        file_of(POINT, [("0.,0.,0.", "1.,0.,7.5")]),
        [],
        ["changed #1 CARTESIAN_POINT.COORDINATES: (0.,0.,0.) -> (1.,0.,7.5)"],
    ),
    (
        "an element that came, and one that went",
        file_of("#1=CARTESIAN_POINT('',(0.,1.));\n#2=PERSON('a',$,$,('t','u'));"),
        file_of("#1=CARTESIAN_POINT('',(0.,1.,2.));\n#2=PERSON('a',$,$,('u'));"),
        [],
        ["changed #1 CARTESIAN_POINT.COORDINATES[3]: - -> 2.", "changed #2 PERSON.TITLES[1]: 't' -> -"],
    ),
    (
        "two values of one instance",
        file_of(PERSON),
        file_of("#2=PERSON('jo',$,'Jo',$);"),
        [],
        ["changed #2 PERSON.ID: 'ek' -> 'jo'", "changed #2 PERSON.FIRST_NAME: $ -> 'Jo'"],
    ),
    (
        "a value in parts",
        file_of(UNIT),
        file_of(UNIT, [("MILLI", "CENTI")]),
        [],
        ["changed #3 SI_UNIT.PREFIX: .MILLI. -> .CENTI."],
    ),
    (
        "another entity",
        file_of("#1=DIRECTION('',(0.,0.,1.));"),
        file_of(POINT),
        [],
        ["changed #1, its entities: DIRECTION -> CARTESIAN_POINT"],
    ),
    (
        "instances of one file alone, told by numbers",
        file_of(f"{POINT}\n#10=PERSON('a',$,$,$);"),
        file_of(f"{PERSON}\n#10=PERSON('a',$,$,$);\n#9=PERSON('b',$,$,$);"),
        [],
        [
            "only in A: #1=CARTESIAN_POINT('',(0.,0.,0.));",
            "only in B: #2=PERSON('ek',$,$,$);",
            "only in B: #9=PERSON('b',$,$,$);",
        ],
    ),
    (
        "a string with signs in it",
        file_of("#1=PERSON('(,;''',$,$,$);"),
        file_of("#1=PERSON('(,;''',')',$,$);"),
        [],
        ["changed #1 PERSON.LAST_NAME: $ -> ')'"],
    ),
    (
        "the time stamp",
        file_of(POINT, [("FILE_NAME('',''", "FILE_NAME('','2024-03-15'")]),
        file_of(POINT, [("FILE_NAME('',''", "FILE_NAME('','2024-03-16'")]),
        [],
        ["changed header FILE_NAME.TIME_STAMP: '2024-03-15' -> '2024-03-16'"],
    ),
    (
        "the time stamp, without the header",
        file_of(POINT, [("FILE_NAME('',''", "FILE_NAME('','2024-03-15'")]),
        file_of(POINT),
        ["--data"],
        ["left out: the header", "the same but for the header: 0 changed, 0 came, 0 went; 1 difference in the header not listed"],
    ),
    (
        "a value, without the header",
        file_of(POINT, [("FILE_NAME('',''", "FILE_NAME('','2024-03-15'")]),
        file_of(POINT, [("0.,0.,0.", "0.,0.,7.5")]),
        ["--data"],
        [
            "left out: the header",
            "changed #1 CARTESIAN_POINT.COORDINATES[3]: 0. -> 7.5",
            "different: 1 changed, 0 came, 0 went; 1 difference in the header not listed",
        ],
    ),
    ("the same text, without the header", file_of(POINT), file_of(POINT), ["--data"], ["left out: the header", "same"]),
    (
        "two attributes, of which one is ignored",
        file_of(PERSON),
        file_of("#2=PERSON('jo',$,'Jo',$);"),
        ["--ignore", "person.id"],
        [
            "left out: PERSON.ID",
            "changed #2 PERSON.FIRST_NAME: $ -> 'Jo'",
            "different: 1 changed, 0 came, 0 went; 1 difference at ignored attributes not listed",
        ],
    ),
    (
        "all that differs is ignored",
        file_of(PERSON),
        file_of("#2=PERSON('jo',$,'Jo',$);", [("FILE_NAME('',''", "FILE_NAME('','2024-03-15'")]),
        ["--ignore", "PERSON.ID", "--ignore", "PERSON.FIRST_NAME", "--ignore", "FILE_NAME.TIME_STAMP"],
        [
            "left out: PERSON.ID, PERSON.FIRST_NAME, FILE_NAME.TIME_STAMP",
            "different: 0 changed, 0 came, 0 went; 3 differences at ignored attributes not listed",
        ],
    ),
    (
        "an attribute that a supertype declares, ignored by the entity of the instance",
        file_of(f"{POINT}\n#2=DIRECTION('a',(0.,0.,1.));"),
        file_of("#1=CARTESIAN_POINT('b',(0.,0.,0.));\n#2=DIRECTION('b',(0.,0.,1.));"),
        ["--ignore", "DIRECTION.NAME"],
        [
            "left out: DIRECTION.NAME",
            "changed #1 REPRESENTATION_ITEM.NAME of CARTESIAN_POINT: '' -> 'b'",
            "different: 1 changed, 0 came, 0 went; 1 difference at ignored attributes not listed",
        ],
    ),
    (
        "an attribute that a supertype declares, ignored by that",
        file_of(f"{POINT}\n#2=DIRECTION('a',(0.,0.,1.));"),
        file_of("#1=CARTESIAN_POINT('b',(0.,0.,0.));\n#2=DIRECTION('b',(0.,0.,1.));"),
        ["--ignore", "REPRESENTATION_ITEM.NAME"],
        [
            "left out: REPRESENTATION_ITEM.NAME",
            "different: 0 changed, 0 came, 0 went; 2 differences at ignored attributes not listed",
        ],
    ),
    (
        "an attribute that a supertype declares, ignored by another supertype",
        file_of(POINT),
        file_of("#1=CARTESIAN_POINT('b',(0.,0.,0.));"),
        ["--ignore", "GEOMETRIC_REPRESENTATION_ITEM.NAME"],
        [
            "left out: GEOMETRIC_REPRESENTATION_ITEM.NAME",
            "different: 0 changed, 0 came, 0 went; 1 difference at ignored attributes not listed",
        ],
    ),
    (
        "an ignored attribute up to names",
        file_of(PERSON),
        file_of("#7=PERSON('jo',$,$,$);"),
        ["--names", "--ignore", "PERSON.ID"],
        ["left out: PERSON.ID", "different: 0 changed, 0 came, 0 went; 1 difference at ignored attributes not listed"],
    ),
    (
        "a further header record",
        file_of(POINT, [("MODEL'));", "MODEL'));\n!MY_RECORD(1);")]),
        file_of(POINT),
        [],
        ["only in A, header: !MY_RECORD(1);"],
    ),
    (
        "a parameter of a further header record",
        file_of(POINT, [("MODEL'));", "MODEL'));\n!MY_RECORD(1);")]),
        file_of(POINT, [("MODEL'));", "MODEL'));\n!MY_RECORD(1.);")]),
        [],
        ["changed header !MY_RECORD.1: 1 -> 1."],
    ),
    (
        "a parameter of the header, which is listed whatever the tolerance",
        file_of(POINT, [("MODEL'));", "MODEL'));\n!MY_RECORD(1.);")]),
        file_of(POINT, [("MODEL'));", "MODEL'));\n!MY_RECORD(1.1);")]),
        ["--tolerance", "0.5"],
        [
            "left out: reals within the tolerance 0.5",
            "changed header !MY_RECORD.1: 1. -> 1.1",
            "the same but for the header: 1 changed, 0 came, 0 went; 0 values within the tolerance 0.5 not listed",
        ],
    ),
    (
        "sections",
        FRAME.format(data=f"DATA('a',('PRODUCT_MODEL'));\n{POINT}\nENDSEC;\nDATA('b',('PRODUCT_MODEL'));\nENDSEC;"),
        FRAME.format(data=f"DATA('b',('PRODUCT_MODEL'));\n{POINT}\nENDSEC;"),
        [],
        [
            "only in A: DATA('a',('PRODUCT_MODEL'));",
            "changed #1, its section: DATA('a',('PRODUCT_MODEL')); -> DATA('b',('PRODUCT_MODEL'));",
        ],
    ),
    (
        "names that don't rise from section to section",
        FRAME.format(data=f"DATA('a',('PRODUCT_MODEL'));\n{PERSON}\nENDSEC;\nDATA('b',('PRODUCT_MODEL'));\n{POINT}\nENDSEC;"),
        FRAME.format(data=f"DATA('a',('PRODUCT_MODEL'));\nENDSEC;\nDATA('b',('PRODUCT_MODEL'));\n{POINT}\nENDSEC;"),
        [],
        ["only in A: #2=PERSON('ek',$,$,$);"],
    ),
    (
        "a long text is shortened around the difference",
        file_of(f"#1=PERSON('a','{LONG}x{LONG}',$,$);"),
        file_of(f"#1=PERSON('a','{LONG}y{LONG}',$,$);"),
        [],
        [f"changed #1 PERSON.LAST_NAME: .. {'p' * 50}x{'p' * 49} .. -> .. {'p' * 50}y{'p' * 49} .."],
    ),
    (
        "a long text is printed whole",
        file_of(f"#1=PERSON('a','{LONG}x{LONG}',$,$);"),
        file_of(f"#1=PERSON('a','{LONG}y{LONG}',$,$);"),
        ["--full"],
        [f"changed #1 PERSON.LAST_NAME: '{LONG}x{LONG}' -> '{LONG}y{LONG}'"],
    ),
]

# Each row: a name, the arguments, and the line of the trouble.
TROUBLE = [
    (
        "the first file is refused",
        [SCHEMA, "examples/refused/Count.step", "examples/product.step"],
        "examples/refused/Count.step: refused 45 Count in #3",
    ),
    (
        "the second file is refused",
        [SCHEMA, "examples/product.step", "examples/refused/EndsEarly.step"],
        "examples/refused/EndsEarly.step: refused 24 EndsEarly at statement 10",
    ),
    ("a file that isn't there", [SCHEMA, "{here}/none", "examples/product.step"], "{here}/none: cannot open {here}/none: there is no such file"),
    ("a folder", [SCHEMA, "examples/product.step", "{here}"], "{here}: read fault: it is a folder"),
    (
        "exchanged arguments",
        ["examples/product.step", SCHEMA, "examples/product.step"],
        "examples/product.step: schema refused S2 Syntax",
    ),
]


FORMS_OF_OUTPUT = ("text", "json", "html")
# Each row: a name, the options, and the lines that are printed of the example and its change.
FORMS = [
    (
        "a table",
        ["--stat"],
        [
            "                   changed       came       went",
            "CARTESIAN_POINT          1          0          0",
            "total                    1          0          0",
            "",
            "changed #24 CARTESIAN_POINT.COORDINATES[3]: 1.25E1 -> 1.225E1",
            "different: 1 changed, 0 came, 0 went",
        ],
    ),
    (
        "objects",
        ["--format", "json", "--stat"],
        [
            '{"kind": "stat", "entity": "CARTESIAN_POINT", "changed": 1, "came": 0, "went": 0}',
            '{"kind": "changed", "what": "instance", "a": 24, "b": 24, "entity": "CARTESIAN_POINT", "attribute": "COORDINATES", '
            '"keywords": "CARTESIAN_POINT", "indices": [3], "before": "1.25E1", "after": "1.225E1"}',
            '{"kind": "verdict", "verdict": "different", "changed": 1, "came": 0, "went": 0}',
        ],
    ),
    (
        "a tolerance that is too small",
        ["--tolerance", "0.0199"],
        [
            "left out: reals within the tolerance 0.0199",
            "changed #24 CARTESIAN_POINT.COORDINATES[3]: 1.25E1 -> 1.225E1",
            "different: 1 changed, 0 came, 0 went; 0 values within the tolerance 0.0199 not listed",
        ],
    ),
    (
        "a relative tolerance",
        ["--tolerance", "0.02"],
        ["left out: reals within the tolerance 0.02", "different: 0 changed, 0 came, 0 went; 1 value within the tolerance 0.02 not listed"],
    ),
    (
        "what is left out, in objects",
        ["--format", "json", "--data", "--tolerance", "0.02", "--ignore", "PERSON.ID"],
        [
            '{"kind": "left out", "header": true, "ignore": ["PERSON.ID"], "tolerance": "0.02"}',
            '{"kind": "verdict", "verdict": "different", "changed": 0, "came": 0, "went": 0, '
            '"in_header": 0, "ignored": 0, "tolerance": "0.02", "near": 1}',
        ],
    ),
]

# Files that are the same but for their header, for their numbering, or for both; and one that differs otherwise.
STAMPED = [("FILE_NAME('',''", "FILE_NAME('','2024-03-15'")]
PLACED = "{0}=CARTESIAN_POINT('',(0.,0.,0.));\n{1}=VERTEX_POINT('',{0});"
BUT_FOR = [
    ("the header", file_of(PLACED.format("#1", "#2"), STAMPED), [], "the same but for the header", ["header"]),
    ("the header, up to names", file_of(PLACED.format("#1", "#2"), STAMPED), ["--names"], "the same but for the header", ["header"]),
    ("the numbering", file_of(PLACED.format("#7", "#4")), [], "the same but for numbering", ["numbering"]),
    (
        "the numbering and the header",
        file_of(PLACED.format("#2", "#1"), STAMPED),
        [],
        "the same but for numbering and the header",
        ["numbering", "header"],
    ),
    (
        "the numbering and the header, up to names",
        file_of(PLACED.format("#2", "#1"), STAMPED),
        ["--names"],
        "the same but for numbering and the header",
        ["numbering", "header"],
    ),
    ("a value", file_of(PLACED.format("#7", "#4"), [("0.,0.,0.", "0.,0.,1.")]), [], "different", None),
    ("a value and the header", file_of(PLACED.format("#1", "#2"), [*STAMPED, ("0.,0.,0.", "0.,0.,1.")]), ["--names"], "different", None),
    ("nothing", file_of(PLACED.format("#1", "#2")), [], "same", None),
    ("names, and those don't count", file_of(PLACED.format("#7", "#4")), ["--names"], "same up to names", None),
]


def but_for(tests):
    """Files that are the same but for their numbering or their header: the headline of a page, the line of a text and the object say
    so first."""
    first = tests.make("a.step", file_of(PLACED.format("#1", "#2")))
    for name, text, options, said, words in BUT_FOR:
        given = [*options, SCHEMA, first, tests.make("b.step", text)]
        lines = tests.run(["--stat", *given])[0].splitlines()
        tests.judge(f"but for {name}, a line", said, lines[-1].partition(":")[0])
        rows = [json.loads(line) for line in tests.run(["--format", "json", *given])[0].splitlines()]
        tests.judge(f"but for {name}, an object", words, rows[-1].get("but_for"))
        page, _, _ = tests.run(["--format", "html", *given])
        heading = {"different": "What differs", "same": "The same", "same up to names": "The same"}.get(said) or said.capitalize()
        tests.judge(f"but for {name}, a page", heading, page.partition("<h1>")[2].partition("</h1>")[0])


# Each row: a real, another one, a tolerance, and whether they are within it.
NEAR = [
    ("1.", "1.001", "0.001", True),
    ("1.", "1.002", "0.001", False),
    ("1000.", "1000.9", "0.001", True),
    ("-1.", "1.", "1.9", False),
    ("0.", "1.E-9", "1E-9", True),
    ("1.E300", "1.0001E300", "0.001", True),
    ("0." + "1" * 5000, "0." + "1" * 4999 + "2", "1E-30", True),
    ("1" * 5000 + ".", "1" * 4999 + "2.", "1E-5001", False),
    ("1" * 5000 + ".", "1" * 4999 + "2.", "1E-30", True),
]


# Options behind which no attribute or number stands that the program takes, and what it says of them.
NO_ATTRIBUTE = "an attribute is named as ENTITY.ATTRIBUTE"
NO_NUMBER = "a tolerance is a number of 0 or more, as 1E-6"
WRONG = [
    ("--ignore", "PERSONS.ID", "the schema has no entity PERSONS"),
    ("--ignore", "PERSON.NAMES", "PERSON has no attribute NAMES of which files have values"),
    ("--ignore", "PERSON", NO_ATTRIBUTE),
    ("--ignore", "PERSON.ID.X", NO_ATTRIBUTE),
    ("--tolerance", "-1", NO_NUMBER),
    ("--tolerance", "1,5", NO_NUMBER),
    ("--tolerance", "nan", NO_NUMBER),
]


def forms(tests):
    """The forms of the output, and tolerances."""
    files = ["examples/product.step", "examples/product-changed.step"]
    for name, options, lines in FORMS:
        is_listed = any("COORDINATES" in line for line in lines)
        wanted = "".join(line + "\n" for line in lines), "", int(is_listed)
        tests.judge(name, wanted, tests.run([*options, SCHEMA, *files]))
    for one, other, tolerance, is_near in NEAR:
        paths = [tests.make(f"{at}.step", file_of(POINT, [("0.,0.,0.", f"0.,0.,{real}")])) for at, real in enumerate((one, other))]
        _, error, status = tests.run(["--tolerance", tolerance, SCHEMA, *paths])
        tests.judge(f"{one[:20]} and {other[:20]} within {tolerance}", ("", int(not is_near)), (error, status))
    for option, word, said in WRONG:
        for form in FORMS_OF_OUTPUT:
            given = [option, word, "--format", form, SCHEMA, *files]
            tests.expect(f"{option} {word}, as {form}", given, 2, [], f"p21-diff: {option} {word}: {said}")


def strange(tests):
    """Names of files that a terminal would obey, that aren't UTF-8, and devices that are full."""
    product = "examples/product.step"
    name = "a\x1b[31m\nonly in B: #1=X();\u202e.step"
    escaped = "a\\x1b[31m\\nonly in B: #1=X();\\u202e.step"
    wanted = f"p21-diff: {tests.here}/{escaped}: cannot open {tests.here}/{escaped}: there is no such file\n"
    tests.judge("a name with signs that aren't shown", ("", wanted, 2), tests.run([SCHEMA, str(tests.here / name), product]))
    tests.make(name, (ROOT / product).read_text())
    for form in FORMS_OF_OUTPUT:
        output, error, status = tests.run(["--format", form, SCHEMA, str(tests.here / name), "examples/product-changed.step"])
        tests.judge(f"such a name in {form}", ([], "", 1), ([sign for sign in "\x1b\u202e" if sign in output], error, status))
    path = bytes(tests.here) + b"/\xff.step"
    with open(path, "wb") as file:
        file.write((ROOT / product).read_bytes())
    for words in ([], ["--names"]):
        done = subprocess.run(["tools/p21-diff", *words, SCHEMA, path, product], capture_output=True, check=False)
        tests.judge("a name that isn't UTF-8", (b"", 0), (done.stderr, done.returncode))
    for words in ([], ["--format", "json"], ["--format", "html"], ["--stat"], ["--names"]):
        with open("/dev/full", "wb") as full:
            command = ["tools/p21-diff", *words, SCHEMA, product, "examples/product-changed.step"]
            done = subprocess.run(command, stdout=full, stderr=subprocess.PIPE, check=False)
        tests.judge(f"a full device, {words}", (b"p21-diff: [Errno 28] No space left on device\n", 2), (done.stderr, done.returncode))
    words = f"tools/p21-diff {SCHEMA} {product} examples/product-changed.step >&-"
    done = subprocess.run(["sh", "-c", words], capture_output=True, check=False)
    tests.judge("a stream that is closed", (b"p21-diff: standard output is closed\n", 2), (done.stderr, done.returncode))


def memory(tests):
    """What a comparison takes where one record is as large as the file: at most six times the file beside what it always takes."""
    titles = ",".join(["'t'"] * 1_000_000)
    rows = [
        ("a list", *(file_of(f"#1=PERSON('a',$,$,({titles},'{last}'));") for last in "xy")),
        ("a string", *(file_of(f"#1=PERSON('a','{'p' * 4_000_000}{last}',$,$);") for last in "xy")),
        ("values of a header record", *(file_of("", [("MODEL'));", f"MODEL'));\n!R({titles},'{last}');")]) for last in "xy")),
        ("an instance of one file alone", file_of(f"#1=PERSON('a',$,$,({titles}));"), file_of(POINT)),
    ]
    least = peak(tests, [tests.make("a.step", file_of(POINT)), tests.make("b.step", file_of(POINT, [("0.,0.,0.", "0.,0.,1.")]))])
    for name, one, other in rows:
        found = peak(tests, [tests.make("a.step", one), tests.make("b.step", other)])
        tests.judge(f"{name}, {len(one)} bytes: {found - least} bytes more", True, found - least <= 6 * len(one))


def peak(tests, paths):
    """The most resident bytes of a run that finds a difference, as far as they are seen each millisecond. Those of the program,
    which it runs, aren't counted."""
    found = 0
    with subprocess.Popen(["tools/p21-diff", SCHEMA, *paths], stdout=subprocess.DEVNULL) as process:
        while process.poll() is None:
            with open(f"/proc/{process.pid}/status", encoding="ascii") as status:
                found = max([found, *(int(line.split()[1]) * 1024 for line in status if line.startswith("VmHWM:"))])
            time.sleep(0.001)
    tests.judge("a run that is measured", 1, process.returncode)
    return found


def main():
    tests = Tests("p21-diff")
    product = "examples/product.step"
    changed = ["changed #24 CARTESIAN_POINT.COORDINATES[3]: 1.25E1 -> 1.225E1"]
    tests.expect("the example and its other form", [SCHEMA, product, "examples/product-other.step"], 0, [])
    tests.expect("the example and its change", [SCHEMA, product, "examples/product-changed.step"], 1, changed)
    for name, place in (("the schema", 0), ("a file", 2)):
        given = [SCHEMA, product, "examples/product-changed.step"]
        text = (ROOT / given[place]).read_bytes()
        given[place] = "/dev/stdin"
        tests.judge(f"{name} from a pipe", (changed[0] + "\n", "", 1), tests.run(given, text))
    for name, first, second, options, lines in ROWS:
        paths = [tests.make("a.step", first), tests.make("b.step", second)]
        is_listed = any(line.startswith(("changed ", "only in ")) for line in lines)
        tests.expect(name, [*options, SCHEMA, *paths], int(is_listed), lines)
    for name, given, line in TROUBLE:
        tests.expect(name, given, 2, [], f"p21-diff: {line}")
    forms(tests)
    but_for(tests)
    strange(tests)
    memory(tests)
    tests.end()


if __name__ == "__main__":
    main()
