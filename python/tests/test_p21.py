"""Files, schemas and sessions through the package, with the answers that they must have.

The files of `examples` are refused as docs/FAULTS.md and the pages say. Each other row is a file of which the lines between
`DATA;` and `ENDSEC;` are given, under a small schema.
"""

import gc
import os
import pathlib
import re
import subprocess
import sys
import textwrap

import p21
import p21._faults as faults
import p21._texts as words
import pytest

ROOT = pathlib.Path(__file__).resolve().parents[2]
EXAMPLES = ROOT / "examples"
DEMO = (EXAMPLES / "demo.exp").read_text()
DIAMOND = """SCHEMA diamond;
ENTITY r; k : INTEGER; END_ENTITY;
ENTITY a SUBTYPE OF (r); p : INTEGER; END_ENTITY;
ENTITY b SUBTYPE OF (r); q : INTEGER; END_ENTITY;
ENTITY c SUBTYPE OF (a, b); z : INTEGER; END_ENTITY;
END_SCHEMA;
"""
REDECL = """SCHEMA redecl;
ENTITY r; k : NUMBER; END_ENTITY;
ENTITY a SUBTYPE OF (r); SELF\\r.k : INTEGER; END_ENTITY;
ENTITY b SUBTYPE OF (r); SELF\\r.k : REAL; END_ENTITY;
ENTITY c SUBTYPE OF (a, b); SELF\\a.k : OPTIONAL INTEGER; END_ENTITY;
ENTITY d SUBTYPE OF (r); DERIVE SELF\\r.k : NUMBER := 1; END_ENTITY;
END_SCHEMA;
"""
WIDE = """SCHEMA wide;
ENTITY e; s : STRING(3); f : STRING(2) FIXED; b : BINARY(4);
o : ARRAY [1:2] OF OPTIONAL INTEGER; n : BOOLEAN; END_ENTITY;
END_SCHEMA;
"""
SOLE = """SCHEMA sole;
ENTITY s SUPERTYPE OF (ONEOF (a, b)); k : INTEGER; END_ENTITY;
ENTITY a SUBTYPE OF (s); END_ENTITY;
ENTITY b SUBTYPE OF (s); END_ENTITY;
ENTITY c SUBTYPE OF (s); END_ENTITY;
END_SCHEMA;
"""
SCHEMAS = {"DEMO": DEMO, "DIAMOND": DIAMOND, "REDECL": REDECL, "WIDE": WIDE, "SOLE": SOLE}


def file_of(data, schema="DEMO"):
    """A file with these lines in its data section."""
    lines = [
        "ISO-10303-21;",
        "HEADER;",
        "FILE_DESCRIPTION((''),'2;1');",
        "FILE_NAME('','',(''),(''),'','','');",
        f"FILE_SCHEMA(('{schema}'));",
        "ENDSEC;",
        "DATA;",
        *([data] if data else []),
        "ENDSEC;",
        "END-ISO-10303-21;",
    ]
    return "".join(line + "\n" for line in lines).encode()


@pytest.fixture(scope="module")
def product():
    return p21.Schema((EXAMPLES / "product.exp").read_bytes())


@pytest.fixture(scope="module")
def schemas():
    return {name: p21.Schema(text) for name, text in SCHEMAS.items()}


# What a data section is written as.
GIVES = [
    ("DEMO", "", ""),
    ("DEMO", "#2 = POINT($, 1.0, 10.E-1);", "#2=POINT($,1.,1.);"),
    ("DEMO", "#007=POINT('a',-0.0,0.00250);", "#7=POINT('a',0.,2.5E-3);"),
    ("DEMO", "#1=CLOUD((),((2.,1.),(),(1.0,2.)),(TALLY(1)));", "#1=CLOUD((),((),(1.,2.),(1.,2.)),(TALLY(1)));"),
    ("DEMO", "#1=(POINT(1.,2.)SHAPE('a'));", "#1=POINT('a',1.,2.);"),
    ("DEMO", "#1=(SHAPE($)POINT(1.,2.)MARKED(.RED.));", "#1=(MARKED(.RED.)POINT(1.,2.)SHAPE($));"),
    ("DEMO", "#1=ORIGIN($,*,2.);", "#1=ORIGIN($,*,2.);"),
    ("DEMO", "#1=CLOUD((#2),(),(TALLY(1)));\n#2=ORIGIN($,*,2.);", "#1=CLOUD((#2),(),(TALLY(1)));\n#2=ORIGIN($,*,2.);"),
    (
        "DEMO",
        "#10=POINT($,1.,1.);\n#2=POINT($,1.,1.);\n#1=CLOUD((#2,#10),(),(TALLY(1)));",
        "#1=CLOUD((#10,#2),(),(TALLY(1)));\n#2=POINT($,1.,1.);\n#10=POINT($,1.,1.);",
    ),
    (
        "DEMO",
        "#1=CLOUD((),(),(DISTANCE(1.0),TALLY(1),#2));\n#2=POINT($,1.,1.);",
        "#1=CLOUD((),(),(DISTANCE(1.),TALLY(1),#2));\n#2=POINT($,1.,1.);",
    ),
    ("DEMO", "#00=POINT($,1.,1.);", "#0=POINT($,1.,1.);"),
    ("DEMO", "#18446744073709551615=POINT($,1.,1.);", "#18446744073709551615=POINT($,1.,1.);"),
    ("REDECL", "#1=R(1);", "#1=R(1.);"),
    ("REDECL", "#1=A(1);", "#1=A(1);"),
    ("REDECL", "#1=(B()R(1.));", "#1=B(1.);"),
    ("WIDE", "#1=E('abc','xy',\"0A\",($,1),.T.);", "#1=E('abc','xy',\"0A\",($,1),.T.);"),
    ("SOLE", "#1=(S(1)C()A());", "#1=(A()C()S(1));"),
    ("SOLE", "#1=A(1);", "#1=A(1);"),
]

# How a data section is refused.
REFUSED = [
    ("DEMO", "#1=POINT($,1.,1.);\n#01=POINT($,1.,1.);", "refused 40 DuplicateName in #1"),
    ("DEMO", "#1=CLOUD((#2,#02),(),(TALLY(1)));", "refused 52 NotDistinct in #1"),
    ("DEMO", "#1=(POINT(1.,2.)MARKED(.RED.));", "refused 43 PartMissing in #1"),
    ("DEMO", "#1=(SHAPE($)SHAPE($)POINT(1.,2.)MARKED(.RED.));", "refused 44 PartTwice in #1"),
    ("DEMO", "#1=ORIGIN($,0.,2.);", "refused 48 DerivedNotStar in #1"),
    ("DEMO", "#1=POINT($,*,2.);", "refused 47 StarNotDerived in #1"),
    ("DEMO", "#1=SHAPE($);", "refused 42 Abstract in #1"),
    ("DEMO", "#1=FOO();", "refused 41 UnknownEntity in #1"),
    ("DEMO", "#1=POINT($,1.);", "refused 45 Count in #1"),
    ("DEMO", "#1=POINT($,1,2.);", "refused 49 WrongKind in #1"),
    ("DEMO", "#1=CLOUD((#2),(),(TALLY(1)));\n#2=CLOUD((),(),(TALLY(1)));", "refused 57 WrongTarget in #1"),
    ("DEMO", "#1=CLOUD((#2),(),(TALLY(1)));", "refused 56 Dangling in #1"),
    ("DEMO", "#1=CLOUD((),(),(1.0));", "refused 54 SelectType in #1"),
    ("DEMO", "#1=CLOUD((),(),(MEASURE(TALLY(1))));", "refused 54 SelectType in #1"),
    ("DEMO", "#1=CLOUD((),(),(TALLY(1),TALLY(01)));", "refused 52 NotDistinct in #1"),
    ("DEMO", "#1=CLOUD((),(),());", "refused 51 Bounds in #1"),
    ("DEMO", "#18446744073709551616=POINT($,1.,1.);", "refused 10 NameRange at statement 8"),
    ("DEMO", "#1=POINT($," + "(" * 64 + ")" * 64 + ",1.);", "refused 49 WrongKind in #1"),
    ("DEMO", "#1=POINT($," + "(" * 65 + ")" * 65 + ",1.);", "refused 21 TooDeep at statement 8"),
    ("DEMO", "#1=&SCOPE", "refused 26 LeftOut(Scope) at statement 8"),
    ("DEMO", "#1=!A();", "refused 26 LeftOut(UserKeyword) at statement 8"),
    ("DEMO", "\\N\\#1=POINT($,1.,1.);", "refused 1 BadByte at statement 8"),
    ("DEMO", "#1=point();", "refused 1 BadByte at statement 8"),
    ("DEMO", "#1=POINT(;", "refused 20 Unexpected at statement 8"),
    ("REDECL", "#1=A(1.);", "refused 49 WrongKind in #1"),
    ("REDECL", "#1=(A()B()R(1));", "refused 55 TwoRedeclarations in #1"),
    ("WIDE", "#1=E('abcd','xy',\"0A\",($,1),.T.);", "refused 50 Width in #1"),
    ("WIDE", "#1=E('abc','x',\"0A\",($,1),.T.);", "refused 50 Width in #1"),
    ("WIDE", "#1=E('abc','xy',\"23B\",($,1),.T.);", "refused 50 Width in #1"),
    ("WIDE", "#1=E('abc','xy',\"0A\",(1),.T.);", "refused 51 Bounds in #1"),
    ("WIDE", "#1=E(5,'xy',\"0A\",($,1),.T.);", "refused 49 WrongKind in #1"),
    ("WIDE", "#1=E('abc','xy',\"0A\",($,1),.U.);", "refused 53 UnknownItem in #1"),
    ("WIDE", "#1=E('abc','xy',\"0A\",($,1),$);", "refused 46 Missing in #1"),
    ("SOLE", "#1=(A()B()S(1));", "refused 58 OneOf in #1"),
]

# Whole files, and how they are refused.
WHOLE = [
    (b"", "refused 24 EndsEarly at statement 1"),
    (file_of("").replace(b"DATA;", b"ANCHOR;"), "refused 26 LeftOut(Anchor) at statement 7"),
    (file_of("") + b"X", "refused 25 AfterEnd at statement 10"),
    (file_of("") + b"/*", "refused 3 OpenComment at statement 10"),
    (file_of("", "OTHER"), "refused 31 SchemaName at statement 5"),
    (file_of("").replace(b"FILE_SCHEMA(('DEMO'))", b"FILE_SCHEMA($)"), "refused 30 HeaderShape at statement 5"),
    (file_of("").replace(b"'','','');", b"'','');"), "refused 30 HeaderShape at statement 4"),
    (file_of("#1=POINT('a,1.,1.);"), "refused 2 OpenString at statement 8"),
]

# Whole files that are accepted, each with its canonical file.
ACCEPTED = [
    (file_of("") + b"/* end */", file_of("")),
    (file_of("") + b"\x1a", file_of("")),
    (file_of("", "demo"), file_of("", "demo")),
    (
        file_of("").replace(b"FILE_DESCRIPTION((''),'2;1');", b"FILE_DESCRIPTION($,$);"),
        file_of("").replace(b"FILE_DESCRIPTION((''),'2;1');", b"FILE_DESCRIPTION($,$);"),
    ),
    (
        b"ISO-10303-21;\r\nHEADER;\r\n/* by a converter */\r\n"
        b"FILE_DESCRIPTION (( 'ViewDefinition [CoordinationView]' ), '2;1' );\r\n"
        b"FILE_NAME('','',(''),(''),'','','');\r\nFILE_SCHEMA(('DEMO { 1 0 10303 214 1 1 1 1 }'));\r\nENDSEC;\r\nDATA;\r\n"
        b"#10 = ( SHAPE('') POINT(1.E-07,-2.5)\r\n MARKED(.GREEN.) );\r\n#2= POINT('p',0.,10.);\r\nENDSEC;\r\nEND-ISO-10303-21;\r\n",
        file_of("#2=POINT('p',0.,1.E1);\n#10=(MARKED(.GREEN.)POINT(1.E-7,-2.5)SHAPE(''));", "DEMO { 1 0 10303 214 1 1 1 1 }").replace(
            b"(''),'2;1'", b"('ViewDefinition [CoordinationView]'),'2;1'", 1
        ),
    ),
    (
        file_of("").replace(b"DATA;\n", b"DATA('b',('DEMO'));\n#1=POINT($,1.,1.);\nENDSEC;\nDATA('a',('demo'));\n#2=POINT($,2.0,1.);\n"),
        file_of("").replace(b"DATA;\n", b"DATA('a',('demo'));\n#2=POINT($,2.,1.);\nENDSEC;\nDATA('b',('DEMO'));\n#1=POINT($,1.,1.);\n"),
    ),
]

SCHEMAS_REFUSED = [
    ("(* not closed", "schema refused S1 Token"),
    ("SCHEMA s; END_SCHEMA", "schema refused S2 Syntax"),
    ("", "schema refused S2 Syntax"),
    ("SCHEMA s; ENTITY a; END_ENTITY; ENTITY A; END_ENTITY; END_SCHEMA;", "schema refused S3 Duplicate"),
    ("SCHEMA s; ENTITY a; x : foo; END_ENTITY; END_SCHEMA;", "schema refused S4 UnknownName"),
    ("SCHEMA s; ENTITY a SUBTYPE OF (b); END_ENTITY; ENTITY b SUBTYPE OF (a); END_ENTITY; END_SCHEMA;", "schema refused S5 Circular"),
    ("SCHEMA s; USE FROM t; END_SCHEMA;", "schema refused S6 LeftOut"),
    ("SCHEMA s; ENTITY a; x : LIST [3:1] OF REAL; END_ENTITY; END_SCHEMA;", "schema refused S7 Bounds"),
    (
        "SCHEMA s; ENTITY a; y : REAL; END_ENTITY; ENTITY b SUBTYPE OF (a); DERIVE SELF\\a.z : REAL := 0.0; END_ENTITY; END_SCHEMA;",
        "schema refused S8 RedeclaredPlace",
    ),
    (" " * 16_777_217, "schema refused S9 TooLarge"),
]


@pytest.mark.parametrize("schema, data, canonical", GIVES)
def test_files_that_are_accepted(schemas, schema, data, canonical):
    text = file_of(canonical, schema)
    assert p21.canonical(schemas[schema], file_of(data, schema)) == text
    assert p21.check(schemas[schema], file_of(data, schema)) == (len(canonical.splitlines()), len(text))
    assert p21.same(schemas[schema], file_of(data, schema), text)


@pytest.mark.parametrize("schema, data, refusal", REFUSED)
def test_files_that_are_refused(schemas, schema, data, refusal):
    for call in (p21.check, p21.canonical):
        with pytest.raises(p21.Refused) as found:
            call(schemas[schema], file_of(data, schema))
        assert str(found.value) == refusal


@pytest.mark.parametrize("text, refusal", WHOLE)
def test_whole_files_that_are_refused(schemas, text, refusal):
    with pytest.raises(p21.Refused) as found:
        p21.check(schemas["DEMO"], text)
    assert str(found.value) == refusal


@pytest.mark.parametrize("text, canonical", ACCEPTED)
def test_whole_files_that_are_accepted(schemas, text, canonical):
    assert p21.canonical(schemas["DEMO"], text) == canonical
    assert p21.check(schemas["DEMO"], text).canonical_bytes == len(canonical)
    assert p21.same(schemas["DEMO"], text, canonical)


@pytest.mark.parametrize("text, refusal", SCHEMAS_REFUSED, ids=[refusal for _, refusal in SCHEMAS_REFUSED])
def test_schemas_that_are_refused(text, refusal):
    with pytest.raises(p21.SchemaRefused) as found:
        p21.Schema(text)
    assert str(found.value) == refusal
    assert found.value.statement is None and found.value.instance is None


def test_files_that_differ(schemas):
    assert not p21.same(schemas["DEMO"], file_of("#2 = POINT($, 1.0, 10.E-1);"), file_of(""))
    unnamed = file_of("")
    assert not p21.same(schemas["DEMO"], unnamed, unnamed.replace(b"DATA;", b"DATA('',('DEMO'));"))


NODES = p21.Schema("SCHEMA net; ENTITY node; label : OPTIONAL STRING; next : OPTIONAL node; END_ENTITY; END_SCHEMA;")
# Examples of docs/CANONICAL.md: a chain, the same with other names, their numbered file, and two circles.
CHAIN = file_of("#7=NODE($,#3);#3=NODE($,#12);#12=NODE($,$);#5=NODE($,#7);#9=NODE($,#5);", "NET")
RENAMED = file_of("#1=NODE($,$);#3=NODE($,#2);#2=NODE($,#4);#4=NODE($,#5);#5=NODE($,#1);", "NET")
NUMBERS = file_of("#1=NODE($,#3);\n#2=NODE($,#4);\n#3=NODE($,#2);\n#4=NODE($,#5);\n#5=NODE($,$);", "NET")
CIRCLE = file_of("#1=NODE($,#2);#2=NODE($,#1);", "NET")
OTHER_CIRCLE = file_of("#3=NODE($,#4);#4=NODE($,#3);", "NET")


def test_numbered(tmp_path):
    path = tmp_path / "chain.step"
    path.write_bytes(CHAIN)
    with open(path, "rb") as chain:
        for source in (CHAIN, RENAMED, NUMBERS, path, chain, memoryview(CHAIN)):
            assert p21.numbered(NODES, source) == NUMBERS == p21.canonical(NODES, NUMBERS)
    path.write_bytes(CIRCLE)
    for source in (CIRCLE, path):
        with pytest.raises(p21.Refused) as found:
            p21.numbered(NODES, source)
        assert str(found.value) == "refused 59 Alike in #1" and found.value.number == p21.RefusalNumber.ALIKE
    path.write_bytes(file_of("#8=NODE($);", "NET"))
    for source in (path, path.read_bytes()):
        with pytest.raises(p21.Refused, match="^refused 45 Count in #8$") as found:
            p21.numbered(NODES, source)
        assert found.value.place is not None and found.value.place.line == 8


def test_same_but_for_names(tmp_path):
    path = tmp_path / "renamed.step"
    path.write_bytes(RENAMED)
    for other in (RENAMED, path):
        assert not p21.same(NODES, CHAIN, other)
        assert p21.same_but_for_names(NODES, CHAIN, other)
        assert p21.same_but_for_names(NODES, other, CHAIN)
    changed = RENAMED.replace(b"#1=NODE($", b"#1=NODE('a'")
    for one, other, same in ((CHAIN, changed, False), (CIRCLE, CIRCLE, True), (CIRCLE, CHAIN, False), (CHAIN, CIRCLE, False)):
        assert p21.same_but_for_names(NODES, one, other) == same
    for one, other, refusal in (
        (OTHER_CIRCLE, CIRCLE, "first: refused 59 Alike in #3"),
        (CHAIN, file_of("#8=NODE($);", "NET"), "second: refused 45 Count in #8"),
        (file_of("#8=NODE($);", "NET"), CHAIN, "first: refused 45 Count in #8"),
    ):
        with pytest.raises(p21.Refused) as found:
            p21.same_but_for_names(NODES, one, other)
        assert str(found.value) == refusal
    assert p21.hash(NODES, CHAIN, names=True) == p21.hash(NODES, path, names=True) != p21.hash(NODES, CHAIN)


def test_sizes(schemas):
    assert p21.check(schemas["DEMO"], file_of("")) == (0, 152)
    assert p21.check(schemas["DEMO"], file_of("#2 = POINT($, 1.0, 10.E-1);")) == (1, 171)


def test_long_numbers(schemas):
    digits = file_of("#1=R(1" + "0" * 9_999 + ");", "REDECL")
    assert p21.canonical(schemas["REDECL"], digits) == file_of("#1=R(1.E9999);", "REDECL")
    with pytest.raises(p21.Refused) as found:
        p21.check(schemas["REDECL"], file_of("#1=R(1" + "0" * 10_000 + ");", "REDECL"))
    assert (found.value.number, found.value.name, found.value.instance) == (8, "NumberRange", 1)


def test_cut_files(schemas):
    text = file_of("#2 = POINT($, 1.0, 10.E-1);")
    for at in range(len(text) - 2):
        with pytest.raises(p21.Refused) as found:
            p21.check(schemas["DEMO"], text[:at])
        inside = text[:at].count(b"'") % 2 == 1
        assert found.value.number == (2 if inside else 24), at
    assert p21.canonical(schemas["DEMO"], text[:-1]) == file_of("#2=POINT($,1.,1.);")


def test_examples(product):
    assert p21.check(product, EXAMPLES / "product.step") == p21.Report(instances=128, canonical_bytes=4872)
    assert p21.check(product, str(EXAMPLES / "product.step")).instances == 128
    assert p21.same(product, EXAMPLES / "product.step", EXAMPLES / "product-other.step")
    assert not p21.same(product, EXAMPLES / "product.step", EXAMPLES / "product-changed.step")
    canonical = p21.canonical(product, EXAMPLES / "product.step")
    assert len(canonical) == 4872
    assert p21.canonical(product, canonical) == canonical
    assert p21.canonical(product, bytearray(canonical)) == canonical
    assert p21.canonical(product, memoryview(canonical)) == canonical
    with pytest.raises(FileNotFoundError):
        p21.check(product, EXAMPLES / "none.step")


@pytest.mark.parametrize(
    "name, number, place",
    [
        ("BadByte", 1, (1, None)),
        ("BadDirective", 4, (4, None)),
        ("Count", 45, (None, 3)),
        ("Dangling", 56, (None, 2)),
        ("EndsEarly", 24, (10, None)),
        ("Missing", 46, (None, 2)),
        ("NotUtf8", 6, (8, None)),
        ("SchemaName", 31, (5, None)),
        ("UnknownEntity", 41, (None, 3)),
        ("WrongKind", 49, (None, 1)),
    ],
)
def test_refused_examples(product, name, number, place):
    path = EXAMPLES / "refused" / f"{name}.step"
    with pytest.raises(p21.Refused) as found:
        p21.check(product, path)
    assert (found.value.number, found.value.name) == (number, name)
    assert (found.value.statement, found.value.instance, found.value.which) == (*place, None)
    for first, second, which in ((path, EXAMPLES / "product.step", "first"), (EXAMPLES / "product.step", path, "second")):
        with pytest.raises(p21.Refused) as found:
            p21.same(product, first, second)
        assert (found.value.number, found.value.which) == (number, which)
        assert str(found.value).startswith(f"{which}: refused {number} {name}")


def test_sessions(schemas):
    text = file_of(r"#1=POINT('it''s \X2\00E9\X0\',1.E2,2.)/**/;")
    canonical = file_of(r"#1=POINT('it''s \X2\00E9\X0\',1.E2,2.);")
    for at in range(len(text) + 1):
        with p21.Session(schemas["DEMO"]) as session:
            session.feed(text[:at])
            session.feed(text[at:])
            with session.finish() as accepted:
                assert session.closed
                assert accepted.canonical() == canonical
                assert accepted.report == (1, len(canonical))
                assert accepted.line(1) == rb"#1=POINT('it''s \X2\00E9\X0\',1.E2,2.);"
                assert accepted.line(2) is None and accepted.line(-1) is None and accepted.line(2**64) is None


def test_refused_sessions(schemas):
    session = p21.Session(schemas["DEMO"])
    for piece in (file_of("#1=FOO();"), b""):
        with pytest.raises(p21.Refused) as found:
            session.feed(piece)
        assert str(found.value) == "refused 41 UnknownEntity in #1"
    with pytest.raises(p21.Refused) as found:
        session.finish()
    assert str(found.value) == "refused 41 UnknownEntity in #1"
    assert session.closed
    with pytest.raises(ValueError):
        session.feed(b"")
    session.close()
    session = p21.Session(schemas["DEMO"])
    with pytest.raises(p21.Refused) as found:
        session.finish()
    assert str(found.value) == "refused 24 EndsEarly at statement 1"


def test_what_is_closed():
    schema = p21.Schema(DEMO)
    session = p21.Session(schema)
    schema.close()
    schema.close()
    assert schema.closed
    for call in (
        lambda: p21.check(schema, b""),
        lambda: p21.canonical(schema, b""),
        lambda: p21.same(schema, b"", b""),
        lambda: p21.Session(schema),
    ):
        with pytest.raises(ValueError):
            call()
    session.feed(file_of(""))
    accepted = session.finish()
    for call in (lambda: session.feed(b""), session.finish):
        with pytest.raises(ValueError):
            call()
    assert accepted.canonical() == file_of("")
    accepted.close()
    for call in (accepted.canonical, lambda: accepted.line(1)):
        with pytest.raises(ValueError):
            call()
    with p21.Schema(DEMO) as schema:
        assert not schema.closed
    assert schema.closed


def test_what_is_forgotten():
    for _ in range(50):
        schema = p21.Schema(DEMO)
        session = p21.Session(schema)
        session.feed(file_of("")[:40])
        del schema
        session.feed(file_of("")[40:])
        del session
    gc.collect()


def test_names():
    page = (ROOT / "docs" / "FAULTS.md").read_text()
    files = {int(number): name for number, name in re.findall(r"^### (\d+) (\w+)$", page, re.M)}
    assert {number: files[number] for number in words.FILES} == {number: it.name for number, it in words.FILES.items()}
    assert set(files) - set(words.FILES) == {12, 13, 91, 92}
    schemas = {int(number): name for number, name in re.findall(r"^### S(\d) (\w+)$", page, re.M)}
    assert schemas == {number: it.name for number, it in words.SCHEMAS.items()}
    for numbers, names in ((p21.RefusalNumber, words.FILES), (p21.SchemaRefusalNumber, words.SCHEMAS)):
        upper = {number: re.sub(r"(?<=[a-z0-9])(?=[A-Z])", "_", it.name).upper() for number, it in names.items()}
        assert upper == {int(number): number.name for number in numbers}
    named = re.findall(r"`(\w+)`", " ".join(re.findall(r"^\| (`\w+`(?:, `\w+`)*) \|", page.split("### 26 LeftOut")[1].split("###")[0], re.M)))
    assert named == list(faults.ABSENT.values())


def test_version():
    assert p21.version() == re.search(r'VERSION: &str = "([0-9.]+)', (ROOT / "crates/p21_command_line/src/help.rt").read_text())[1]


def output_of(program, folder):
    """What a program in Python prints, run in a folder."""
    environment = dict(os.environ, PYTHONPATH=str(ROOT / "python"), PYTHONDONTWRITEBYTECODE="1")
    run = subprocess.run([sys.executable, "-c", program], cwd=folder, env=environment, capture_output=True, text=True, check=True)
    return run.stdout.splitlines()


def test_library_page():
    page = (ROOT / "docs" / "LIBRARY.md").read_text()
    program, printed = re.search(r"^```python\n(.*?)^```\n\nprints\n\n```\n(.*?)^```", page, re.M | re.S).groups()
    assert output_of(program, ROOT) == printed.splitlines()


def test_readme(tmp_path):
    lines = re.search(r"^In Python,.*\n\n((?:    .*\n)+)", (ROOT / "README.md").read_text(), re.M)[1]
    (tmp_path / "examples").symlink_to(EXAMPLES)
    assert output_of(textwrap.dedent(lines), tmp_path) == ["128", "True", "Block ['PRODUCT_DEFINITION']"]
    assert (tmp_path / "canonical.step").read_bytes() == p21.canonical(p21.Schema((EXAMPLES / "product.exp").read_text()), EXAMPLES / "product.step")


def test_diff(product, tmp_path):
    files = [EXAMPLES / name for name in ("product.step", "product-changed.step", "product-other.step")]
    change = {"kind": "changed", "what": "instance", "a": 24, "b": 24, "entity": "CARTESIAN_POINT", "attribute": "COORDINATES"}
    change.update(keywords="CARTESIAN_POINT", indices=[3], before="1.25E1", after="1.225E1")
    counts = {"kind": "verdict", "verdict": "different", "changed": 1, "came": 0, "went": 0}
    assert p21.diff(product, files[0], files[1]) == [change, counts]
    assert p21.diff(product, files[0], files[1], names=True) == [change, {**counts, "pairs": 128}]
    near = {**counts, "changed": 0, "tolerance": "0.5", "near": 1}
    assert p21.diff(product, files[0], files[1], tolerance=0.5) == [{"kind": "left out", "tolerance": "0.5"}, near]
    ignored = {**counts, "changed": 0, "ignored": 1}
    said = {"kind": "left out", "ignore": ["CARTESIAN_POINT.COORDINATES"]}
    assert p21.diff(product, files[0], files[1], ignore=said["ignore"]) == [said, ignored]
    with pytest.raises(ValueError):
        p21.diff(product, files[0], files[1], ignore=["NONE.X"])
    # The names of all instances, and of what they refer to, are a hundred greater.
    plain = p21.canonical(product, files[2]).decode()
    text = re.sub(r"'(?:[^']|'')*'|#(\d+)", lambda word: f"#{int(word[1]) + 100}" if word[1] else word[0], plain)
    (other := tmp_path / "other.step").write_text(text)
    same = {**counts, "verdict": "same", "changed": 0, "pairs": 128}
    assert p21.diff(product, files[0], other, names=True) == [same]
    assert p21.diff(product, files[0], other)[-1]["verdict"] == "different"
    with pytest.raises(ValueError):
        p21.diff(product, files[0], files[0], tolerance=-1)
    with pytest.raises(p21.Refused):
        p21.diff(product, files[0], EXAMPLES / "refused" / "Count.step", names=True)
