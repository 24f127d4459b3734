"""The texts that the scripts of hostile use run the program on, and what it must answer to them.

The files are of the schema of examples/demo.exp.
"""

import pathlib
import sys

ROOT = pathlib.Path(__file__).resolve().parents[2]
sys.path.append(str(ROOT / "tests"))
import exchange  # noqa: E402

DEMO = (ROOT / "examples" / "demo.exp").read_text()

HEAD = exchange.header("DEMO")


def file_of(instances):
    """A file with these lines in one data section without a name."""
    return exchange.file_of("DEMO", instances)


def ladder():
    """A schema of 31 levels of two entities, each a subtype of both of the level before."""
    entities = []
    for level in range(31):
        above = f" SUBTYPE OF (a{level - 1}, b{level - 1})" if level else ""
        entities += [f"ENTITY {side}{level}{above}; x : INTEGER; END_ENTITY;\n" for side in "ab"]
    return f"SCHEMA ladder;\n{''.join(entities)}END_SCHEMA;\n"


# A file as a converter might write it, and its canonical file.
CONVERTED = r"""ISO-10303-21;
HEADER;
/* made by a converter */
FILE_DESCRIPTION (( 'ViewDefinition [CoordinationView]' ), '2;1' );
FILE_NAME('','',(''),(''),'','','');
FILE_SCHEMA(('DEMO { 1 0 10303 214 1 1 1 1 }'));
ENDSEC;
DATA;
#10 = ( SHAPE('') POINT(1.E-07,-2.5)
 MARKED(.GREEN.) );
#2= POINT('p',0.,10.);
ENDSEC;
END-ISO-10303-21;
""".replace("\n", "\r\n")

CONVERTED_CANONICAL = """ISO-10303-21;
HEADER;
FILE_DESCRIPTION(('ViewDefinition [CoordinationView]'),'2;1');
FILE_NAME('','',(''),(''),'','','');
FILE_SCHEMA(('DEMO { 1 0 10303 214 1 1 1 1 }'));
ENDSEC;
DATA;
#2=POINT('p',0.,1.E1);
#10=(MARKED(.GREEN.)POINT(1.E-7,-2.5)SHAPE(''));
ENDSEC;
END-ISO-10303-21;
"""

SECTIONS = (
    HEAD
    + "DATA('b',('DEMO'));\n#1=POINT($,1.,1.);\nENDSEC;\n"
    + "DATA('a',('demo'));\n#2=POINT($,2.0,1.);\n"
    + exchange.BACK
)

# A file whose strings, number and binary are longer than what lies in place, and one of a longer kind of record.
LONG = file_of(
    "#1=POINT('a label of more than twenty-four characters',1.2345678901234567890123456789,-0.);\n"
    "#2=(POINT(0.000000000000000000000000000001,2.)SHAPE('\\X2\\00E900E8\\X0\\')MARKED(.RED.));\n"
)

# What the calls by themselves are given, whose first instance needs two others.
CALLED = file_of("#9=CLOUD((#3,#2),((2.,1.),()),(TALLY(1)));\n#3=POINT('a',1.,1.);\n#2=POINT($,1.,1.);\n")
CALLED_CANONICAL = file_of("#2=POINT($,1.,1.);\n#3=POINT('a',1.,1.);\n#9=CLOUD((#2,#3),((),(1.,2.)),(TALLY(1)));\n")

# A schema whose names are longer than what lies in place, with a redeclaration, a select and a list of subtypes.
LONG_NAMES = """SCHEMA a_schema_with_a_name_of_many_letters;
TYPE a_measure_with_a_name_of_many_letters = REAL; END_TYPE;
TYPE a_choice_with_a_name_of_many_letters = SELECT (a_measure_with_a_name_of_many_letters, root); END_TYPE;
ENTITY root ABSTRACT SUPERTYPE OF (ONEOF (an_entity_with_a_name_of_many_letters, other)); kept : NUMBER; END_ENTITY;
ENTITY an_entity_with_a_name_of_many_letters SUBTYPE OF (root); SELF\\root.kept : REAL;
an_attribute_with_a_name_of_many_letters : LIST [0:?] OF a_choice_with_a_name_of_many_letters; END_ENTITY;
ENTITY other SUBTYPE OF (root); END_ENTITY;
END_SCHEMA;
"""

# A schema in which many things are looked for before its refusal is found: a name that isn't declared, or what takes itself as its
# supertype.
UNKNOWN = """SCHEMA late;
TYPE t = ENUMERATION OF (i, j); END_TYPE;
TYPE u = SELECT (a, t); END_TYPE;
ENTITY a SUPERTYPE OF (ONEOF (b, d)); x, y : REAL; DERIVE z : REAL := 1; END_ENTITY;
ENTITY b SUBTYPE OF (a); SELF\\a.x : REAL; DERIVE SELF\\a.y : REAL := 1; END_ENTITY;
ENTITY c SUBTYPE OF (b); SELF\\b.x : REAL; END_ENTITY;
ENTITY d SUBTYPE OF (a); v : LIST OF foo; END_ENTITY;
END_SCHEMA;
"""
CIRCULAR = UNKNOWN.replace("LIST OF foo", "LIST OF u").replace("ENTITY c SUBTYPE OF (b)", "ENTITY c SUBTYPE OF (b, c)")
ANEW_TWICE = UNKNOWN.replace("SELF\\b.x : REAL;", "SELF\\b.x : REAL; SELF\\a.x : REAL;")


def wide_schema(count):
    """A schema in which an entity has so many supertypes, of which one has as many below it, and another many attributes."""
    many = [f"ENTITY r{n}; x{n} : OPTIONAL REAL; END_ENTITY;\n" for n in range(count)]
    chain = [f"ENTITY s{n} SUBTYPE OF ({f's{n - 1}' if n else 'r0'}); END_ENTITY;\n" for n in range(count)]
    attributes = ", ".join(f"y{n}" for n in range(20))
    return (
        f"SCHEMA wide;\n{''.join(many)}{''.join(chain)}ENTITY z SUBTYPE OF ({', '.join(f'r{n}' for n in range(count))}); END_ENTITY;\n"
        f"ENTITY y SUBTYPE OF (z); DERIVE SELF\\z.x7 : REAL := 1; END_ENTITY;\nENTITY q SUBTYPE OF (s{count - 1}, r1); END_ENTITY;\n"
        f"ENTITY w; {attributes} : REAL; END_ENTITY;\nENTITY v SUBTYPE OF (w); SELF\\w.y9 : INTEGER; END_ENTITY;\n"
        "ENTITY k; END_ENTITY;\nTYPE some = SELECT (r5, k); END_TYPE;\n"
        "ENTITY to; one : OPTIONAL z; more : LIST OF r3; any : OPTIONAL some; END_ENTITY;\nEND_SCHEMA;\n"
    )


def wide_file(count):
    """A file of that schema: references in front of what they name, in external mapping and not."""
    parts = "".join(sorted(f"R{n}($)" for n in range(count)))
    return file_of(
        f"#1=TO(#4,(#3,#4),#3);\n#2=TO($,(#3),#5);\n#3=({parts});\n#4=({parts}Z());\n#5=K();\n#6=({parts.replace('R7($)', 'R7(*)')}Y()Z());\n"
    ).replace("'DEMO'", "'WIDE'")


WIDE = 66

# Tokens and values of every kind that are longer than what lies in place, spelled as usual and not, and such names.
LONG_WORD = "A_WORD_OF_MORE_THAN_TWENTY_FOUR_LETTERS"
LONG_KINDS = f"""SCHEMA demo;
TYPE {LONG_WORD}_T = REAL; END_TYPE;
TYPE e = ENUMERATION OF ({LONG_WORD}); END_TYPE;
TYPE s = SELECT ({LONG_WORD}_T, e); END_TYPE;
ENTITY {LONG_WORD}_E; a : INTEGER; b : REAL; c : BINARY; d : e; f : s; g : STRING; h : SET OF STRING; END_ENTITY;
END_SCHEMA;
"""
LONG_DIGITS = "1234567890" * 4
LONG_VALUES = file_of(
    f"#1={LONG_WORD}_E({LONG_DIGITS},{LONG_DIGITS}.{LONG_DIGITS}E-12,\"0{LONG_DIGITS}\",.{LONG_WORD}.,{LONG_WORD}_T({LONG_DIGITS}.5),"
    f"'{LONG_DIGITS}\\X2\\00E900E8\\X0\\\u00e9',('{LONG_DIGITS}b','{LONG_DIGITS}a'));\n"
    f"#2 = {LONG_WORD}_E ( -{LONG_DIGITS} , {LONG_DIGITS}. , \"0{LONG_DIGITS}\" , .{LONG_WORD}. , {LONG_WORD}_T ( {LONG_DIGITS}.5 ) , "
    f"'{LONG_DIGITS}\\X2\\00E900E8\\X0\\\u00e9' , ( '{LONG_DIGITS}b' , '{LONG_DIGITS}a' ) ) ;\n"
).replace("ENDSEC;", f"!{LONG_WORD}(.{LONG_WORD}.,\"0{LONG_DIGITS}\",{LONG_DIGITS});\nENDSEC;", 1)

# Two clouds of the same two points.
ALIKE = "#1=POINT($,1.,1.);\n#2=POINT($,1.,1.);\n#3=CLOUD((#1,#2),(),(TALLY(1)));\n#4=CLOUD((#1,#2),(),(TALLY(1)));\n"

# Each file by its name.
FILES = {
    "kinds.exp": LONG_KINDS,
    "kinds": LONG_VALUES,
    "unknown.exp": UNKNOWN,
    "circular.exp": CIRCULAR,
    "anew.exp": ANEW_TWICE,
    "wide.exp": wide_schema(WIDE),
    "wide": wide_file(WIDE),
    "demo.exp": DEMO,
    "long.exp": LONG_NAMES,
    "ladder.exp": ladder(),
    "point": file_of("#2 = POINT($, 1.0, 10.E-1);\n"),
    "sizes": file_of("#1=CLOUD((),((2.,1.),(),(1.0,2.)),(TALLY(1)));\n"),
    "select": file_of("#1=CLOUD((),(),(DISTANCE(1.0),TALLY(1),#2));\n#2=POINT($,1.,1.);\n"),
    "converted": CONVERTED,
    "canonical": CONVERTED_CANONICAL,
    "bags": file_of("#1=CLOUD((),((2.,1.),(3.)),(TALLY(1)));\n"),
    "bags.same": file_of("#1=CLOUD((),((3.0),(1.,2.0)),(TALLY(1)));\n"),
    "bags.other": file_of("#1=CLOUD((),((1.),(2.,3.)),(TALLY(1)));\n"),
    "sections": SECTIONS,
    "late": file_of("#9=CLOUD((#3,#2),(),(TALLY(1)));\n#3=POINT('a',1.,1.);\n#2=POINT($,1.,1.);\n"),
    "late.other": file_of("#19=CLOUD((#7,#8),(),(TALLY(1)));\n#7=POINT($,1.,1.);\n#8=POINT('a',1.,1.);\n"),
    "alike": file_of(ALIKE),
    "alike.other": file_of(ALIKE.replace("#", "#1")),
    "long": LONG,
    # Rows of several lengths, with a list at their end
    "rows": file_of(f"#1=POINT(({'1,' * 33}(1),(1,2,3,(4)),A(({'1,' * 17}(1),2))),{'1,' * 9}(1));\n"),
    "twice": file_of("#1=POINT($,1.,1.);\n#1=POINT($,1.,1.);\n"),
    # Broken statements, a refused one with a statement in a string, and two remarks that never end
    "broken": file_of(
        "#1=point($,1.,1.);\n#2=POINT('a;\n#9=',1.);\n#3=POINT($,1.,1.)\n#4=CLOUD((#2,#77),(),(TALLY(1)));\n#5=POINT('b,1.,1.);\n"
        "#6=POINT('c',1.,1.);\n#7=CLOUD((#4),(),(TALLY(1)));\n#8=POINT($,2.); /* d\n#10=POINT($,1.,1.); /* e\n"
    ),
}

# What `param` reads: strings, directives, and every kind of scalar, with texts that it refuses.
STRINGS = [
    r"'caf\X\E9'",
    r"'caf\S\i'",
    r"'caf\X2\00E9\X0\'",
    r"'\PA\caf\S\i'",
    "'caf\u00e9'",
    r"'\S\'x'",
    r"'\S\\'",
    r"'it''s \\'",
    "'a\nb'",
    b"'\xe9'",
]
DIRECTIVES = [
    r"'\X2\D83DDE00\X0\'",
    r"'\X4\0001F600\X0\'",
    r"'\X2\D83D\X0\'",
    r"'\X4\0000D83D\X0\'",
    r"'\X4\00110000\X0\'",
    r"'\X2\00e9\X0\'",
    r"'\X2\\X0\'",
    r"'a\PB\b'",
    r"'\N\'",
]
SCALARS = [
    "+012.500E+03",
    "+007",
    "-0",
    "123.450",
    "1.E0000000001",
    "0.E999999999",
    "1.E9999",
    "10.E9999",
    "0.E1000000000",
    "1.E",
    "1.EX",
    ".T.",
    "$",
    '"23B"',
    '"0"',
    '"30"',
    '"33B"',
    '"1"',
    "#007",
    "#)",
    "1 2",
    "(1)",
    "RED",
    "",
]
PARAMETERS = {
    f"{kind}{place}": text
    for kind, texts in (("string", STRINGS), ("directive", DIRECTIVES), ("scalar", SCALARS))
    for place, text in enumerate(texts, 1)
}


def write_all(rigged):
    """Writes each text into the program's folder."""
    for name, text in {**FILES, **PARAMETERS}.items():
        rigged.write(name, text)
