#!/usr/bin/env python3
"""Cases whose answers come from the rules, by hand: each example of docs/CANONICAL.md, each text of docs/FAULTS.md, the broken
files of every_refusal.py one by one, and the tables below. The program and the plain reading (tests/plain) both have to answer
each of them so. Other limits than the usual ones are set by no option of the program, so that those rows are of the plain
reading alone; tests of the gate (`limits` in p21_test_stream and in p21_test_tokens) hold the library to such rows.

The environment variable P21 names the program.
"""

import os
import pathlib
import re
import sys
import tempfile
from typing import NamedTuple

import canonical_form
import every_refusal
import texts
from fuzz import Program, plain_answer
from fuzzing.rows import DEMO, DIAMOND
from plain import commands
from plain.limits import USUAL, Limits, are_limits
from plain.refusal import Refused
from plain.tokens import tokens
from tooling import ROOT

# Where nothing names the program, tooling does.
PROGRAM = os.environ["P21"]


class Case(NamedTuple):
    """A run of one command on texts: what it writes to each stream, and its status."""

    title: str
    command: str
    texts: list
    answer: tuple
    options: list = []


# One parameter, and what `p21 param` answers.
PARAMETERS = [
    # Integers
    ("16", "16"),
    ("+12", "12"),
    ("-349", "-349"),
    ("012", "12"),
    ("00", "0"),
    ("+007", "7"),
    ("-0", "0"),
    ("26 54", "refused 12 NotOneParameter"),
    ("+ 12", "refused 7 BadNumber"),
    ("+x", "refused 7 BadNumber"),
    ("+", "refused 24 EndsEarly"),
    # Reals
    ("+0.0E0", "0."),
    ("-0.0E-0", "0."),
    ("1.5", "1.5"),
    ("-32.178E+02", "-3.2178E3"),
    ("0.25E8", "2.5E7"),
    ("0.E25", "0."),
    ("2.", "2."),
    ("5.0", "5."),
    ("+012.500E+03", "1.25E4"),
    ("123.450", "1.2345E2"),
    ("1.E0000000001", "1.E1"),
    ("0.E999999999", "0."),
    ("1.E9999", "1.E9999"),
    ("0.1E10000", "1.E9999"),
    ("0.1E-9998", "1.E-9999"),
    ("10.E9999", "refused 8 NumberRange"),
    ("0.01E-9998", "refused 8 NumberRange"),
    ("0.E1000000000", "refused 8 NumberRange"),
    ("1.E", "refused 24 EndsEarly"),
    ("1.EX", "refused 7 BadNumber"),
    ("1.E ", "refused 7 BadNumber"),
    ("1.E+", "refused 24 EndsEarly"),
    ("1.E+X", "refused 7 BadNumber"),
    ("-.5", "refused 7 BadNumber"),
    ("1.E-9999", "1.E-9999"),
    ("1.E-10000", "refused 8 NumberRange"),
    ("0.0001E-9995", "1.E-9999"),
    ("0.00010E-9996", "refused 8 NumberRange"),
    ("1000.E9996", "1.E9999"),
    ("0.0E999999999", "0."),
    ("0.0E-0001000000000", "refused 8 NumberRange"),
    ("0.0E-000999999999", "0."),
    ("1.2E3.", "refused 24 EndsEarly"),
    ("1E05", "refused 12 NotOneParameter"),
    ("1,000.00", "refused 12 NotOneParameter"),
    (".5", "refused 1 BadByte"),
    ("1.5E3E", "refused 12 NotOneParameter"),
    ("1..T.", "refused 12 NotOneParameter"),
    # Items, binaries, names, and what stands for no value
    (".STEEL.", ".STEEL."),
    (".T.", ".T."),
    (".t.", "refused 1 BadByte"),
    ("._1A.", "._1A."),
    (".1.", "refused 1 BadByte"),
    (".T ", "refused 1 BadByte"),
    (".T", "refused 24 EndsEarly"),
    ("$", "$"),
    ("*", "*"),
    ('"0"', '"0"'),
    ('"30"', '"30"'),
    ('"31"', '"31"'),
    ('"23B"', '"23B"'),
    ('"092A"', '"092A"'),
    ('"33B"', "refused 9 BadBinary"),
    ('"1"', "refused 9 BadBinary"),
    ('"23b"', "refused 9 BadBinary"),
    ('"13"', '"13"'),
    ('"17F"', '"17F"'),
    ('"18"', "refused 9 BadBinary"),
    ('"24"', "refused 9 BadBinary"),
    ('"32"', "refused 9 BadBinary"),
    ('"4"', "refused 9 BadBinary"),
    ('"0G"', "refused 9 BadBinary"),
    ('"0F', "refused 24 EndsEarly"),
    ("#12", "#12"),
    ("#023", "#23"),
    ("#007", "#7"),
    ("#0", "#0"),
    ("#18446744073709551615", "#18446744073709551615"),
    ("#18446744073709551616", "refused 10 NameRange"),
    ("#00018446744073709551615", "#18446744073709551615"),
    ("#00018446744073709551616", "refused 10 NameRange"),
    ("#", "refused 24 EndsEarly"),
    ("#+23", "refused 11 BadName"),
    ("#)", "refused 11 BadName"),
    ("#A", "refused 26 LeftOut(ConstantName)"),
    ("&A", "refused 26 LeftOut(Scope)"),
    ("@1", "refused 26 LeftOut(ValueName)"),
    # Strings
    ("'CAT'", "'CAT'"),
    ("'Don''t'", "'Don''t'"),
    ("''''", "''''"),
    ("''", "''"),
    (r"'it''s \\'", r"'it''s \\'"),
    ("'a\nb'", "'ab'"),
    ("'\x00a\x1f\x7f'", "'a'"),
    ("' !~'", "' !~'"),
    (r"'\X\00\X\1F\X\20\X\7E\X\7F\X\FF'", r"'\X2\0000\X0\\X2\001F\X0\ ~\X2\007F\X0\\X2\00FF\X0\'"),
    (r"'\X\27\X\5C'", r"'''\\'"),
    (r"'\S\ \S\~'", r"'\X2\00A0\X0\\X2\00FE\X0\'"),
    ("'\\S\\\n'", "refused 4 BadDirective"),
    ("'\\X\\E\n9'", "refused 4 BadDirective"),
    (r"'\X\G0'", "refused 4 BadDirective"),
    (r"'\X3\00'", "refused 4 BadDirective"),
    (r"'\X2\00E9\X1\'", "refused 4 BadDirective"),
    (r"'\X4\0001F60\X0\'", "refused 4 BadDirective"),
    (r"'\X4\\X0\'", "refused 4 BadDirective"),
    (r"'\X2\0", "refused 2 OpenString"),
    (r"'\S\Drger'", r"'\X2\00C4\X0\rger'"),
    (r"'h\S\ttel'", r"'h\X2\00F4\X0\tel'"),
    (r"'Nestl\S\i'", r"'Nestl\X2\00E9\X0\'"),
    (r"'\PA\caf\S\i'", r"'caf\X2\00E9\X0\'"),
    (r"'\PE\\S\*\S\U\S\b'", "refused 4 BadDirective"),
    (r"'a\PB\b'", "refused 4 BadDirective"),
    (r"'\N\'", "refused 4 BadDirective"),
    (r"'\F\'", "refused 4 BadDirective"),
    (r"'\S\'x'", r"'\X2\00A7\X0\x'"),
    (r"'\S\\'", r"'\X2\00DC\X0\'"),
    (r"'\S\'", "refused 2 OpenString"),
    (r"'see \X\A7 4.1'", r"'see \X2\00A7\X0\ 4.1'"),
    (r"'line one\X\0Aline two'", r"'line one\X2\000A\X0\line two'"),
    (r"'caf\X\E9'", r"'caf\X2\00E9\X0\'"),
    (r"'caf\X\e9'", "refused 4 BadDirective"),
    (r"'caf\X2\00E9\X0\'", r"'caf\X2\00E9\X0\'"),
    ("'caf\u00e9'", r"'caf\X2\00E9\X0\'"),
    ("'\u00e9'''", r"'\X2\00E9\X0\'''"),
    (b"'caf\xe9'", "refused 6 NotUtf8"),
    # The first and the last characters of two, three and four bytes in UTF-8, and what is beside them
    ("'\u0080\u07ff'", r"'\X2\0080\X0\\X2\07FF\X0\'"),
    ("'\u0800\ud7ff\ue000\uffff'", r"'\X2\0800\X0\\X2\D7FF\X0\\X2\E000\X0\\X2\FFFF\X0\'"),
    ("'\U00010000\U0010ffff'", r"'\X4\00010000\X0\\X4\0010FFFF\X0\'"),
    (b"'\x80'", "refused 6 NotUtf8"),
    (b"'\xc1\xbf'", "refused 6 NotUtf8"),
    (b"'\xe0\x9f\xbf'", "refused 6 NotUtf8"),
    (b"'\xed\xa0\x80'", "refused 6 NotUtf8"),
    (b"'\xf0\x8f\xbf\xbf'", "refused 6 NotUtf8"),
    (b"'\xf4\x90\x80\x80'", "refused 6 NotUtf8"),
    (b"'\xf5\x80\x80\x80'", "refused 6 NotUtf8"),
    (b"'\xf0\x9f\x98'", "refused 6 NotUtf8"),
    (b"'\xf0\x9f\x98", "refused 2 OpenString"),
    (b"'\xc3\n\xa9'", "refused 6 NotUtf8"),
    (r"'\X2\00E900E8\X0\'", r"'\X2\00E9\X0\\X2\00E8\X0\'"),
    (r"'\X2\D83DDE00\X0\'", r"'\X4\0001F600\X0\'"),
    (r"'\X4\0001F600\X0\'", r"'\X4\0001F600\X0\'"),
    ("'\U0001f600'", r"'\X4\0001F600\X0\'"),
    (r"'\X2\D7FFE000D800DC00DBFFDFFF\X0\'", r"'\X2\D7FF\X0\\X2\E000\X0\\X4\00010000\X0\\X4\0010FFFF\X0\'"),
    (r"'\X4\0000D7FF0000E0000010FFFF\X0\'", r"'\X2\D7FF\X0\\X2\E000\X0\\X4\0010FFFF\X0\'"),
    (r"'\X4\0000D800\X0\'", "refused 5 BadCodePoint"),
    (r"'\X4\0000DFFF\X0\'", "refused 5 BadCodePoint"),
    (r"'\X2\DBFFE000\X0\'", "refused 5 BadCodePoint"),
    (r"'\X2\D800D800DC00\X0\'", "refused 5 BadCodePoint"),
    (r"'\X2\D83D\X0\'", "refused 5 BadCodePoint"),
    (r"'\X2\DE00\X0\'", "refused 5 BadCodePoint"),
    (r"'\X2\D83D0041\X0\'", "refused 5 BadCodePoint"),
    (r"'\X2\D83D\X0\\X2\DE00\X0\'", "refused 5 BadCodePoint"),
    (r"'\X4\0000D83D\X0\'", "refused 5 BadCodePoint"),
    (r"'\X4\00110000\X0\'", "refused 5 BadCodePoint"),
    (r"'\X2\00e9\X0\'", "refused 4 BadDirective"),
    (r"'\X2\\X0\'", "refused 4 BadDirective"),
    ("'a", "refused 2 OpenString"),
    ("'" + "a" * 1_000_000 + "'", "'" + "a" * 1_000_000 + "'"),
    # Separators, and other texts than of one scalar
    ("/***/ 1 /* a /* b */", "1"),
    ("/*/ 1", "refused 3 OpenComment"),
    ("/* a /* b */ */ 1", "refused 1 BadByte"),
    ("\x00\x1f\x7f1\x00", "1"),
    (r"\N\1", "refused 1 BadByte"),
    ("1 2", "refused 12 NotOneParameter"),
    ("(1)", "refused 12 NotOneParameter"),
    ("RED", "refused 12 NotOneParameter"),
    ("!RED", "refused 12 NotOneParameter"),
    ("RED-", "refused 1 BadByte"),
    ("ISO-10303-21", "refused 12 NotOneParameter"),
    ("ISO-10303-22", "refused 1 BadByte"),
    ("ISO-10303-211", "refused 1 BadByte"),
    ("END-ISO-10303-21_", "refused 1 BadByte"),
    ("END-ISO-10303-2", "refused 24 EndsEarly"),
    ("!RED-", "refused 1 BadByte"),
    ("!1", "refused 1 BadByte"),
    ("1 %", "refused 1 BadByte"),
    ("1 2%", "refused 12 NotOneParameter"),
    ("", "refused 24 EndsEarly"),
    ("/", "refused 24 EndsEarly"),
    (" " * 16_777_217, "refused 23 FileTooLong"),
]

REDECL = r"""SCHEMA redecl;
ENTITY r; k : NUMBER; END_ENTITY;
ENTITY a SUBTYPE OF (r); SELF\r.k : INTEGER; END_ENTITY;
ENTITY b SUBTYPE OF (r); SELF\r.k : REAL; END_ENTITY;
END_SCHEMA;
"""

WIDE = """SCHEMA wide;
ENTITY e; s : STRING(3); f : STRING(2) FIXED; b : BINARY(4);
o : ARRAY [1:2] OF OPTIONAL INTEGER; n : BOOLEAN; END_ENTITY;
END_SCHEMA;
"""

SOLE = """SCHEMA sole;
ENTITY s SUPERTYPE OF (ONEOF (a, b)); k : INTEGER; END_ENTITY;
ENTITY a SUBTYPE OF (s); END_ENTITY;
ENTITY b SUBTYPE OF (s); END_ENTITY;
ENTITY c SUBTYPE OF (s); END_ENTITY;
END_SCHEMA;
"""

# The names of a list that isn't kept, since more stands behind it.
ANDOR = SOLE.replace("SCHEMA sole", "SCHEMA andor").replace("(ONEOF (a, b))", "(ONEOF (a, b) ANDOR c)")

RULES = r"""SCHEMA rules;
TYPE colour = ENUMERATION OF (red, green); END_TYPE;
TYPE hue = colour; END_TYPE;
TYPE metre = REAL; END_TYPE;
TYPE tally = INTEGER; END_TYPE;
TYPE inner = SELECT (metre, hue); END_TYPE;
TYPE outer = SELECT (inner, base); END_TYPE;
TYPE tone = SELECT (colour); END_TYPE;
ENTITY base; k : NUMBER; END_ENTITY;
ENTITY narrow SUBTYPE OF (base); SELF\base.k : OPTIONAL INTEGER; END_ENTITY;
ENTITY broad SUBTYPE OF (base); SELF\base.k : OPTIONAL REAL; END_ENTITY;
ENTITY both SUBTYPE OF (narrow, broad); SELF\base.k : INTEGER; END_ENTITY;
ENTITY given SUBTYPE OF (base); DERIVE SELF\base.k : NUMBER := 1; END_ENTITY;
ENTITY logic; v : LOGICAL; END_ENTITY;
ENTITY numbers; v : SET OF NUMBER; END_ENTITY;
ENTITY places; v : ARRAY [0:2] OF OPTIONAL UNIQUE NUMBER; END_ENTITY;
ENTITY words; v : LIST [2:3] OF UNIQUE STRING; END_ENTITY;
ENTITY six; v : BINARY(6) FIXED; END_ENTITY;
ENTITY chosen; v : outer; END_ENTITY;
ENTITY toned; v : tone; END_ENTITY;
ENTITY tones; v : SET OF SET OF colour; END_ENTITY;
ENTITY only; v : inner; END_ENTITY;
ENTITY full; v : ARRAY [1:2] OF INTEGER; END_ENTITY;
ENTITY series; v : LIST OF INTEGER; END_ENTITY;
TYPE nest = LIST OF nest; END_TYPE;
ENTITY deep; v : nest; END_ENTITY;
END_SCHEMA;
"""

# An entity, one below it, and one below that.
ANEW = "SCHEMA anew; ENTITY a; {of_a} END_ENTITY; ENTITY b SUBTYPE OF (a); {of_b} END_ENTITY; ENTITY c SUBTYPE OF (b); {of_c} END_ENTITY; END_SCHEMA;"

# The names of forty attributes, and what `p21 schema` answers where the last entity derives one of them.
FORTY = ", ".join(f"x{n}" for n in range(40))
ANEW_FORTY = f"SCHEMA ANEW\nA({FORTY})\nB({FORTY})\nC({FORTY.replace('x9,', '*,')})".replace(", ", ",").upper()

# Levels of two entities, each a subtype of both of the level before: as many paths as 2 to the 30th lead to the first ones.
LADDER = "SCHEMA ladder;\n{}END_SCHEMA;\n".format(
    "".join(
        f"ENTITY {name}{level}{f' SUBTYPE OF (a{level - 1}, b{level - 1})' if level else ''}; x : INTEGER; END_ENTITY;\n"
        for level in range(31)
        for name in "ab"
    )
)

# Sets that break several rules.
SEVERAL = r"""SCHEMA several;
ENTITY r SUPERTYPE OF (ONEOF (a, b)); k : NUMBER; END_ENTITY;
ENTITY a SUBTYPE OF (r); SELF\r.k : INTEGER; END_ENTITY;
ENTITY b SUBTYPE OF (r); SELF\r.k : REAL; END_ENTITY;
ENTITY c ABSTRACT SUBTYPE OF (r); END_ENTITY;
END_SCHEMA;
"""

# Two entities declare one attribute anew, and one below both does or doesn't.
TWICE = r"""SCHEMA twice;
ENTITY r; k : NUMBER; END_ENTITY;
ENTITY a SUBTYPE OF (r); SELF\r.k : INTEGER; END_ENTITY;
ENTITY b SUBTYPE OF (r); SELF\r.k : INTEGER; END_ENTITY;
ENTITY c SUBTYPE OF (a, b); END_ENTITY;
ENTITY d SUBTYPE OF (a, b); SELF\r.k : INTEGER; END_ENTITY;
END_SCHEMA;
"""

# An entity that stands in two ONEOF lists.
LISTS = """SCHEMA lists;
ENTITY s SUPERTYPE OF (ONEOF (a, b)); END_ENTITY;
ENTITY t SUPERTYPE OF (ONEOF (c, d)); END_ENTITY;
ENTITY u SUPERTYPE OF (ONEOF (e, f, a)); END_ENTITY;
ENTITY a SUBTYPE OF (s, u); END_ENTITY;
ENTITY b SUBTYPE OF (s); END_ENTITY;
ENTITY c SUBTYPE OF (t); END_ENTITY;
ENTITY d SUBTYPE OF (t); END_ENTITY;
ENTITY e SUBTYPE OF (u); END_ENTITY;
ENTITY f SUBTYPE OF (u); END_ENTITY;
END_SCHEMA;
"""

# Eighty entities, of which one has all as supertypes, or each the one before; and one that refers to them.
EIGHTY = range(80)
MANY = "SCHEMA many;\n{}ENTITY z SUBTYPE OF ({}); END_ENTITY;\n{}END_SCHEMA;\n".format(
    "".join(f"ENTITY r{n}; x{n} : OPTIONAL REAL; END_ENTITY;\n" for n in EIGHTY),
    ", ".join(f"r{n}" for n in EIGHTY),
    "ENTITY y SUBTYPE OF (z); DERIVE SELF\\z.x7 : REAL := 1; END_ENTITY;\nENTITY to; one : OPTIONAL z; more : LIST OF r3; END_ENTITY;\n"
    "ENTITY k; END_ENTITY;\nTYPE some = SELECT (r5, k); END_TYPE;\nTYPE other = SELECT (k, any); END_TYPE;\n"
    "ENTITY any; one : OPTIONAL some; more : LIST OF other; it : OPTIONAL k; END_ENTITY;\n",
)
CHAIN = "SCHEMA chain;\n{}{}END_SCHEMA;\n".format(
    "".join(f"ENTITY r{n}{f' SUBTYPE OF (r{n - 1})' * (n > 0)}; x{n} : OPTIONAL REAL; END_ENTITY;\n" for n in EIGHTY),
    "ENTITY q SUBTYPE OF (r79); END_ENTITY;\nENTITY u; END_ENTITY;\nENTITY p SUBTYPE OF (r79, u); END_ENTITY;\n"
    "ENTITY v SUBTYPE OF (u, r79); w : REAL; END_ENTITY;\nENTITY to; one : OPTIONAL u; more : LIST OF r3; END_ENTITY;\n",
)
UNSET = ",".join("$" for _ in EIGHTY)
WITHOUT_EIGHTH = ",".join("*" if n == 7 else "$" for n in EIGHTY)


def parts(*more, unset="$"):
    """The eighty parts and these in external mapping, in the order of their keywords."""
    return f"({''.join(sorted([*(f'R{n}({unset if n == 7 else chr(36)})' for n in EIGHTY), *more]))})"


SCHEMAS = {"DEMO": DEMO, "DIAMOND": DIAMOND, "REDECL": REDECL, "WIDE": WIDE, "SOLE": SOLE, "ANDOR": ANDOR, "RULES": RULES, "SEVERAL": SEVERAL}
SCHEMAS |= {"TWICE": TWICE, "LISTS": LISTS, "MANY": MANY, "CHAIN": CHAIN}

POINTS = "".join(f"#{n}=POINT($,1.,1.);\n" for n in range(2, 2002))
MEMBERS = ",".join(f"#{n}" for n in range(2, 2002))

# Backslashes in a string that begin no directive.
NO_DIRECTIVES = ["\\S\\\x1f", "\\S\\\u00e9", "\\X2\\\\X0\\", "\\X2A", "\\X4A", "\\X3\\", "\\XA", "\\SA", "\\PB\\", "\\PAA"]

# Of each schema: what stands between `DATA;` and `ENDSEC;`, and the refusal, or what stands there in the canonical file.
INSTANCES = {
    "DEMO": [
        ("", ""),
        ("#2 = POINT($, 1.0, 10.E-1);", "#2=POINT($,1.,1.);"),
        ("#007=POINT('a',-0.0,0.00250);", "#7=POINT('a',0.,2.5E-3);"),
        ("#1=POINT($,1.,1.);#01=POINT($,1.,1.);", "refused 40 DuplicateName in #1"),
        ("#1=POINT($,1.,1.);#1=FOO();", "refused 40 DuplicateName in #1"),
        ("#1=CLOUD((),((2.,1.),(),(1.0,2.)),(TALLY(1)));", "#1=CLOUD((),((),(1.,2.),(1.,2.)),(TALLY(1)));"),
        ("#1=CLOUD((#2,#02),(),(TALLY(1)));", "refused 52 NotDistinct in #1"),
        (
            "#1=CLOUD((#2,#10),(),(TALLY(1)));#2=POINT($,1.,1.);#10=POINT($,1.,1.);",
            "#1=CLOUD((#10,#2),(),(TALLY(1)));\n#2=POINT($,1.,1.);\n#10=POINT($,1.,1.);",
        ),
        (
            f"#1=CLOUD(({MEMBERS}),(),(TALLY(1)));\n{POINTS}",
            f"#1=CLOUD(({','.join(sorted(MEMBERS.split(',')))}),(),(TALLY(1)));\n{POINTS[:-1]}",
        ),
        (f"#1=CLOUD(({MEMBERS},#02),(),(TALLY(1)));\n{POINTS}", "refused 52 NotDistinct in #1"),
        # External mapping
        ("#1=(POINT(1.,2.)SHAPE('a'));", "#1=POINT('a',1.,2.);"),
        ("#1=(SHAPE($)POINT(1.,2.)MARKED(.RED.));", "#1=(MARKED(.RED.)POINT(1.,2.)SHAPE($));"),
        ("#1=(POINT(1.,2.)MARKED(.RED.));", "refused 43 PartMissing in #1"),
        ("#1=(SHAPE($)SHAPE($)POINT(1.,2.));", "refused 44 PartTwice in #1"),
        ("#1=(SHAPE('a'));", "refused 42 Abstract in #1"),
        ("#1=(POINT(1.,2.));", "refused 43 PartMissing in #1"),
        ("#1=(POINT(1.,2.)FOO());", "refused 41 UnknownEntity in #1"),
        ("#1=(POINT(1.)SHAPE('a'));", "refused 45 Count in #1"),
        ("#1=(ORIGIN()POINT(*,2.)SHAPE($));", "#1=ORIGIN($,*,2.);"),
        ("#1=(CLOUD((),(),(TALLY(1)))POINT(1.,2.)SHAPE($));", "#1=(CLOUD((),(),(TALLY(1)))POINT(1.,2.)SHAPE($));"),
        ("#1=();", "refused 20 Unexpected at statement 8"),
        # Which refusal of several comes first
        ("#1=(FOO()FOO());", "refused 41 UnknownEntity in #1"),
        ("#1=(POINT(1.,2.)POINT(1.,2.));", "refused 44 PartTwice in #1"),
        ("#1=SHAPE();", "refused 42 Abstract in #1"),
        ("#1=POINT(1);", "refused 45 Count in #1"),
        ("#1=POINT($,$,*);", "refused 46 Missing in #1"),
        ("#1=POINT($,*,$);", "refused 47 StarNotDerived in #1"),
        ("#1=CLOUD((1,2),(),());", "refused 49 WrongKind in #1"),
        ("#1=CLOUD((#2,#2,1),(),());", "refused 49 WrongKind in #1"),
        ("#1=CLOUD((),(),(1,2,3,4));", "refused 51 Bounds in #1"),
        ("#1=(SHAPE(1)POINT($,1.));", "refused 49 WrongKind in #1"),
        ("#1=(POINT($,1.)SHAPE(1));", "refused 46 Missing in #1"),
        ("#1=(POINT($,1.)SHAPE());", "refused 45 Count in #1"),
        # Values
        ("#1=ORIGIN($,*,2.);", "#1=ORIGIN($,*,2.);"),
        ("#1=ORIGIN($,0.,2.);", "refused 48 DerivedNotStar in #1"),
        ("#1=ORIGIN($,$,2.);", "refused 48 DerivedNotStar in #1"),
        ("#1=POINT($,*,2.);", "refused 47 StarNotDerived in #1"),
        ("#1=SHAPE($);", "refused 42 Abstract in #1"),
        ("#1=FOO();", "refused 41 UnknownEntity in #1"),
        ("#1=DISTANCE(1.);", "refused 41 UnknownEntity in #1"),
        ("#1=POINT($,1.);", "refused 45 Count in #1"),
        ("#1=POINT($,1,2.);", "refused 49 WrongKind in #1"),
        ("#1=POINT($,$,2.);", "refused 46 Missing in #1"),
        (
            "#1=CLOUD((),(),(DISTANCE(1.0),TALLY(1),#2));#2=POINT($,1.,1.);",
            "#1=CLOUD((),(),(DISTANCE(1.),TALLY(1),#2));\n#2=POINT($,1.,1.);",
        ),
        ("#1=CLOUD((),(),(1.0));", "refused 54 SelectType in #1"),
        ("#1=CLOUD((),(),(MEASURE(TALLY(1))));", "refused 54 SelectType in #1"),
        ("#1=CLOUD((),(),(TALLY(1),TALLY(01)));", "refused 52 NotDistinct in #1"),
        ("#1=CLOUD((),(),(DISTANCE(1.),DISTANCE(10.E-1)));", "refused 52 NotDistinct in #1"),
        ("#1=CLOUD((),(),());", "refused 51 Bounds in #1"),
        ("#1=CLOUD((),(),(TALLY(1),TALLY(2),TALLY(3)));", "#1=CLOUD((),(),(TALLY(1),TALLY(2),TALLY(3)));"),
        ("#1=CLOUD((),(),(TALLY(1),TALLY(2),TALLY(3),TALLY(4)));", "refused 51 Bounds in #1"),
        ("#1=CLOUD(#1,(),(TALLY(1)));", "refused 49 WrongKind in #1"),
        ("#1=(SHAPE($)POINT(1.,2.)MARKED('RED'));", "refused 49 WrongKind in #1"),
        ("#1=(SHAPE($)POINT(1.,2.)MARKED(.BLUE.));", "refused 53 UnknownItem in #1"),
        ("#1=CLOUD((),(),(TALLY($)));", "refused 46 Missing in #1"),
        ("#1=CLOUD((),(),(TALLY(*)));", "refused 47 StarNotDerived in #1"),
        # References
        (
            "#1=CLOUD((#2),(),(TALLY(1)));#2=ORIGIN($,*,2.);",
            "#1=CLOUD((#2),(),(TALLY(1)));\n#2=ORIGIN($,*,2.);",
        ),
        ("#1=CLOUD((#2),(),(TALLY(1)));#2=CLOUD((),(),(TALLY(1)));", "refused 57 WrongTarget in #1"),
        ("#1=CLOUD((#2),(),(TALLY(1)));", "refused 56 Dangling in #1"),
        # Names, nesting, and what is no statement
        ("#00=POINT($,1.,1.);", "#0=POINT($,1.,1.);"),
        ("#18446744073709551615=POINT($,1.,1.);", "#18446744073709551615=POINT($,1.,1.);"),
        ("#18446744073709551616=POINT($,1.,1.);", "refused 10 NameRange at statement 8"),
        ("#1=POINT($," + "(" * 64 + ")" * 64 + ",1.);", "refused 49 WrongKind in #1"),
        ("#1=POINT($," + "(" * 65 + ")" * 65 + ",1.);", "refused 21 TooDeep at statement 8"),
        ("#1=POINT($," + "A(" * 64 + "1" + ")" * 64 + ",1.);", "refused 49 WrongKind in #1"),
        ("#1=POINT($," + "A(" * 65 + "1" + ")" * 65 + ",1.);", "refused 21 TooDeep at statement 8"),
        ("#1=POINT('it''s \\X2\\00E9\\X0\\',1.E2,2.)/**/;", "#1=POINT('it''s \\X2\\00E9\\X0\\',1.E2,2.);"),
        *((f"#1=POINT('{directive}',1.,1.);", "refused 4 BadDirective at statement 8") for directive in NO_DIRECTIVES),
        ("#1=&SCOPE", "refused 26 LeftOut(Scope) at statement 8"),
        ("\\N\\#1=POINT($,1.,1.);", "refused 1 BadByte at statement 8"),
        ("#1=!A();", "refused 26 LeftOut(UserKeyword) at statement 8"),
        ("#1=POINT(!A(1),1.,1.);", "refused 26 LeftOut(UserKeyword) at statement 8"),
        ("#1=(SHAPE($)!A());", "refused 26 LeftOut(UserKeyword) at statement 8"),
        ("#1=point();", "refused 1 BadByte at statement 8"),
        ("#1=POINT(;", "refused 20 Unexpected at statement 8"),
        ("#1=A(1,);", "refused 20 Unexpected at statement 8"),
        ("#1=A(,1);", "refused 20 Unexpected at statement 8"),
        ("#1=A(B());", "refused 20 Unexpected at statement 8"),
        ("#1=A(B(1,2));", "refused 20 Unexpected at statement 8"),
        ("#1=A(B);", "refused 20 Unexpected at statement 8"),
        ("#1=(A(),B());", "refused 20 Unexpected at statement 8"),
        ("#1=A()B();", "refused 20 Unexpected at statement 8"),
        ("#1=#2;", "refused 20 Unexpected at statement 8"),
        ("A();", "refused 20 Unexpected at statement 8"),
        ("ENDSEC;HEADER;", "refused 20 Unexpected at statement 9"),
        ("X=", "refused 20 Unexpected at statement 8"),
        ("#1=POINT($,1.E10000,1.);", "refused 8 NumberRange at statement 8"),
    ],
    "DIAMOND": [
        ("#1=C(1,2,3,4);", "#1=C(1,2,3,4);"),
        ("#1=(C(4)B(3)A(2)R(1));", "#1=C(1,2,3,4);"),
        ("#1=(R(1)B(3)A(2));", "#1=(A(2)B(3)R(1));"),
    ],
    "REDECL": [
        ("#1=R(1);", "#1=R(1.);"),
        ("#1=A(1);", "#1=A(1);"),
        ("#1=A(1.);", "refused 49 WrongKind in #1"),
        ("#1=(B()R(1.));", "#1=B(1.);"),
        ("#1=(A()B()R(1));", "refused 55 TwoRedeclarations in #1"),
        (f"#1=R(1{'0' * 10_000});", "refused 8 NumberRange in #1"),
        (f"#1=R(1{'0' * 9_999});", "#1=R(1.E9999);"),
    ],
    "WIDE": [
        ("#1=E('abc','xy',\"0A\",($,1),.T.);", "#1=E('abc','xy',\"0A\",($,1),.T.);"),
        ("#1=E('abcd','xy',\"0A\",($,1),.T.);", "refused 50 Width in #1"),
        ("#1=E('\\X2\\00E900E800EA\\X0\\','xy',\"0A\",($,1),.T.);", "#1=E('\\X2\\00E9\\X0\\\\X2\\00E8\\X0\\\\X2\\00EA\\X0\\','xy',\"0A\",($,1),.T.);"),
        ("#1=E('abc','x',\"0A\",($,1),.T.);", "refused 50 Width in #1"),
        ("#1=E('abc','xy',\"23B\",($,1),.T.);", "refused 50 Width in #1"),
        ("#1=E('abc','xyz',\"0A\",($,1),.T.);", "refused 50 Width in #1"),
        ("#1=E('','xy',\"0\",($,1),.F.);", "#1=E('','xy',\"0\",($,1),.F.);"),
        ("#1=E('abc','xy',10,($,1),.T.);", "refused 49 WrongKind in #1"),
        ("#1=E('abc','xy',\"0A\",(1,1),.T.);", "#1=E('abc','xy',\"0A\",(1,1),.T.);"),
        ("#1=E('abc','xy',\"0A\",(1),.T.);", "refused 51 Bounds in #1"),
        ("#1=E('abc','xy',\"0A\",($,1),.U.);", "refused 53 UnknownItem in #1"),
        ("#1=E('abc','xy',\"0A\",($,1),.TRUE.);", "refused 53 UnknownItem in #1"),
        ("#1=E(5,'xy',\"0A\",($,1),.T.);", "refused 49 WrongKind in #1"),
        ("#1=E('abc','xy',\"0A\",($,1),$);", "refused 46 Missing in #1"),
    ],
    "SOLE": [
        ("#1=(A()B()S(1));", "refused 58 OneOf in #1"),
        ("#1=(S(1)C()A());", "#1=(A()C()S(1));"),
        ("#1=A(1);", "#1=A(1);"),
        ("#1=S(1);", "#1=S(1);"),
    ],
    "ANDOR": [("#1=(A()B()S(1));", "#1=(A()B()S(1));")],
    "RULES": [
        # What stands at a place
        ("#1=NARROW($);", "#1=NARROW($);"),
        ("#1=NARROW(1.);", "refused 49 WrongKind in #1"),
        ("#1=BOTH($);", "refused 46 Missing in #1"),
        ("#1=BOTH(1);", "#1=BOTH(1);"),
        ("#1=(BASE($)NARROW()BROAD());", "refused 55 TwoRedeclarations in #1"),
        ("#1=(BASE(*)GIVEN()NARROW());", "#1=(BASE(*)GIVEN()NARROW());"),
        ("#1=GIVEN(1);", "refused 48 DerivedNotStar in #1"),
        # Values of each kind of type
        ("#1=LOGIC(.U.);", "#1=LOGIC(.U.);"),
        ("#1=LOGIC(.TRUE.);", "refused 53 UnknownItem in #1"),
        ("#1=LOGIC(.X.);", "refused 53 UnknownItem in #1"),
        ("#1=LOGIC('T');", "refused 49 WrongKind in #1"),
        ("#1=NUMBERS((2,1.));", "#1=NUMBERS((1.,2.));"),
        ("#1=NUMBERS((1,1.));", "refused 52 NotDistinct in #1"),
        ("#1=NUMBERS(('a'));", "refused 49 WrongKind in #1"),
        ("#1=NUMBERS(());", "#1=NUMBERS(());"),
        ("#1=FULL((1,$));", "refused 46 Missing in #1"),
        ("#1=FULL((1,1));", "#1=FULL((1,1));"),
        ("#1=SERIES((2,1,2));", "#1=SERIES((2,1,2));"),
        ("#1=SERIES((1,$));", "refused 46 Missing in #1"),
        ("#1=PLACES(($,$,1));", "#1=PLACES(($,$,1.));"),
        ("#1=PLACES((1,$,1.));", "refused 52 NotDistinct in #1"),
        ("#1=PLACES((1,2));", "refused 51 Bounds in #1"),
        ("#1=PLACES((1,2,3,4));", "refused 51 Bounds in #1"),
        ("#1=PLACES((*,1,2));", "refused 47 StarNotDerived in #1"),
        ("#1=WORDS(('b','a'));", "#1=WORDS(('b','a'));"),
        ("#1=WORDS(('a','\\X\\61'));", "refused 52 NotDistinct in #1"),
        ("#1=WORDS(('a'));", "refused 51 Bounds in #1"),
        ("#1=WORDS(('a','b','c'));", "#1=WORDS(('a','b','c'));"),
        ("#1=WORDS(('a','b','c','d'));", "refused 51 Bounds in #1"),
        ("#1=WORDS(('a',$));", "refused 46 Missing in #1"),
        ("#1=SIX(\"23B\");", "#1=SIX(\"23B\");"),
        ("#1=SIX(\"0\");", "refused 50 Width in #1"),
        ("#1=SIX(\"0FF\");", "refused 50 Width in #1"),
        ("#1=TONES(((.RED.),()));", "#1=TONES(((),(.RED.)));"),
        ("#1=TONES(((#1)));", "refused 49 WrongKind in #1"),
        ("#1=TONES(((.RED.,.GREEN.),(.GREEN.,.RED.)));", "refused 52 NotDistinct in #1"),
        (x := f"#1=DEEP({'(' * 64}{')' * 64});", x),
        (f"#1=DEEP({'(' * 65}{')' * 65});", "refused 21 TooDeep at statement 8"),
        # A SELECT in a SELECT
        ("#1=CHOSEN(METRE(1.0));", "#1=CHOSEN(METRE(1.));"),
        ("#1=CHOSEN(HUE(.RED.));", "#1=CHOSEN(HUE(.RED.));"),
        ("#1=CHOSEN(HUE(.BLUE.));", "refused 53 UnknownItem in #1"),
        ("#1=CHOSEN(METRE(1));", "refused 49 WrongKind in #1"),
        ("#1=CHOSEN(COLOUR(.RED.));", "refused 54 SelectType in #1"),
        ("#1=CHOSEN(INNER(METRE(1.)));", "refused 54 SelectType in #1"),
        ("#1=CHOSEN(TALLY(1));", "refused 54 SelectType in #1"),
        ("#1=CHOSEN(#2);#2=NARROW(1);", "#1=CHOSEN(#2);\n#2=NARROW(1);"),
        ("#1=CHOSEN(#1);", "refused 57 WrongTarget in #1"),
        ("#1=CHOSEN($);", "refused 46 Missing in #1"),
        ("#1=CHOSEN('a');", "refused 54 SelectType in #1"),
        ("#1=CHOSEN(.RED.);", "refused 54 SelectType in #1"),
        ("#1=ONLY(#1);", "refused 54 SelectType in #1"),
        ("#1=CHOSEN(HUE($));", "refused 46 Missing in #1"),
        ("#1=CHOSEN(METRE(*));", "refused 47 StarNotDerived in #1"),
        ("#1=TONED(COLOUR(.RED.));", "#1=TONED(COLOUR(.RED.));"),
        ("#1=TONED(COLOUR($));", "refused 46 Missing in #1"),
        ("#1=TONED(COLOUR(*));", "refused 47 StarNotDerived in #1"),
        ("#1=TONED(COLOUR(1));", "refused 49 WrongKind in #1"),
    ],
    "SEVERAL": [
        ("#1=(A()B()C()R(1));", "refused 42 Abstract in #1"),
        ("#1=(A()B()R());", "refused 58 OneOf in #1"),
    ],
    "TWICE": [
        ("#1=C(1);", "refused 55 TwoRedeclarations in #1"),
        ("#1=(A()B()C()R(1));", "refused 55 TwoRedeclarations in #1"),
        ("#1=D(1);", "#1=D(1);"),
        ("#1=(A()B()C()D()R(1));", "#1=(A()B()C()D()R(1));"),
        ("#1=D(1.);", "refused 49 WrongKind in #1"),
    ],
    "LISTS": [
        ("#1=(A()C()S()T()U());", "#1=(A()C()S()T()U());"),
        ("#1=(B()C()E()S()T()U());", "#1=(B()C()E()S()T()U());"),
        ("#1=(A()C()E()S()T()U());", "refused 58 OneOf in #1"),
        ("#1=(A()C()D()S()T()U());", "refused 58 OneOf in #1"),
        ("#1=(B()E()F()S()U());", "refused 58 OneOf in #1"),
    ],
    "MANY": [
        (x := f"#1=Z({UNSET});\n#2=Y({WITHOUT_EIGHTH});\n#3=TO(#1,(#2,#1));\n#4=TO(#2,());", x),
        (f"#1={parts('Z()')};#2={parts('Y()', 'Z()', unset='*')};", f"#1=Z({UNSET});\n#2=Y({WITHOUT_EIGHTH});"),
        (f"#1={parts('Y()', 'Z()')};", "refused 48 DerivedNotStar in #1"),
        (f"#1={parts('Z()').replace('R7($)', '')};", "refused 43 PartMissing in #1"),
        (f"#1={parts('Z()', 'R7($)')};", "refused 44 PartTwice in #1"),
        (x := f"#1={parts()};\n#2=TO($,(#1));", x),
        (f"#1={parts()};\n#2=TO(#1,());", "refused 57 WrongTarget in #2"),
        (f"#2=TO(#1,());\n#1={parts()};", "refused 57 WrongTarget in #2"),
        (f"#1=TO(#9,(#3));\n#3=Z({UNSET});", "refused 56 Dangling in #1"),
        (
            f"#2=TO($,(#1));\n#3=TO(#4,(#1,#4));\n#1={parts()};\n#4={parts('Z()')};\n#5=Z({UNSET});\n#6=TO(#5,(#4,#1,#5,#7));\n#7=Y({WITHOUT_EIGHTH});",
            f"#1={parts()};\n#2=TO($,(#1));\n#3=TO(#4,(#1,#4));\n#4=Z({UNSET});\n#5=Z({UNSET});\n#6=TO(#5,(#4,#1,#5,#7));\n#7=Y({WITHOUT_EIGHTH});",
        ),
        # Selects, of sets with many entities and with few
        (
            x := f"#1=ANY(#2,(),$);\n#2=Z({UNSET});\n#3=ANY(#4,(#4,#1),#4);\n#4=K();\n#5=ANY(#6,(#1,#4),#4);\n#6=Z({UNSET});\n"
            "#7=ANY(#8,(#9,#9),#8);\n#8=K();\n#9=ANY(#6,(),$);",
            x,
        ),
        (f"#1=ANY(#2,(#2),$);\n#2=Z({UNSET});", "refused 57 WrongTarget in #1"),
        (f"#2=Z({UNSET});\n#1=ANY(#2,(#2),$);", "refused 57 WrongTarget in #1"),
    ],
    "CHAIN": [
        (x := f"#1=Q({UNSET});\n#2=P({UNSET});\n#3=V({UNSET},1.);\n#4=TO(#2,(#1,#2,#3));\n#5=TO(#6,(#7));\n#6=P({UNSET});\n#7=V({UNSET},2.);", x),
        (f"#5=TO(#6,(#7));\n#6=Q({UNSET});\n#7=V({UNSET},2.);", "refused 57 WrongTarget in #5"),
        (
            x := f"#1={parts('Q()', 'U()')};\n#2={parts('P()', 'Q()', 'U()', 'V(1.)')};\n#3=TO(#5,(#5));\n#4=TO(#2,(#1,#2));\n#5={parts('Q()', 'U()')};",
            x,
        ),
    ],
}

# What docs/FAULTS.md says beside its texts, of the schema of examples/product.exp.
PRODUCT = [
    ("#1=CARTESIAN_POINT('',(.5,0.,0.));", "refused 1 BadByte at statement 8"),
    ("#1=CARTESIAN_POINT('',(0.5,0.,0.));", "#1=CARTESIAN_POINT('',(5.E-1,0.,0.));"),
    ("#1=PERSON('ek,'A',$,$);", "refused 20 Unexpected at statement 8"),
    ("#1=PERSON('ek,'a',$,$);", "refused 1 BadByte at statement 8"),
    ("#1=CARTESIAN_POINT('O''Neill',(0.));", "#1=CARTESIAN_POINT('O''Neill',(0.));"),
    ("#1=CARTESIAN_POINT('C:\\\\parts',(0.));", "#1=CARTESIAN_POINT('C:\\\\parts',(0.));"),
    ("#1=CARTESIAN_POINT('\\X4\\0001F600\\X0\\',(0.));", "#1=CARTESIAN_POINT('\\X4\\0001F600\\X0\\',(0.));"),
    ("#1=CARTESIAN_POINT('',(1.E,0.,0.));", "refused 7 BadNumber at statement 8"),
    ("#1=CARTESIAN_POINT('',(1.E+,0.,0.));", "refused 7 BadNumber at statement 8"),
    ("#1=CARTESIAN_POINT('',(NAN,0.,0.));", "refused 20 Unexpected at statement 8"),
    ("#1=CARTESIAN_POINT('',(1.#INF,0.,0.));", "refused 26 LeftOut(ConstantName) at statement 8"),
    ("#1=CARTESIAN_POINT('',(0.1E10000,0.,0.));", "#1=CARTESIAN_POINT('',(1.E9999,0.,0.));"),
    ("#1=CARTESIAN_POINT('',(1.E1000000000,0.,0.));", "refused 8 NumberRange at statement 8"),
    ("#1=CARTESIAN_POINT('',(80.,50.,12.5));", "#1=CARTESIAN_POINT('',(8.E1,5.E1,1.25E1));"),
]

# A line of the header of a file without instances, what stands in its place, and the refusal, or that line of the canonical file.
FILE_DESCRIPTION = "FILE_DESCRIPTION((''),'2;1');"
FILE_NAME = "FILE_NAME('','',(''),(''),'','','');"
FILE_SCHEMA = "FILE_SCHEMA(('DEMO'));"
HEADERS = [
    (FILE_DESCRIPTION, "FILE_DESCRIPTION($,$);", "FILE_DESCRIPTION($,$);"),
    (FILE_DESCRIPTION, "FILE_DESCRIPTION((),$);", "FILE_DESCRIPTION((),$);"),
    (FILE_DESCRIPTION, "FILE_DESCRIPTION(($),'2;1');", "FILE_DESCRIPTION(($),'2;1');"),
    (FILE_DESCRIPTION, r"FILE_DESCRIPTION(('\X\E9'),$);", r"FILE_DESCRIPTION(('\X2\00E9\X0\'),$);"),
    (FILE_DESCRIPTION, "FILE_DESCRIPTION('','2;1');", "refused 30 HeaderShape at statement 3"),
    (FILE_DESCRIPTION, "FILE_DESCRIPTION((*),'2;1');", "refused 30 HeaderShape at statement 3"),
    (FILE_DESCRIPTION, FILE_NAME, "refused 30 HeaderShape at statement 3"),
    (FILE_DESCRIPTION, "FILE_DESCRIPTION();", "refused 30 HeaderShape at statement 3"),
    (FILE_DESCRIPTION, "FILE_DESCRIPTION((''));", "refused 30 HeaderShape at statement 3"),
    (FILE_DESCRIPTION, "FILE_DESCRIPTION((''),'2;1','');", "refused 30 HeaderShape at statement 3"),
    (FILE_DESCRIPTION, "DESCRIPTION((''),'2;1');", "refused 30 HeaderShape at statement 3"),
    (FILE_SCHEMA, "!FILE_SCHEMA(('DEMO'));", "refused 30 HeaderShape at statement 5"),
    (FILE_NAME, "FILE_NAME('','',(''),(''),'','');", "refused 30 HeaderShape at statement 4"),
    (FILE_NAME, "FILE_NAME('','','a',(''),'','','');", "refused 30 HeaderShape at statement 4"),
    (FILE_NAME, "ENDSEC;", "refused 30 HeaderShape at statement 4"),
    (FILE_NAME, "NAME('','',(''),(''),'','','');", "refused 30 HeaderShape at statement 4"),
    (FILE_SCHEMA, "FILE_SCHEMA(('demo'));", "FILE_SCHEMA(('demo'));"),
    (FILE_SCHEMA, "FILE_SCHEMA(('DEMO { 1 0 10303 214 1 1 1 1 }'));", "FILE_SCHEMA(('DEMO { 1 0 10303 214 1 1 1 1 }'));"),
    (FILE_SCHEMA, r"FILE_SCHEMA(('DEMO\X2\00E9\X0\'));", r"FILE_SCHEMA(('DEMO\X2\00E9\X0\'));"),
    (FILE_SCHEMA, "FILE_SCHEMA(('OTHER'));", "refused 31 SchemaName at statement 5"),
    (FILE_SCHEMA, "FILE_SCHEMA(('DEMO_1'));", "refused 31 SchemaName at statement 5"),
    (FILE_SCHEMA, "FILE_SCHEMA((' DEMO'));", "refused 31 SchemaName at statement 5"),
    (FILE_SCHEMA, "FILE_SCHEMA($);", "refused 30 HeaderShape at statement 5"),
    (FILE_SCHEMA, "FILE_SCHEMA();", "refused 30 HeaderShape at statement 5"),
    (FILE_SCHEMA, "FILE_SCHEMA(('DEMO'),('DEMO'));", "refused 30 HeaderShape at statement 5"),
    (FILE_SCHEMA, "FILE_SCHEMA(('DEMA'));", "refused 31 SchemaName at statement 5"),
    (FILE_SCHEMA, "FILE_SCHEMA(('DEMO','DEMO'));", "refused 30 HeaderShape at statement 5"),
    (FILE_SCHEMA, f"{FILE_SCHEMA}!MY_RECORD(1.0,.A.);", f"{FILE_SCHEMA}\n!MY_RECORD(1.,.A.);"),
    (FILE_SCHEMA, f"{FILE_SCHEMA}NOTE((2,1),A(1));ENDSEC();", f"{FILE_SCHEMA}\nNOTE((2,1),A(1));\nENDSEC();"),
    (FILE_SCHEMA, f"{FILE_SCHEMA}NOTE(#1);", "refused 20 Unexpected at statement 6"),
    (FILE_SCHEMA, f"{FILE_SCHEMA}{FILE_NAME}", "refused 30 HeaderShape at statement 6"),
    (FILE_SCHEMA, f"{FILE_SCHEMA}{FILE_DESCRIPTION}", "refused 30 HeaderShape at statement 6"),
    (FILE_SCHEMA, f"{FILE_SCHEMA}{FILE_SCHEMA}", "refused 30 HeaderShape at statement 6"),
    (FILE_SCHEMA, f"{FILE_SCHEMA}!FILE_SCHEMA(('A','B'));", f"{FILE_SCHEMA}\n!FILE_SCHEMA(('A','B'));"),
    (FILE_SCHEMA, f"{FILE_SCHEMA}A({'(' * 64}{')' * 64});", f"{FILE_SCHEMA}\nA({'(' * 64}{')' * 64});"),
    (FILE_SCHEMA, f"{FILE_SCHEMA}A({'B(' * 65}1{')' * 65});", "refused 21 TooDeep at statement 6"),
    (FILE_SCHEMA, f"{FILE_SCHEMA}A(((#1)));", "refused 20 Unexpected at statement 6"),
    (FILE_SCHEMA, "", "refused 30 HeaderShape at statement 5"),
    (FILE_SCHEMA, "FILE_SCHEMA(());", "refused 30 HeaderShape at statement 5"),
    (FILE_SCHEMA, "FILE_SCHEMA(($));", "refused 30 HeaderShape at statement 5"),
    (FILE_SCHEMA, "FILE_SCHEMA('DEMO');", "refused 30 HeaderShape at statement 5"),
    (FILE_NAME, "FILE_NAME($,$,(),($,'a'),$,$,$);", "FILE_NAME($,$,(),($,'a'),$,$,$);"),
    (FILE_NAME, "FILE_NAME((''),'',(''),(''),'','','');", "refused 30 HeaderShape at statement 4"),
    (FILE_NAME, "FILE_NAME('','',(''),(''),'','','','');", "refused 30 HeaderShape at statement 4"),
    (FILE_NAME, "FILE_NAME('','',(''),(('')),'','','');", "refused 30 HeaderShape at statement 4"),
    ("HEADER;", "HEADER();", "refused 20 Unexpected at statement 2"),
    ("HEADER;", "DATA;", "refused 20 Unexpected at statement 2"),
    ("HEADER;", "END-ISO-10303-21;", "refused 20 Unexpected at statement 2"),
    ("ISO-10303-21;\nHEADER;", "HEADER;", "refused 20 Unexpected at statement 1"),
]

# What stands behind the header of the schema DEMO, up to the end of the file, and the refusal, or what the canonical file has there.
POINT_IN_A = "DATA('a',('demo'));\n#2=POINT($,2.,1.);\nENDSEC;\n"
POINT_IN_B = "DATA('b',('DEMO'));\n#1=POINT($,1.,1.);\nENDSEC;\n"
END = "END-ISO-10303-21;\n"
SECTIONS = [
    (f"{POINT_IN_B}DATA('a',('demo'));\n#2=POINT($,2.0,1.);\nENDSEC;\n{END}", f"{POINT_IN_A}{POINT_IN_B}{END}"),
    (f"{POINT_IN_B}DATA('a',('DEMO'));#1=POINT($,1.,1.);ENDSEC;{END}", "refused 40 DuplicateName in #1"),
    (
        f"DATA('b',('DEMO'));\n#1=CLOUD((#2),(),(TALLY(1)));\nENDSEC;\n{POINT_IN_A}{END}",
        f"{POINT_IN_A}DATA('b',('DEMO'));\n#1=CLOUD((#2),(),(TALLY(1)));\nENDSEC;\n{END}",
    ),
    (
        f"DATA('a''b',('DEMO'));ENDSEC;DATA('a',('DEMO'));ENDSEC;DATA('a!',('DEMO'));ENDSEC;DATA('',('DEMO'));ENDSEC;{END}",
        f"DATA('',('DEMO'));\nENDSEC;\nDATA('a!',('DEMO'));\nENDSEC;\nDATA('a',('DEMO'));\nENDSEC;\nDATA('a''b',('DEMO'));\nENDSEC;\n{END}",
    ),
    (f"DATA('a',('DEMO'));ENDSEC;DATA('\\X\\61',('DEMO'));ENDSEC;{END}", "refused 33 SectionTwice at statement 9"),
    (f"DATA('a',('OTHER'));ENDSEC;{END}", "refused 31 SchemaName at statement 7"),
    (f"DATA('a');ENDSEC;{END}", "refused 32 SectionShape at statement 7"),
    (f"DATA($,('DEMO'));ENDSEC;{END}", "refused 32 SectionShape at statement 7"),
    (f"DATA('a',('DEMO','DEMO'));ENDSEC;{END}", "refused 32 SectionShape at statement 7"),
    (f"DATA('a',!B(1));ENDSEC;{END}", "refused 26 LeftOut(UserKeyword) at statement 7"),
    (f"DATA;ENDSEC;DATA('a',('DEMO'));ENDSEC;{END}", "refused 26 LeftOut(SecondSection) at statement 9"),
    (f"DATA('a',('DEMO'));ENDSEC;DATA;ENDSEC;{END}", "refused 26 LeftOut(SecondSection) at statement 9"),
    (f"DATA;ENDSEC;DATA;ENDSEC;{END}", "refused 26 LeftOut(SecondSection) at statement 9"),
    (END, "refused 26 LeftOut(NoDataSection) at statement 7"),
    (f"ANCHOR;ENDSEC;DATA;ENDSEC;{END}", "refused 26 LeftOut(Anchor) at statement 7"),
    (f"REFERENCE;ENDSEC;DATA;ENDSEC;{END}", "refused 26 LeftOut(Reference) at statement 7"),
    (f"SIGNATURE;ENDSEC;{END}", "refused 26 LeftOut(Signature) at statement 7"),
    (f"DATA;ENDSEC;ANCHOR;{END}", "refused 26 LeftOut(Anchor) at statement 9"),
    (f"FOO;ENDSEC;{END}", "refused 20 Unexpected at statement 7"),
    (f"DATA;ENDSEC;FOO;{END}", "refused 20 Unexpected at statement 9"),
    (f"DATA;FOO;{END}", "refused 20 Unexpected at statement 8"),
    (f"DATA;DATA;ENDSEC;{END}", "refused 20 Unexpected at statement 8"),
    (f"DATA;{END}", "refused 20 Unexpected at statement 8"),
    (f"DATA('a',('DEMO'));ENDSEC;DATA('b',('OTHER'));ENDSEC;{END}", "refused 31 SchemaName at statement 9"),
    (f"DATA('a',('demo {{1}}'));ENDSEC;{END}", f"DATA('a',('demo {{1}}'));\nENDSEC;\n{END}"),
    (f"DATA('a','DEMO');ENDSEC;{END}", "refused 32 SectionShape at statement 7"),
    (f"DATA('a',());ENDSEC;{END}", "refused 32 SectionShape at statement 7"),
    (f"DATA('a',('OTHER','OTHER'));ENDSEC;{END}", "refused 32 SectionShape at statement 7"),
    (f"DATA();ENDSEC;{END}", "refused 32 SectionShape at statement 7"),
    (f"DATA('a',('DEMO'),1);ENDSEC;{END}", "refused 32 SectionShape at statement 7"),
    (f"{POINT_IN_A}#1=POINT($,1.,1.);{END}", "refused 20 Unexpected at statement 10"),
    (f"DATA;ENDSEC;{END}SIGNATURE;", "refused 26 LeftOut(Signature) at statement 10"),
    (f"DATA;ENDSEC;{END}X", "refused 25 AfterEnd at statement 10"),
    (f"DATA;ENDSEC;{END}{END}", "refused 25 AfterEnd at statement 10"),
    (f"DATA;ENDSEC;{END}/*", "refused 3 OpenComment at statement 10"),
    (f"DATA;ENDSEC;{END}/* end */", f"DATA;\nENDSEC;\n{END}"),
    (f"DATA;ENDSEC;{END}\x1a", f"DATA;\nENDSEC;\n{END}"),
    (f"DATA;ENDSEC;{END[:-1]}", f"DATA;\nENDSEC;\n{END}"),
    # At the end of the bytes nothing is said of a last token but that a real is out of range.
    ("DATA;#1=1", "refused 24 EndsEarly at statement 8"),
    ("DATA;#1=A(B(1)C", "refused 24 EndsEarly at statement 8"),
    ("DATA;#1=A(1.E10000", "refused 8 NumberRange at statement 8"),
    ("DATA;#1=A(/", "refused 24 EndsEarly at statement 8"),
]

# Three hundred instances whose names lie far from one another.
FAR = [f"#{7919 * n}=POINT($,{n}.,1.);" for n in range(1, 301)]

# Names in sixty rows, each of forty beside one another, in the order of the names and in another one.
ROWS = [f"#{1_000_003 * (n // 40) + n % 40}=POINT($,{n}.,1.);" for n in range(2400)]
MIXED_ROWS = [ROWS[977 * n % 2400] for n in range(2400)]

# Two files of the schema DEMO by what stands between `DATA;` and `ENDSEC;`, and what `p21 same` answers.
SAME = [
    ("#2 = POINT($, 1.0, 10.E-1);", "#2=POINT($,1.,1.);", "same"),
    ("#2 = POINT($, 1.0, 10.E-1);", "", "different"),
    ("#1=CLOUD((),((2.,1.),(3.)),(TALLY(1)));", "#1=CLOUD((),((3.0),(1.,2.0)),(TALLY(1)));", "same"),
    ("#1=CLOUD((),((2.,1.),(3.)),(TALLY(1)));", "#1=CLOUD((),((1.),(2.,3.)),(TALLY(1)));", "different"),
    ("#1=CLOUD((),((1.,2.)),(TALLY(1)));", "#1=CLOUD((),((2.,1.)),(TALLY(1)));", "same"),
    ("#1=CLOUD((),((1.,1.,2.)),(TALLY(1)));", "#1=CLOUD((),((1.,2.,2.)),(TALLY(1)));", "different"),
    ("#1=CLOUD((),(),(TALLY(1),TALLY(2)));", "#1=CLOUD((),(),(TALLY(2),TALLY(1)));", "different"),
    ("#1=POINT('a',1.,1.);", "#1=POINT('b',1.,1.);", "different"),
    ("#1=POINT('a',1.,1.);", "#1=POINT('\\X\\61',1.,1.);", "same"),
    ("#1=POINT($,1.,1.);", "#2=POINT($,1.,1.);", "different"),
    (x := "#18446744073709551615=POINT($,1.,1.);", x, "same"),
    ("".join(FAR), "".join(reversed(FAR)), "same"),
    ("".join(MIXED_ROWS), "".join(ROWS), "same"),
    ("".join(FAR), "".join(FAR[1:]), "different"),
    ("#1=FOO();", "", "first: refused 41 UnknownEntity in #1"),
    ("", "#1=FOO();", "second: refused 41 UnknownEntity in #1"),
]

# A schema, and what `p21 schema` answers.
SCHEMA_TEXTS = [
    (DEMO, "SCHEMA DEMO\nABSTRACT SHAPE(LABEL)\nPOINT(LABEL,X,Y)\nMARKED(LABEL,MARK)\nORIGIN(LABEL,*,Y)\nCLOUD(MEMBERS,SIZES,VALUES)"),
    (DIAMOND, "SCHEMA DIAMOND\nR(K)\nA(K,P)\nB(K,Q)\nC(K,P,Q,Z)"),
    (DIAMOND.replace("(a, b)", "(b, a)"), "SCHEMA DIAMOND\nR(K)\nA(K,P)\nB(K,Q)\nC(K,Q,P,Z)"),
    (SOLE, "SCHEMA SOLE\nS(K)\nA(K)\nB(K)\nC(K)"),
    (LADDER, "SCHEMA LADDER\n" + "\n".join(f"{name}{level}({','.join('X' * (2 * level + 1))})" for level in range(31) for name in "AB")),
    ("SCHEMA s;\n" + "".join(f"ENTITY e{n}; END_ENTITY;\n" for n in range(5000)) + "END_SCHEMA;\n", "SCHEMA S\n" + "\n".join(f"E{n}()" for n in range(5000))),
    ("(* a (* b *) c *) SCHEMA t 'v1'; FUNCTION f : REAL; FUNCTION g : REAL; END_FUNCTION; END_FUNCTION; END_SCHEMA; -- end", "SCHEMA T"),
    ("SCHEMA s; (***) END_SCHEMA;", "SCHEMA S"),
    ("SCHEMA s; ENTITY a; x : " + "LIST OF " * 32 + "REAL; END_ENTITY; END_SCHEMA;", "SCHEMA S\nA(X)"),
    ("SCHEMA s; TYPE t = LIST [0:0] OF REAL; END_TYPE; END_SCHEMA;", "SCHEMA S"),
    ("SCHEMA s; TYPE t = REAL (6); END_TYPE; TYPE u = LIST OF u; END_TYPE; TYPE v = STRING(4294967295) FIXED; END_TYPE; END_SCHEMA;", "SCHEMA S"),
    ("SCHEMA s; TYPE t = REAL; END_TYPE; TYPE s = SELECT (t); END_TYPE; END_SCHEMA;", "SCHEMA S"),
    ("SCHEMA s; ENTITY end; andor : REAL; END_ENTITY; END_SCHEMA;", "SCHEMA S\nEND(ANDOR)"),
    ("SCHEMA s; ENTITY a; DERIVE y : REAL := 1; END_ENTITY; ENTITY b SUBTYPE OF (a); DERIVE SELF\\a.y : REAL := 2; END_ENTITY; END_SCHEMA;", "SCHEMA S\nA()\nB()"),
    # What is read over, and where it ends
    (
        "SCHEMA s; ENTITY a; x, y : REAL; DERIVE z : REAL := END_ENTITY + WHERE; INVERSE i : USE; UNIQUE u : x; "
        "WHERE w : x > 'END_ENTITY'; END_ENTITY; END_SCHEMA;",
        "SCHEMA S\nA(X,Y)",
    ),
    ("SCHEMA s; TYPE t = REAL; WHERE w : GENERIC; ENTITY; END_TYPE; END_SCHEMA;", "SCHEMA S"),
    ("SCHEMA s; RULE r FOR (a); RULE END_RULE; CONSTANT c : USE; END_CONSTANT; SUBTYPE_CONSTRAINT q; END_SUBTYPE_CONSTRAINT; END_SCHEMA;", "SCHEMA S"),
    ("SCHEMA s; PROCEDURE p; FUNCTION f; PROCEDURE q; END_PROCEDURE; END_PROCEDURE; END_SCHEMA;", "SCHEMA S"),
    ("SCHEMA s; FUNCTION f; FUNCTION g; END_FUNCTION; END_SCHEMA;", "schema refused S2 Syntax"),
    ("SCHEMA s; ENTITY a; WHERE w : TRUE; DERIVE x : REAL := 1; END_ENTITY; END_SCHEMA;", "SCHEMA S\nA()"),
    ("SCHEMA s; ENTITY a; DERIVE x : REAL := 1; y : REAL := 2; DERIVE z : REAL := 3; END_ENTITY; END_SCHEMA;", "schema refused S2 Syntax"),
    ("SCHEMA s; ENTITY a SUPERTYPE OF ((b) ANDOR (USE)); END_ENTITY; END_SCHEMA;", "SCHEMA S\nA()"),
    ("SCHEMA s; ENTITY a SUPERTYPE OF (ONEOF (type, use)); END_ENTITY; END_SCHEMA;", "SCHEMA S\nA()"),
    ("SCHEMA s; ENTITY a SUPERTYPE OF (); END_ENTITY; END_SCHEMA;", "SCHEMA S\nA()"),
    (
        "SCHEMA s; ENTITY a ABSTRACT; END_ENTITY; ENTITY b ABSTRACT SUPERTYPE; END_ENTITY; ENTITY c ABSTRACT SUPERTYPE OF (a); END_ENTITY; END_SCHEMA;",
        "SCHEMA S\nABSTRACT A()\nABSTRACT B()\nABSTRACT C()",
    ),
    ("SCHEMA s; ENTITY a SUPERTYPE; END_ENTITY; END_SCHEMA;", "schema refused S2 Syntax"),
    # Attributes that are declared anew: A declares x or derives y, and B stands below it
    (ANEW.format(of_a="x : REAL;", of_b="", of_c="DERIVE SELF\\b.x : REAL := 1;"), "SCHEMA ANEW\nA(X)\nB(X)\nC(*)"),
    (ANEW.format(of_a="x : REAL;", of_b="x : REAL;", of_c="DERIVE SELF\\b.x : REAL := 1;"), "SCHEMA ANEW\nA(X)\nB(X,X)\nC(X,*)"),
    (ANEW.format(of_a="x : REAL;", of_b="x : REAL;", of_c="DERIVE SELF\\a.x : REAL := 1;"), "SCHEMA ANEW\nA(X)\nB(X,X)\nC(*,X)"),
    (ANEW.format(of_a="DERIVE y : REAL := 1;", of_b="", of_c="DERIVE SELF\\b.y : REAL := 2;"), "SCHEMA ANEW\nA()\nB()\nC()"),
    (ANEW.format(of_a="DERIVE y : REAL := 1;", of_b="", of_c="SELF\\b.y : REAL;"), "schema refused S8 RedeclaredPlace"),
    (ANEW.format(of_a="", of_b="", of_c="DERIVE y : REAL := 1; SELF\\b.y : REAL := 2;"), "schema refused S8 RedeclaredPlace"),
    (
        "SCHEMA s; ENTITY a; x : REAL; END_ENTITY; ENTITY b; x : REAL; END_ENTITY; ENTITY c SUBTYPE OF (a, b); END_ENTITY; "
        "ENTITY d SUBTYPE OF (c); SELF\\c.x : REAL; END_ENTITY; END_SCHEMA;",
        "schema refused S8 RedeclaredPlace",
    ),
    ("SCHEMA s; ENTITY a; x : REAL; END_ENTITY; ENTITY b; SELF\\a.x : REAL; END_ENTITY; END_SCHEMA;", "schema refused S8 RedeclaredPlace"),
    ("SCHEMA s; ENTITY a; DERIVE y : REAL := 1; END_ENTITY; ENTITY b; DERIVE SELF\\a.y : REAL := 2; END_ENTITY; END_SCHEMA;", "schema refused S8 RedeclaredPlace"),
    (ANEW.format(of_a="x : REAL;", of_b="DERIVE SELF\\a.x : REAL := 1; z : REAL := 1;", of_c="DERIVE SELF\\b.z : REAL := 2;"), "SCHEMA ANEW\nA(X)\nB(*)\nC(*)"),
    (ANEW.format(of_a="DERIVE y : REAL := 1; z : REAL := 1;", of_b="", of_c="DERIVE SELF\\a.z : REAL := 2;"), "SCHEMA ANEW\nA()\nB()\nC()"),
    (ANEW.format(of_a="DERIVE y : REAL := 1;", of_b="", of_c="DERIVE SELF\\a.z : REAL := 2;"), "schema refused S8 RedeclaredPlace"),
    (ANEW.format(of_a=f"{FORTY} : REAL;", of_b="SELF\\a.x7 : INTEGER;", of_c="DERIVE SELF\\b.x9 : REAL := 1;"), ANEW_FORTY),
    (ANEW.format(of_a=f"{FORTY} : REAL;", of_b="SELF\\a.y : INTEGER;", of_c=""), "schema refused S8 RedeclaredPlace"),
    (
        "SCHEMA s; ENTITY a; x : REAL; END_ENTITY; ENTITY b SUBTYPE OF (a); END_ENTITY; ENTITY c; x : REAL; END_ENTITY; ENTITY d; x : REAL; END_ENTITY; "
        "ENTITY e SUBTYPE OF (b); SELF\\b.x : REAL; END_ENTITY; END_SCHEMA;",
        "SCHEMA S\nA(X)\nB(X)\nC(X)\nD(X)\nE(X)",
    ),
    # Which refusal of several comes first
    ("SCHEMA s; ENTITY a; x, x : foo; END_ENTITY; END_SCHEMA;", "schema refused S3 Duplicate"),
    ("SCHEMA s; ENTITY a SUBTYPE OF (a); x : foo; END_ENTITY; END_SCHEMA;", "schema refused S4 UnknownName"),
    ("SCHEMA s; ENTITY a SUBTYPE OF (c); END_ENTITY; ENTITY b SUBTYPE OF (a); SELF\\a.x : REAL; END_ENTITY; END_SCHEMA;", "schema refused S4 UnknownName"),
    ("SCHEMA s; ENTITY a SUBTYPE OF (a); SELF\\a.x : REAL; END_ENTITY; END_SCHEMA;", "schema refused S5 Circular"),
    ("SCHEMA s; TYPE t = REAL; END_TYPE; TYPE u = SELECT (t); END_TYPE; TYPE v = u; END_TYPE; ENTITY a; SELF\\a.x : REAL; END_ENTITY; END_SCHEMA;", "schema refused S6 LeftOut"),
    ("SCHEMA s; TYPE t = STRING(0); END_TYPE; USE", "schema refused S7 Bounds"),
    ("SCHEMA s; ENTITY u; x : foo; END_ENTITY; ENTITY a; END_ENTITY; ENTITY b SUBTYPE OF (a, a); END_ENTITY; END_SCHEMA;", "schema refused S3 Duplicate"),
    ("SCHEMA s; ENTITY u; x : foo; END_ENTITY; TYPE t = ENUMERATION OF (x, y, x); END_TYPE; END_SCHEMA;", "schema refused S3 Duplicate"),
    ("SCHEMA s; ENTITY u; x : foo; END_ENTITY; TYPE t = SELECT (u, u); END_TYPE; END_SCHEMA;", "schema refused S3 Duplicate"),
    # Bytes and literals
    ("(* not closed", "schema refused S1 Token"),
    ("SCHEMA s; (*) END_SCHEMA;", "schema refused S1 Token"),
    ("SCHEMA s 'open; END_SCHEMA;", "schema refused S1 Token"),
    ("SCHEMA \u00fc; END_SCHEMA;", "schema refused S1 Token"),
    ("SCHEMA s; END_SCHEMA", "schema refused S2 Syntax"),
    ("SCHEMA s; END_SCHEMA; x", "schema refused S2 Syntax"),
    ('SCHEMA s "v1"; END_SCHEMA;', "schema refused S2 Syntax"),
    ("SCHEMA s; ENTITY list; END_ENTITY; END_SCHEMA;", "schema refused S2 Syntax"),
    ("SCHEMA s; ENTITY a SUBTYPE OF (b) SUPERTYPE OF (c); END_ENTITY; END_SCHEMA;", "schema refused S2 Syntax"),
    ("SCHEMA s; TYPE t = STRING FIXED; END_TYPE; END_SCHEMA;", "schema refused S2 Syntax"),
    ("SCHEMA s; TYPE t = SELECT (); END_TYPE; END_SCHEMA;", "schema refused S2 Syntax"),
    ("SCHEMA s; TYPE t = ARRAY OF REAL; END_TYPE; END_SCHEMA;", "schema refused S2 Syntax"),
    ("SCHEMA s; END_SCHEMA; SCHEMA t; END_SCHEMA;", "schema refused S2 Syntax"),
    ("SCHEMA s; ENTITY a; type : REAL; END_ENTITY; END_SCHEMA;", "schema refused S2 Syntax"),
    ("SCHEMA s; ENTITY oneof; END_ENTITY; END_SCHEMA;", "schema refused S2 Syntax"),
    ("SCHEMA s; ENTITY a; x : SET OF UNIQUE REAL; END_ENTITY; END_SCHEMA;", "schema refused S2 Syntax"),
    ("SCHEMA s; ENTITY a; x : LIST OF OPTIONAL REAL; END_ENTITY; END_SCHEMA;", "schema refused S2 Syntax"),
    ("SCHEMA s; ENTITY _a; END_ENTITY; END_SCHEMA;", "schema refused S2 Syntax"),
    ("SCHEMA s; TYPE t = ENUMERATION OF (); END_TYPE; END_SCHEMA;", "schema refused S2 Syntax"),
    ("SCHEMA s; TYPE t = STRING(?); END_TYPE; END_SCHEMA;", "schema refused S2 Syntax"),
    ("SCHEMA s; TYPE t = REAL (n); END_TYPE; END_SCHEMA;", "schema refused S2 Syntax"),
    ("SCHEMA s; ENTITY a; END_ENTITY; ENTITY a; END_ENTITY; END_SCHEMA;", "schema refused S3 Duplicate"),
    ("SCHEMA s; ENTITY a; END_ENTITY; TYPE A = REAL; END_TYPE; END_SCHEMA;", "schema refused S3 Duplicate"),
    ("SCHEMA s; ENTITY a; x : REAL; DERIVE X : REAL := 1; END_ENTITY; END_SCHEMA;", "schema refused S3 Duplicate"),
    ("SCHEMA s; ENTITY a; END_ENTITY; ENTITY b SUBTYPE OF (a, a); END_ENTITY; END_SCHEMA;", "schema refused S3 Duplicate"),
    ("SCHEMA s; TYPE t = ENUMERATION OF (x, y, x); END_TYPE; END_SCHEMA;", "schema refused S3 Duplicate"),
    ("SCHEMA s; TYPE t = REAL; END_TYPE; TYPE u = SELECT (t, t); END_TYPE; END_SCHEMA;", "schema refused S3 Duplicate"),
    (SOLE.replace("(a, b)", "(a, a)"), "schema refused S3 Duplicate"),
    (
        "SCHEMA s; ENTITY a; x : REAL; END_ENTITY; ENTITY b SUBTYPE OF (a); SELF\\a.x : REAL; DERIVE SELF\\a.x : REAL := 1; END_ENTITY; END_SCHEMA;",
        "schema refused S3 Duplicate",
    ),
    ("SCHEMA s; ENTITY a; x : foo; END_ENTITY; END_SCHEMA;", "schema refused S4 UnknownName"),
    ("SCHEMA s; TYPE t = REAL; END_TYPE; ENTITY a SUBTYPE OF (t); END_ENTITY; END_SCHEMA;", "schema refused S4 UnknownName"),
    ("SCHEMA s; ENTITY a; END_ENTITY; TYPE t = a; END_TYPE; END_SCHEMA;", "schema refused S4 UnknownName"),
    ("SCHEMA s; ENTITY a; END_ENTITY; TYPE t = LIST OF a; END_TYPE; END_SCHEMA;", "SCHEMA S\nA()"),
    ("SCHEMA s; TYPE t = LIST OF SET OF foo; END_TYPE; END_SCHEMA;", "schema refused S4 UnknownName"),
    ("SCHEMA s; TYPE t = SELECT (foo); END_TYPE; END_SCHEMA;", "schema refused S4 UnknownName"),
    ("SCHEMA s; ENTITY a; SELF\\foo.x : REAL; END_ENTITY; END_SCHEMA;", "schema refused S4 UnknownName"),
    (SOLE.replace("(a, b)", "(a, t)").replace("END_SCHEMA", "TYPE t = REAL; END_TYPE; END_SCHEMA"), "schema refused S4 UnknownName"),
    (SOLE.replace("(a, b)", "(a, z)"), "schema refused S4 UnknownName"),
    ("SCHEMA s; ENTITY a SUBTYPE OF (b); END_ENTITY; ENTITY b SUBTYPE OF (a); END_ENTITY; END_SCHEMA;", "schema refused S5 Circular"),
    ("SCHEMA s; TYPE t = u; END_TYPE; TYPE u = t; END_TYPE; END_SCHEMA;", "schema refused S5 Circular"),
    ("SCHEMA s; TYPE t = SELECT (u); END_TYPE; TYPE u = SELECT (t); END_TYPE; END_SCHEMA;", "schema refused S5 Circular"),
    ("SCHEMA s; USE FROM t; END_SCHEMA;", "schema refused S6 LeftOut"),
    *((f"SCHEMA s; TYPE t = {word} OF REAL; END_TYPE; END_SCHEMA;", "schema refused S6 LeftOut") for word in ("AGGREGATE", "GENERIC", "GENERIC_ENTITY")),
    *((f"SCHEMA s; ENTITY {word}; END_ENTITY; END_SCHEMA;", "schema refused S6 LeftOut") for word in ("use", "reference", "extensible", "based_on", "renamed")),
    ("SCHEMA s; TYPE t = LIST [1:n] OF REAL; END_TYPE; END_SCHEMA;", "schema refused S6 LeftOut"),
    ("SCHEMA s; TYPE t = LIST [1:2+1] OF REAL; END_TYPE; END_SCHEMA;", "schema refused S6 LeftOut"),
    ("SCHEMA s; TYPE t = LIST [-1:2] OF REAL; END_TYPE; END_SCHEMA;", "schema refused S6 LeftOut"),
    ("SCHEMA s; TYPE t = STRING(n); END_TYPE; END_SCHEMA;", "schema refused S6 LeftOut"),
    ("SCHEMA s; TYPE t = EXTENSIBLE SELECT; END_TYPE; END_SCHEMA;", "schema refused S6 LeftOut"),
    ("SCHEMA s; TYPE t = SELECT; END_TYPE; END_SCHEMA;", "schema refused S6 LeftOut"),
    ("SCHEMA s; TYPE t = REAL; END_TYPE; TYPE s = SELECT (t); END_TYPE; TYPE u = s; END_TYPE; END_SCHEMA;", "schema refused S6 LeftOut"),
    ("SCHEMA s; ENTITY a; x : LIST [3:1] OF REAL; END_ENTITY; END_SCHEMA;", "schema refused S7 Bounds"),
    ("SCHEMA s; TYPE t = STRING(0); END_TYPE; END_SCHEMA;", "schema refused S7 Bounds"),
    ("SCHEMA s; TYPE t = STRING(4294967296); END_TYPE; END_SCHEMA;", "schema refused S7 Bounds"),
    ("SCHEMA s; TYPE t = LIST [0:4294967296] OF REAL; END_TYPE; END_SCHEMA;", "schema refused S7 Bounds"),
    ("SCHEMA s; TYPE t = SET [0000000000000:00004294967295] OF REAL; END_TYPE; TYPE u = ARRAY [1:1] OF REAL; END_TYPE; END_SCHEMA;", "SCHEMA S"),
    ("SCHEMA s; TYPE t = ARRAY [1:?] OF REAL; END_TYPE; END_SCHEMA;", "schema refused S7 Bounds"),
    ("SCHEMA s; TYPE t = LIST [?:1] OF REAL; END_TYPE; END_SCHEMA;", "schema refused S7 Bounds"),
    ("SCHEMA s; ENTITY a; END_ENTITY; ENTITY b SUBTYPE OF (a); DERIVE SELF\\a.z : REAL := 0.0; END_ENTITY; END_SCHEMA;", "schema refused S8 RedeclaredPlace"),
    ("SCHEMA s; ENTITY a; x : REAL; SELF\\a.x : REAL; END_ENTITY; END_SCHEMA;", "schema refused S8 RedeclaredPlace"),
    ("SCHEMA s; ENTITY a; x : " + "LIST OF " * 33 + "REAL; END_ENTITY; END_SCHEMA;", "schema refused S9 TooLarge"),
    ("SCHEMA s;" + "".join(f"TYPE t{n} = REAL; END_TYPE;" for n in range(65_536)) + "END_SCHEMA;", "schema refused S9 TooLarge"),
    (" " * 16_777_217, "schema refused S9 TooLarge"),
]

# A file as a usual converter writes it, and its canonical file.
CONVERTED = "\r\n".join(
    [
        "ISO-10303-21;",
        "HEADER;",
        "/* written by a converter */",
        "FILE_DESCRIPTION (( 'ViewDefinition [CoordinationView]' ), '2;1' );",
        FILE_NAME,
        "FILE_SCHEMA(('DEMO { 1 0 10303 214 1 1 1 1 }'));",
        "ENDSEC;",
        "DATA;",
        "#10 = ( SHAPE('') POINT(1.E-07,-2.5)",
        " MARKED(.GREEN.) );",
        "#2= POINT('p',0.,10.);",
        "ENDSEC;",
        "END-ISO-10303-21;",
        "",
    ]
)
CONVERTED_CANONICAL = f"""ISO-10303-21;
HEADER;
FILE_DESCRIPTION(('ViewDefinition [CoordinationView]'),'2;1');
{FILE_NAME}
FILE_SCHEMA(('DEMO {{ 1 0 10303 214 1 1 1 1 }}'));
ENDSEC;
DATA;
#2=POINT('p',0.,1.E1);
#10=(MARKED(.GREEN.)POINT(1.E-7,-2.5)SHAPE(''));
ENDSEC;
{END}"""


# Limits on a statement, on a canonical line, on a file and on a canonical file; what stands behind `DATA;` in a file of the schema
# DEMO, up to its end; and what `p21 check` would answer.
SECTION_END = f"ENDSEC;\n{END}"
LIMITED = [
    (Limits(50, 40, 1000, 1000), f"#2=POINT('\u00e9\u00e9',1.,1.);\n{SECTION_END}", "refused 27 CanonicalTooLong at statement 8"),
    (Limits(50, 40, 1000, 1000), f"#2=POINT('\u00e9',1.,1.);\n{SECTION_END}", "accepted, instances 1, canonical bytes 184"),
    (Limits(50, 40, 1000, 1000), f"#2 = POINT ( 'a'\n, 1.00000000, /* not counted */ 1.0000000000 ) ;\n{SECTION_END}", "accepted, instances 1, canonical bytes 173"),
    (Limits(50, 40, 1000, 1000), f"#2=POINT('a',1.00000000,1.000000000000000000000000000000);\n{SECTION_END}", "refused 22 RecordTooLong at statement 8"),
    # A string of 15 bytes, two of which stand for nothing, in a statement of 37.
    (Limits(37, 36, 1000, 1000), f"#2=POINT('abcdefghijk\n\n',1.0000,1.0);\n{SECTION_END}", "accepted, instances 1, canonical bytes 183"),
    (Limits(36, 36, 1000, 1000), f"#2=POINT('abcdefghijk\n\n',1.0000,1.0);\n{SECTION_END}", "refused 22 RecordTooLong at statement 8"),
    (Limits(100, 100, 1000, 151), SECTION_END, "refused 27 CanonicalTooLong at statement 9"),
    (Limits(100, 100, 152, 152), SECTION_END, "accepted, instances 0, canonical bytes 152"),
    (Limits(100, 100, 152, 152), f"{SECTION_END}\n", "refused 23 FileTooLong at statement 10"),
    (Limits(100, 100, 152, 152), f"{SECTION_END}/*", "refused 23 FileTooLong at statement 10"),
    # A token is refused in front of the byte that ends it, which is one too many.
    (Limits(100, 100, 145, 145), "#1=POINT($,1.E99999,", "refused 8 NumberRange at statement 8"),
    (Limits(100, 100, 145, 145), "#1=POINT($,1. 1.234 ", "refused 20 Unexpected at statement 8"),
    (Limits(100, 100, 145, 145), "#1=POINT($,X1234567,", "refused 23 FileTooLong at statement 8"),
    (Limits(100, 100, 145, 145), "#1=POINT($,1.E999990", "refused 23 FileTooLong at statement 8"),
    # The shortest file, by the limit on statements.
    *((Limits(most, most, 1000, 1000), SECTION_END, "refused 22 RecordTooLong at statement 1") for most in range(13)),
    *((Limits(most, most, 1000, 1000), SECTION_END, "refused 22 RecordTooLong at statement 3") for most in range(13, 29)),
    *((Limits(most, most, 1000, 1000), SECTION_END, "refused 22 RecordTooLong at statement 4") for most in range(29, 36)),
    (Limits(36, 36, 1000, 1000), SECTION_END, "accepted, instances 0, canonical bytes 152"),
]
# How many bytes the shortest file has up to the `;` of each of its statements: there the limit on files is met by the LF of the
# canonical line, and elsewhere by a byte of the file.
ENDS = [13, 21, 51, 88, 111, 119, 125, 133, 151]
LIMITED += [
    (
        Limits(100, 100, most, most),
        SECTION_END,
        f"refused 27 CanonicalTooLong at statement {ENDS.index(most) + 1}" if most in ENDS else f"refused 23 FileTooLong at statement {sum(end < most for end in ENDS) + 1}",
    )
    for most in range(152)
]

# Limits on a statement and on a file, a text, and the kinds of its tokens, with the number of the refusal that ends them.
LIMITED_TOKENS = [
    (5, 10, "12345;", ["whole", 22]),
    (5, 10, "12 /**/34;", ["whole", "whole", ";"]),
    (5, 10, "1234;1234;", ["whole", ";", "whole", ";"]),
    (5, 10, "1234;1234; ", ["whole", ";", "whole", ";", 23]),
    (3, 100, "123%", ["whole", 22]),
    (3, 100, "123 ", ["whole"]),
    (3, 100, "123/%", ["whole", 1]),
    (3, 100, "123/*%%%%*/", ["whole"]),
    (3, 100, "1.E ", [22]),
    (4, 100, "1.E ", [7]),
    (2, 100, "#2,", ["name", 22]),
    (3, 100, "'a\n'", [22]),
    (4, 100, "'a\n'", ["text"]),
    (20, 100, "#18446744073709551616", [22]),
    (21, 100, "#18446744073709551616", [10]),
    (3, 100, '"33B"', [9]),
    (2, 100, '"33B"', [22]),
]
NO_LIMITS = [Limits(10, 11, 10, 10), Limits(10, 10, 10, 11)]


def behind_header(schema, sections):
    """A file of this schema with the shortest header, and with this behind it."""
    return f"ISO-10303-21;\nHEADER;\n{FILE_DESCRIPTION}\n{FILE_NAME}\nFILE_SCHEMA(('{schema}'));\nENDSEC;\n{sections}"


def file_of(schema, instances):
    """A file with these instances in a section without a name."""
    return behind_header(schema, f"DATA;\n{instances}\nENDSEC;\n{END}" if instances else f"DATA;\nENDSEC;\n{END}")


def answered(answer, is_file=False):
    """What is written to each stream, and the status: of a refusal, or of what isn't found; of a word or lines; or of a file."""
    if answer.startswith(("refused", "schema refused", "first: ", "second: ", "no #")):
        return "", f"{answer}\n", 1
    return (answer if is_file else f"{answer}\n"), "", int(answer == "different")


def canon(title, schema, source, answer):
    """The case of a file that has this canonical file, or is refused so."""
    return Case(title, "canon", [schema, source], answered(answer, is_file=True))


def put_into(frame, answer):
    """An answer that is a refusal; or what it makes of the frame, where it is a part of the canonical file."""
    return answer if answer.startswith("refused") else frame(answer)


def of_instances():
    """The rows of instances, of headers and of sections."""
    product = (ROOT / "examples" / "product.exp").read_text()
    tables = [(name, SCHEMAS[name], rows) for name, rows in INSTANCES.items()] + [("PRODUCT_MODEL", product, PRODUCT)]
    for name, schema, rows in tables:
        for instances, answer in rows:
            yield canon(f"{name}, {instances}", schema, file_of(name, instances), put_into(lambda x, name=name: file_of(name, x), answer))
    for line, other, answer in HEADERS:
        empty = file_of("DEMO", "")
        yield canon(f"header, {other}", DEMO, empty.replace(line, other), put_into(lambda x, line=line: empty.replace(line, x), answer))
    for sections, answer in SECTIONS:
        whole = behind_header("DEMO", sections)
        yield canon(f"sections, {sections!r}", DEMO, whole, put_into(lambda x: behind_header("DEMO", x), answer))
    yield canon("a file of a converter", DEMO, CONVERTED, CONVERTED_CANONICAL)


def far_apart():
    """Two sections of three hundred names each that lie far from one another, in both orders."""
    beside = [f"#{7919 * n + 1}=POINT($,{n}.,1.);" for n in range(1, 301)]
    one, other = (f"DATA('{name}',('DEMO'));{''.join(lines)}ENDSEC;" for name, lines in (("a", FAR), ("b", beside)))
    return f"{one}{other}{END}", f"{other}{one}{END}"


def of_commands():
    """The rows of `check`, `show` and `same`."""
    point = file_of("DEMO", "#2 = POINT($, 1.0, 10.E-1);")
    many = file_of("DEMO", "\n".join(f"#{n}=POINT($,1.,1.);" for n in range(1, 1001)))
    exchanged = f"DATA('b',('DEMO'));#2=POINT($,2.,1.);ENDSEC;DATA('a',('demo'));#1=POINT($,1.,1.);ENDSEC;{END}"
    two = behind_header("DEMO", f"{POINT_IN_B}{POINT_IN_A}{END}")
    for title, text, count, length in [
        ("no instance", file_of("DEMO", ""), 0, 152),
        ("one instance", point, 1, 171),
        ("two sections", two, 2, 232),
        # A line has 18 bytes and its LF, where the name has one digit.
        ("a thousand instances", many, 1000, 152 + 9 * 19 + 90 * 20 + 900 * 21 + 22),
    ]:
        yield Case(f"check, {title}", "check", [DEMO, text], answered(f"accepted, instances {count}, canonical bytes {length}"))
    for title, instances, refusals in [
        ("a name again behind one that is refused", "#1=POINT();\n#1=POINT($,1.,1.);", ["45 Count in #1", "40 DuplicateName in #1"]),
        ("a name twice again", "#1=POINT();\n#1=POINT();\n#1=POINT($,1.,1.);", ["45 Count in #1", *["40 DuplicateName in #1"] * 2]),
        ("names again in external mapping", "#1=(SHAPE());\n#1=(SHAPE($)POINT(1.,2.));", ["42 Abstract in #1", "40 DuplicateName in #1"]),
    ]:
        lines = [*(f"refused {refusal}" for refusal in refusals), f"refusals {len(refusals)}", ""]
        yield Case(f"check --all, {title}", "check_all", [DEMO, file_of("DEMO", instances)], ("", "\n".join(lines), 1))
    yield Case("show, there", "show", [DEMO, point], answered("#2=POINT($,1.,1.);"), ["--name", "2"])
    yield Case("show, not there", "show", [DEMO, point], answered("no #3"), ["--name", "3"])
    for first, second, answer in SAME:
        yield Case(f"same, {first} {second}", "same", [DEMO, file_of("DEMO", first), file_of("DEMO", second)], answered(answer))
    for title, first, second, answer in [
        ("a second file of no byte", file_of("DEMO", ""), "", "second: refused 24 EndsEarly at statement 1"),
        ("sections in another order", two, behind_header("DEMO", f"{POINT_IN_A}{POINT_IN_B}{END}"), "same"),
        ("instances in each other's section", two, behind_header("DEMO", exchanged), "different"),
        ("names far apart in two sections", *(behind_header("DEMO", sections) for sections in far_apart()), "same"),
        ("a section with a name", behind_header("DEMO", f"{POINT_IN_A}{END}"), file_of("DEMO", "#2=POINT($,2.,1.);"), "different"),
        ("a section without a name", file_of("DEMO", ""), behind_header("DEMO", f"DATA('',('DEMO'));ENDSEC;{END}"), "different"),
        ("an integer and a real in the header", *(file_of("DEMO", "").replace(FILE_SCHEMA, f"{FILE_SCHEMA}A({x});") for x in ("1", "1.")), "different"),
        ("two names of the schema", file_of("DEMO", ""), file_of("demo", ""), "different"),
    ]:
        yield Case(f"same, {title}", "same", [DEMO, first, second], answered(answer))


# The name of the schema in FILE_SCHEMA, instances, and what `p21 syntax` answers of a file with these by itself.
ALONE = [
    ("DEMO", "", "well formed, instances 0, schema DEMO"),
    ("DEMO", "#1=NO(#2,(#1));#2=(B($)A(C(#1)));", "well formed, instances 2, schema DEMO"),
    ("demo {1 0 10303}", "#7=A();#07=B();", "refused 40 DuplicateName in #7"),
    ("a_b2-c", "#0=A('#9',#00);", "well formed, instances 1, schema A_B2"),
    ("_a", "", "refused 31 SchemaName at statement 5"),
    ("203", "", "refused 31 SchemaName at statement 5"),
    (" DEMO", "", "refused 31 SchemaName at statement 5"),
    ("", "", "refused 31 SchemaName at statement 5"),
    ("\\X\\44EMO", "", "well formed, instances 0, schema DEMO"),
    ("\\X2\\00C4\\X0\\", "", "refused 31 SchemaName at statement 5"),
    ("DEMO", "#1=A(#2);#3=A(#4);", "refused 56 Dangling in #1"),
    ("DEMO", "#1=A(#2);#2=A(B((#4)));", "refused 56 Dangling in #2"),
    ("DEMO", "#1=(A()B(#2,#1));", "refused 56 Dangling in #1"),
    ("DEMO", "#1=A(#2);#1=A();", "refused 40 DuplicateName in #1"),
    ("DEMO", "#1=A(1)", "refused 20 Unexpected at statement 8"),
    ("DEMO", "#1=A('\\X\\0');", "refused 4 BadDirective at statement 8"),
    ("DEMO", "#1=A(nan);", "refused 1 BadByte at statement 8"),
    ("DEMO", "#1=!A();", "refused 26 LeftOut(UserKeyword) at statement 8"),
    ("DEMO", "#18446744073709551615=A(#18446744073709551615);", "well formed, instances 1, schema DEMO"),
    ("DEMO", "#18446744073709551616=A();", "refused 10 NameRange at statement 8"),
]
# What stands behind the header, and what is answered.
SECTIONS_ALONE = [
    (f"DATA('x',('Demo {{1}}'));#1=A(#2);ENDSEC;DATA('',('DEMO'));#2=A();ENDSEC;{END}", "well formed, instances 2, schema DEMO"),
    (f"DATA('x',('DEMO'));ENDSEC;DATA('\\X\\78',('DEMO'));ENDSEC;{END}", "refused 33 SectionTwice at statement 9"),
    (f"DATA('x',('DEMO_'));ENDSEC;{END}", "refused 31 SchemaName at statement 7"),
    (f"DATA('x',('DEMO'));#1=A();ENDSEC;DATA('y',('DEMO'));#1=A();ENDSEC;{END}", "refused 40 DuplicateName in #1"),
    (f"DATA;ENDSEC;{END}#1", "refused 25 AfterEnd at statement 10"),
]


# What every header below says of the rest of the file.
PLAIN_NAME = "file name:\ntime stamp:\nauthor:\norganization:\npreprocessor version:\noriginating system:\nauthorization:\n"
PLAIN_DESCRIPTION = "description:\nimplementation level: 2;1\n"
# The records of a header with FILE_SCHEMA left out, what stands behind it, the instances, and what `p21 syntax --header --count`
# answers of the file behind its first line.
TOLD = [
    (f"{FILE_DESCRIPTION}{FILE_NAME}", "", "", f"{PLAIN_DESCRIPTION}{PLAIN_NAME}schema: DEMO\n"),
    (
        f"FILE_DESCRIPTION(('a','','b, c'),'3;1');{FILE_NAME}",
        "",
        "",
        f"description: a\ndescription:\ndescription: b, c\nimplementation level: 3;1\n{PLAIN_NAME}schema: DEMO\n",
    ),
    (
        f"{FILE_DESCRIPTION}FILE_NAME('part.stp','2026-11-30T09:00:00+01:00',('A','B'),('C'),'writer 1','system 2','D');",
        "",
        "",
        f"{PLAIN_DESCRIPTION}file name: part.stp\ntime stamp: 2026-11-30T09:00:00+01:00\nauthor: A\nauthor: B\norganization: C\n"
        "preprocessor version: writer 1\noriginating system: system 2\nauthorization: D\nschema: DEMO\n",
    ),
    # `$` and an empty list say nothing.
    ("FILE_DESCRIPTION($,$);FILE_NAME($,$,$,$,$,$,$);", "", "", "schema: DEMO\n"),
    ("FILE_DESCRIPTION((),'2');FILE_NAME($,'t',(),($,'o',$),$,$,$);", "", "", "implementation level: 2\ntime stamp: t\norganization: o\nschema: DEMO\n"),
    # Strings are decoded, and what a line or a terminal doesn't show stands as its directive.
    (
        rf"{FILE_DESCRIPTION}FILE_NAME('it''s \\n \X2\00FC\X0\\S\|','\X4\0001F600\X0\',('\X\0A\X\0D\X\09','\X\00\X\1B\X\1F','\X\7F\X\80\X\9F'),"
        r"('\X\7E\X\A0\X\AD'),'\X2\061B061C061D\X0\','\X2\200D200E200F2010\X0\','\X2\20272028202E202F\X0\');",
        "",
        "",
        f"{PLAIN_DESCRIPTION}file name: it's \\n \u00fc\u00fc\ntime stamp: \U0001f600\nauthor: \\X2\\000A\\X0\\\\X2\\000D\\X0\\\\X2\\0009\\X0\\\nauthor: \\X2\\0000\\X0\\\\X2\\001B\\X0\\\\X2\\001F\\X0\\\n"
        "author: \\X2\\007F\\X0\\\\X2\\0080\\X0\\\\X2\\009F\\X0\\\norganization: ~\u00a0\u00ad\npreprocessor version: \u061b\\X2\\061C\\X0\\\u061d\n"
        "originating system: \u200d\\X2\\200E\\X0\\\\X2\\200F\\X0\\\u2010\nauthorization: \u2027\\X2\\2028\\X0\\\\X2\\202E\\X0\\\u202f\nschema: DEMO\n",
    ),
    (
        rf"FILE_DESCRIPTION(('\X2\20652066\X0\'),'\X2\2069206A\X0\');{FILE_NAME}",
        "",
        "",
        f"description: \u2065\\X2\\2066\\X0\\\nimplementation level: \\X2\\2069\\X0\\\u206a\n{PLAIN_NAME}schema: DEMO\n",
    ),
    # Of a further record the keyword is told alone.
    (
        f"{FILE_DESCRIPTION}{FILE_NAME}",
        "FILE_POPULATION('DEMO','x',$);!FILE_NAME('y');A();",
        "",
        f"{PLAIN_DESCRIPTION}{PLAIN_NAME}schema: DEMO\nfurther record: FILE_POPULATION\nfurther record: !FILE_NAME\nfurther record: A\n",
    ),
    # Keywords by their bytes: digits stand in front of letters, and `_` behind them. Each part of a record counts by itself.
    (
        "FILE_DESCRIPTION($,$);FILE_NAME($,$,$,$,$,$,$);",
        "",
        "#1=B_A();#2=BA();#3=B2();#4=B();#5=(B()A(C(D(1)))B());#6=B(#5);",
        "schema: DEMO\nA 1\nB 4\nB2 1\nBA 1\nB_A 1\n",
    ),
]


def of_files_alone():
    """Files by themselves, and one that is cut off in front of its last `;`."""
    for records, further, instances, lines in TOLD:
        count = instances.count("=")
        text = f"ISO-10303-21;HEADER;{records}{FILE_SCHEMA}{further}ENDSEC;DATA;{instances}ENDSEC;{END}"
        answer = f"well formed, instances {count}, schema DEMO\n{lines}"
        yield Case(f"syntax, {records}{further} {instances}", "syntax_told", [text], answered(answer, is_file=True))
    yield Case("syntax, refused with all flags", "syntax_told", [file_of("DEMO", "#1=A(#2);")], answered("refused 56 Dangling in #1"))
    for schema, instances, answer in ALONE:
        yield Case(f"syntax, {schema} {instances}", "syntax", [file_of(schema, instances)], answered(answer))
    for sections, answer in SECTIONS_ALONE:
        yield Case(f"syntax, {sections}", "syntax", [behind_header("DEMO", sections)], answered(answer))
    for length in range(CONVERTED.rindex(";") + 1):
        text = CONVERTED[:length]
        yield Case(f"syntax, a file of a converter, {length} bytes", "syntax", [text], answered(cut_off(text)))


def of_cuts():
    """Files and a schema that are cut off in front of their last `;`, and one of no byte."""
    for title, text in (("a file", file_of("DEMO", "#2 = POINT($, 1.0, 10.E-1);")), ("a file of a converter", CONVERTED)):
        for length in range(text.rindex(";") + 1):
            yield Case(f"{title}, {length} bytes", "check", [DEMO, text[:length]], answered(cut_off(text[:length])))
    for length in range(DEMO.rindex(";") + 1):
        yield Case(f"the schema, {length} bytes", "schema", [DEMO[:length]], answered("schema refused S2 Syntax"))


def cut_off(text):
    """The refusal of the beginning of a file: it ends inside a string, inside a comment, or elsewhere."""
    rest = re.sub(r"'[^']*'|/\*.*?\*/", "", text, flags=re.S)
    number = rest.split("'")[0].count(";") + 1
    fault = "2 OpenString" if "'" in rest else "3 OpenComment" if "/*" in rest else "24 EndsEarly"
    return f"refused {fault} at statement {number}"


def of_pages(folder):
    """The examples of docs/CANONICAL.md, the texts of docs/FAULTS.md, and the broken files of every_refusal.py one by one."""
    schema, examples = canonical_form.examples()
    for title, source, canonical in examples:
        yield canon(f"CANONICAL.md: {title}, source", schema, source, canonical)
        yield canon(f"CANONICAL.md: {title}, canonical file", schema, canonical, canonical)
    schema, examples = canonical_form.numbered_examples()
    for title, source, answer in examples:
        wanted = ("", answer, 1) if answer.startswith("refused ") else (answer, "", 0)
        yield Case(f"CANONICAL.md: {title}", "canon_names", [schema, source], wanted)
    for title, (command, *words), answer in texts.faults(folder):
        paths = [word for word in words if word != "--names"]
        named = f"{command}_names" if paths != words else command
        yield Case(title, named, [(ROOT / path).read_bytes() for path in paths], answered(answer))
    every = [*every_refusal.RECORDS, *every_refusal.REFERENCES, every_refusal.AGAIN]
    for rows in [[row] for row in every] + [every]:
        text, _, listed = every_refusal.broken(rows)
        title = "every refusal" if rows is every else rows[0][1]
        yield Case(f"every_refusal.py: {title}", "check_all", [every_refusal.SCHEMA, text], ("", "\n".join([*listed, ""]), 1))


def limited():
    """The rows of limits, by the plain reading alone: what each is, what is wanted, and what is answered."""
    for limits, sections, answer in LIMITED:
        text = behind_header("DEMO", f"DATA;\n{sections}").encode()
        yield f"{limits}, {sections!r}", answered(answer), commands.check(DEMO.encode(), text, limits)
    for record, file, text, kinds in LIMITED_TOKENS:
        found = []
        try:
            for token in tokens(text.encode(), Limits(record, record, file, file)):
                found.append(token.kind)
        except Refused as refused:
            found.append(refused.number)
        yield f"statements of {record} and files of {file} bytes, {text!r}", kinds, found
    for limits, wanted in [(USUAL, True), *((limits, False) for limits in NO_LIMITS)]:
        yield f"{limits}", wanted, are_limits(limits)


def cases(folder):
    """All cases."""
    for text, answer in PARAMETERS:
        yield Case(f"param, {text[:60]}", "param", [text], answered(answer))
    for text, answer in SCHEMA_TEXTS:
        yield Case(f"schema, {text[:200]}", "schema", [text], answered(answer))
    yield from of_instances()
    yield from of_commands()
    yield from of_files_alone()
    yield from of_cuts()
    yield from of_pages(folder)


def shown(answer):
    """An answer in one line that isn't longer than a page."""
    return repr(answer)[:2000]


def main():
    count = failed = 0

    def judge(title, wanted, reader, found):
        """Counts an answer that is another one, and shows it."""
        nonlocal failed
        if found != wanted:
            failed += 1
            print(f"{title}\n  wanted {shown(wanted)}\n  {reader} answers {shown(found)}")

    with tempfile.TemporaryDirectory() as name:
        folder = pathlib.Path(name)
        program = Program(PROGRAM, folder)
        for case in cases(folder):
            given = [text.encode() if isinstance(text, str) else text for text in case.texts]
            run = case.command, given, case.options
            count += 1
            judge(case.title, case.answer, "the program", program.answer(*run))
            judge(case.title, case.answer, "the plain reading", plain_answer(commands, run))
    of_limits = list(limited())
    for title, wanted, found in of_limits:
        judge(title, wanted, "the plain reading", found)
    print(f"{count} cases by the program and by the plain reading, {len(of_limits)} of limits by the latter, {failed} answers are others")
    return int(failed > 0)


if __name__ == "__main__":
    sys.exit(main())
