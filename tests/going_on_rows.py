"""Files with broken statements: by hand, each with its list, and as careless exporters write them. The marks are those of `going_on.py`."""

import pathlib
import re
from typing import NamedTuple

import exchange

ROOT = pathlib.Path(__file__).resolve().parent.parent

SCHEMA = b"""SCHEMA going_on;
ENTITY point; label : STRING; x : REAL; END_ENTITY;
ENTITY link; to : point; END_ENTITY;
END_SCHEMA;
"""

END = b"ENDSEC;\nEND-ISO-10303-21;\n"


def file_of(behind):
    """A file with this behind `DATA;` and a line end, where the next statement is the eighth; or behind the header, where it begins with a
    data section; or by itself, where it begins with a file. <end> stands for the ends of a section and a file."""
    text = behind.replace(b"<end>", END)
    if text.startswith(b"ISO-10303-21"):
        return text
    return (exchange.header if text.startswith(b"DATA(") else exchange.front)("GOING_ON").encode() + text


# A name; what stands behind `DATA;`; and the refusals in the order of the list.
ROWS = [
    # Where the statement ends isn't known: a `;`, a `)` or both are missing, or one stands there too many.
    (
        "a semicolon is missing",
        b"#1=POINT('a',1.)\n~20~#2=POINT('b',2.);\n#3=LINK(#1);\n#4=LINK(#2);\n<end>",
        ["20 Unexpected at statement 8"],
    ),
    (
        "a semicolon is missing, all in one line",
        b"#1=POINT('a',1.)~20~#2=POINT('b',2.)~20~#3=POINT('c',3.);#4=LINK(#3);<end>",
        ["20 Unexpected at statement 8", "20 Unexpected at statement 9"],
    ),
    (
        "a parenthesis is missing",
        b"#1=POINT('a',1.~20~;\n#2=POINT('b',2.);\n#3=POINT('c',(3.)~20~;\n#4=LINK(#2);\n<end>",
        ["20 Unexpected at statement 8", "20 Unexpected at statement 10"],
    ),
    (
        "both are missing: the next line begins a statement",
        b"#1=POINT('a',1.\n~20~#2=POINT('b',2.);\n#3=LINK(#2);\n<end>",
        ["20 Unexpected at statement 8"],
    ),
    (
        "both are missing in one line: the next statement is hidden, and nothing is said of its name",
        b"#1=POINT('a',1.~20~#2=POINT('b',2.);#3=LINK(#2);#4=LINK(#9);#5=LINK(~57~#3);<end>",
        ["20 Unexpected at statement 8", "57 WrongTarget in #5"],
    ),
    ("a parenthesis too many", b"#1=POINT('a',1.)~20~);\n#2=LINK(#1);\n<end>", ["20 Unexpected at statement 8"]),
    (
        "a semicolon too many",
        b"#1=POINT('a',1.);~20~;\n#2=LINK(#1);~20~;\n<end>",
        ["20 Unexpected at statement 9", "20 Unexpected at statement 11"],
    ),
    ("a semicolon for a comma", b"#1=POINT('a'~20~;1.);\n#2=POINT('b',2.);\n<end>", ["20 Unexpected at statement 8"]),
    ("an equals sign for a comma", b"#1=POINT('a'~20~=1.);\n#2=POINT('b',2.);\n<end>", ["20 Unexpected at statement 8"]),
    (
        "an equals sign behind a reference within a line makes no landmark",
        b"#1=LINK(~1~x,#2=#3);\n#2=POINT('b',2.);\n<end>",
        ["1 BadByte at statement 8"],
    ),
    (
        "one behind a reference that begins a line does",
        b"#1=LINK(~1~x,\n#2=~20~#3);\n#2=POINT('b',2.);\n<end>",
        ["1 BadByte at statement 8", "20 Unexpected at statement 9"],
    ),
    # Bytes and tokens.
    (
        "a keyword in lower case",
        b"#1=~1~point('a',1.);\n#2=POINT('b',2.);\n#3=~1~link(#2);\n<end>",
        ["1 BadByte at statement 8", "1 BadByte at statement 10"],
    ),
    (
        "a letter of ISO 8859-1",
        b"#1=POINT('a~6~\xe9',1.);\n#2=POINT('~6~\xfcb',2.);\n<end>",
        ["6 NotUtf8 at statement 8", "6 NotUtf8 at statement 9"],
    ),
    ("an escape of C", b"#1=POINT('a\\~4~u00e9',1.);\n#2=POINT('b',2.);\n<end>", ["4 BadDirective at statement 8"]),
    ("half of a pair", b"#1=POINT('\\X2\\D83D~5~\\X0\\',1.);\n#2=POINT('b',2.);\n<end>", ["5 BadCodePoint at statement 8"]),
    (
        "no number",
        b"#1=POINT('a',~1~nan);\n#2=POINT('b',~1~inf);\n#3=POINT('c',-~7~inf);\n#4=POINT('d',NAN~20~);\n<end>",
        ["1 BadByte at statement 8", "1 BadByte at statement 9", "7 BadNumber at statement 10", "20 Unexpected at statement 11"],
    ),
    ("a number out of range", b"#1=POINT('a',~8~1.E10000);\n#2=POINT('b',2.);\n<end>", ["8 NumberRange at statement 8"]),
    ("a binary that is none", b'#1=POINT("0~9~x",1.);\n#2=POINT(\'b\',2.);\n<end>', ["9 BadBinary at statement 8"]),
    ("a name that is too large", b"#1=LINK(#1844674407370955161~10~6);\n#2=POINT('b',2.);\n<end>", ["10 NameRange at statement 8"]),
    (
        "a landmark with a name that is too large",
        b"#1=LINK(~1~x);\n#1844674407370955161~10~6=POINT('b',2.);\n#3=POINT('c',3.);\n<end>",
        ["1 BadByte at statement 8", "10 NameRange at statement 9"],
    ),
    ("a name without digits", b"#~11~=POINT('a',1.);\n#2=POINT('b',2.);\n<end>", ["11 BadName at statement 8"]),
    (
        "lists in one another",
        b"#1=LINK(" + 64 * b"(" + b"~21~(" + 65 * b")" + b");\n#2=POINT('b',2.);\n<end>",
        ["21 TooDeep at statement 8"],
    ),
    ("a user keyword", b"#1=~26~!POINT('a',1.);\n#2=POINT('b',2.);\n<end>", ["26 LeftOut(UserKeyword) at statement 8"]),
    (
        "a scope: its end is refused once more",
        b"#1=~26~&SCOPE\n#2=POINT('b',2.);\n~20~ENDSCOPE\nPOINT('a',1.);\n#3=LINK(#2);\n<end>",
        ["26 LeftOut(Scope) at statement 8", "20 Unexpected at statement 10"],
    ),
    (
        "landmarks with blanks, behind each kind of line end",
        b"#1=~1~p\r#2 \t=~1~p\r\n#3\n=~1~p;#4\x7f=~1~p) \x00 #5=POINT('e',5.);\n<end>",
        [f"1 BadByte at statement {number}" for number in range(8, 12)],
    ),
    # Strings and remarks that nothing ends.
    (
        "a lost apostrophe",
        b"#1=POINT('a',1.);\n#2=POINT('b,2.);\n#3=POINT('~1~c',3.);\n#4=POINT('d',4.);\n#5=LINK(#3);\n<end>",
        ["1 BadByte at statement 9"],
    ),
    (
        "a lost apostrophe in front of a capital letter",
        b"#2=POINT('b,2.);\n#3=POINT('~20~C',3.);\n#4=LINK(#3);\n<end>",
        ["20 Unexpected at statement 8"],
    ),
    (
        "a lost apostrophe in the last line: the file ends in a string",
        b"#2=POINT('b',2.);\n#3=POINT(~2~'c,3.);\n<end>",
        ["2 OpenString at statement 9"],
    ),
    (
        "so it does, and in it stands another statement that is broken",
        b"#3=POINT(~2~'c,3.);\n#4=POINT(~20~,4.);\n<end>",
        ["2 OpenString at statement 8", "20 Unexpected at statement 9"],
    ),
    (
        "one apostrophe too many",
        b"#1=POINT('O'~20~NEILL',1.);\n#2=POINT('b',2.);\n<end>",
        ["20 Unexpected at statement 8"],
    ),
    (
        "a text that seems a statement, in a statement that is refused",
        b"#1=POINT('see;\n#9=POINT(',~1~nan);\n#2=POINT('~1~b',2.);\n#3=POINT('c',3.);\n<end>",
        ["1 BadByte at statement 8", "1 BadByte at statement 9"],
    ),
    (
        "the same in one that is right",
        b"#1=POINT('see;\n#9=POINT(',1.);\n#2=~1~point('b',2.);\n#3=LINK(#1);\n<end>",
        ["1 BadByte at statement 9"],
    ),
    (
        "a string that is refused by itself, with a statement in it",
        b"#1=~20~'a;\n#2=POINT(\"~9~b\",2.);\n';\n#3=LINK(#2);\n<end>",
        ["20 Unexpected at statement 8", "9 BadBinary at statement 9"],
    ),
    (
        "a remark that never ends",
        b"#1=POINT('a',1.);\n~3~/* points\n#2=POINT('b',2.);\n#3=LINK(#2);\n<end>",
        ["3 OpenComment at statement 9"],
    ),
    (
        "three of them, one within a statement and with another in it, the last in front of the end",
        b"#1=POINT('a',1.); ~3~/* a\n#2=POINT(~3~/* b /* c\n'b',2.);\n#3=POINT('/*',3.); ~3~/* d\n<end>",
        ["3 OpenComment at statement 9", "3 OpenComment at statement 10", "3 OpenComment at statement 12"],
    ),
    ("one in front of nothing that begins a statement", b"#1=POINT('a',1.);\n~|~~3~/* points\nENDSEC\n", ["3 OpenComment at statement 9"]),
    (
        "one behind a string that holds a statement",
        b"#1=POINT('a;\n#2=POINT(''~1~b'',2.);\n',1.) ~3~/* b\n#3=LINK(#2);\n<end>",
        ["3 OpenComment at statement 8", "1 BadByte at statement 9"],
    ),
    (
        "a remark in front of a name hides it, since no line ends in front of it",
        b"#1=POINT('a',1.)\n/* b */ ~20~#2=POINT('b',2.);\n#3=LINK(#2);\n<end>",
        ["20 Unexpected at statement 8"],
    ),
    # The ends of sections and of files.
    ("ENDSEC within a statement", b"#1=POINT('a',1.);\n#2=POINT('b'\n~20~ENDSEC;\nEND-ISO-10303-21;\n", ["20 Unexpected at statement 9"]),
    (
        "ENDSEC behind a comma is a keyword, and what is refused stands behind it: the next signpost ends the file",
        b"#1=POINT('a',1.);\n~|~#2=POINT('b',\nENDSEC~20~;\nEND-ISO-10303-21;\n",
        ["20 Unexpected at statement 9"],
    ),
    (
        "so is the name of the next instance a reference",
        b"#1=LINK(\n#2~20~=POINT('b',2.);\n#3=POINT('c',3.);\n<end>",
        ["20 Unexpected at statement 8"],
    ),
    ("ENDSEC with blanks", b"#1=POINT('a',1.);\n#2=POINT('b'\r~20~ENDSEC \t\n;END-ISO-10303-21;", ["20 Unexpected at statement 9"]),
    ("ENDSEC is missing", b"#1=POINT('a',1.);\n~|~~20~END-ISO-10303-21;\n", ["20 Unexpected at statement 9"]),
    ("ENDSEC without its semicolon", b"#1=POINT('a',1.);\n~|~ENDSEC\n~20~END-ISO-10303-21;\n", ["20 Unexpected at statement 9"]),
    ("ENDSEC in lower case", b"#1=POINT('a',1.);\n~|~~1~endsec;\nEND-ISO-10303-21;\n", ["1 BadByte at statement 9"]),
    (
        "the end of the file within a statement",
        b"#1=~1~p;\n#2=POINT('b',2.);\n~|~#3=POINT('c',~24~",
        ["1 BadByte at statement 8", "24 EndsEarly at statement 10"],
    ),
    (
        "the end of the file between statements",
        b"#1=~1~p;\n#2=POINT('b',2.);\n /* a */ ~|~~24~",
        ["1 BadByte at statement 8", "24 EndsEarly at statement 10"],
    ),
    ("the end of the file in a string", b"#1=POINT('a',1.);\n~|~#2=POINT(~2~'b,2.);\n", ["2 OpenString at statement 9"]),
    ("no statement behind a broken one", b"#1=POINT('a',1.);\n~|~#2=~1~point('b',2.);\n", ["1 BadByte at statement 9"]),
    (
        "the end of the file in a number out of range, behind a string that holds a statement",
        b"#1=POINT('a;\n~|~#2=POINT(~2~',~8~1.E10000",
        ["8 NumberRange at statement 8", "2 OpenString at statement 9"],
    ),
    (
        "two files joined, the first cut off",
        b"#1=POINT('a',1.);\n~|~#2=POINT('b'\n~20~" + exchange.front("GOING_ON").encode() + b"#3=POINT('c',3.);\n<end>",
        ["20 Unexpected at statement 9"],
    ),
    (
        "two files joined, the first cut off in a string",
        b"~|~#2=POINT('b\n" + exchange.front("GOING_ON").encode().replace(b"(('')", b"(('~1~x')", 1) + b"#3=POINT('c',3.);\n<end>",
        ["1 BadByte at statement 8"],
    ),
    (
        "two files joined, whole",
        b"#1=~1~p;\n<end>~|~~25~" + exchange.front("GOING_ON").encode() + b"#1=POINT('a',1.);\n<end>",
        ["1 BadByte at statement 8", "25 AfterEnd at statement 11"],
    ),
    (
        "a file without its end",
        b"#1=POINT('a'~20~;\n#2=POINT('b',2.);\nENDSEC;\n~|~~24~",
        ["20 Unexpected at statement 8", "24 EndsEarly at statement 11"],
    ),
    (
        "two sections with names",
        b"DATA('one',('GOING_ON'));\n#1=POINT('a',1.\n~20~ENDSEC;\nDATA('two',('GOING_ON'));\n#2=~1~p;\n#3=LINK(#1);\n<end>",
        ["20 Unexpected at statement 8", "1 BadByte at statement 11"],
    ),
    (
        "the opening of a section ends the list",
        b"DATA('one',('GOING_ON'));\n#1=~1~p;\nENDSEC;\n~|~DATA('two'~20~;\n#2=POINT('b',2.);\n<end>",
        ["1 BadByte at statement 8", "20 Unexpected at statement 10"],
    ),
    (
        "the header ends it",
        b"ISO-10303-21;\nHEADER;\n~|~FILE_DESCRIPTION(('~6~\xe9'),'2;1');\nENDSEC;\nDATA;\n#1=POINT('a',1.);\n<end>",
        ["6 NotUtf8 at statement 3"],
    ),
    # Instances that are refused, their names, and references.
    (
        "the name of a broken instance once more: it isn't twice",
        b"#1=~1~point('a',1.);\n#1=POINT('b',2.);\n#2=LINK(#1);\n<end>",
        ["1 BadByte at statement 8"],
    ),
    (
        "the name of a refused instance once more",
        b"#1=POINT(~45~);\n#1=~1~p;\n~40~#1=POINT('b',2.);\n#2=LINK(#1);\n<end>",
        ["45 Count in #1", "1 BadByte at statement 9", "40 DuplicateName in #1"],
    ),
    (
        "the name once more of an instance with a statement in a string, which is refused and passed over",
        b"#1=POINT('a;\n#9=~20~',2.,~45~3.);\n#1=POINT('b',2.);\n#2=LINK(#1);\n#3=LINK(~57~#2);\n<end>",
        ["45 Count in #1", "20 Unexpected at statement 9", "57 WrongTarget in #3"],
    ),
    (
        "an instance that is refused, with the end of a file in a string",
        b"~|~#1=POINT('a;\nEND-ISO-10303-21;',2.,~45~3.);\n#2=POINT('b',2.);\n<end>",
        ["45 Count in #1"],
    ),
    (
        "references to broken and to refused instances, to none, and to one of another kind",
        b"#1=POINT('a'~20~;\n#2=POINT(1.~45~);\n#3=LINK(#1);\n#4=LINK(#2);\n#5=LINK(#9);\n#6=LINK(~57~#3);\n<end>",
        ["20 Unexpected at statement 8", "45 Count in #2", "57 WrongTarget in #6"],
    ),
    (
        "one of another kind behind a broken statement of the same name",
        b"#3=LINK(#2)~20~';\n#3=LINK(~57~#1);\n#1=LINK(#2);\n#2=POINT('b',2.);\n<end>",
        ["20 Unexpected at statement 8", "57 WrongTarget in #3"],
    ),
    (
        "an instance of no entity behind broken statements",
        b"#1=~1~p;\n#2=POINT('/* b' ~20~'c');\n#3=~41~CIRCLE(1.);\n#4=LINK(#3);\n<end>",
        ["1 BadByte at statement 8", "20 Unexpected at statement 9", "41 UnknownEntity in #3"],
    ),
]


class Habit(NamedTuple):
    """Of the places where a pattern fits, from one on every so many is written in another way, up to so many."""

    name: str
    pattern: bytes
    by: bytes
    count: int = 3
    every: int = 2
    start: int = 0

    def __call__(self, text):
        fitting = written = 0

        def other(found):
            nonlocal fitting, written
            at, fitting = fitting, fitting + 1
            if written == self.count or at < self.start or (at - self.start) % self.every:
                return found[0]
            written += 1
            return found.expand(self.by)

        edited = re.sub(self.pattern, other, text)
        assert written == self.count, (self.name, written)
        return edited


# What exporters write, by the refusal that it is.
HABITS = [
    Habit("keywords in lower case", rb"(= ?)CARTESIAN_POINT", rb"\1~1~cartesian_point"),
    Habit("keywords with one capital letter", rb"(= ?)D(IRECTION)", rb"\1D~1~irection"),
    Habit("hyphens in keywords", rb"(= ?)ORIENTED_EDGE", rb"\1ORIENTED~1~-EDGE", 5, 4),
    Habit("letters of ISO 8859-1", rb"(= ?VERTEX_POINT\(')", b"\\1Kr~6~\xfcger", 4),
    Habit("escapes of C", rb"(= ?EDGE_CURVE\(')", rb"\1Kr\\~4~u00fcger", 4, 3),
    Habit("paths of Windows", rb"(= ?EDGE_LOOP\(')", rb"\1C:\\~4~parts", 3),
    Habit("strings between quotes", rb"(= ?ADVANCED_FACE\()'(\w+)'", rb'\1"~9~\2"', 3),
    Habit("an apostrophe that isn't doubled", rb"(= ?CARTESIAN_POINT\(')'", rb"\1O'~20~NEILL'", 4),
    Habit("nan", rb"(= ?DIRECTION\('',\()[-0-9.]+", rb"\1~1~nan"),
    Habit("inf with a sign", rb"(= ?DIRECTION\('',\()[-0-9.]+", rb"\1-~7~inf"),
    Habit("1.#IND", rb"(= ?DIRECTION\('',\()[-0-9.]+", rb"\g<1>1.~26~#IND"),
    Habit("reals that begin with the point", rb"(= ?VECTOR\('',\s*#\d+,)1\.", rb"\1.~1~5", 2),
    Habit("exponents in lower case", rb"(= ?CARTESIAN_POINT\('',\()(\d+\.)", rb"\1\2~1~e+00"),
    Habit("numbers out of range", rb"(= ?VECTOR\('',\s*#\d+,)(1\.)", rb"\1~8~\2E+99999", 2),
    Habit("lost semicolons", rb"(= ?VERTEX_POINT[^;]*);(\s*)#", rb"\1\2~20~#", 4),
    Habit("lost parentheses", rb"(= ?CARTESIAN_POINT[^;]*)\);", rb"\1~20~;", 4),
    Habit("both lost", rb"(= ?CARTESIAN_POINT[^;]*)\)\);(\s*)#", rb"\1\2~20~#", 4),
    Habit("one parenthesis too many", rb"(= ?PLANE\([^;]*\));", rb"\1~20~);", 3),
    Habit("semicolons twice", rb"(= ?LINE\([^;]*;)", rb"\1~20~;", 5),
    Habit("no equals signs", rb"(\n#\d+) ?= ?LINE\(", rb"\1 ~20~LINE(", 5),
    Habit("truth as a word", rb"(= ?ORIENTED_EDGE\('',\*,\*,\s*#\d+,)\.T\.\)", rb"\1TRUE~20~)", 6),
    Habit("no value between commas", rb"(= ?AXIS2_PLACEMENT_3D\()'',", rb"\1~20~,"),
    Habit("remarks of C++", rb"/(\*[^*]*)\*/\r?\n(#)", rb"/~1~/\1\n\2", 4),
    Habit("constants", rb"(= ?VERTEX_POINT\('',\s*)#\d+", rb"\1~26~#ORIGIN", 4),
    Habit("user keywords", rb"(= ?)LINE\(", rb"\1~26~!MY_LINE(", 5),
]


def second(text):
    """The same file by another exporter: other line ends, blanks around the `=`, and a reference often on a line of its own."""
    text = re.sub(rb"(?m)^(#\d+)=", rb"\1 = ", text)
    return text.replace(b",#", b",\n  #").replace(b"\n", b"\r\n")


def lost_apostrophes(text):
    """A file in which every second name of a face has no apostrophe behind it: what is refused is the first letter of the next name."""
    faces = 0

    def other(found):
        nonlocal faces
        faces += 1
        return found[1] + (found[2] + b"," if faces % 2 else b"~1~" + found[2] + b"',")

    edited = re.sub(rb"(= ?ADVANCED_FACE\(')(\w+)',", other, text)
    assert faces == 6, faces
    return edited


def broken_files():
    """Each habit in the files of two exporters: a name, and the file with its marks."""
    first = (ROOT / "examples" / "product.step").read_bytes()
    for exporter, text in (("first", first), ("second", second(first))):
        for habit in HABITS:
            yield f"{habit.name}, {exporter} exporter", habit(text)
        yield f"lost apostrophes, {exporter} exporter", lost_apostrophes(text)
