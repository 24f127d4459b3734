#!/usr/bin/env python3
"""Runs `p21 diff` over pairs of files that are made: against the lines that are worked out by hand, against `p21 same`, and against
the canonical files, whose lines are held beside each other here. P21 names another program than ./p21.
"""

import json
import os
import random
import re
import subprocess
import sys
import tempfile
from fractions import Fraction

from tooling import FRAME, ROOT, SCHEMA, file_of

PROGRAM = os.environ["P21"]
MOST_SECONDS = 120
PAIRS = 60
SEED = 20261130

POINT = "#1=CARTESIAN_POINT('',(0.,0.,0.));"
PERSON = "#2=PERSON('ek',$,$,$);"
UNIT = "#3=(LENGTH_UNIT()NAMED_UNIT(*)SI_UNIT(.MILLI.,.METRE.));"
LONG = "p" * 150
SECTION = "DATA('{name}',('PRODUCT_MODEL'));\n{lines}\nENDSEC;"


def sections(*named):
    """A file with these data sections."""
    return FRAME.format(data="\n".join(SECTION.format(name=name, lines=lines) for name, lines in named))


# Each row: a name, the file A, the file B, and the lines that are printed; the last one is the count.
ROWS = [
    ("the same text", file_of(POINT), file_of(POINT), ["same"]),
    (
        "order and spelling don't count",
        file_of(f"{POINT}\n{PERSON}"),
        file_of(f"{PERSON}\n/* moved */ #01 = CARTESIAN_POINT('',(0.0,-0.,0.E5)) ;"),
        ["same"],
    ),
    (
        "an element",
        file_of(POINT),
        file_of(POINT, [("0.,0.,0.", "0.,0.,7.5")]),
        ["changed #1 CARTESIAN_POINT.COORDINATES [3] 0. 7.5", "different: 1 changed, 0 came, 0 went"],
    ),
    (
        "two elements",
        file_of(POINT),
        file_of(POINT, [("0.,0.,0.", "1.,0.,7.5")]),
        ["changed #1 CARTESIAN_POINT.COORDINATES (0.,0.,0.) (1.,0.,7.5)", "different: 1 changed, 0 came, 0 went"],
    ),
    (
        "an element that came, and one that went",
        file_of("#1=CARTESIAN_POINT('',(0.,1.));\n#2=PERSON('a',$,$,('t','u'));"),
        file_of("#1=CARTESIAN_POINT('',(0.,1.,2.));\n#2=PERSON('a',$,$,('u'));"),
        [
            "changed #1 CARTESIAN_POINT.COORDINATES [3] - 2.",
            "changed #2 PERSON.TITLES [1] 't' -",
            "different: 2 changed, 0 came, 0 went",
        ],
    ),
    (
        "two values of one instance",
        file_of(PERSON),
        file_of("#2=PERSON('jo',$,'Jo',$);"),
        ["changed #2 PERSON.ID 'ek' 'jo'", "changed #2 PERSON.FIRST_NAME $ 'Jo'", "different: 2 changed, 0 came, 0 went"],
    ),
    (
        "a value in parts",
        file_of(UNIT),
        file_of(UNIT, [("MILLI", "CENTI")]),
        ["changed #3 SI_UNIT.PREFIX .MILLI. .CENTI.", "different: 1 changed, 0 came, 0 went"],
    ),
    (
        "another set of entities",
        file_of(f"#1=DIRECTION('',(0.,0.,1.));\n{UNIT}"),
        file_of(f"{POINT}\n#3=(NAMED_UNIT(*)PLANE_ANGLE_UNIT()SI_UNIT($,.RADIAN.));"),
        [
            "changed #1 from DIRECTION to CARTESIAN_POINT",
            "changed #3 from LENGTH_UNIT+NAMED_UNIT+SI_UNIT to NAMED_UNIT+PLANE_ANGLE_UNIT+SI_UNIT",
            "different: 2 changed, 0 came, 0 went",
        ],
    ),
    (
        "instances of one file alone, told by numbers",
        file_of(f"{POINT}\n#10=PERSON('a',$,$,$);\n#18446744073709551615=PERSON('z',$,$,$);"),
        file_of(f"{PERSON}\n#10=PERSON('a',$,$,$);\n#9=PERSON('b',$,$,$);"),
        [
            "went #1 CARTESIAN_POINT",
            "came #2 PERSON",
            "came #9 PERSON",
            "went #18446744073709551615 PERSON",
            "different: 0 changed, 2 came, 2 went",
        ],
    ),
    (
        "a string with signs in it",
        file_of("#1=PERSON('(,;''',$,$,$);"),
        file_of("#1=PERSON('(,;''',')',$,$);"),
        ["changed #1 PERSON.LAST_NAME $ ')'", "different: 1 changed, 0 came, 0 went"],
    ),
    (
        "the time stamp",
        file_of(POINT, [("FILE_NAME('',''", "FILE_NAME('','2024-03-15'")]),
        file_of(POINT, [("FILE_NAME('',''", "FILE_NAME('','2024-03-16'")]),
        ["changed header FILE_NAME.TIME_STAMP '2024-03-15' '2024-03-16'", "different: 1 changed, 0 came, 0 went"],
    ),
    (
        "a further header record",
        file_of(POINT, [("MODEL'));", "MODEL'));\n!MY_RECORD(1);")]),
        file_of(POINT),
        ["went header !MY_RECORD", "different: 0 changed, 0 came, 1 went"],
    ),
    (
        "a parameter of a further header record, and how many there are",
        file_of(POINT, [("MODEL'));", "MODEL'));\n!MY_RECORD(1,2);\n!OTHER(1);")]),
        file_of(POINT, [("MODEL'));", "MODEL'));\n!MY_RECORD(1,3);\n!OTHER(1,1);")]),
        [
            "changed header !MY_RECORD.2 2 3",
            "changed header !OTHER !OTHER(1); !OTHER(1,1);",
            "different: 2 changed, 0 came, 0 went",
        ],
    ),
    (
        "sections",
        sections(("a", POINT), ("b", "")),
        sections(("b", POINT)),
        [
            "went section DATA('a',('PRODUCT_MODEL'));",
            "moved #1 from DATA('a',('PRODUCT_MODEL')); to DATA('b',('PRODUCT_MODEL'));",
            "different: 1 changed, 0 came, 1 went",
        ],
    ),
    (
        "sections whose spelled names rise otherwise than their lines",
        sections(("a", POINT), ("a''b", "")),
        sections(("a", POINT), ("a''c", "")),
        [
            "went section DATA('a''b',('PRODUCT_MODEL'));",
            "came section DATA('a''c',('PRODUCT_MODEL'));",
            "different: 0 changed, 1 came, 1 went",
        ],
    ),
    (
        "names that don't rise from section to section",
        sections(("a", PERSON), ("b", POINT)),
        sections(("a", ""), ("b", POINT)),
        ["went #2 PERSON", "different: 0 changed, 0 came, 1 went"],
    ),
    (
        "a long text is shortened around the difference",
        file_of(f"#1=PERSON('a','{LONG}x{LONG}',$,$);"),
        file_of(f"#1=PERSON('a','{LONG}y{LONG}',$,$);"),
        [
            f"changed #1 PERSON.LAST_NAME .. {'p' * 50}x{'p' * 49} .. .. {'p' * 50}y{'p' * 49} ..",
            "different: 1 changed, 0 came, 0 went",
        ],
    ),
]


# What stands in the header in place of an empty time stamp.
STAMP = [("FILE_NAME('',''", "FILE_NAME('','2024-03-15'")]
ITEMS = "#1=CARTESIAN_POINT('a',(0.,0.,0.));\n#2=AXIS2_PLACEMENT_3D('a',#1,$,$);\n#3=CIRCLE('a',#2,1.);"
OTHER_ITEMS = ITEMS.replace("'a'", "'b'")

# Each row: a name, the file A, the file B, the options, the lines that are printed, and the status.
LEFT_OUT = [
    ("the same text without the header", file_of(POINT), file_of(POINT), ["--data"], ["left out: the header", "same"], 0),
    (
        "the time stamp, without the header",
        file_of(POINT, STAMP),
        file_of(POINT),
        ["--data"],
        ["left out: the header", "different: 0 changed, 0 came, 0 went; 1 difference in the header not listed"],
        0,
    ),
    (
        "a value, without the header",
        file_of(POINT, STAMP),
        file_of(POINT, [("0.,0.,0.", "0.,0.,7.5")]),
        ["--data"],
        [
            "left out: the header",
            "changed #1 CARTESIAN_POINT.COORDINATES [3] 0. 7.5",
            "different: 1 changed, 0 came, 0 went; 1 difference in the header not listed",
        ],
        1,
    ),
    (
        "sections aren't left out with the header",
        sections(("a", POINT), ("b", "")),
        sections(("b", POINT)),
        ["--data"],
        [
            "left out: the header",
            "went section DATA('a',('PRODUCT_MODEL'));",
            "moved #1 from DATA('a',('PRODUCT_MODEL')); to DATA('b',('PRODUCT_MODEL'));",
            "different: 1 changed, 0 came, 1 went",
        ],
        1,
    ),
    (
        "two attributes, of which one is ignored",
        file_of(PERSON),
        file_of("#2=PERSON('jo',$,'Jo',$);"),
        ["--ignore", "person.id"],
        [
            "left out: PERSON.ID",
            "changed #2 PERSON.FIRST_NAME $ 'Jo'",
            "different: 1 changed, 0 came, 0 went; 1 difference at ignored attributes not listed",
        ],
        1,
    ),
    (
        "all that differs is ignored, a parameter of the header too",
        file_of(PERSON),
        file_of("#2=PERSON('jo',$,'Jo',$);", STAMP),
        ["--ignore=PERSON.ID", "--ignore", "FILE_NAME.TIME_STAMP", "--ignore", "PERSON.FIRST_NAME"],
        [
            "left out: PERSON.ID, FILE_NAME.TIME_STAMP, PERSON.FIRST_NAME",
            "different: 0 changed, 0 came, 0 went; 3 differences at ignored attributes not listed",
        ],
        0,
    ),
    (
        "what an ignored attribute isn't of is listed: another instance, and the whole of one",
        file_of(f"{PERSON}\n#3=PERSON('a',$,$,$);"),
        file_of("#2=PERSON('ek',$,$,$);\n#4=PERSON('a',$,$,$);"),
        ["--ignore", "PERSON.ID"],
        ["left out: PERSON.ID", "went #3 PERSON", "came #4 PERSON", "different: 0 changed, 1 came, 1 went"],
        1,
    ),
    (
        "an attribute that a supertype declares, by the entity of the instance",
        file_of(ITEMS),
        file_of(OTHER_ITEMS),
        ["--ignore", "AXIS2_PLACEMENT_3D.NAME"],
        [
            "left out: AXIS2_PLACEMENT_3D.NAME",
            "changed #1 REPRESENTATION_ITEM.NAME 'a' 'b'",
            "changed #3 REPRESENTATION_ITEM.NAME 'a' 'b'",
            "different: 2 changed, 0 came, 0 went; 1 difference at ignored attributes not listed",
        ],
        1,
    ),
    (
        "an attribute that a supertype declares, by that",
        file_of(ITEMS),
        file_of(OTHER_ITEMS),
        ["--ignore", "REPRESENTATION_ITEM.NAME"],
        [
            "left out: REPRESENTATION_ITEM.NAME",
            "different: 0 changed, 0 came, 0 went; 3 differences at ignored attributes not listed",
        ],
        0,
    ),
    (
        "an attribute that a supertype declares, by another supertype",
        file_of(ITEMS),
        file_of(OTHER_ITEMS),
        ["--ignore", "CURVE.NAME"],
        [
            "left out: CURVE.NAME",
            "changed #1 REPRESENTATION_ITEM.NAME 'a' 'b'",
            "changed #2 REPRESENTATION_ITEM.NAME 'a' 'b'",
            "different: 2 changed, 0 came, 0 went; 1 difference at ignored attributes not listed",
        ],
        1,
    ),
    (
        "an attribute of an instance in parts",
        file_of(UNIT),
        file_of(UNIT, [("MILLI", "CENTI")]),
        ["--ignore", "SI_UNIT.PREFIX"],
        ["left out: SI_UNIT.PREFIX", "different: 0 changed, 0 came, 0 went; 1 difference at ignored attributes not listed"],
        0,
    ),
    (
        "an ignored attribute by pairs",
        file_of(PERSON),
        file_of("#7=PERSON('jo',$,$,$);"),
        ["--names", "--ignore", "PERSON.ID"],
        ["left out: PERSON.ID", "different: 0 changed, 0 came, 0 went; 1 difference at ignored attributes not listed"],
        0,
    ),
    (
        "all pairs stand in front of what is left out",
        file_of(PERSON, STAMP),
        file_of("#7=PERSON('jo',$,'Jo',$);"),
        ["--pairs", "--data", "--ignore", "PERSON.ID"],
        [
            "pair #2/#7",
            "left out: the header, PERSON.ID",
            "changed #2/#7 PERSON.FIRST_NAME $ 'Jo'",
            "different: 1 changed, 0 came, 0 went; 1 difference in the header not listed; "
            "1 difference at ignored attributes not listed",
        ],
        1,
    ),
    (
        "what is left out, as objects",
        file_of(PERSON, STAMP),
        file_of("#2=PERSON('jo',$,$,$);"),
        ["--data", "--ignore", "PERSON.ID", "--ignore", "FILE_NAME.TIME_STAMP", "--format", "jsonl"],
        [
            '{"kind":"left out","header":true,"ignore":["PERSON.ID","FILE_NAME.TIME_STAMP"]}',
            '{"kind":"verdict","verdict":"different","changed":0,"came":0,"went":0,"in_header":1,"ignored":1,"ignored_in_header":0}',
        ],
        0,
    ),
    (
        "attributes that are left out, as objects",
        file_of(PERSON, STAMP),
        file_of("#2=PERSON('jo',$,$,$);"),
        ["--ignore", "PERSON.ID", "--ignore", "FILE_NAME.TIME_STAMP", "--format", "jsonl"],
        [
            '{"kind":"left out","ignore":["PERSON.ID","FILE_NAME.TIME_STAMP"]}',
            '{"kind":"verdict","verdict":"different","changed":0,"came":0,"went":0,"ignored":2,"ignored_in_header":1}',
        ],
        0,
    ),
]

# Each row, under 0.1: a name, the coordinates in the file A and in the file B, and the row that is printed, if one is.
NEAR = [
    ("a real that is as far away as may be", "1.", "1.1", None),
    ("a real that is further away", "0.", "0.11", "0. 1.1E-1"),
    ("a real that is further away by its last digit", "0.", f"0.1{30 * '0'}1", f"0. 1.{30 * '0'}1E-1"),
    ("reals of two signs", "-0.05", "0.05", None),
    ("reals of two signs that are far away", "100.", "-90.9", "1.E2 -9.09E1"),
    ("a share of the greater one, in either file", "100.", "109.", None),
    ("a share of the greater one, in the first file", "-109.", "-100.", None),
    ("more than a share", "100.", "112.", "1.E2 1.12E2"),
    ("reals with large exponents", "1.E900", "1.05E900", None),
]

# Each row: a word that is no tolerance, and how it is shown.
NO_TOLERANCES = [("-1", "-1"), ("+1", "+1"), ("1,5", "1,5"), ("1E", "1E"), (".", "."), ("NaN", "NaN"), ("1E-6\n", "1E-6\\n")]

# What is said of each attribute that can't be left out, of files that aren't read.
REFUSED = [
    ("PERSON.SIZE", "--ignore PERSON.SIZE: PERSON has no attribute SIZE of which files have values"),
    ("person.size", "--ignore PERSON.SIZE: PERSON has no attribute SIZE of which files have values"),
    ("CURVE.RADIUS", "--ignore CURVE.RADIUS: CURVE has no attribute RADIUS of which files have values"),
    ("NOBODY.ID", "--ignore NOBODY.ID: the schema has no entity NOBODY"),
    ("PERSON", "--ignore PERSON: an attribute is named as ENTITY.ATTRIBUTE"),
    ("PERSON.", "--ignore PERSON.: an attribute is named as ENTITY.ATTRIBUTE"),
    (".ID", "--ignore .ID: an attribute is named as ENTITY.ATTRIBUTE"),
    ("", "--ignore : an attribute is named as ENTITY.ATTRIBUTE"),
    ("PERSON.ID.ID", "--ignore PERSON.ID.ID: an attribute is named as ENTITY.ATTRIBUTE"),
    ("PERSON.ID\n", "--ignore PERSON.ID\\n: an attribute is named as ENTITY.ATTRIBUTE"),
    ("\x1b[1mPERSON.ID", "--ignore \\x1b[1mPERSON.ID: an attribute is named as ENTITY.ATTRIBUTE"),
]


def run(*words):
    """What the program writes to each stream, and its status."""
    done = subprocess.run([PROGRAM, *words], capture_output=True, check=False, timeout=MOST_SECONDS)
    return done.stdout.decode(), done.stderr.decode(), done.returncode


# --- What the canonical files say ---


def elements_of(text):
    """What stands between the parentheses around a canonical text, by its commas."""
    depth, quoted, found = 0, False, [""]
    for sign in text[1:-1]:
        quoted ^= sign == "'"
        depth += (sign == "(") - (sign == ")") if not quoted else 0
        if sign == "," and depth == 0 and not quoted:
            found.append("")
        else:
            found[-1] += sign
    return [] if found == [""] else found


def parts_of(record):
    """The keywords of a record, each with its values."""
    found, depth, quoted, start = [], 0, False, 0
    text = record[1:-1] if record.startswith("(") else record
    for at, sign in enumerate(text):
        quoted ^= sign == "'"
        depth += (sign == "(") - (sign == ")") if not quoted else 0
        if sign == ")" and depth == 0 and not quoted:
            key, _, values = text[start : at + 1].partition("(")
            found.append((key, elements_of(f"({values}")))
            start = at + 1
    return found


class Canonical:
    """A canonical file: the records of its header, the lines that begin sections, and each instance with the line of its section."""

    def __init__(self, path):
        output, error, _ = run("canon", SCHEMA, path)
        assert not error, error
        lines = output.splitlines()
        end = lines.index("ENDSEC;")
        self.header = lines[2:end]
        self.sections, self.instances = [], {}
        for line in lines[end + 1 : -1]:
            if line.startswith("DATA"):
                self.sections.append(line)
            elif line.startswith("#"):
                name, _, record = line.rstrip(";").partition("=")
                self.instances[int(name[1:])] = self.sections[-1], record, line


def text_at(text, indices):
    """The element of a value at these indices, counted from 1; None where it isn't there."""
    for index in indices:
        elements = elements_of(text)
        text = elements[index - 1] if index <= len(elements) else None
    return text


def attributes_of(parts, listed):
    """The names of the values of each part: in the external form those of the last ones of its entity."""
    return [listed[key] if len(parts) == 1 else listed[key][max(len(listed[key]) - len(values), 0) :] for key, values in parts]


def of_pair(name, one, other, listed):
    """What differs in an instance that both files have."""
    found = {("changed", "section of", name, None): (one[0], other[0])} if one[0] != other[0] else {}
    parts = parts_of(one[1]), parts_of(other[1])
    keys = ["+".join(key for key, _ in of_one) for of_one in parts]
    if keys[0] != keys[1]:
        return {**found, ("changed", "instance", name, None): tuple(keys)}
    for (_, values), (_, others), names in zip(*parts, attributes_of(parts[0], listed)):
        found.update((("changed", "instance", name, each), both) for each, *both in zip(names, values, others) if both[0] != both[1])
    return found


def told_by_texts(first, second, listed):
    """What differs: for each difference its kind, what it is about, the name and the attribute, with the texts of both files."""
    found = {}
    for number in range(max(len(first.header), len(second.header))):
        one, other = (each.header[number] if number < len(each.header) else None for each in (first, second))
        if one is None or other is None:
            found["came" if one is None else "went", "header", number, None] = one, other
        elif one != other:
            (key, values), (other_key, others) = parts_of(one)[0], parts_of(other)[0]
            if (key, len(values)) != (other_key, len(others)):
                found["changed", "header", number, None] = one, other
            else:
                of_record = {("changed", "header", key, at): both for at, both in enumerate(zip(values, others), 1) if both[0] != both[1]}
                found.update(of_record)
    for heading in {*first.sections} ^ {*second.sections}:
        is_first = heading in first.sections
        found["went" if is_first else "came", "section", heading, None] = (heading, None) if is_first else (None, heading)
    for name in {*first.instances, *second.instances}:
        one, other = first.instances.get(name), second.instances.get(name)
        if one and other:
            found.update(of_pair(name, one, other, listed))
        else:
            found["went" if one else "came", "instance", name, None] = one and one[2], other and other[2]
    return found


# The parameters of the header records that the files have, by their numbers.
HEADER = {"FILE_NAME": ["NAME", "TIME_STAMP", "AUTHOR", "ORGANIZATION", "PREPROCESSOR_VERSION", "ORIGINATING_SYSTEM", "AUTHORIZATION"]}


def key_of(row, rows):
    """What a row of the program is about, by the same names."""
    attribute, name = row.get("attribute"), row.get("a", row.get("b"))
    if row["what"] == "header" and attribute:
        name = row["entity"]
        attribute = HEADER[name].index(attribute) + 1 if name in HEADER else int(attribute)
    elif row["what"] == "header":
        name = next(number for number, each in rows if each is row)
    elif row["what"] == "section":
        name = row.get("before", row.get("after"))
    return row["kind"], row["what"], name, attribute


def is_told_alike(row, texts):
    """Does the program show these texts, where it has indices those of the element alone, and where an element came or went that one?"""
    told, indices = [row.get("before"), row.get("after")], row.get("indices", [])
    if not indices:
        return told == list(texts)
    if None not in told:
        return told == [text_at(text, indices) for text in texts] and told[0] != told[1]
    *around, last = indices
    longer, shorter = (elements_of(text_at(text, around)) for text in (texts if told[1] is None else reversed(texts)))
    return longer[last - 1] == (told[0] or told[1]) and longer[: last - 1] + longer[last:] == shorter


def has_keywords(row, first):
    """Does the row of a value have the keywords of its instance, and no other row any?"""
    is_value = row["what"] == "instance" and "attribute" in row
    wanted = "+".join(key for key, _ in parts_of(first.instances[row["a"]][1])) if is_value else None
    return row.get("keywords") == wanted


def against_texts(name, paths, listed):
    """What the program says otherwise than the canonical files, if anything."""
    output, error, status = run("diff", "--format", "jsonl", SCHEMA, *paths)
    rows = [json.loads(line) for line in output.splitlines()]
    if error or not rows or rows[-1]["kind"] != "verdict":
        return f"{name}: {error or output}"
    first, second = map(Canonical, paths)
    wanted = told_by_texts(first, second, listed)
    whole = sorted(key[2] for key in wanted if key[1] == "header" and key[3] is None)
    numbered = list(zip(whole, (row for row in rows[:-1] if row["what"] == "header" and "attribute" not in row)))
    mine = {key_of(row, numbered): row for row in rows[:-1]}
    if len(mine) != len(rows) - 1:
        return f"{name}: a difference is listed twice"
    if set(mine) != set(wanted):
        return f"{name}: {sorted(map(str, set(mine) ^ set(wanted)))}"
    wrong = [key for key, row in mine.items() if not is_told_alike(row, wanted[key]) or not has_keywords(row, first)]
    if wrong:
        return f"{name}: {wrong[0]}: {mine[wrong[0]]} {wanted[wrong[0]]}"
    same = run("same", SCHEMA, *paths)
    if (same[0] == "same\n") != (status == 0) or (status == 0) != (not mine):
        return f"{name}: {same[0]!r}, status {status}, {len(mine)} differences"
    counts = [sum(row["kind"] == kind for row in mine.values()) for kind in ("changed", "came", "went")]
    return None if counts == [rows[-1][kind] for kind in ("changed", "came", "went")] else f"{name}: {counts} {rows[-1]}"


# --- What is left out ---


def supertypes():
    """The entities of the schema, each with itself and those above it."""
    with open(SCHEMA, encoding="ascii") as file:
        text = file.read().upper()
    above = {}
    for name, head in re.findall(r"\bENTITY (\w+)([^;]*);", text):
        found = re.search(r"\bSUBTYPE OF \(([^)]*)\)", head)
        above[name] = {each.strip() for each in found[1].split(",")} if found else set()
    return {name: closure_of(name, above) for name in above}


def closure_of(name, above):
    """An entity with those above it."""
    return {name}.union(*(closure_of(each, above) for each in above[name]))


def is_ignored(row, names, above):
    """Is a row about an attribute that one of the names is of?"""
    if row["what"] == "header":
        return f"{row.get('entity')}.{row.get('attribute')}" in names
    if row["what"] != "instance" or "attribute" not in row:
        return False
    of_instance = set().union(*(above[each] for each in row["keywords"].split("+")))
    named = (each.split(".") for each in names)
    return any(name == row["attribute"] and entity in of_instance and row["entity"] in above[entity] for entity, name in named)


def is_near(row, most):
    """Are the texts of a row the same but for reals that are within this, or within this times the greater one?"""
    if row["what"] != "instance" or not {"attribute", "before", "after"} <= row.keys():
        return False
    before, after = (re.split(r"(-?\d+\.\d*(?:E-?\d+)?)", row[key]) for key in ("before", "after"))
    if before[::2] != after[::2]:
        return False
    reals = [(Fraction(one), Fraction(other)) for one, other in zip(before[1::2], after[1::2])]
    return all(abs(one - other) <= Fraction(most) * max(1, abs(one), abs(other)) for one, other in reals)


def without(name, paths, words, names, most, above):
    """What the program lists otherwise than without what is left out, if anything."""
    within = ["--tolerance", most] if most else []
    options = [*words, *within, *(word for each in names for word in ("--ignore", each))]
    whole = [json.loads(line) for line in run("diff", "--format", "jsonl", SCHEMA, *paths)[0].splitlines()]
    output, error, status = run("diff", "--format", "jsonl", *options, SCHEMA, *paths)
    if error:
        return f"{name} {options}: {error}"
    first, *rows, last = [json.loads(line) for line in output.splitlines()]
    in_header = [row for row in whole[:-1] if words and row["what"] == "header"]
    ignored = [row for row in whole[:-1] if row not in in_header and is_ignored(row, names, above)]
    listed = [row for row in whole[:-1] if row not in in_header and row not in ignored]
    near = [row for row in listed if most and is_near(row, most)]
    wanted = [row for row in listed if row not in near]
    said = {"kind": "left out", **({"header": True} if words else {}), **({"ignore": names} if names else {})}
    said.update({"tolerance": most} if most else {})
    counts = {kind: sum(row["kind"] == kind for row in wanted) for kind in ("changed", "came", "went")}
    end = {"kind": "verdict", "verdict": whole[-1]["verdict"], **counts}
    if end["verdict"] == "different":
        end.update({"in_header": len(in_header)} if words else {})
        of_header = sum(row["what"] == "header" for row in ignored)
        end.update({"ignored": len(ignored), "ignored_in_header": of_header} if names else {})
        end.update({"tolerance": most, "near": len(near)} if most else {})
    found = first, rows, last, status
    return None if found == (said, wanted, end, int(bool(wanted))) else f"{name} {options}: {found} and not {wanted} {end}"


def chosen(chance, listed):
    """The word that leaves the header out, or none, and attributes to leave out, one of both at least; and a tolerance, or none."""
    known = [f"{entity}.{name}" for entity in OFTEN for name in listed[entity] if name != "*"]
    names = chance.sample([*known, "FILE_NAME.TIME_STAMP", "FILE_NAME.NAME"], chance.randrange(5))
    words = ["--data"] if not names or chance.random() < 0.4 else []
    return words, names, chance.choice([None, "1", "1E-7", "0.001", "2.50"])


def listed_attributes():
    """The attributes of each entity, as `p21 schema` lists them."""
    lines = (line.removeprefix("ABSTRACT ").rstrip(")").partition("(") for line in run("schema", SCHEMA)[0].splitlines()[1:])
    return {name: values.split(",") if values else [] for name, _, values in lines}


# --- Files that are made ---

UNITS = [
    "(LENGTH_UNIT()NAMED_UNIT(*)SI_UNIT(.MILLI.,.METRE.))",
    "(LENGTH_UNIT()NAMED_UNIT(*)SI_UNIT($,.METRE.))",
    "(NAMED_UNIT(*)PLANE_ANGLE_UNIT()SI_UNIT($,.RADIAN.))",
]
# The entities of these, and some above them.
OFTEN = "REPRESENTATION_ITEM GEOMETRIC_REPRESENTATION_ITEM CARTESIAN_POINT DIRECTION PERSON NAMED_UNIT SI_UNIT".split()
TITLES = ["$", "('t')", "('t','u')", "('u')"]


def record_of(chance):
    """The record of an instance that refers to no other."""

    def reals():
        return ",".join(chance.choice(["0.", "1.", "-2.5", "1.E3", "1.E-7"]) for _ in range(3))

    kind = chance.randrange(4)
    if kind == 0:
        return f"CARTESIAN_POINT('{chance.choice('abc')}',({reals()}))"
    if kind == 1:
        return f"DIRECTION('',({reals()}))"
    if kind == 2:
        return f"PERSON('{chance.choice('xyz')}',$,{chance.choice(['$', repr('F')])},{chance.choice(TITLES)})"
    return chance.choice(UNITS)


def made(chance):
    """The instances of a file, by their names."""
    return {name: record_of(chance) for name in chance.sample(range(1, 40), chance.randrange(1, 25))}


def edited(lines, chance):
    """The same instances with some edits."""
    found, others = dict(lines), made(chance)
    for name in list(found):
        if chance.random() < 0.15:
            del found[name]
        elif chance.random() < 0.25:
            found[name] = chance.choice(list(others.values()))
    for name in others:
        if chance.random() < 0.1:
            found.setdefault(name, others[name])
    return found


def text_of(lines, chance, count):
    """A file with these instances in any order, in so many data sections, or in one without a name."""
    order = list(lines)
    chance.shuffle(order)
    if count == 0:
        stamp = [("FILE_NAME('',''", f"FILE_NAME('','{chance.choice('12')}'")]
        return file_of("\n".join(f"#{name}={lines[name]};" for name in order), stamp)
    rows = [[name for name in order if name * 7919 % count == at] for at in range(count)]
    return sections(*(("abc"[at], "\n".join(f"#{name}={lines[name]};" for name in row)) for at, row in enumerate(rows)))


def main():
    """Compares files."""
    os.chdir(ROOT)
    failed, passed, listed, above = [], 0, listed_attributes(), supertypes()
    with tempfile.TemporaryDirectory() as folder:
        paths = [os.path.join(folder, name) for name in ("a.step", "b.step")]

        def make(*texts):
            for path, text in zip(paths, texts):
                with open(path, "w", encoding="utf-8") as file:
                    file.write(text)

        for name, one, other, lines in ROWS:
            make(one, other)
            wanted = "".join(line + "\n" for line in lines), "", int(lines != ["same"])
            found = run("diff", SCHEMA, *paths)
            wrong = None if found == wanted else f"{name}: {found} and not {wanted}"
            for problem in (wrong, against_texts(name, paths, listed)):
                passed += problem is None
                failed += [problem] if problem else []
        for name, one, other, words, lines, status in LEFT_OUT:
            make(one, other)
            found, wanted = run("diff", *words, SCHEMA, *paths), ("".join(line + "\n" for line in lines), "", status)
            passed += found == wanted
            failed += [] if found == wanted else [f"{name}: {found} and not {wanted}"]
        for name, one, other, row in NEAR:
            make(file_of(f"#1=CARTESIAN_POINT('',({one},1.));"), file_of(f"#1=CARTESIAN_POINT('',({other},1.));"))
            for words in ([], ["--names"]):
                changed = f"changed #1 CARTESIAN_POINT.COORDINATES [1] {row}\n" if row else ""
                counts = "different: 1 changed, 0 came, 0 went; 0 values" if row else "different: 0 changed, 0 came, 0 went; 1 value"
                lines = f"left out: reals within the tolerance .1\n{changed}{counts} within the tolerance .1 not listed\n"
                found, wanted = run("diff", *words, "--tolerance", ".1", SCHEMA, *paths), (lines, "", int(bool(row)))
                passed += found == wanted
                failed += [] if found == wanted else [f"{name} {words}: {found} and not {wanted}"]
        for word, shown in NO_TOLERANCES:
            line = f"--tolerance {shown}: a tolerance is a number of 0 or more, as 1E-6\n"
            found = run("diff", f"--tolerance={word}", SCHEMA, "/dev/null", "/dev/null")
            passed += found == ("", line, 1)
            failed += [] if found == ("", line, 1) else [f"--tolerance {word!r}: {found}"]
        # of several words the first that is refused is named
        around = ([], []), (["--names"], []), (["--data", "--ignore", "PERSON.ID"], []), ([], ["--ignore", "NOBODY.AT_ALL"])
        for word, line in REFUSED:
            for before, behind in around:
                words = [*before, "--ignore", word, *behind]
                found, wanted = run("diff", *words, SCHEMA, "/dev/null", "/dev/null"), ("", line + "\n", 1)
                passed += found == wanted
                failed += [] if found == wanted else [f"--ignore {word!r}: {found} and not {wanted}"]
        chance = random.Random(SEED)
        for number in range(PAIRS):
            lines = made(chance)
            count = chance.randrange(3)
            other = chance.choice([count, count, chance.randrange(3)])
            make(text_of(lines, chance, count), text_of(edited(lines, chance), chance, other))
            less = without(f"pair {number}", paths, *chosen(chance, listed), above)
            for problem in (against_texts(f"pair {number}", paths, listed), less):
                passed += problem is None
                failed += [problem] if problem else []
        for first, second in (("product", "product-changed"), ("product", "product-other"), ("product-changed", "product-other")):
            problem = against_texts(f"{first} and {second}", [f"examples/{first}.step", f"examples/{second}.step"], listed)
            passed += problem is None
            failed += [problem] if problem else []
        make(POINT, POINT)
        found = run("diff", SCHEMA, "examples/product.step", paths[1])
        first_line = found[1].partition("\n")[0]
        wanted = "", "second: refused 20 Unexpected at statement 1", 1
        problem = None if (found[0], first_line, found[2]) == wanted else f"a file that is refused: {found}"
        passed += problem is None
        failed += [problem] if problem else []
        alone = [["--format", "xml"], ["--format"], ["--ignore"], ["--tolerance"], ["--data", "--data"]]
        for words, status in ((each, 2) for each in alone):
            found = run("diff", *words, SCHEMA, "examples/product.step", "examples/product.step")
            passed += found[2] == status
            failed += [] if found[2] == status else [f"{words}: {found}"]
    for line in failed:
        print(line)
    print(f"{passed} passed, {len(failed)} failed")
    return int(bool(failed))


if __name__ == "__main__":
    sys.exit(main())
