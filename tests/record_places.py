#!/usr/bin/env python3
"""Where `p21 check --where` says that a record is refused: the rows of tests/tools_where.py that are of records, and which attribute.

What could stand at the place of a token with which no statement goes on, by the standard's grammar, and in place of a header record.
With --all the same of files with many faults, where each place is that of a run over the file with this one fault; and
what `--format jsonl` says of them. P21 names another program than ./p21.
"""

import json
import os
import pathlib
import re
import subprocess
import sys
import tempfile

import texts
from tooling import ROOT, SCHEMA, file_of
from tools_where import DEMO, FAULTS, VALUES, unmarked

PROGRAM = os.environ.get("P21", str(ROOT / "p21"))

# More instances of the schema DEMO, with the place at which they are refused.
MORE = [
    ("a name that stands twice", "#1=POINT($,1.,1.);\n«#1»=POINT($,1.,1.);"),
    ("a name that stands twice, behind a remark", "#1=POINT($,1.,1.);\n«#01»/**/=POINT($,1.,1.);"),
    ("a name that stands thrice", "#1=POINT($,1.,1.); #1=POINT($,1.,1.);\n /* */ «#1»=POINT($,2.,1.);"),
    ("a name of a refused record", "#1=POINT($,1.,1);\n«#1»=POINT($,1.,1.);"),
    ("one reference twice", "#1=CLOUD((#2,«#8»,#7),(),(#8));\n#2=POINT($,1.,1.);\n#7=POINT($,2.,1.);"),
    ("a reference behind its name in a string", "#1=(MARKED(.RED.)POINT(1.,1.)SHAPE('#8'));\n#2=CLOUD((),(),(/*#8*/«#8»));"),
    ("a reference behind the sign of a page", "#1=POINT('\\S\\'',1.,1.);\n#2=CLOUD((),(),(TALLY(1),«#8»));"),
    ("a reference behind signs of pages", "#1=POINT('\\PA\\\\S\\'''#8',1.,1.);\n#2=CLOUD((),(),(TALLY(1),«#8»));"),
]

# Rows of these of which a second refusal stands elsewhere.
TWO_REFUSALS = {
    "a name that stands thrice",
    "a name of a refused record",
    "one reference twice",
    "a sign of a page behind a number",
}

# Of instances of VALUES the way to the element.
INDICES = {
    "an element of a list in a list": [2, 2],
    "the first of two faults": [2, 1],
    "the value of a typed parameter": [2, 1],
    "a type that the select doesn't offer": [2],
    "equal elements by other spellings": [2],
    "no value in a list": [1, 2],
    "a star in a list": [1, 2],
    "the second reference": [2],
    "the third reference": [1],
    "one reference twice": [2],
    "a reference behind its name in a string": [1],
}

# Of an instance of the schema DEMO, the attribute whose value is refused, by the entity that declares it; or where none is, the
# entity of the part.
ATTRIBUTES = [
    ("#1=POINT($,1.,2);", "POINT.Y"),
    ("#1=POINT(5,1.,2.);", "SHAPE.LABEL"),
    ("#1=CLOUD((),((1.),(2,3,4.)),(TALLY(1)));", "CLOUD.SIZES"),
    ("#1=(MARKED(.RED.)POINT(1.,2)SHAPE($));", "POINT.Y"),
    ("#1=(ORIGIN()POINT(0.,2.)SHAPE($));", "POINT.X"),
    ("#1=POINT($,1.);", "POINT.Y"),
    ("#1=(POINT(1.)SHAPE('a'));", "POINT.Y"),
    ("#1=POINT($,1.,2.,3.);", "POINT"),
    ("#1=(MARKED(.RED.)POINT(1.,2.,#3)SHAPE($));", "POINT"),
    ("#1=SPHERE();", "SPHERE"),
    ("#01/*A(*/=/**/SPHERE /*(*/ ('#1=POINT(');", "SPHERE"),
    ("#1=(POINT(1.,2.)SPHERE((1.),'(')SHAPE($));", "SPHERE"),
    ("#1=SHAPE($);", "SHAPE"),
    ("#1=(MARKED(.RED.)POINT(1.,1.));", "MARKED"),
    ("#1=(POINT(1.,1.) POINT(1.,1.)SHAPE($));", "POINT"),
    ("#1=CLOUD((#2),(),(TALLY(1)));", "CLOUD.MEMBERS"),
    ("#1=CLOUD((),(),(TALLY(1),#1));", "CLOUD.VALUES"),
    ("#2=CLOUD((),((1.,2.),()),(DISTANCE(2.),#1));\n#1=(MARKED(.RED.)SHAPE($));", "CLOUD.VALUES"),
    ("#1=POINT('#8',1.,1.);\n#2=CLOUD((#1/*,*/),(),(TALLY(2),/*#8*/#8));", "CLOUD.VALUES"),
    ("#1=POINT('\\S\\'',1.,1.);\n#2=CLOUD((#8),(),(TALLY(2)));", "CLOUD.MEMBERS"),
]

# The same of the schema of the examples: attributes that a supertype declares stand in front.
OF_SUPERTYPES = [
    ("#1=AXIS2_PLACEMENT_3D('',#2,$,$);", "AXIS2_PLACEMENT_3D.LOCATION"),
    ("#1=AXIS2_PLACEMENT_3D('',#2,#2,$);\n#2=CARTESIAN_POINT('',(0.,0.,0.));", "AXIS2_PLACEMENT_3D.AXIS"),
    (
        "#1=(AXIS2_PLACEMENT_3D(#2,$,#2)GEOMETRIC_REPRESENTATION_ITEM()REPRESENTATION_ITEM(''));\n#2=CARTESIAN_POINT('',(0.,0.,0.));",
        "AXIS2_PLACEMENT_3D.REF_DIRECTION",
    ),
    ("#1=(AXIS2_PLACEMENT_3D(#1,$,$)GEOMETRIC_REPRESENTATION_ITEM()REPRESENTATION_ITEM(''));", "AXIS2_PLACEMENT_3D.LOCATION"),
]

# The words for what may stand as a parameter of a record in the data section, and in the header.
IN_DATA = ["keyword", "instance name", "integer", "real", "string", "enumeration", "binary", "$", "*", "("]
IN_HEADER = ["keyword", "user-defined keyword", "integer", "real", "string", "enumeration", "binary", "$", "*", "("]
OF_NAME = "FILE_NAME(string, string, strings, strings, string, string, string)"
# What stands in place of one text of a file, and what could stand in place of the token that is refused there, by the grammar of
# ISO 10303-21 (formal definition of the exchange structure), and of a record of the header the record (header section entities).
EXPECTED = [
    ("MARK", "#1=POINT($,1.,1.)", [";"]),
    ("MARK", "#1=POINT($,1. 2.);", [")", ","]),
    ("MARK", "#1=POINT($,,2.);", IN_DATA),
    ("MARK", "#1=POINT($,);", IN_DATA),
    ("MARK", "#1=POINT(;", [*IN_DATA, ")"]),
    ("MARK", "#1=POINT(=", [*IN_DATA, ")"]),
    ("MARK", "#1 POINT", ["="]),
    ("MARK", "#1;", ["="]),
    ("MARK", "#1=;", ["keyword", "("]),
    ("MARK", "#1=#2;", ["keyword", "("]),
    ("MARK", "#1=POINT;", ["("]),
    ("MARK", "#1=(;", ["keyword"]),
    ("MARK", "#1=();", ["keyword"]),
    ("MARK", "#1=(POINT;", ["("]),
    ("MARK", "#1=(POINT(1.,1.),", ["keyword", ")"]),
    ("MARK", "#1=(POINT(1.)SHAPE($))=", [";"]),
    ("MARK", "#1=POINT(DATA,", ["("]),
    ("MARK", "#1=POINT(A();", IN_DATA),
    ("MARK", "#1=POINT(A(1,", [")"]),
    ("MARK", "#1=POINT(A((1;", [")", ","]),
    ("MARK", "#1=POINT(A((1);", [")"]),
    ("MARK", "#1=POINT(A(1);", [")", ","]),
    ("MARK", "#1=POINT(();", [")", ","]),
    ("MARK", "#1=POINT(('a',;", IN_DATA),
    ("MARK", "POINT($,1.,2.);", ["ENDSEC", "instance name"]),
    ("MARK", "HEADER;", ["ENDSEC", "instance name"]),
    ("MARK", "; ", ["ENDSEC", "instance name"]),
    ("MARK", "ENDSEC(", [";"]),
    ("MARK", "ENDSEC;#1", ["END-ISO-10303-21"]),
    ("MARK", "ENDSEC;END-ISO-10303-21 X", [";"]),
    ("DATA;", "DATA,", ["(", ";"]),
    ("DATA;", "DATA('a'", [")", ","]),
    ("DATA;", "DATA(1,;", ["keyword", *IN_DATA[1:]]),
    ("DATA;", "DATA('a',('DEMO'))=", [";"]),
    ("DATA;", "DATA('a',('DEMO'));ENDSEC;#1", ["DATA", "END-ISO-10303-21"]),
    ("DATA;", "DATA('a',('DEMO'));ENDSEC;DATA,", ["("]),
    ("DATA;", "'DATA'", ["DATA"]),
    ("DATA;", "HEADER;", ["DATA"]),
    ("ENDSEC;\nDATA", "ENDSEC DATA", ["(", ";"]),
    ("(('DEMO'));", "(('DEMO'));#1", ["ENDSEC", "keyword", "user-defined keyword"]),
    ("(('DEMO'));", "(('DEMO'));(", ["ENDSEC", "keyword", "user-defined keyword"]),
    ("(('DEMO'));", "(('DEMO'))(", [";"]),
    ("(('DEMO'));", "(('DEMO'));A;", ["("]),
    ("(('DEMO'));", "(('DEMO'));!A=", ["("]),
    ("(('DEMO'));", "(('DEMO'));A(#1", [*IN_HEADER, ")"]),
    ("(('DEMO'));", "(('DEMO'));A(1,#1", IN_HEADER),
    ("(('DEMO'));", "(('DEMO'));A(!B()", IN_HEADER),
    ("HEADER;", "HEADER(", [";"]),
    ("HEADER;", "FILE_DESCRIPTION", ["HEADER"]),
    ("HEADER;", ";", ["HEADER"]),
    ("ISO-10303-21;\nHEADER", "ISO-10303-21 HEADER", [";"]),
    ("ISO-10303-21;\nHEADER", "HEADER", ["ISO-10303-21"]),
    ("ISO-10303-21;\nHEADER", "SCHEMA demo", ["ISO-10303-21"]),
    ("FILE_DESCRIPTION((''),'2;1')", "FILE_DESCRIPTION('','2;1')", ["FILE_DESCRIPTION(strings, string)"]),
    ("FILE_DESCRIPTION((''),'2;1')", "FILE_NAME()", ["FILE_DESCRIPTION(strings, string)"]),
    ("FILE_NAME('',''", "FILE_NAME(''", [OF_NAME]),
    ("FILE_NAME('','',(''),(''),'','','');\n", "", [OF_NAME]),
    ("(('DEMO'))", "('DEMO')", ["FILE_SCHEMA((string))"]),
    ("(('DEMO'));", "(('DEMO'));FILE_NAME();", None),
    ("MARK", "#1=POINT($,1.,1.)#p", None),
]

# Instances of a file by itself, and what is listed of it. The refusals of statements stand at the marks, one behind the other; references
# have no place.
LISTS_ALONE = [
    ("a name that stands twice", "#1=A();\n«#1»=A();", ["40 DuplicateName in #1"]),
    ("a name that stands thrice", "#1=A();\n /**/ «#1»=A(); «#01»/**/=B();", ["40 DuplicateName in #1", "40 DuplicateName in #1"]),
    ("references", "#1=A(#7,#8);\n#7=B((#9));", ["56 Dangling in #1", "56 Dangling in #7"]),
    (
        "a name and references",
        "#1=A(#8);\n«#1»=A(#9);\n#2=B(#9,#8);",
        ["40 DuplicateName in #1", "56 Dangling in #1", "56 Dangling in #2", "56 Dangling in #2"],
    ),
    (
        "broken statements, with which no reference is told",
        "#1=A(#8);\n#2=A(«,»1);\n#3=«b»();\n«#1»=A('');\n#4=A(1«;»\n#5=B(1);",
        ["20 Unexpected at statement 9", "1 BadByte at statement 10", "40 DuplicateName in #1", "20 Unexpected at statement 12"],
    ),
]

# Texts of docs/FAULTS.md that are refused alike without a schema; the last one has no place then.
ALONE = {1, 2, 3, 4, 5, 6, 7, 8, 9, 10, 11, 20, 21, 24, 25, 26, 30, 32, 33, 40, 56}


def told(folder, text, *command):
    """What stands behind the path in the second line of a file that is refused, as place and attribute."""
    path = folder / "placed.step"
    path.write_bytes(text.encode("utf-8", "surrogateescape"))
    words = [PROGRAM, *(command or ("check", "--where", DEMO)), str(path)]
    ended = subprocess.run(words, capture_output=True, check=False, cwd=ROOT)
    assert ended.returncode == 1, (text, ended)
    lines = ended.stderr.decode().splitlines()
    if len(lines) < 2 or not lines[1].startswith(f"{path}:"):
        return None, None
    place, _, attribute = lines[1][len(str(path)) + 1 :].partition(": ")
    return place, attribute or None


def rows():
    """Each text with its place."""
    for name, instances in VALUES + MORE:
        if name in ("a name that stands thrice", "a name of a refused record"):
            continue
        text, place, _ = unmarked(file_of(instances, [("PRODUCT_MODEL", "DEMO")]))
        yield name, text, DEMO, place
    found = {title.split(": ", 1)[1]: row for title, *row in texts.faults(pathlib.Path(tempfile.mkdtemp()))}
    for title, (place, _, _) in FAULTS.items():
        number = title.split()[0]
        if number.isdigit() and 40 <= int(number):
            given, _line = found[title]
            yield title, pathlib.Path(given[2]).read_text(encoding="utf-8"), given[1], place


def renumbered(instances, by):
    """Instances of which each name is another number."""
    return re.sub("#(0*)([0-9]+)", lambda name: f"#{name[1]}{int(name[2]) + by}", instances)


def blank(instances):
    """As many blanks, on as many lines."""
    return re.sub(r"[^\n]", " ", re.sub("[«»]", "", instances))


def many(times):
    """Instances of all rows, many times, each with its row and its name: between them instances that are right."""
    by = 0
    for _ in range(times):
        for name, instances in VALUES + MORE:
            by += 10
            yield name, renumbered(instances, by)
        by += 10
        yield None, f"#{by}=POINT($,1.,1.);  #{by + 1}=POINT($,1.,1.);"


def said(folder, text, *words):
    """The lines on the fault output of a command over a file."""
    path = folder / "listed.step"
    path.write_bytes(text.encode())
    ended = subprocess.run([PROGRAM, *words, str(path)], capture_output=True, check=False, cwd=ROOT)
    assert ended.returncode == 1, (words, ended.stderr[:500])
    return ended.stderr.decode().replace(str(path), "FILE").splitlines()


def listed(folder, text, *words):
    """Those of a file that is checked so."""
    return said(folder, text, "check", *words, DEMO)


def text_of(groups):
    """A file of instances, and where the marks of these stand."""
    marked = file_of("\n".join(groups), [("PRODUCT_MODEL", "DEMO")])
    places, text = [], ""
    for at, part in enumerate(re.split("[«»]", marked)):
        if at % 2:
            places.append(f"{text.count(chr(10)) + 1}:{len(text) - text.rfind(chr(10))}")
        text += part
    return text, places


def of_list(folder):
    """What is wrong with the list of a file with hundreds of faults."""
    groups = list(many(9))
    text, places = text_of([group for _, group in groups])
    lines = listed(folder, text, "--all", "--where")
    found = [re.fullmatch(r"FILE:([0-9:]+): [0-9]+ \w+ in #([0-9]+)(?:: (\S+))?", line) for line in lines[:-1]]
    if None in found:
        yield f"{lines[found.index(None)]}, which has no place"
        return
    unmarked_too = sum(name in TWO_REFUSALS for name, _ in groups)
    if lines[-1] != f"refusals {len(places) + unmarked_too}":
        yield lines[-1]
    told_places = [row[1] for row in found]
    for place in places:
        if place not in told_places:
            yield f"no refusal at {place}"
    objects = [json.loads(line) for line in listed(folder, text, "--all", "--format", "jsonl")]
    if objects[-1] != {"refusals": len(found), "extent": "whole"}:
        yield objects[-1]
    data = text.encode()
    for row, of in zip(found, objects):
        front = data[: of["byte"]]
        place = f"{front.count(10) + 1}:{len(front) - front.rfind(10)}"
        if not row[1] == place == f"{of['line']}:{of['column']}" or int(row[2]) != of["instance"]:
            yield f"{row[0]}, but {of}"
        if row[3] != (".".join(filter(None, (of.get("entity"), of.get("attribute")))) or None):
            yield f"{row[0]}, but {of}"
    if len(objects) != len(found) + 1:
        yield f"{len(objects)} objects"


def of_single_runs(folder):
    """What differs between a list and the runs over the file with one fault each."""
    groups = list(many(1))
    text, _ = text_of([group for _, group in groups])
    lines = set(listed(folder, text, "--all", "--where"))
    for at, (name, group) in enumerate(groups):
        if name is None:
            continue
        alone, _ = text_of([group if number == at else blank(other) for number, (_, other) in enumerate(groups)])
        single = listed(folder, alone, "--most", "1", "--where")[0]
        if single not in lines:
            yield f"{name}: {single}, which isn't listed"
        [first, *_] = listed(folder, alone, "--format", "jsonl")
        of = json.loads(first)
        if f"FILE:{of['line']}:{of['column']}: {of['number']} {of['name']} in #{of['instance']}" not in single:
            yield f"{name}: {single}, and {first}"
        if name in INDICES and of.get("indices") != INDICES[name]:
            yield f"{name}: {first}, and not {INDICES[name]}"
        if name not in INDICES and "indices" in of and of["indices"] == []:
            yield f"{name}: {first}"


def of_files_alone(folder):
    """What is wrong with the places that `syntax --where` tells."""
    found = {title.split(": ", 1)[1]: row for title, *row in texts.faults(folder)}
    for title, (place, _, _) in FAULTS.items():
        number = title.split()[0]
        if number.isdigit() and int(number) in ALONE:
            given, _line = found[title]
            text = pathlib.Path(given[-1]).read_bytes().decode("utf-8", "surrogateescape")
            alone = told(folder, text, "syntax", "--where")
            wanted = None if number == "56" else place
            if alone != (wanted, None):
                yield f"{title}: {alone} by itself, and not {wanted}"


def with_places(lines, places, name=""):
    """The lines of a list with places, with the name of the file in front of those that have none."""
    left = iter(places)
    for line in lines:
        yield f"{name}refused {line}" if line.startswith("56 ") else f"FILE:{next(left)}: {line}"


def objects_told(lines, text):
    """What the objects of a list say: each as its line, and its place by its byte, which its line and column have to be."""
    data = text.encode()
    for row in map(json.loads, lines):
        where = f"in #{row['instance']}" if "instance" in row else f"at statement {row['statement']}"
        place = None
        if "byte" in row:
            front = data[: row["byte"]]
            place = f"{front.count(10) + 1}:{len(front) - front.rfind(10)}"
        known = {"file", "number", "name", "instance", "statement", "byte", "line", "column", "passed", "expected"}
        own = f"{row['line']}:{row['column']}" if place else None
        yield f"{row['number']} {row['name']} {where}", place, own == place and row["file"] == "FILE" and known.issuperset(row)


def of_lists_alone(folder):
    """What is wrong with the lists of files by themselves with places: of one file, of two, as JSON, and their first refusals."""
    for name, group, lines in LISTS_ALONE:
        text, places = text_of([group])
        wanted = [*with_places(lines, places), f"refusals {len(lines)}"]
        found = said(folder, text, "syntax", "--all", "--where")
        if found != wanted:
            yield f"{name}: {found}, and not {wanted}"
        found = said(folder, text, "syntax", "--most", "1", "--where")
        if found != [wanted[0], "refusals 1, no more were looked for"]:
            yield f"{name}: {found}, and not {wanted[:1]}"
        wanted = [*with_places(lines, places, "FILE: "), f"FILE: refusals {len(lines)}"]
        found = said(folder, text, "syntax", "--all", "--where", "examples/product.step")
        if found != wanted:
            yield f"{name} beside another file: {found}, and not {wanted}"
        left = iter(places)
        of_each = [(line, None if line.startswith("56 ") else next(left), True) for line in lines]
        for more in (), ("--where",):
            *rows_found, last = said(folder, text, "syntax", "--all", "--format", "jsonl", *more)
            if list(objects_told(rows_found, text)) != of_each:
                yield f"{name}: {rows_found}, and not {of_each}"
            if json.loads(last) != {"refusals": len(lines), "extent": "whole"}:
                yield f"{name}: {last}"
            first = said(folder, text, "syntax", "--format", "jsonl", *more)
            if list(objects_told(first, text)) != of_each[:1]:
                yield f"{name}: {first}, and not {of_each[0]} alone"


def of_standard_input():
    """What is wrong with the answers about standard input, which comes in pieces, and isn't read a second time."""
    for instance, second in [
        ("#1=POINT($,1.,2);", "-:8:15: POINT.Y"),
        ("#1=SPHERE();", "-:8:4"),
        ("#1=CLOUD((#2),(),(TALLY(1)));", None),
    ]:
        text = file_of(instance, [("PRODUCT_MODEL", "DEMO")]).encode()
        with subprocess.Popen([PROGRAM, "check", "--where", DEMO, "-"], stdin=subprocess.PIPE, stderr=subprocess.PIPE, cwd=ROOT) as run:
            for at in range(len(text)):
                run.stdin.write(text[at : at + 1])
                run.stdin.flush()
            run.stdin.close()
            lines = run.stderr.read().decode().splitlines()
        if (lines[1:] or [None])[0] != second:
            yield f"{instance} on standard input: {lines}"


def of_tokens(folder):
    """What is wrong with what could stand at a place, of one refusal and of the last one of a list."""
    for front, behind, wanted in EXPECTED:
        text = file_of("MARK", [("PRODUCT_MODEL", "DEMO")])
        assert text.count(front) == 1, front
        for words in ("check",), ("check", "--all"), ("syntax",), ("syntax", "--all"):
            schema = [DEMO] if words[0] == "check" else []
            [first, *_] = said(folder, text.replace(front, behind), *words, "--format", "jsonl", *schema)
            if json.loads(first).get("expected") != wanted:
                yield f"{words}, {behind} in place of {front}: {first}, and not {wanted}"


def main():
    failed = 0
    with tempfile.TemporaryDirectory() as made:
        folder = pathlib.Path(made)
        count = 0
        for name, text, schema, wanted in rows():
            place, _ = told(folder, text, "check", "--where", schema)
            count += 1
            if place != wanted:
                print(f"{name}: {place}, and not {wanted}", file=sys.stderr)
                failed += 1
        for instance, wanted in ATTRIBUTES:
            _, attribute = told(folder, file_of(instance, [("PRODUCT_MODEL", "DEMO")]))
            count += 1
            if attribute != wanted:
                print(f"{instance}: {attribute}, and not {wanted}", file=sys.stderr)
                failed += 1
        for instance, wanted in OF_SUPERTYPES:
            text = file_of(instance, [("PRODUCT_MODEL", "PRODUCT_MODEL")])
            _, attribute = told(folder, text, "check", "--where", SCHEMA)
            count += 1
            if attribute != wanted:
                print(f"{instance}: {attribute}, and not {wanted}", file=sys.stderr)
                failed += 1
        for wrong in [*of_list(folder), *of_single_runs(folder), *of_files_alone(folder), *of_lists_alone(folder), *of_standard_input(), *of_tokens(folder)]:
            print(wrong, file=sys.stderr)
            failed += 1
            count += 1
        count += 6
    print(f"{count - failed} passed, {failed} failed")
    return 1 if failed else 0


if __name__ == "__main__":
    sys.exit(main())
