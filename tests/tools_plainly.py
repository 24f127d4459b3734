#!/usr/bin/env python3
"""Values of canonical files as people write them, by tools/p21_plainly.py and, where Node is there, by web/plainly.mjs: those worked
out by hand, and by chance that both say the same. Likewise the units of length that files have, by tools/p21_units.py and
web/units.mjs, and which attributes of examples/product.exp and of a schema of IFC's kind are lengths."""

import json
import pathlib
import random
import shutil
import subprocess
import sys

ROOT = pathlib.Path(__file__).resolve().parent.parent
sys.path.insert(0, str(ROOT / "tools"))
import p21_plainly  # noqa: E402
import p21_units  # noqa: E402
from p21_schemas import Outline  # noqa: E402

# A canonical value, what people write, and whether the first has what nobody writes.
VALUES = [
    ("5.25E1", "52.5", True),
    ("8.E1", "80", True),
    ("1.2E-2", "0.012", True),
    ("-1.5", "-1.5", False),
    ("0.", "0", False),
    ("1.E15", "1000000000000000", True),
    ("1.E16", "1E16", True),
    ("-1.5E16", "-1.5E16", True),
    ("-1.E-6", "-0.000001", True),
    ("1.25E-7", "1.25E-7", True),
    ("12", "12", False),
    ("$", "$", False),
    ("(8.E1,5.E1,1.25E1)", "(80, 50, 12.5)", True),
    (r"'M\X2\00FC\X0\ller'", "“Müller”", True),
    (r"'\X4\0001F600\X0\'", "“😀”", True),
    (r"'O''Neill \\ 1.5E1'", "“O'Neill \\ 1.5E1”", True),
    ("'1.5E1, 2.'", "“1.5E1, 2.”", False),
    ("''", "“”", False),
    (r"'\X2\202E\X0\\X2\000A\X0\'", "“\\u202e\\n”", True),
    ('"0A"', '"0A"', False),
    (".MODE1.", ".MODE1.", False),
    ("MODE2(1.5E1)", "MODE2(15)", True),
    ("(#1,#20)", "(#1, #20)", False),
]
METRES = "#1=(LENGTH_UNIT()NAMED_UNIT(*)SI_UNIT({},.METRE.));"
CONTEXT = "#9=(GLOBAL_UNIT_ASSIGNED_CONTEXT(({}))REPRESENTATION_CONTEXT('',''));"
ANGLES = "#4=(NAMED_UNIT(*)PLANE_ANGLE_UNIT()SI_UNIT($,.RADIAN.));"
INCHES = "#2=(CONVERSION_BASED_UNIT('INCH',#3)LENGTH_UNIT()NAMED_UNIT(#5));"
IFC_UNIT = "#1=IFCSIUNIT(*,.LENGTHUNIT.,{},.METRE.);"
# The lines of a file, and the unit of its lengths.
FILES = [
    ([METRES.format(".MILLI."), ANGLES, CONTEXT.format("#1,#4")], "mm"),
    ([METRES.format("$"), CONTEXT.format("#1")], "m"),
    ([METRES.format(".MICRO."), CONTEXT.format("#1")], "µm"),
    ([METRES.format(".MILLI."), INCHES, CONTEXT.format("#2")], "inch"),
    ([METRES.format(".MILLI."), INCHES, CONTEXT.format("#1,#2")], None),
    ([METRES.format(".MILLI.")], None),
    ([ANGLES, CONTEXT.format("#4")], None),
    ([IFC_UNIT.format(".MILLI."), "#9=IFCUNITASSIGNMENT((#1,#4));"], "mm"),
    ([IFC_UNIT.format("$"), "#2=IFCCONVERSIONBASEDUNIT(#5,.LENGTHUNIT.,'FOOT',#3);", "#9=IFCUNITASSIGNMENT((#2));"], "foot"),
    (["#1=A('LENGTH_UNIT()SI_UNIT(.MILLI.,.METRE.)');", CONTEXT.format("#1")], None),
]
# A length, the unit of its file, and how both are written.
LENGTHS = [
    ("5.25E1", "mm", "52.5 mm"),
    ("(8.E1,5.E1,1.25E1)", "mm", "(80, 50, 12.5) mm"),
    ("(8.E1,5.E1)", "mm", "(80, 50)"),
    ("((1.,2.,3.),(1.,2.,3.))", "mm", "((1, 2, 3), (1, 2, 3))"),
    ("$", "mm", "$"),
    ("5.25E1", None, "52.5"),
]
OF_IFC = """SCHEMA s; TYPE IfcLengthMeasure = REAL; END_TYPE; TYPE IfcPositiveLengthMeasure = IfcLengthMeasure; END_TYPE;
ENTITY e; depth : OPTIONAL IfcPositiveLengthMeasure; name : STRING; END_ENTITY;
ENTITY f SUBTYPE OF (e); all : SET [1:?] OF LIST [3:3] OF UNIQUE IfcLengthMeasure; ratio : REAL; END_ENTITY; END_SCHEMA;"""
PRODUCT = (ROOT / "examples" / "product.exp").read_text()
# A schema, the entity that declares an attribute, the attribute, and whether that is a length.
ATTRIBUTES = [
    (PRODUCT, "CARTESIAN_POINT", "COORDINATES", True),
    (PRODUCT, "REPRESENTATION_ITEM", "NAME", False),
    (PRODUCT, "DIRECTION", "DIRECTION_RATIOS", False),
    (PRODUCT, "VECTOR", "MAGNITUDE", True),
    (PRODUCT, "FILE_NAME", "NAME", False),
    (OF_IFC, "E", "DEPTH", True),
    (OF_IFC, "F", "DEPTH", False),
    (OF_IFC, "F", "ALL", True),
    (OF_IFC, "F", "RATIO", False),
]
PIECES = ["'", "''", "\\\\", "1.", "5.25E1", "-2.E-3", "E", "A1", ".T.", ",", "(", ")", "#4", '"0A"', "\\X2\\00FC\\X0\\", "x"]
# What the page's scripts say, of values, files, lengths and attributes.
BY_NODE = f"""import {{ isSpelled, plainly }} from "{ROOT}/web/plainly.mjs";
import {{ Outline }} from "{ROOT}/web/schemas.mjs";
import {{ Lengths, Units, withUnit }} from "{ROOT}/web/units.mjs";
let text = "";
for await (const piece of process.stdin) text += piece;
const given = JSON.parse(text);
const lengthsOf = (schema) => new Lengths(new Outline(new TextEncoder().encode(schema)));
const unitOf = (lines) => {{
  const units = new Units();
  for (const line of lines) units.hear(line);
  return units.length();
}};
console.log(JSON.stringify({{
  values: given.values.map((value) => [plainly(value), isSpelled(value)]),
  files: given.files.map(([lines]) => unitOf(lines)),
  lengths: given.lengths.map(([value, unit]) => withUnit(value, plainly(value), unit)),
  attributes: given.attributes.map(([schema, ...place]) => lengthsOf(schema).at(...place)),
}}));
"""


def by_node(given):
    """What the page's scripts say."""
    words = ["node", "--input-type=module", "--eval", BY_NODE]
    done = subprocess.run(words, input=json.dumps(given), stdout=subprocess.PIPE, text=True, check=True)
    found = json.loads(done.stdout)
    return {**found, "values": [tuple(each) for each in found["values"]]}


def by_tools(given):
    """What the tools say."""
    return {
        "values": [(p21_plainly.plainly(value), p21_plainly.is_spelled(value)) for value in given["values"]],
        "files": [p21_units.unit_of("".join(f"{line}\n" for line in ["DATA;", *lines, "ENDSEC;"]).encode()) for lines, _ in given["files"]],
        "lengths": [p21_units.with_unit(value, p21_plainly.plainly(value), unit) for value, unit, _ in given["lengths"]],
        "attributes": [p21_units.Lengths(Outline(schema.encode())).at(*place) for schema, *place, _ in given["attributes"]],
    }


def main():
    """Tries both."""
    chance = random.Random(1)
    values = [value for value, *_ in VALUES] + ["".join(chance.choices(PIECES, k=chance.randint(1, 9))) for _ in range(2_000)]
    given = {"values": values, "files": FILES, "lengths": LENGTHS, "attributes": ATTRIBUTES}
    found = by_tools(given)
    others = by_node(given) if shutil.which("node") else found
    wanted = {"values": [tuple(row[1:]) for row in VALUES], **{kind: [row[-1] for row in given[kind]] for kind in given if kind != "values"}}
    wrong = []
    for kind, rows in given.items():
        wrong += [f"{row}: {said}" for row, said, right in zip(rows, found[kind], wanted[kind]) if said != right]
        both = zip(rows, found[kind], others[kind], strict=True)
        wrong += [f"{row}: {said} by the tools, {other} by the page" for row, said, other in both if said != other]
    print("".join(f"{line}\n" for line in wrong), end="")
    without = "" if shutil.which("node") else "; left out: the page's script, since there is no node"
    print(f"{sum(map(len, given.values()))} values, files and attributes, {len(wrong)} wrong{without}")
    return 1 if wrong else 77 if without else 0


if __name__ == "__main__":
    sys.exit(main())
