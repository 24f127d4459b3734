#!/usr/bin/env python3
"""What owns the instances of files, by tools/p21_owners.py and, where Node is there, by web/owners.mjs: over small files in the manner of
AP203 and of IFC whose owners were worked out by hand, and over files by chance that both say the same.
"""

import json
import pathlib
import random
import shutil
import subprocess
import sys

ROOT = pathlib.Path(__file__).resolve().parent.parent
sys.path.insert(0, str(ROOT / "tools"))
from p21_owners import Graph, Owners  # noqa: E402
from p21_schemas import Outline  # noqa: E402

# Two parts in an assembly, of which the second one's solid stands in a representation that a relationship leads to.
OF_AP = """SCHEMA s;
ENTITY product; id : STRING; name : STRING; END_ENTITY;
ENTITY product_definition_formation; of_product : product; END_ENTITY;
ENTITY product_definition; formation : product_definition_formation; made_on : OPTIONAL calendar_date; END_ENTITY;
ENTITY calendar_date; year : INTEGER; END_ENTITY;
ENTITY property_definition; name : STRING; definition : product_definition; END_ENTITY;
ENTITY product_definition_shape SUBTYPE OF (property_definition); END_ENTITY;
ENTITY shape_definition_representation; definition : product_definition_shape; used : representation; END_ENTITY;
ENTITY property_definition_representation; definition : property_definition; used : representation; END_ENTITY;
ENTITY representation; items : SET OF representation_item; END_ENTITY;
ENTITY shape_representation_relationship; rep_1 : representation; rep_2 : representation; END_ENTITY;
ENTITY next_assembly_usage_occurrence; relating : product_definition; related : product_definition; END_ENTITY;
ENTITY representation_item; name : STRING; END_ENTITY;
ENTITY face SUBTYPE OF (representation_item); END_ENTITY;
ENTITY advanced_face SUBTYPE OF (face); points : SET OF point; END_ENTITY;
ENTITY point SUBTYPE OF (representation_item); x : REAL; END_ENTITY;
ENTITY solid SUBTYPE OF (representation_item); faces : SET OF face; END_ENTITY;
ENTITY mass SUBTYPE OF (representation_item); value : REAL; END_ENTITY;
END_SCHEMA;"""
AP_FILE = """#1=PRODUCT('P-1','Plate');
#2=PRODUCT_DEFINITION_FORMATION(#1);
#3=PRODUCT_DEFINITION(#2,#4);
#4=CALENDAR_DATE(2026);
#5=PRODUCT_DEFINITION_SHAPE('',#3);
#6=REPRESENTATION((#7));
#7=SOLID('',(#8,#9));
#8=ADVANCED_FACE('top',(#10,#11));
#9=ADVANCED_FACE('',(#11,#12));
#10=POINT('',1.);
#11=POINT('',2.);
#12=POINT('',3.);
#13=SHAPE_DEFINITION_REPRESENTATION(#5,#6);
#14=PROPERTY_DEFINITION('mass',#3);
#15=REPRESENTATION((#16));
#16=MASS('',4.);
#17=PROPERTY_DEFINITION_REPRESENTATION(#14,#15);
#21=PRODUCT('P-2','');
#22=PRODUCT_DEFINITION_FORMATION(#21);
#23=PRODUCT_DEFINITION(#22,$);
#25=PRODUCT_DEFINITION_SHAPE('',#23);
#26=REPRESENTATION((#30));
#27=SHAPE_DEFINITION_REPRESENTATION(#25,#26);
#28=SHAPE_REPRESENTATION_RELATIONSHIP(#26,#29);
#29=REPRESENTATION((#31));
#30=POINT('',5.);
#31=POINT('',6.);
#40=NEXT_ASSEMBLY_USAGE_OCCURRENCE(#3,#23);
#50=POINT('alone',7.);"""
PLATE, OTHER = "PRODUCT #1 “P-1”, “Plate”", "PRODUCT #21 “P-2”"
TOP, BACK = "ADVANCED_FACE #8 “top”", "ADVANCED_FACE #9"
MASS = "PROPERTY_DEFINITION #14 “mass”"
AP_OWNERS = {
    "1": (PLATE, ""), "2": (PLATE, ""), "4": (PLATE, ""), "5": (PLATE, ""), "7": (PLATE, ""), "8": (PLATE, TOP), "10": (PLATE, TOP),
    "11": (PLATE, f"{TOP}, {BACK}"), "12": (PLATE, BACK), "14": (PLATE, MASS), "16": (PLATE, MASS), "21": (OTHER, ""), "30": (OTHER, ""),
    "31": (OTHER, ""), "28": (OTHER, ""), "40": (f"{PLATE}, {OTHER}", ""), "50": ("In no product", ""),
}  # fmt: skip
# Walls with a set of properties that two of them share, and a placement.
OF_IFC = """SCHEMA s;
ENTITY ifcroot; globalid : STRING; name : OPTIONAL STRING; END_ENTITY;
ENTITY ifcobjectdefinition SUBTYPE OF (ifcroot); END_ENTITY;
ENTITY ifcwall SUBTYPE OF (ifcobjectdefinition); placement : ifclocalplacement; END_ENTITY;
ENTITY ifclocalplacement; relative : OPTIONAL ifclocalplacement; point : ifcpoint; END_ENTITY;
ENTITY ifcpoint; coordinates : LIST OF REAL; END_ENTITY;
ENTITY ifcpropertysetdefinition SUBTYPE OF (ifcroot); END_ENTITY;
ENTITY ifcpropertyset SUBTYPE OF (ifcpropertysetdefinition); has : SET OF ifcproperty; END_ENTITY;
ENTITY ifcproperty; name : STRING; value : OPTIONAL REAL; END_ENTITY;
ENTITY ifcreldefines SUBTYPE OF (ifcroot); related : SET OF ifcobjectdefinition; relating : ifcpropertysetdefinition; END_ENTITY;
END_SCHEMA;"""
IFC_FILE = """#1=IFCWALL('a','North',#2);
#2=IFCLOCALPLACEMENT(#7,#3);
#3=IFCPOINT((1.,2.));
#4=IFCWALL('b',$,#5);
#5=IFCLOCALPLACEMENT(#2,#6);
#6=IFCPOINT((3.,4.));
#7=IFCLOCALPLACEMENT($,#8);
#8=IFCPOINT((0.,0.));
#10=IFCPROPERTYSET('c','Pset_WallCommon',(#11));
#11=IFCPROPERTY('IsExternal',1.);
#12=IFCRELDEFINES('d',$,(#1,#4),#10);
#13=IFCWALL('e','A',#7);
#14=IFCWALL('f','B',#7);
#15=IFCWALL('g','C',#7);
#16=IFCWALL('h','D',#7);"""
NORTH, SECOND, PSET = "IFCWALL #1 “North”", "IFCWALL #4", "IFCPROPERTYSET #10 “Pset_WallCommon”"
IFC_OWNERS = {
    "1": (NORTH, ""), "3": (NORTH, ""), "6": (SECOND, ""), "8": ("IFCWALL #13 “A”, IFCWALL #14 “B”, IFCWALL #15 “C”, and 1 more", ""),
    "11": (f"{NORTH}, {SECOND}", PSET), "10": (f"{NORTH}, {SECOND}", PSET), "12": (f"{NORTH}, {SECOND}", ""),
}  # fmt: skip
ROWS = [(OF_AP, AP_FILE, AP_OWNERS), (OF_IFC, IFC_FILE, IFC_OWNERS)]
BY_NODE = f"""import {{ Graph, Owners }} from "{ROOT}/web/owners.mjs";
import {{ Outline }} from "{ROOT}/web/schemas.mjs";
let text = "";
for await (const piece of process.stdin) text += piece;
const bytesOf = (lines) => new TextEncoder().encode(lines);
const owners = ([schema, file]) => {{
  const graph = new Graph([bytesOf(file), bytesOf(file)]);
  const found = new Owners(graph, new Outline(bytesOf(schema)), (name) => name);
  const said = (name) => [name, found.of(0, name)];
  return Object.fromEntries([...graph.nodes[0].keys()].map(said).map(([name, {{ products, parts }}]) => [name, [products, parts]]));
}};
console.log(JSON.stringify(JSON.parse(text).map(owners)));
"""


def canonical(lines):
    """A canonical file of these instances."""
    return f"ISO-10303-21;\nHEADER;\nFILE_SCHEMA(('S'));\nENDSEC;\nDATA;\n{lines}\nENDSEC;\nEND-ISO-10303-21;\n"


def by_tools(schema, file):
    """What the tools say: the owners of each instance."""
    graph = Graph(file.encode(), file.encode())
    owners = Owners(graph, Outline(schema.encode()), lambda name: name)
    return {str(name): list(owners.of(0, name)) for name in graph.names[: graph.end_of_first]}


def by_chance(chance):
    """A file in which anything refers to anything."""
    count = chance.randint(2, 30)
    kinds = ["PRODUCT('{0}','')", "FACE('')", "POINT('',1.)", "REPRESENTATION(({1}))", "SOLID('',({1}))", "ADVANCED_FACE('f',({1}))"]
    kinds += ["PRODUCT_DEFINITION_FORMATION({2})", "SHAPE_DEFINITION_REPRESENTATION({2},{3})", "PROPERTY_DEFINITION('',{2})"]
    lines = []
    for name in range(1, count + 1):
        names = [f"#{chance.randint(1, count)}" for _ in range(4)]
        few = ",".join(sorted(set(names[: chance.randint(1, 4)])))
        lines.append(f"#{name}={chance.choice(kinds).format(name, few, *names)};")
    return "\n".join(lines)


def main():
    """Tries both."""
    chance = random.Random(1)
    given = [(schema, canonical(lines)) for schema, lines, _ in ROWS] + [(OF_AP, canonical(by_chance(chance))) for _ in range(300)]
    found = [by_tools(*each) for each in given]
    wrong = []
    for (_, _, wanted), said in zip(ROWS, found):
        wrong += [f"#{name}: {said[name]}, and not {list(right)}" for name, right in wanted.items() if said[name] != list(right)]
    without = "" if shutil.which("node") else "; left out: the page's script, since there is no node"
    if not without:
        words = ["node", "--input-type=module", "--eval", BY_NODE]
        done = subprocess.run(words, input=json.dumps(given), stdout=subprocess.PIPE, text=True, check=True)
        both = zip(given, found, json.loads(done.stdout), strict=True)
        wrong += [f"{file}: {said} by the tools, {other} by the page" for (_, file), said, other in both if said != other]
    print("".join(f"{line}\n" for line in wrong), end="")
    print(f"{sum(map(len, found))} instances, {len(wrong)} wrong{without}")
    return 1 if wrong else 77 if without else 0


if __name__ == "__main__":
    sys.exit(main())
