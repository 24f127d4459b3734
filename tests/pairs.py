#!/usr/bin/env python3
"""Runs `p21 diff --names` over pairs of files that are made: against the lines that are worked out by hand, and against the edits by
which the second file was made of the first one, under other names and in another order. P21 names another program than ./p21.
"""

import itertools
import json
import os
import random
import sys
import tempfile

from differences import run
from tooling import ROOT, SCHEMA, file_of

PAIRS = 25
SEED = 20261201

POINT = "#1=CARTESIAN_POINT('',(0.,0.,0.));"
FAR = "#2=CARTESIAN_POINT('far',(9.,9.,9.));"
PLACED = "#2=DIRECTION('',(0.,0.,1.));\n#3=AXIS2_PLACEMENT_3D('',#1,#2,$);"
UNPLACED = "#13=AXIS2_PLACEMENT_3D('',#11,$,$);"

# Each row: a name, the instances of A and of B, and the lines that are printed; the last one is the count.
ROWS = [
    ("the same text", POINT, POINT, ["same"]),
    (
        "other names in another order",
        f"{POINT}\n#2=PERSON('ek',$,$,$);\n#3=VERTEX_POINT('',#1);",
        "#3=CARTESIAN_POINT('',(0.,0.,0.));\n#1=VERTEX_POINT('',#3);\n#7=PERSON('ek',$,$,$);",
        ["same"],
    ),
    (
        "a value, under both names",
        POINT,
        "#9=CARTESIAN_POINT('',(0.,0.,7.5));",
        ["changed #1/#9 CARTESIAN_POINT.COORDINATES [3] 0. 7.5", "different: 1 changed, 0 came, 0 went"],
    ),
    (
        "a value, under the one name of both",
        POINT,
        "#1=CARTESIAN_POINT('',(0.,0.,7.5));",
        ["changed #1 CARTESIAN_POINT.COORDINATES [3] 0. 7.5", "different: 1 changed, 0 came, 0 went"],
    ),
    (
        "a reference to another pair",
        f"{POINT}\n{FAR}\n#3=VERTEX_POINT('',#1);",
        "#11=CARTESIAN_POINT('',(0.,0.,0.));\n#2=CARTESIAN_POINT('far',(9.,9.,9.));\n#13=VERTEX_POINT('',#2);",
        ["changed #3/#13 VERTEX_POINT.VERTEX_GEOMETRY #1/#11 #2", "different: 1 changed, 0 came, 0 went"],
    ),
    (
        "a reference to an instance that went",
        f"{POINT}\n{PLACED}",
        f"#11=CARTESIAN_POINT('',(0.,0.,0.));\n{UNPLACED}",
        ["went #2 DIRECTION", "changed #3/#13 AXIS2_PLACEMENT_3D.AXIS A#2 $", "different: 1 changed, 0 came, 1 went"],
    ),
    (
        "a reference to an instance that came",
        f"#11=CARTESIAN_POINT('',(0.,0.,0.));\n{UNPLACED}",
        f"{POINT}\n{PLACED}",
        ["came #2 DIRECTION", "changed #13/#3 AXIS2_PLACEMENT_3D.AXIS $ B#2", "different: 1 changed, 1 came, 0 went"],
    ),
    (
        "one name for two instances",
        f"{POINT}\n#2=PERSON('ek',$,$,$);",
        "#2=DIRECTION('',(0.,0.,1.));\n#7=CARTESIAN_POINT('',(0.,0.,0.));",
        ["went #2 PERSON", "came #2 DIRECTION", "different: 0 changed, 1 came, 1 went"],
    ),
    (
        "a string with what looks like a reference",
        "#1=PERSON('#1','it''s #2',$,$);",
        "#2=PERSON('#1','it''s #3',$,$);",
        ["changed #1/#2 PERSON.LAST_NAME 'it''s #2' 'it''s #3'", "different: 1 changed, 0 came, 0 went"],
    ),
    (
        "equal instances, any of which may be partners",
        "#1=CARTESIAN_POINT('',(0.,0.));\n#2=CARTESIAN_POINT('',(0.,0.));",
        "#8=CARTESIAN_POINT('',(0.,0.));\n#9=CARTESIAN_POINT('',(0.,0.));",
        ["same"],
    ),
]

# The rows of two files as objects.
OBJECTS = (
    f"{POINT}\n{PLACED}\n#8=PERSON('x',$,$,$);",
    f"#11=CARTESIAN_POINT('',(0.,0.,1.));\n{UNPLACED}\n#4=PLANE('',#13);",
    [
        {"kind": "went", "what": "instance", "a": 2, "entity": "DIRECTION", "before": "#2=DIRECTION('',(0.,0.,1.));"},
        {"kind": "went", "what": "instance", "a": 8, "entity": "PERSON", "before": "#8=PERSON('x',$,$,$);"},
        {"kind": "came", "what": "instance", "b": 4, "entity": "PLANE", "after": "#4=PLANE('',#13);"},
        {
            **{"kind": "changed", "what": "instance", "a": 1, "b": 11, "entity": "CARTESIAN_POINT", "attribute": "COORDINATES"},
            **{"keywords": "CARTESIAN_POINT", "indices": [3], "before": "0.", "after": "1."},
        },
        {
            **{"kind": "changed", "what": "instance", "a": 3, "b": 13, "entity": "AXIS2_PLACEMENT_3D", "attribute": "AXIS"},
            **{"keywords": "AXIS2_PLACEMENT_3D", "before": "A#2", "after": "$"},
        },
        {"kind": "verdict", "verdict": "different", "changed": 2, "came": 1, "went": 2},
    ],
)

# More instances than pairs may be chosen: equal but for a value that tells no pair.
MANY = 1200
# The name of the one that differs among as many copies.
COPY = 3 * MANY + 1
ONE_CHANGED = "different: 1 changed, 0 came, 0 went"


# --- Files that are edited, named anew and written in another order ---


class Edited:
    """A file of points, each with a vertex that has a name of its own; and the same one with some coordinates changed, some points and
    vertices left out, and some directions that came."""

    def __init__(self, chance):
        self.chance = chance
        self.values = (f"{each // 1000 + 1}.{each % 1000:03}1" for each in itertools.count(chance.randrange(100)))
        self.points = {number: [next(self.values) for _ in range(3)] for number in range(chance.randrange(2, 12))}
        self.others = {number: list(point) for number, point in self.points.items() if chance.random() > 0.15}
        self.changes = {}
        for number, point in self.others.items():
            if chance.random() < 0.3:
                at = chance.randrange(3)
                value = next(self.values)
                self.changes[number] = at + 1, point[at], value
                point[at] = value
        self.came = [f"d{number}" for number in range(chance.randrange(3))]
        self.names = [self.named(self.points, []), self.named(self.others, self.came)]

    def named(self, points, came):
        """A name for each instance."""
        keys = [key for number in points for key in (f"p{number}", f"v{number}")] + came
        return dict(zip(keys, self.chance.sample(range(1, 60), len(keys))))

    def text(self, at):
        """One of the files."""
        names, points = self.names[at], (self.points, self.others)[at]
        lines = [f"#{names[f'p{number}']}=CARTESIAN_POINT('',({','.join(point)}));" for number, point in points.items()]
        lines += [f"#{names[f'v{number}']}=VERTEX_POINT('v{number}',#{names[f'p{number}']});" for number in points]
        lines += [f"#{names[key]}=DIRECTION('',(0.,{next(self.values)}));" for key in (self.came if at else [])]
        self.chance.shuffle(lines)
        return file_of("\n".join(lines))

    def rows(self):
        """What differs, in the order of the names of the second file. Those that went take the lowest names that are free there."""
        first, second = self.names
        free = (name for name in itertools.count(1) if name not in second.values())
        gone = sorted((name, key) for key, name in first.items() if key not in second)
        rows = {next(free): f"went #{name} {'CARTESIAN_POINT' if key[0] == 'p' else 'VERTEX_POINT'}" for name, key in gone}
        rows.update((second[key], f"came #{second[key]} DIRECTION") for key in self.came)
        for number, (index, before, after) in self.changes.items():
            one, other = first[f"p{number}"], second[f"p{number}"]
            name = f"#{one}" if one == other else f"#{one}/#{other}"
            rows[other] = f"changed {name} CARTESIAN_POINT.COORDINATES [{index}] {before} {after}"
        lines = [rows[name] for name in sorted(rows)]
        counts = f"different: {len(self.changes)} changed, {len(self.came)} came, {len(gone)} went"
        return [*lines, counts] if lines else ["same"]

    def pairs(self):
        """The pairs, by rising names of the second file."""
        first, second = self.names
        both = sorted((second[key], name) for key, name in first.items() if key in second)
        return [f"pair #{name}" if name == other else f"pair #{name}/#{other}" for other, name in both]


def many(value):
    """Persons of which nothing but this value differs, behind one that has no other."""
    return file_of("\n".join(f"#{number}=PERSON('x','{value}',$,$);" for number in range(1, MANY + 1)))


def copies(value):
    """As many copies of a placement with its own points, and one point more with this coordinate."""
    lines = []
    for number in range(1, 3 * MANY + 1, 3):
        lines.append(f"#{number}=CARTESIAN_POINT('',(0.,0.,0.));")
        lines.append(f"#{number + 1}=DIRECTION('',(0.,0.,1.));")
        lines.append(f"#{number + 2}=AXIS2_PLACEMENT_3D('',#{number},#{number + 1},$);")
    return file_of("\n".join([*lines, f"#{COPY}=CARTESIAN_POINT('',({value},0.,0.));"]))


class Compared:
    """Files that are compared, and what was found otherwise."""

    def __init__(self, folder):
        self.paths = [os.path.join(folder, name) for name in ("a.step", "b.step")]
        self.passed, self.failed = 0, []

    def expect(self, name, texts, words, wanted):
        """Holds what the program writes about two texts against this."""
        for path, text in zip(self.paths, texts):
            with open(path, "w", encoding="utf-8") as file:
                file.write(text)
        found = run("diff", "--names", *words, SCHEMA, *self.paths)
        self.passed += found == wanted
        self.failed += [] if found == wanted else [f"{name}: {found} and not {wanted}"]

    def expect_lines(self, name, texts, lines, words=()):
        """The same, of lines."""
        self.expect(name, texts, words, ("".join(line + "\n" for line in lines), "", int(lines[-1] != "same")))


def main():
    """Compares files."""
    os.chdir(ROOT)
    with tempfile.TemporaryDirectory() as folder:
        compared = Compared(folder)
        for name, one, other, lines in ROWS:
            compared.expect_lines(name, (file_of(one), file_of(other)), lines)
        one, other, rows = OBJECTS
        text = "".join(json.dumps(row, separators=(",", ":")) + "\n" for row in rows)
        compared.expect("objects", (file_of(one), file_of(other)), ["--format", "jsonl"], (text, "", 1))
        pairs = "".join(json.dumps({"kind": "pair", "a": a, "b": b}, separators=(",", ":")) + "\n" for a, b in ((1, 11), (3, 13)))
        compared.expect("objects with pairs", (file_of(one), file_of(other)), ["--pairs", "--format", "jsonl"], (pairs + text, "", 1))
        chance = random.Random(SEED)
        for number in range(PAIRS):
            edited = Edited(chance)
            texts, rows = (edited.text(0), edited.text(1)), edited.rows()
            compared.expect_lines(f"pair {number}", texts, rows)
            compared.expect_lines(f"pair {number}, with all pairs", texts, edited.pairs() + rows, ["--pairs"])
        texts = copies("4."), copies("5.")
        compared.expect_lines("many copies, of which one differs", texts, [f"changed #{COPY} CARTESIAN_POINT.COORDINATES [1] 4. 5.", ONE_CHANGED])
        texts = many("a"), many("b")
        compared.expect_lines("too many choices, of files that are the same", (texts[0], texts[0]), ["same"])
        compared.expect_lines("too many choices", texts, ["not decided"])
        compared.expect_lines("too many choices, with all pairs", texts, ["not decided"], ["--pairs"])
        verdict = '{"kind":"verdict","verdict":"undecided"}\n'
        compared.expect("too many choices as an object", texts, ["--format", "jsonl"], (verdict, "", 1))
    for line in compared.failed:
        print(line)
    print(f"{compared.passed} passed, {len(compared.failed)} failed")
    return int(bool(compared.failed))


if __name__ == "__main__":
    sys.exit(main())
