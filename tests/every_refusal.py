#!/usr/bin/env python3
"""Files that are broken by hand: each refusal of an instance or a reference alone, each two of them, ten at a time, and all of them; with
a broken statement behind some, or what ends the reading. `p21 check --all` has to list those that were put in, in the order of the file,
those of references last, of which 56 isn't listed where a statement is broken; `--most` the first of them; and `check` the first. Each
file of examples/refused is refused first by what `check` says.

The environment variable P21 names the program.
"""

import itertools
import os
import pathlib
import random
import subprocess
import sys
import tempfile

from exchange import BACK, front

ROOT = pathlib.Path(__file__).resolve().parent.parent
PROGRAM = os.environ.get("P21", str(ROOT / "p21"))

# Entities that some of the schema have all in their sets.
MEMBERS = [f"w{number:03}" for number in range(300)]

SCHEMA = f"""SCHEMA every;
{"".join(f"ENTITY {name}; END_ENTITY; " for name in MEMBERS)}
ENTITY wide SUBTYPE OF ({", ".join(MEMBERS)}); END_ENTITY;
TYPE distance = REAL; END_TYPE;
TYPE tally = INTEGER; END_TYPE;
TYPE colour = ENUMERATION OF (red, green); END_TYPE;
TYPE measure = SELECT (distance, tally); END_TYPE;
ENTITY shape ABSTRACT SUPERTYPE; label : OPTIONAL STRING(3); END_ENTITY;
ENTITY point SUBTYPE OF (shape); x, y : distance; END_ENTITY;
ENTITY marked SUBTYPE OF (shape); mark : colour; END_ENTITY;
ENTITY origin SUBTYPE OF (point); DERIVE SELF\\point.x : distance := 0.0; END_ENTITY;
ENTITY cloud; members : SET OF point; values : LIST [1:2] OF measure; END_ENTITY;
ENTITY r; k : NUMBER; END_ENTITY;
ENTITY a SUBTYPE OF (r); SELF\\r.k : INTEGER; END_ENTITY;
ENTITY b SUBTYPE OF (r); SELF\\r.k : REAL; END_ENTITY;
ENTITY s SUPERTYPE OF (ONEOF (t, u)); n : INTEGER; END_ENTITY;
ENTITY t SUBTYPE OF (s); END_ENTITY;
ENTITY u SUBTYPE OF (s); END_ENTITY;
ENTITY many SUBTYPE OF (wide);
i : INTEGER; label : STRING(3); values : LIST [1:2] OF measure; mark : colour; members : SET OF point; END_ENTITY;
ENTITY starred SUBTYPE OF (many); DERIVE SELF\\many.i : INTEGER := 0; END_ENTITY;
ENTITY hidden ABSTRACT SUPERTYPE SUBTYPE OF (wide); END_ENTITY;
ENTITY clashing SUBTYPE OF (wide, t, u); END_ENTITY;
ENTITY opened SUBTYPE OF (wide, a, b); END_ENTITY;
END_SCHEMA;
"""

FRONT = front("EVERY") + "#1=POINT($,1.,1.);\n#2=CLOUD((),(TALLY(1)));\n"

# Records that are refused, each by its number and name.
RECORDS = [
    ("FOO()", "41 UnknownEntity"),
    ("SHAPE($)", "42 Abstract"),
    ("(POINT(1.,1.))", "43 PartMissing"),
    ("(POINT(1.,1.)POINT(1.,1.)SHAPE($))", "44 PartTwice"),
    ("POINT($,1.)", "45 Count"),
    ("POINT($,$,1.)", "46 Missing"),
    ("POINT(*,1.,1.)", "47 StarNotDerived"),
    ("ORIGIN($,1.,1.)", "48 DerivedNotStar"),
    ("POINT($,1,1.)", "49 WrongKind"),
    ("POINT('four',1.,1.)", "50 Width"),
    ("CLOUD((),())", "51 Bounds"),
    ("CLOUD((#1,#1),(TALLY(1)))", "52 NotDistinct"),
    ("MARKED($,.BLUE.)", "53 UnknownItem"),
    ("CLOUD((),(1.))", "54 SelectType"),
    ("(A()B()R(1))", "55 TwoRedeclarations"),
    ("(S(1)T()U())", "58 OneOf"),
]

# References that nothing serves.
REFERENCES = [
    ("CLOUD((#999),(TALLY(1)))", "56 Dangling"),
    ("CLOUD((#2),(TALLY(1)))", "57 WrongTarget"),
]

# The same of entities with large sets: what all records of one have in common is found once.
LARGE_RECORDS = [
    ("HIDDEN()", "42 Abstract"),
    ("MANY(1,'abc',(TALLY(1)),.RED.)", "45 Count"),
    ("MANY($,'abc',(TALLY(1)),.RED.,())", "46 Missing"),
    ("MANY(*,'abc',(TALLY(1)),.RED.,())", "47 StarNotDerived"),
    ("STARRED(1,'abc',(TALLY(1)),.RED.,())", "48 DerivedNotStar"),
    ("MANY(1.,'four',(TALLY(1)),.RED.,())", "49 WrongKind"),
    ("MANY(1,'four',(),.RED.,())", "50 Width"),
    ("MANY(1,'abc',(),.BLUE.,())", "51 Bounds"),
    ("STARRED(*,'abc',(TALLY(1)),.RED.,(#1,#1))", "52 NotDistinct"),
    ("MANY(1,'abc',(TALLY(1)),.BLUE.,(#1,#1))", "53 UnknownItem"),
    ("MANY(1,'abc',(1.),.BLUE.,())", "54 SelectType"),
    ("OPENED()", "55 TwoRedeclarations"),
    ("CLASHING()", "58 OneOf"),
]
LARGE_REFERENCES = [
    ("MANY(1,'abc',(TALLY(1)),.RED.,(#999))", "56 Dangling"),
    ("STARRED(*,'abc',(TALLY(1)),.RED.,(#2))", "57 WrongTarget"),
]

# An instance of a name that stands before it, whatever its record is.
AGAIN = ("#1=POINT($,2.,2.);", "40 DuplicateName in #1")
LARGE_AGAIN = ("#1=MANY(1);", "40 DuplicateName in #1")

# Statements that are broken, and that end the reading.
BROKEN = [
    ("#9=point();", "1 BadByte"),
    ("#9=POINT('\\q',1.,1.);", "4 BadDirective"),
    ("#9=POINT($,1.EX,1.);", "7 BadNumber"),
    ("#9=POINT(;", "20 Unexpected"),
    ("#9=&SCOPE", "26 LeftOut(Scope)"),
]
ENDS = [
    ("ENDSEC\n#9=POINT($,1.,1.);", "20 Unexpected"),
    ("END-ISO-10303-21;", "20 Unexpected"),
    ("ISO-10303-21;", "20 Unexpected"),
]


class Wrong(Exception):
    """The program answers something else."""


def run(folder, text, *words):
    """What `check` says on standard error of a file with this text, line by line; the status has to be that of a refusal."""
    schema, file = folder / "every.exp", folder / "file.step"
    schema.write_text(SCHEMA)
    file.write_text(text)
    done = subprocess.run([PROGRAM, "check", *words, schema, file], capture_output=True, text=True, check=False)
    if done.returncode != 1 or done.stdout:
        raise Wrong(f"status {done.returncode}, {done.stdout!r}, {done.stderr!r}\n{text}")
    return done.stderr.splitlines()


def expect(found, wanted, text):
    """Compares lines."""
    if found != wanted:
        raise Wrong(f"{found}\nnot {wanted}\n{text}")


def broken(rows, end=None):
    """A file with an instance of each of the rows, and behind them perhaps a statement that is broken or ends the reading; and the lines
    that list them."""
    statements, records, references = [], [], []
    for number, row in enumerate(rows, 101):
        if row in (AGAIN, LARGE_AGAIN):
            statements.append(row[0])
            records.append(f"refused {row[1]}")
            continue
        statements.append(f"#{number}={row[0]};")
        (references if row in REFERENCES + LARGE_REFERENCES else records).append(f"refused {row[1]} in #{number}")
    lines = records + references
    if end:
        # The statements in front of the instances, and the two that stand.
        place = 7 + 2 + len(statements) + 1
        front = FRONT + "".join(f"{statement}\n" for statement in statements)
        lines = [*records, f"refused {end[1]} at statement {place}"]
        behind = f", read {len(front)} bytes"
        if end in BROKEN:
            lines += [line for line in references if "56 Dangling" not in line]
            behind = ""
        return f"{front}{end[0]}\n{BACK}", lines, [*lines, f"refusals {len(lines)}{behind}"]
    return FRONT + "\n".join([*statements, ""]) + BACK, lines, [*lines, f"refusals {len(lines)}"]


def one(folder, rows, end=None):
    """One file: all refusals, the first alone, and the first of `--most`."""
    text, lines, listed = broken(rows, end)
    expect(run(folder, text, "--all"), listed, text)
    expect(run(folder, text), lines[:1], text)
    if len(lines) > 1 and not end:
        half = len(lines) // 2
        expect(run(folder, text, "--most", str(half)), [*lines[:half], f"refusals {half}, no more were looked for"], text)


def examples():
    """Each file of examples/refused: the first line of all refusals is that of `check`, and the last one counts them."""
    for file in sorted((ROOT / "examples" / "refused").glob("*.step")):
        words = [str(ROOT / "examples" / "product.exp"), str(file)]
        plain = subprocess.run([PROGRAM, "check", *words], capture_output=True, text=True, check=False)
        every = subprocess.run([PROGRAM, "check", "--all", *words], capture_output=True, text=True, check=False)
        lines = every.stderr.splitlines()
        if every.returncode != 1 or lines[:1] != plain.stderr.splitlines() or not lines[-1].startswith(f"refusals {len(lines) - 1}"):
            raise Wrong(f"{file}: {plain.stderr!r}, {every.stderr!r}")


def main():
    chance = random.Random(59)
    small, large = [*RECORDS, *REFERENCES, AGAIN], [*LARGE_RECORDS, *LARGE_REFERENCES, LARGE_AGAIN]
    rows = small + large
    files = 0
    with tempfile.TemporaryDirectory() as name:
        folder = pathlib.Path(name)
        chosen = [[row] for row in rows] + [list(pair) for some in (small, large) for pair in itertools.product(some, some)]
        chosen += [[chance.choice(rows) for _ in range(10)] for _ in range(50)] + [rows]
        for some in chosen:
            one(folder, some)
            files += 1
        for end in BROKEN + ENDS:
            for some in [[], *chosen[-51:]]:
                one(folder, some, end)
                files += 1
    examples()
    print(f"{files} files with every refusal listed, and the examples")


if __name__ == "__main__":
    try:
        main()
    except Wrong as wrong:
        print(wrong, file=sys.stderr)
        sys.exit(1)
