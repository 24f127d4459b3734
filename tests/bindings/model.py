#!/usr/bin/env python3
"""What tests/bindings/model.c must print of a schema and a file, by the plain reading; or whether a program prints it.

  model.py SCHEMA FILE                  prints it
  model.py --program MODEL [FOLDER]     runs MODEL over the rows below and the files of `examples`
"""

import pathlib
import struct
import subprocess
import sys
import tempfile

ROOT = pathlib.Path(__file__).resolve().parents[2]
sys.path.insert(0, str(ROOT / "tests"))

from plain import canonical, scalars  # noqa: E402
from plain.files import read_file  # noqa: E402
from plain.schema import DERIVED, TWO, read_schema  # noqa: E402

HEADER = "ISO-10303-21;HEADER;FILE_DESCRIPTION((''),'2;1');FILE_NAME('','',(''),(''),'','','');FILE_SCHEMA(('%s'));ENDSEC;"

# A schema with each type, and a file with each kind of value: numbers at both ends, characters of each spelling, aggregates in aggregates,
# values with the keyword of their type, external mapping, derived and redeclared attributes, and references of each kind.
SCHEMA = """SCHEMA kinds;
TYPE label = STRING(8); END_TYPE; TYPE code = BINARY(16) FIXED; END_TYPE; TYPE colour = ENUMERATION OF (red, green); END_TYPE;
TYPE measure = REAL; END_TYPE; TYPE count = INTEGER; END_TYPE; TYPE rows = LIST [0:?] OF LIST [1:3] OF UNIQUE INTEGER; END_TYPE;
TYPE inner = SELECT (measure, thing); END_TYPE; TYPE any = SELECT (inner, label, rows, colour); END_TYPE;
ENTITY thing ABSTRACT SUPERTYPE; name : label; END_ENTITY;
ENTITY point SUBTYPE OF (thing); x, y : NUMBER; weight : OPTIONAL REAL; END_ENTITY;
ENTITY marked SUBTYPE OF (thing); mark : OPTIONAL colour; bits : code; flag : BOOLEAN; maybe : LOGICAL; END_ENTITY;
ENTITY plain_point SUBTYPE OF (point); DERIVE SELF\\point.weight : REAL := 1.0; END_ENTITY;
ENTITY group; members : SET [0:?] OF thing; again : BAG [0:9] OF INTEGER; grid : ARRAY [1:3] OF OPTIONAL INTEGER; value : any; table : rows;
END_ENTITY;
ENTITY named_group SUBTYPE OF (group); SELF\\group.value : label; END_ENTITY;
ENTITY text; words : LIST [0:?] OF STRING; END_ENTITY;
END_SCHEMA;"""
DATA = r"""DATA('b',('KINDS'));
#18446744073709551615=POINT('last',0,-0.0,$);#1=POINT('a',1,-25.0E2,0.1);#2=(POINT(1.5,3,2.5E-3)MARKED(.RED.,"01234",.T.,.U.)THING('both'));
#3=PLAIN_POINT('p',9007199254740993,1.7976931348623157E308,*);
ENDSEC;DATA('a',('KINDS'));
#4=MARKED('m',$,"0FFFF",.F.,.T.);#5=GROUP((#1,#2,#3),(3,1,1),(1,$,3),MEASURE(1.E-7),((1),(2,3)));
#6=GROUP((),(),($,$,$),#1,());#7=GROUP((#7_),(),(1,2,3),LABEL('#1(,)'),());
#8=GROUP((#4),(),(1,2,3),ROWS(((1,2,3))),((9)));#9=GROUP((),(),(1,2,3),COLOUR(.GREEN.),());#10=NAMED_GROUP((#1),(),(1,2,3),'only',());
#11=TEXT(('','it''s','\\','\X2\00E9\X0\','\X4\0001F600\X0\','/*no remark*/','#1','a,b)'));#12=TEXT(());
ENDSEC;"""


def files():
    """The schemas and files that are tried."""
    data = DATA.replace("#7_", "#1")
    yield "each kind", SCHEMA.encode(), (HEADER % "KINDS" + data + "END-ISO-10303-21;").encode()
    for name in ("product", "product-changed", "product-other"):
        yield name, (ROOT / "examples/product.exp").read_bytes(), (ROOT / f"examples/{name}.step").read_bytes()


def typed(schema, written, optional):
    """A type where it is used, as deep as it goes."""
    text = ""
    while True:
        text += " OPTIONAL " if optional else " "
        word = written[0]
        if word == "name":
            return text + written[1]
        if word in ("STRING", "BINARY"):
            width = written[1]
            return text + word + (f"({width[0]}){' FIXED' if width[1] else ''}" if width else "")
        if word not in ("ARRAY", "LIST", "SET", "BAG"):
            return text + word
        _, low, high, optional, unique, element = written
        text += f"{word}[{low}:{'?' if high is None else high}]{' UNIQUE' if unique else ''}"
        written = element


def at_place(schema, name, place):
    """What may stand at a place of an instance of an entity."""
    found = schema.type_at(schema.order(name), place)
    if found == DERIVED:
        return " DERIVED"
    return " open" if found == TWO else typed(schema, found[1], found[0])


def schema_lines(schema):
    """What is told of a schema."""
    yield f"schema {schema.name} {len(schema.entities)} {len(schema.types)}"
    for name, entity in schema.entities.items():
        words = ["entity", name] + ["abstract"] * entity.abstract + ["of", *entity.supertypes, "order", *schema.order(name)]
        yield " ".join(words)
        for place in schema.places(name):
            yield f"  {place[0]}.{place[1]}{at_place(schema, name, place)}"
    for name, body in schema.types.items():
        if body[0] == "ENUMERATION":
            yield " ".join(["type", name] + [f".{item}." for item in body[1]])
        elif body[0] == "SELECT":
            offered = schema.offers(name)
            found = [x for x in (*schema.entities, *schema.types) if x in offered]
            yield " ".join(["type", name, *body[1], "offers", *found])
        else:
            yield f"type {name}{typed(schema, body, False)}"


def double(text):
    """The bits of the nearest double."""
    return struct.pack(">d", float(text)).hex()


def number(kind, text):
    """A number by its canonical spelling."""
    sign, digits = ("-", text[1:]) if text[0] == "-" else ("+", text)
    front, _, exponent = digits.partition("E")
    whole, _, fraction = front.partition(".")
    return f"{kind} {sign}{whole}.{fraction}e{int(exponent or '0')} {double(text)}"


def value(meant):
    """What is told of a value; the elements of a set and of a bag are told in the order of their spellings."""
    match meant:
        case ("$",):
            return "missing"
        case ("*",):
            return "derived"
        case ("whole", digits):
            return number("whole", digits)
        case ("real" | "number", ratio):
            return number("real", scalars.spelled_ratio(ratio))
        case ("text", characters):
            return " ".join(["text", *(str(ord(x)) for x in characters)])
        case ("item" | "bits", _):
            return f"{meant[0]} {scalars.spelled(meant)}"
        case ("name", name):
            return f"reference {name}"
        case ("typed", word, inside):
            return f"typed {word} <{value(inside)}>"
        case ("list" | "array", elements):
            return "aggregate {" + "".join(f"{value(x)};" for x in elements) + "}"
        case ("set", elements):
            return "aggregate {" + "".join(f"{value(x)};" for x in sorted(elements, key=canonical.value)) + "}"
        case ("bag", counted):
            every = sorted((x for x, often in counted for _ in range(often)), key=canonical.value)
            return "aggregate {" + "".join(f"{value(x)};" for x in every) + "}"
    raise ValueError(meant)


def named(meant):
    """The names in a value, in the order of the canonical file; those of elements of a BAG that are equal once."""
    match meant:
        case ("name", name):
            yield name
        case ("typed", _, inside):
            yield from named(inside)
        case ("list" | "array", elements):
            for x in elements:
                yield from named(x)
        case ("set", elements):
            for x in sorted(elements, key=canonical.value):
                yield from named(x)
        case ("bag", counted):
            for x in sorted((x for x, _ in counted), key=canonical.value):
                yield from named(x)


def lines(schema, meaning):
    """What is told of a schema and a file."""
    yield from schema_lines(schema)
    ranks = {name: at for at, name in enumerate(schema.entities)}
    used = {}
    for name, (_, meant) in meaning.instances.items():
        for place, found in meant.values:
            for target in set(named(found)):
                rank = (name, ranks[place[0]], list(schema.entities[place[0]].own).index(place[1]))
                used.setdefault(target, []).append((rank, f"  used by {name} {place[0]}.{place[1]}"))
    for name in sorted(meaning.instances):
        section, meant = meaning.instances[name]
        leaves = schema.leaves(meant.entities)
        internal = len(leaves) == 1
        entities = schema.order(leaves[0]) if internal else sorted(meant.entities)
        values = dict(meant.values)
        places = schema.places(leaves[0]) if internal else [(e, a) for e in entities for a in schema.entities[e].own]
        yield canonical.instance(schema, name, meant)
        yield f"  section {canonical.section_line(section)}"
        yield " ".join(["  set", *entities])
        yield from (f"  {place[0]}.{place[1]} {value(values[place])}" for place in places)
        yield from (line for _, line in sorted(used.get(name, [])))


def wanted(schema_text, file):
    """The whole text."""
    schema = read_schema(schema_text)
    return "".join(f"{line}\n" for line in lines(schema, read_file(schema, file)))


def judge(program):
    """Whether a program prints of each row what it must."""
    wrong = 0
    with tempfile.TemporaryDirectory() as folder:
        for name, schema, file in files():
            paths = [pathlib.Path(folder) / x for x in ("schema.exp", "file.step")]
            for path, text in zip(paths, (schema, file)):
                path.write_bytes(text)
            ran = subprocess.run([program, *paths], capture_output=True, text=True)
            must, found = wanted(schema, file).splitlines(), ran.stdout.splitlines()
            if ran.returncode != 0 or ran.stderr or must != found:
                differ = next((at for at, (x, y) in enumerate(zip(must, found)) if x != y), min(len(must), len(found)))
                print(f"{name}: status {ran.returncode} {ran.stderr}line {differ + 1}:\n  {found[differ:differ + 1]}\n  must be {must[differ:differ + 1]}")
                wrong += 1
            else:
                print(f"{name}: {len(must)} lines as they must be")
    return 1 if wrong else 0


if __name__ == "__main__":
    if sys.argv[1] == "--program":
        sys.exit(judge(sys.argv[2]))
    sys.stdout.write(wanted(*(pathlib.Path(x).read_bytes() for x in sys.argv[1:3])))
