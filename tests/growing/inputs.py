"""Inputs for which time or memory could grow faster than their bytes, each made for a size.

A generator takes a size and a folder, writes what it makes there, and answers the program's arguments. Where a schema may cost
more than its bytes, an `Input` says by how much: how many pairs of an entity and a supertype it has, how many things its selects
offer, how many entities are in the sets that a file uses, and how many words are printed.
"""
import collections
import itertools
import pathlib
import random
import subprocess
import sys

sys.path.append(str(pathlib.Path(__file__).resolve().parents[1]))
from exchange import END, header  # noqa: E402

Input = collections.namedtuple("Input", "arguments pairs offered used printed", defaults=(0, 0, 0, 0))

DEMO = pathlib.Path(__file__).resolve().parent.parent.parent / "examples" / "demo.exp"
START = header("%s")
POINT = "#%d=POINT($,1.,1.);\n"


def write(folder, name, pieces):
    path = folder / name
    with open(path, "w", encoding="latin-1") as out:
        out.writelines(pieces)
    return str(path)


def schema_of(folder, pieces):
    return write(folder, "s.exp", ["SCHEMA s;\n", *pieces, "END_SCHEMA;\n"])


def data(folder, pieces, schema="DEMO", name="f.step"):
    return write(folder, name, [START % schema, "DATA;\n", *pieces, "ENDSEC;\n", END])


def data_named(section, folder, name, pieces):
    """A file with one data section of this name."""
    return write(folder, name, [START % "DEMO", "DATA('", section, "',('DEMO'));\n", *pieces, "ENDSEC;\n", END])


def check_demo(folder, pieces):
    return ["check", str(DEMO), data(folder, pieces)]


def check(folder, declarations, pieces):
    return ["check", schema_of(folder, declarations), data(folder, pieces, "S")]


def check_all(folder, declarations, pieces):
    return ["check", "--all", *check(folder, declarations, pieces)[1:]]


def schema(folder, pieces):
    return ["schema", schema_of(folder, pieces)]


def made_by(name, *words, folder):
    """What a program in C that stands beside this file writes."""
    program, source = folder / name, pathlib.Path(__file__).with_name(f"{name}.c")
    subprocess.run(["cc", "-O2", str(source), "-o", str(program)], check=True)
    return subprocess.run([str(program), *map(str, words)], check=True, capture_output=True, text=True).stdout


# Files under the schema of the examples.

def rising(n, folder):
    return check_demo(folder, (POINT % k for k in range(1, n + 1)))


def falling(n, folder):
    return check_demo(folder, (POINT % k for k in range(n, 0, -1)))


def shuffled_names(n):
    names = list(range(1, n + 1))
    random.Random(1).shuffle(names)
    return names


def shuffled(n, folder):
    return check_demo(folder, (POINT % k for k in shuffled_names(n)))


def colliding(n, folder):
    """Late names that a table by hashes with a fixed seed would keep in one group."""
    names = made_by("colliding", n, folder=folder).split()
    return check_demo(folder, [POINT % 18446744073709551615] + [POINT % int(k) for k in names])


def one_far_name(n, folder):
    """One name near the largest among names that rise by one: the table must not reach up to it."""
    return check_demo(folder, (POINT % k for k in (1, 18446744073709551615, *range(2, n))))


def names_a_page_apart(n, folder):
    """Late names of which none shares a page of the tables with another."""
    return check_demo(folder, (POINT % (4096 * k) for k in range(n, 0, -1)))


def kept_a_page_apart(n, folder):
    """The same, with their lines."""
    return ["canon", str(DEMO), data(folder, (POINT % (4096 * k) for k in shuffled_names(n)))]


def falling_by_many(n, folder):
    return ["canon", str(DEMO), data(folder, (POINT % (10 * k) for k in range(n, 0, -1)))]


def from_ten_million(n, folder):
    return check_demo(folder, (POINT % (10_000_000 + k) for k in range(n)))


def shuffled_from_ten_million(n, folder):
    return ["canon", str(DEMO), data(folder, (POINT % (10_000_000 + k) for k in shuffled_names(n)))]


def sections(n, folder):
    def each():
        for k in range(n):
            yield "DATA('s%d',('DEMO'));\n" % k + POINT % k + "ENDSEC;\n"
    return ["check", str(DEMO), write(folder, "f.step", [START % "DEMO", *each(), END])]


def sections_with_long_names(n, folder):
    stem = "a" * 1000
    each = ("DATA('%s%d',('DEMO'));\nENDSEC;\n" % (stem, 10 ** 6 + k) for k in range(n))
    return ["check", str(DEMO), write(folder, "f.step", [START % "DEMO", *each, END])]


def same_section_with_a_long_name(n, folder):
    """Two files whose instances stand in a section with a name as long as all of them."""
    texts = (data_named("a" * (20 * n), folder, name, (POINT % k for k in range(n))) for name in ("f.step", "g.step"))
    return ["same", str(DEMO), *texts]


def same_sections_in_turn(n, folder):
    """The same with two sections of long names, of which each has every other name."""
    def each(name):
        sections = ("DATA('%s%d',('DEMO'));\n%sENDSEC;\n" % ("a" * (10 * n), odd, "".join(POINT % k for k in range(odd, n, 2))) for odd in (0, 1))
        return write(folder, name, [START % "DEMO", *sections, END])
    return ["same", str(DEMO), each("f.step"), each("g.step")]


def references_ahead(n, folder):
    holders = ("#%d=CLOUD((#%d),(),(TALLY(1)));\n" % (k, n + k) for k in range(1, n + 1))
    return check_demo(folder, [*holders, *(POINT % (n + k) for k in range(1, n + 1))])


def set_of_references(n, folder):
    members = ",".join("#%d" % k for k in range(2, n + 2))
    return check_demo(folder, ["#1=CLOUD((%s),(),(TALLY(1)));\n" % members, *(POINT % k for k in range(2, n + 2))])


def bag_of_numbers(n, folder):
    return check_demo(folder, ["#1=CLOUD((),((" + ",".join("%d.5" % (k * 7919 % n) for k in range(n)) + ")),(TALLY(1)));\n"])


def lists_of_one(n, folder):
    return check_demo(folder, ["#1=CLOUD((),(" + ",".join(["(1.)"] * n) + "),(TALLY(1)));\n"])


# Files whose schema lets each value cost more.

def list_of_digits(n, folder):
    return check(folder, ["ENTITY a; x : LIST OF INTEGER; END_ENTITY;\n"], ["#1=A((" + ",".join(["1"] * n) + "));\n"])


def lists_of_two(n, folder):
    return check(folder, ["ENTITY a; x : LIST OF LIST OF INTEGER; END_ENTITY;\n"], ["#1=A((" + ",".join(["(1,1)"] * n) + "));\n"])


def records_of_one_keyword(n, folder):
    """They are read whole before the second is refused."""
    return check(folder, ["ENTITY a; x : INTEGER; END_ENTITY;\n"], ["#1=(" + "A(1)" * n + ");\n"])


def lists_in_lists(n, folder):
    declarations = ["TYPE t = " + "LIST OF " * 30 + "REAL; END_TYPE;\n", "ENTITY a; x : " + "LIST OF " * 32 + "t; END_ENTITY;\n"]
    return check(folder, declarations, ["#1=A((" + ",".join(["(" * 61 + "1." + ")" * 61] * n) + "));\n"])


def parts_of_one_instance(n, folder):
    entities = ("ENTITY a%d; x : INTEGER; END_ENTITY;\n" % k for k in range(n))
    return Input(check(folder, entities, ["#1=(" + "".join("A%d(1)" % k for k in range(n)) + ");\n"]), used=n)


def last_item(n, folder):
    items = ",".join("i%07d" % k for k in range(n))
    declarations = ["TYPE e = ENUMERATION OF (" + items + "); END_TYPE;\n", "ENTITY a; x : LIST OF e; END_ENTITY;\n"]
    return check(folder, declarations, ["#1=A((" + ",".join([".I%07d." % (n - 1)] * n) + "));\n"])


def renamed_types(n, folder):
    types = ("TYPE t%d = t%d; END_TYPE;\n" % (k, k - 1) for k in range(1, n))
    declarations = ["TYPE t0 = INTEGER; END_TYPE;\n", *types, "ENTITY a; x : LIST OF t%d; END_ENTITY;\n" % (n - 1)]
    return check(folder, declarations, ["#1=A((" + ",".join(["1"] * n) + "));\n"])


def records_in_many_oneof_lists(n, folder):
    lists = ("ENTITY r%d SUPERTYPE OF (ONEOF (a)); END_ENTITY; ENTITY q%d SUPERTYPE OF (ONEOF (b)); END_ENTITY;\n" % (k, k) for k in range(1000))
    declarations = ["ENTITY a; END_ENTITY;\nENTITY b; END_ENTITY;\n", *lists]
    return check(folder, declarations, ("#%d=(A()B());\n" % k for k in range(n)))


# Schemas alone.

def chain(n, folder):
    members = ("ENTITY e%d SUBTYPE OF (e%d); END_ENTITY;\n" % (k, k - 1) for k in range(1, n))
    return Input(schema(folder, ["ENTITY e0; END_ENTITY;\n", *members]), pairs=n * n // 2)


def diamonds(n, folder):
    levels = ("ENTITY %s%d SUBTYPE OF (a%d, b%d); END_ENTITY;\n" % (side, k, k - 1, k - 1) for k in range(1, n) for side in "ab")
    return Input(schema(folder, ["ENTITY a0; END_ENTITY; ENTITY b0; END_ENTITY;\n", *levels]), pairs=2 * n * n)


def selects(n, folder):
    entities = ("ENTITY e%d; END_ENTITY;\n" % k for k in range(n))
    chain = ("TYPE s%d = SELECT (s%d, e%d); END_TYPE;\n" % (k, k - 1, k) for k in range(1, n))
    return Input(schema(folder, [*entities, "TYPE s0 = SELECT (e0); END_TYPE;\n", *chain]), offered=n * n // 2)


def chain_with_oneof_lists(n, folder):
    members = ("ENTITY e%d SUBTYPE OF (e%d); END_ENTITY;\n" % (k, k - 1) for k in range(1, n))
    lists = ("ENTITY r%d_%d SUPERTYPE OF (ONEOF (e%d)); END_ENTITY;\n" % (k, j, k) for k in range(n) for j in range(20))
    return Input(schema(folder, ["ENTITY e0; END_ENTITY;\n", *members, *lists]), pairs=n * n // 2)


def chain_that_redeclares(n, folder):
    members = ("ENTITY e%d SUBTYPE OF (e%d); x%d : NUMBER; SELF\\e%d.x%d : INTEGER; END_ENTITY;\n" % (k, k - 1, k, k - 1, k - 1) for k in range(1, n))
    return Input(schema(folder, ["ENTITY e0; x0 : NUMBER; END_ENTITY;\n", *members]), pairs=n * n // 2)


# Sets of entities: large ones, many of them, and what is asked of each.

def entities(names):
    return ("ENTITY %s; END_ENTITY;\n" % name for name in names)


def below_all(name, names):
    """An entity whose set holds all of these."""
    return "ENTITY %s SUBTYPE OF (%s); END_ENTITY;\n" % (name, ",".join(names))


def numbered(stem, count):
    return ["%s%06d" % (stem, k) for k in range(count)]


def sections_with_a_large_set(n, folder):
    names = numbered("e", n)
    pieces = ("DATA('%d',('S'));#%d=Z();ENDSEC;\n" % (k, k) for k in range(n))
    file = write(folder, "f.step", [START % "S", *pieces, END])
    return Input(["check", schema_of(folder, [*entities(names), below_all("z", names)]), file], pairs=n, used=n)


def chain_in_use(n, folder):
    members = ("ENTITY e%d SUBTYPE OF (e%d); END_ENTITY;\n" % (k, k - 1) for k in range(1, n))
    lines = ("#%d=E%d();\n" % (k + 1, k) for k in range(n))
    return Input(check(folder, ["ENTITY e0; END_ENTITY;\n", *members], lines), pairs=n * n // 2, used=n * n // 2)


def references_by_a_select(n, folder):
    names = numbered("e", n)
    declarations = [*entities(names), below_all("zz", names), "TYPE t = SELECT (zz, q); END_TYPE; ENTITY q; x : LIST OF t; END_ENTITY;\n"]
    return Input(check(folder, declarations, ["#1=ZZ();\n", "#2=Q((" + ",".join(["#1"] * 8 * n) + "));\n"]), pairs=n, used=n)


def references_to_a_large_set(n, folder):
    names = numbered("e", n)
    declarations = [*entities(names), below_all("zz", names), "ENTITY q; x : LIST OF zz; END_ENTITY;\n"]
    return Input(check(folder, declarations, ["#1=ZZ();\n", "#2=Q((" + ",".join(["#1"] * 8 * n) + "));\n"]), pairs=n, used=n)


def references_to_large_sets_in_turn(n, folder):
    """Two sets that have what is wanted at other places."""
    names = numbered("e", n)
    declarations = [*entities(names), "ENTITY w; END_ENTITY;\n", below_all("yy", [*names[: n // 2], "w"]), below_all("zz", [*names, "w"])]
    lines = ["#1=YY();\n", "#2=ZZ();\n", "#3=Q((" + ",".join(["#1,#2"] * 4 * n) + "));\n"]
    return Input(check(folder, [*declarations, "ENTITY q; x : LIST OF w; END_ENTITY;\n"], lines), pairs=2 * n, used=2 * n)


def references_ahead_by_a_select(n, folder):
    names = numbered("e", n)
    declarations = [*entities(names), below_all("zz", names), "TYPE t = SELECT (zz, q); END_TYPE; ENTITY q; x : LIST OF t; END_ENTITY;\n"]
    return Input(check(folder, declarations, ["#2=Q((" + ",".join(["#5"] * 8 * n) + "));\n", "#5=ZZ();\n"]), pairs=n, used=n)


def refused_references_to_a_large_set(n, folder):
    names = numbered("e", n)
    declarations = [*entities(names), below_all("zz", names), "ENTITY w; END_ENTITY; ENTITY q; x : w; END_ENTITY;\n"]
    return Input(check_all(folder, declarations, ["#1=ZZ();\n", *("#%d=Q(#1);\n" % (k + 2) for k in range(4 * n))]), pairs=n, used=n)


def refused_references_by_a_select(n, folder):
    names = numbered("e", n)
    declarations = [*entities(names), below_all("zz", names), "ENTITY w; END_ENTITY; TYPE t = SELECT (w, q); END_TYPE; ENTITY q; x : t; END_ENTITY;\n"]
    return Input(check_all(folder, declarations, ["#1=ZZ();\n", *("#%d=Q(#1);\n" % (k + 2) for k in range(4 * n))]), pairs=n, used=n)


def refused_records_of_an_abstract_set(n, folder):
    names = numbered("e", n)
    leaf = "ENTITY zz ABSTRACT SUPERTYPE SUBTYPE OF (%s); END_ENTITY;\n" % ",".join(names)
    return Input(check_all(folder, [*entities(names), leaf], ("#%d=ZZ();\n" % (k + 1) for k in range(n))), pairs=n, used=n)


def refused_records_of_a_set_that_clashes(n, folder):
    names = numbered("e", n)
    declarations = ["ENTITY r SUPERTYPE OF (ONEOF (%s, %s)); END_ENTITY;\n" % (names[-2], names[-1]), *entities(names), below_all("zz", names)]
    return Input(check_all(folder, declarations, ("#%d=ZZ();\n" % (k + 1) for k in range(n))), pairs=n, used=n)


def refused_records_of_a_set_left_open(n, folder):
    """Two entities of the set redeclare an attribute, of which none is a subtype of the other."""
    names = numbered("e", n)
    lower = ("ENTITY %s SUBTYPE OF (r); SELF\\r.x : %s; END_ENTITY;\n" % pair for pair in (("a", "INTEGER"), ("b", "REAL")))
    declarations = ["ENTITY r; x : NUMBER; END_ENTITY;\n", *lower, *entities(names), below_all("zz", [*names, "a", "b"])]
    return Input(check_all(folder, declarations, ("#%d=ZZ(1);\n" % (k + 1) for k in range(n))), pairs=n, used=n)


def refused_records_of_another_count(n, folder):
    names = numbered("e", n)
    return Input(check_all(folder, [*entities(names), below_all("zz", names)], ("#%d=ZZ(1);\n" % (k + 1) for k in range(n))), pairs=n, used=n)


def refused_records_of_another_kind(n, folder):
    names = numbered("e", n)
    leaf = "ENTITY zz SUBTYPE OF (%s); x : INTEGER; END_ENTITY;\n" % ",".join(names)
    return Input(check_all(folder, [*entities(names), leaf], ("#%d=ZZ('');\n" % (k + 1) for k in range(n))), pairs=n, used=n)


def many_attributes(name, count, above=""):
    return "ENTITY %s %s; %s : NUMBER; END_ENTITY;\n" % (name, above, ",".join("x%d" % k for k in range(count)))


def refused_records_without_many_values(n, folder):
    return check_all(folder, [many_attributes("z", n)], ("#%d=Z();\n" % (k + 1) for k in range(n)))


def refused_records_left_open_at_the_last_place(n, folder):
    """The attributes before it are redeclared once."""
    once = "ENTITY a SUBTYPE OF (r); " + "".join("SELF\\r.x%d : INTEGER; " % k for k in range(n)) + "END_ENTITY;\n"
    again = "ENTITY b SUBTYPE OF (r); SELF\\r.x%d : REAL; END_ENTITY;\n" % (n - 1)
    return check_all(folder, [many_attributes("r", n), once, again, below_all("z", ["a", "b"])], ("#%d=Z();\n" % (k + 1) for k in range(n)))


def sets_that_take_turns(n, folder):
    """Records of 40 parts each, whose sets are 17."""
    names = numbered("e", 57)
    lines = ("#%d=(%s);\n" % (k + 1, "".join("%s()" % name.upper() for name in names[k % 17 : k % 17 + 40])) for k in range(n))
    return check(folder, entities(names), lines)


def sets_of_four(n, folder):
    names = numbered("a", 64)
    sets = itertools.islice(itertools.combinations(names, 4), n)
    lines = ("#%d=(%s);\n" % (k + 1, "".join("%s()" % name.upper() for name in chosen)) for k, chosen in enumerate(sets))
    return Input(check(folder, entities(names), lines), used=4 * n)


def colliding_sets(n, folder):
    lines = made_by("colliding_sets", n, 12, 8, folder=folder)
    return Input(check(folder, entities("a%02d" % k for k in range(64)), [lines]), used=8 * n)


def record_of_many_parts(n, folder):
    names = numbered("a", n)
    lines = ("#%d=(%s);\n" % (k, "".join("%s()" % name.upper() for name in names[: n - k % 2])) for k in (1, 2, 3, 4))
    return Input(check(folder, entities(names), lines), used=2 * n)


def large_sets_in_turn(n, folder):
    """Two entities whose sets are alike but for one entity in the middle."""
    names = numbered("e", n)
    declarations = [*entities(names), below_all("e000000a", names), below_all("e000000b", names)]
    lines = ("#%d=E000000%s();\n" % (k, "AB"[k % 2]) for k in range(8 * n))
    return Input(check(folder, declarations, lines), pairs=2 * n, used=2 * n)


def parts_that_redeclare(n, folder):
    places = "".join("x%d : NUMBER; " % k for k in range(n))
    leaves = ("ENTITY a%06d SUBTYPE OF (r); SELF\\r.x%d : INTEGER; END_ENTITY;\n" % (k, k) for k in range(n))
    parts = "".join("A%06d()" % k for k in range(n))
    lines = ("#%d=(%sR(%s));\n" % (k + 1, parts, ",".join(["1"] * n)) for k in range(2))
    return Input(check(folder, ["ENTITY r; " + places + "END_ENTITY;\n", *leaves], lines), pairs=n, used=n)


def chain_that_redeclares_one_place(n, folder):
    members = ("ENTITY a%06d SUBTYPE OF (a%06d); SELF\\r.x : NUMBER; END_ENTITY;\n" % (k, k - 1) for k in range(1, n))
    declarations = ["ENTITY r; x : NUMBER; END_ENTITY;\n", "ENTITY a000000 SUBTYPE OF (r); SELF\\r.x : NUMBER; END_ENTITY;\n", *members, "ENTITY b; END_ENTITY;\n"]
    lines = ("#%d=(%sB()R(1));\n" % (k + 1, "".join("A%06d()" % k for k in range(n))) for k in range(2))
    return Input(check(folder, declarations, lines), pairs=n * n // 2, used=n)


def records_under_oneof_lists(n, folder):
    names, others = ["a%02d" % k for k in range(16)], ["x%02d" % k for k in range(17)]
    lists = ("ENTITY r%d_%s SUPERTYPE OF (ONEOF (%s)); END_ENTITY;\n" % (k, name, name) for k in range(n) for name in names)
    body = "".join("%s()" % name.upper() for name in names)
    lines = ("#%d=(%s%s());\n" % (k + 1, body, others[k % 17].upper()) for k in range(n))
    return check(folder, [*entities(names + others), *lists], lines)


# Schemas with a file that uses little of them.

def attributes_in_the_line_of_each_subtype(n, folder):
    names = ",".join("attribute_%06d" % k for k in range(n))
    lower = ("ENTITY e%d SUBTYPE OF (b); END_ENTITY;\n" % k for k in range(n))
    return Input(schema(folder, ["ENTITY b; " + names + " : REAL; END_ENTITY;\n", *lower]), pairs=n, printed=n * n)


def wide_subtypes(n, folder):
    names = numbered("e", n)
    lower = ("ENTITY y%d SUBTYPE OF (z); END_ENTITY;\n" % k for k in range(n))
    return Input(check(folder, [*entities(names), below_all("z", names), *lower], []), pairs=n * n)


def wide_subtypes_behind_their_own(n, folder):
    """Subtypes of one that has many supertypes, each first of another one of its own."""
    names = numbered("e", n)
    lower = ("ENTITY x%d; END_ENTITY;\nENTITY y%d SUBTYPE OF (x%d, z); END_ENTITY;\n" % (k, k, k) for k in range(n))
    return Input(check(folder, [*entities(names), below_all("z", names), *lower], []), pairs=n * n)


def redeclared_fan(n, folder):
    names = ",".join("a%d" % k for k in range(n))
    anew = "".join("SELF\\b.a%d : REAL;" % k for k in range(n))
    lower = ("ENTITY e%d SUBTYPE OF (c); END_ENTITY;\n" % k for k in range(n))
    return Input(check(folder, ["ENTITY b; " + names + " : NUMBER; END_ENTITY;\nENTITY c SUBTYPE OF (b); " + anew + "END_ENTITY;\n", *lower], []), pairs=2 * n)


def all_redeclared(n, folder):
    names = ",".join("a%d" % k for k in range(n))
    anew = "".join("SELF\\b.a%d : REAL;" % k for k in range(n))
    return schema(folder, ["ENTITY b; " + names + " : NUMBER; END_ENTITY;\nENTITY c SUBTYPE OF (b); " + anew + "END_ENTITY;\n"])


def all_derived(n, folder):
    names = ",".join("a%d" % k for k in range(n))
    anew = "".join("SELF\\b.a%d : REAL := 1;" % k for k in range(n))
    return schema(folder, ["ENTITY b; " + names + " : NUMBER; END_ENTITY;\nENTITY c SUBTYPE OF (b); DERIVE " + anew + "END_ENTITY;\n"])


def one_redeclared(n, folder):
    names = ",".join("a%d" % k for k in range(n))
    lower = ("ENTITY e%d SUBTYPE OF (c); END_ENTITY;\n" % k for k in range(n))
    return Input(check(folder, ["ENTITY b; " + names + " : NUMBER; END_ENTITY;\nENTITY c SUBTYPE OF (b); SELF\\b.a0 : REAL; END_ENTITY;\n", *lower], []), pairs=2 * n)


def redeclared_by_many(n, folder):
    names = numbered("a", n)
    anew = ("ENTITY %s SUBTYPE OF (r); DERIVE SELF\\r.x : REAL := 1; END_ENTITY;\n" % name for name in names)
    lower = ("ENTITY z%d SUBTYPE OF (j); END_ENTITY;\n" % k for k in range(n))
    return Input(check(folder, ["ENTITY r; x : NUMBER; END_ENTITY;\n", *anew, below_all("j", names), *lower], []), pairs=n * n)


def redeclared_of_many(n, folder):
    names = numbered("r", n)
    owners = ("ENTITY %s; x : NUMBER; END_ENTITY;\n" % name for name in names)
    anew = "".join("SELF\\%s.x : REAL; " % name for name in names)
    lower = ("ENTITY z%d SUBTYPE OF (c); END_ENTITY;\n" % k for k in range(n))
    return Input(check(folder, [*owners, "ENTITY c SUBTYPE OF (" + ",".join(names) + "); " + anew + "END_ENTITY;\n", *lower], []), pairs=n * n)


def owners_by_a_lower_name(n, folder):
    names = numbered("r", n)
    owners = ("ENTITY %s; x%d : NUMBER; END_ENTITY;\n" % (name, k) for k, name in enumerate(names))
    anew = "".join("SELF\\c.x%d : REAL; " % k for k in range(n))
    return Input(check(folder, [*owners, below_all("c", names), "ENTITY d SUBTYPE OF (c); " + anew + "END_ENTITY;\n"], []), pairs=2 * n)


def owners_by_a_lower_name_each(n, folder):
    names = numbered("r", n)
    owners = ("ENTITY %s; x%d : NUMBER; END_ENTITY;\n" % (name, k) for k, name in enumerate(names))
    anew = ("ENTITY d%d SUBTYPE OF (c); SELF\\c.x%d : REAL; END_ENTITY;\n" % (k, k) for k in range(n))
    return Input(check(folder, [*owners, below_all("c", names), *anew], []), pairs=n * n)


def oneof_lists_above_many(n, folder):
    names = ["a%d" % k for k in range(16)]
    lists = ("ENTITY r%d_%s SUPERTYPE OF (ONEOF (%s)); END_ENTITY;\n" % (k, name, name) for k in range(n) for name in names)
    lower = ("ENTITY e%d SUBTYPE OF (%s); END_ENTITY;\n" % (k, ",".join(names)) for k in range(n))
    return Input(check(folder, [*entities(names), *lists, *lower], []), pairs=16 * n)


def deep_attributes(n, folder):
    names = ",".join("a%d" % k for k in range(n))
    return schema(folder, ["ENTITY e; " + names + " : OPTIONAL " + "LIST OF " * 32 + "REAL; END_ENTITY;\n"])


def deep_redeclared(n, folder):
    deep = " : OPTIONAL " + "LIST OF " * 32 + "REAL; END_ENTITY;\n"
    names = ",".join("a%d" % k for k in range(n))
    again = ",".join("SELF\\b.a%d" % k for k in range(n))
    return schema(folder, ["ENTITY b; " + names + deep, "ENTITY e SUBTYPE OF (b); " + again + deep])


def deep_attributes_in_use(n, folder):
    names = ",".join("a%d" % k for k in range(n))
    lower = ("ENTITY e%d SUBTYPE OF (b); END_ENTITY;\n" % k for k in range(n))
    lines = ("#%d=E%d(%s);\n" % (k + 1, k, ",".join(["$"] * n)) for k in range(n))
    return Input(check(folder, ["ENTITY b; " + names + " : OPTIONAL " + "LIST OF " * 32 + "REAL; END_ENTITY;\n", *lower], lines), pairs=n, used=2 * n)


def selects_of_a_wide_one(n, folder):
    names = numbered("e", n)
    wide = "TYPE s0 = SELECT (" + ",".join(names) + "); END_TYPE;\n"
    return Input(check(folder, [*entities(names), wide, *("TYPE t%d = SELECT (s0); END_TYPE;\n" % k for k in range(n))], []), offered=n * n)


def chain_of_a_wide_select(n, folder):
    names = numbered("e", n)
    wide = "TYPE s0 = SELECT (" + ",".join(names) + "); END_TYPE;\n"
    return Input(check(folder, [*entities(names), wide, *("TYPE s%d = SELECT (s%d); END_TYPE;\n" % (k, k - 1) for k in range(1, n))], []), offered=n * n)


def ladder_of_selects(n, folder):
    rungs = ("TYPE %s%d = SELECT (a%d, b%d); END_TYPE;\n" % (side, k, k - 1, k - 1) for k in range(1, n) for side in "ab")
    return check(folder, ["ENTITY e; END_ENTITY; TYPE a0 = SELECT (e); END_TYPE; TYPE b0 = SELECT (e); END_TYPE;\n", *rungs], [])


def renamed_types_alone(n, folder):
    return check(folder, ["TYPE t0 = INTEGER; END_TYPE;\n", *("TYPE t%d = t%d; END_TYPE;\n" % (k, k - 1) for k in range(1, n))], [])


def colliding_words(n, folder):
    return made_by("colliding_names", n, 15, 9, folder=folder).lower().split()


def colliding_attributes(n, folder):
    return schema(folder, ["ENTITY e; ", ",".join(colliding_words(n, folder)), " : REAL; END_ENTITY;\n"])


def colliding_entities(n, folder):
    return check(folder, entities(colliding_words(n, folder)), [])


def colliding_items(n, folder):
    return check(folder, ["TYPE t = ENUMERATION OF (", ",".join(colliding_words(n, folder)), "); END_TYPE;\n"], [])


# Files of one kind of thing, as many as there may be.

USUAL = (
    "ENTITY a; x : LIST OF a; END_ENTITY;\nENTITY b; s : OPTIONAL STRING; END_ENTITY; ENTITY c; END_ENTITY; TYPE t = REAL; END_TYPE;"
    " TYPE u = SELECT (t, c); END_TYPE; ENTITY d; y : LIST OF LIST OF LIST OF INTEGER; END_ENTITY; ENTITY e; z : LIST OF u; END_ENTITY;"
    " ENTITY f; v : SET OF SET OF SET OF INTEGER; w : LIST OF NUMBER; END_ENTITY;\n"
)


def of_lines(made):
    return lambda n, folder: check(folder, [USUAL], made(n))


def of_file(made):
    return lambda n, folder: ["check", schema_of(folder, [USUAL]), write(folder, "f.step", made(n))]


def of_schema(made):
    return lambda n, folder: check(folder, made(n), [])


def header_with(text):
    return START.replace("ENDSEC;", text + "ENDSEC;") % "S"


EMPTY = "DATA;\nENDSEC;\n" + END
NESTED = "(" * 59 + "()" + ",())" * 59

LINES = {
    "references_ahead_in_one_list": lambda n: ["#1=A((" + ",".join(["#9"] * n) + "));\n", "#9=A(());\n"],
    "references_ahead_in_many_lists": lambda n: [*("#%d=A((%s));\n" % (k + 10, ",".join(["#9"] * 20)) for k in range(n)), "#9=A(());\n"],
    "references_that_wait": lambda n: ("#%d=A((#%d,#%d,#%d));\n" % (k, 3 * k + 10**7, 3 * k + 1 + 10**7, 3 * k + 2 + 10**7) for k in range(n)),
    "references_served_in_turn": lambda n: ("#%d=A((#%d));\n" % (k ^ 1023, (k + 1) % (n | 1023) ^ 1023) for k in range((n | 1023) + 1)),
    "shortest_instances": lambda n: ("#%d=C();" % k for k in range(n)),
    "shortest_instances_falling": lambda n: ("#%d=C();" % (n - k) for k in range(n)),
    "large_names_falling": lambda n: ("#%d=C();" % (10**9 + n - k) for k in range(n)),
    "late_names_below_a_large_one": lambda n: ["#18446744073709551615=C();\n", *("#%d=C();\n" % (max(262144, 16 * k) - 1 - (k if k * 16 < 262144 else 0)) for k in range(1, n))],
    "late_names_without_gaps": lambda n: ["#%d=C();\n" % (n + 1), *("#%d=C();\n" % k for k in range(n))],
    "small_names_below_the_largest": lambda n: ["#18446744073709551615=C();\n", *("#%d=C();\n" % k for k in shuffled_names(n))],
    "names_far_apart_falling": lambda n: ("#%d=C();\n" % (4096 * (n - k)) for k in range(n)),
    "names_far_apart_in_no_order": lambda n: ("#%d=C();\n" % (4096 * k) for k in shuffled_names(n)),
    "lists_of_lists": lambda n: ["#1=D((" + ",".join(["((1,1),(1,1))"] * n) + "));\n"],
    "empty_lists": lambda n: ["#1=D((" + ",".join(["()"] * n) + "));\n"],
    "lists_of_empty_lists": lambda n: ["#1=D((" + ",".join(["(())"] * n) + "));\n"],
    "typed_parameters": lambda n: ["#1=E((" + ",".join(["T(1.)"] * n) + "));\n"],
    "sets_of_sets": lambda n: ["#1=F((" + ",".join("((%d))" % k for k in range(n)) + "),());\n"],
    "numbers": lambda n: ["#1=F((),(" + ",".join(["1"] * n) + "));\n"],
    "letters_of_two_bytes": lambda n: ["#1=B('" + "\xc3\xa9" * n + "');\n"],
    "letters_of_four_bytes": lambda n: ["#1=B('" + "\xf0\x9f\x98\x80" * n + "');\n"],
    "letters_by_directives": lambda n: ["#1=B('" + "\\S\\i" * n + "');\n"],
    "apostrophes": lambda n: ["#1=B('" + "''" * n + "');\n"],
    "many_short_strings": lambda n: ("#%d=B('%s');\n" % (k, "\xc3\xa9" * 30) for k in range(n)),
    "long_lines_one_after_another": lambda n: ("#%d=B('%s');\n" % (k, "a" * 100_000) for k in range(n)),
    "digits_of_one_number": lambda n: ["#1=F((),(" + "9" * n + "));\n"],
    "digits_of_one_real": lambda n: ["#1=F((),(" + "9" * n + ".5E-%d));\n" % max(n - 100, 0)],
    "parentheses_that_stay_open": lambda n: ["#1=C" + "(" * n],
    "one_keyword_in_parts": lambda n: ["#1=(" + "C()" * n + ");"],
    "a_long_keyword": lambda n: ["#1=" + "K" * n + "();"],
    "a_long_item": lambda n: ["#1=B(." + "K" * n + ".);"],
    "a_long_binary": lambda n: ['#1=B("0' + "F" * n + '");'],
    "zeros_of_one_name": lambda n: ["#" + "0" * n + "1=C();"],
    "remarks": lambda n: ["/**/" * n],
    "a_remark_of_stars": lambda n: ["/*" + "*" * n + "*/"],
}
WHOLE = {
    "empty_sections": lambda n: [START % "S", *("DATA('%d',('S'));ENDSEC;\n" % k for k in range(n)), END],
    "sections_of_one_instance": lambda n: [START % "S", *("DATA('%d',('S'));#%d=C();ENDSEC;\n" % (k, k) for k in range(n)), END],
    "a_section_with_a_long_name": lambda n: [START % "S", "DATA('", "a" * n, "',('S'));ENDSEC;\n", END],
    "sections_with_blanks_in_the_schema_text": lambda n: [START % "S", *("DATA('%d',('S%s'));ENDSEC;\n" % (k, " " * 1000) for k in range(n)), END],
    "header_records": lambda n: [header_with("".join("A%d((1,1),(1,1));\n" % k for k in range(n))), EMPTY],
    "equal_header_records": lambda n: [header_with("X();" * n), EMPTY],
    "a_list_in_the_header": lambda n: [header_with("X((" + ",".join(["()"] * n) + "));"), EMPTY],
    "a_long_description": lambda n: [(START % "S").replace("((''),'2;1')", "((" + ",".join(["''"] * n) + "),'2;1')"), EMPTY],
}
TEXTS = {
    "a_long_name_of_a_schema": lambda n: ["ENTITY " + "e" * n + "; END_ENTITY;\n"],
    "attributes_of_one_type": lambda n: ["ENTITY e; " + ",".join("a%d" % k for k in range(n)) + " : REAL; END_ENTITY;\n"],
    "attributes_one_by_one": lambda n: ["ENTITY e; " + "".join("a%d:REAL;" % k for k in range(n)) + "END_ENTITY;\n"],
    "items": lambda n: ["TYPE e = ENUMERATION OF (" + ",".join("a%d" % k for k in range(n)) + "); END_TYPE;\n"],
    "deep_bags": lambda n: ["ENTITY e; " + "".join("a%d:" % k + "BAG OF " * 32 + "REAL;" for k in range(n)) + "END_ENTITY;\n"],
    "plain_entities": lambda n: entities("e%d" % k for k in range(n)),
    "rules_of_one_entity": lambda n: ["ENTITY e; WHERE " + "a:1;" * n + "END_ENTITY;\n"],
    "remarks_in_remarks": lambda n: ["(*" * n + "*)" * n],
    "one_oneof_list": lambda n: ["ENTITY e SUPERTYPE OF (ONEOF (" + ",".join("a%d" % k for k in range(n)) + ")); END_ENTITY;\n", *entities("a%d" % k for k in range(n))],
    "derived_attributes": lambda n: ["ENTITY e; DERIVE " + "".join("a%d:REAL:=1;" % k for k in range(n)) + "END_ENTITY;\n"],
    "supertypes_of_one_entity": lambda n: [*entities("a%d" % k for k in range(n)), below_all("e", ["a%d" % k for k in range(n)])],
}


def values_by_a_chain_of_selects(n, folder):
    """Typed values at the last of selects, each of which has the one before."""
    chain = ("TYPE s%d = SELECT (s%d); END_TYPE;\n" % (k, k - 1) for k in range(1, n))
    declarations = ["TYPE t = INTEGER; END_TYPE;\nTYPE s0 = SELECT (t); END_TYPE;\n", *chain, "ENTITY a; x : LIST OF s%d; END_ENTITY;\n" % (n - 1)]
    return Input(check(folder, declarations, ["#1=A((" + ",".join(["T(1)"] * n) + "));\n"]), offered=n)


def values_typed_by_renamed_types(n, folder):
    """Each value with the name of another type, each of which renames the one before."""
    types = ("TYPE t%d = t%d; END_TYPE;\n" % (k, k - 1) for k in range(1, n))
    names = ",".join("t%d" % k for k in range(n))
    declarations = ["TYPE t0 = INTEGER; END_TYPE;\n", *types, "TYPE s = SELECT (" + names + "); END_TYPE; ENTITY a; x : LIST OF s; END_ENTITY;\n"]
    return Input(check(folder, declarations, ["#1=A((" + ",".join("T%d(1)" % k for k in range(n)) + "));\n"]), offered=n)


def sections_of_other_sets(n, folder):
    """Each section with instances of the same twenty sets."""
    names = numbered("e", 20)
    lines = ("DATA('%d',('S'));%sENDSEC;\n" % (k, "".join("#%d=%s();" % (20 * k + j, name.upper()) for j, name in enumerate(names))) for k in range(n))
    return Input(["check", schema_of(folder, entities(names)), write(folder, "f.step", [START % "S", *lines, END])], used=20 * n)


def references_by_a_select_of_each_entity(n, folder):
    names = numbered("e", n)
    declarations = [*entities(names), "TYPE t = SELECT (" + ",".join(names) + "); END_TYPE; ENTITY q; x : LIST OF t; END_ENTITY;\n"]
    lines = ["#%d=%s();\n" % (k + 2, name.upper()) for k, name in enumerate(names)]
    return Input(check(folder, declarations, [*lines, "#1=Q((" + ",".join("#%d" % (k + 2) for k in range(n)) + "));\n"]), offered=n, used=n)


def references_ahead_to_each_entity(n, folder):
    """Each reference is of another entity's attribute, and waits."""
    names = numbered("e", n)
    owners = ("ENTITY q%s; x : %s; END_ENTITY;\n" % (name, name) for name in names)
    lines = ["#%d=Q%s(#%d);\n" % (k + 1, name.upper(), n + k + 1) for k, name in enumerate(names)]
    lines += ["#%d=%s();\n" % (n + k + 1, name.upper()) for k, name in enumerate(names)]
    return Input(check(folder, [*entities(names), *owners], lines), used=2 * n)


def names_that_begin_alike(n, folder):
    return check(folder, entities("e" * 1000 + "%06d" % k for k in range(n)), [])


def texts_that_begin_alike(n, folder):
    elements = ",".join("'%s%06d'" % ("a" * 1000, k * 7919 % n) for k in range(n))
    return check(folder, ["ENTITY a; x : SET OF STRING; END_ENTITY;\n"], ["#1=A((" + elements + "));\n"])


def sets_32_deep(n, folder):
    elements = ",".join("(" * 31 + "%d" % (k * 7919 % n) + ")" * 31 for k in range(n))
    return check(folder, ["ENTITY a; x : " + "SET OF " * 32 + "INTEGER; END_ENTITY;\n"], ["#1=A((" + elements + "));\n"])


def layers_that_share_all(n, folder):
    """Layers of 40 entities, each below all of the layer before."""
    layer = lambda k: ",".join("e%d_%d" % (k, j) for j in range(40))
    lower = ("ENTITY e%d_%d SUBTYPE OF (%s); END_ENTITY;\n" % (k, j, layer(k - 1)) for k in range(1, n) for j in range(40))
    return Input(schema(folder, [*entities(layer(0).split(",")), *lower]), pairs=800 * n * n)


def constraints_of_one_entity(n, folder):
    names = numbered("e", n)
    listed = " ANDOR ".join("ONEOF (%s, %s)" % (names[k - 1], name) for k, name in enumerate(names))
    return check(folder, ["ENTITY z SUPERTYPE OF (" + listed + "); END_ENTITY;\n", *("ENTITY %s SUBTYPE OF (z); END_ENTITY;\n" % name for name in names)], [])


def inverse_attributes(n, folder):
    inverse = "".join("i%d : SET OF q FOR x; " % k for k in range(n))
    return check(folder, ["ENTITY q; x : a; END_ENTITY;\nENTITY a; INVERSE " + inverse + "END_ENTITY;\n"], [])


def functions_in_functions(n, folder):
    return check(folder, ["FUNCTION f : REAL; " * n + "END_FUNCTION; " * n], [])


def instances_of_one_long_chain(n, folder):
    """Instances of external mapping that name all of a chain, with an attribute each, and the next with one part less."""
    members = ("ENTITY e%04d SUBTYPE OF (e%04d); x%d : INTEGER; END_ENTITY;\n" % (k, k - 1, k) for k in range(1, 60))
    parts = ["E%04d(%d)" % (k, k) for k in range(60)]
    lines = ("#%d=(%s);\n" % (k + 1, "".join(parts[: 60 - k % 20])) for k in range(n))
    return check(folder, ["ENTITY e0000; x0 : INTEGER; END_ENTITY;\n", *members], lines)


def schema_with_rules_in_parentheses(n, folder):
    return check(folder, ["ENTITY e; WHERE a: " + "(" * n + "1" + ")" * n + "; END_ENTITY;\n"], [])


def lists_nested_with_a_second_element(n, folder):
    declarations = ["TYPE t = " + "LIST OF " * 30 + "REAL; END_TYPE;\n", "ENTITY a; x : " + "LIST OF " * 32 + "t; END_ENTITY;\n"]
    return check(folder, declarations, ["#1=A((" + ",".join([NESTED] * n) + "));\n"])


# Commands over two files, of one instance or parameter, and those that go on behind refusals.

def two_files(folder, one, other):
    return ["same", str(DEMO), data(folder, one, name="one.step"), data(folder, other, name="other.step")]


def same_in_one_order(n, folder):
    return two_files(folder, *((POINT % k for k in range(1, n + 1)) for _ in range(2)))


def same_in_another_order(n, folder):
    return two_files(folder, (POINT % k for k in range(n, 0, -1)), (POINT % k for k in shuffled_names(n)))


def different_at_the_end(n, folder):
    return two_files(folder, *([*(POINT % k for k in range(1, n)), "#%d=POINT($,%d.,1.);\n" % (n, k)] for k in range(2)))


def different_at_the_beginning(n, folder):
    return two_files(folder, *(["#1=POINT($,%d.,1.);\n" % k, *(POINT % k for k in range(2, n))] for k in range(2)))


def one_instance_shown(n, folder):
    return ["show", str(DEMO), data(folder, (POINT % k for k in shuffled_names(n))), "--name", str(n)]


def listed(folder, pieces):
    return ["check", "--all", str(DEMO), data(folder, pieces)]


def records_listed(n, folder):
    return listed(folder, ("#%d=POINT($,1.);\n" % k for k in shuffled_names(n)))


def names_given_twice_listed(n, folder):
    return listed(folder, (POINT % (1 + k // 2) for k in range(n)))


def references_listed(n, folder):
    return listed(folder, ("#%d=CLOUD((#%d),(),(TALLY(1)));\n" % (k, n + k) for k in range(1, n + 1)))


def references_to_refused_instances(n, folder):
    """They aren't listed, and each is looked up among those that are refused."""
    refused = ("#%d=POINT($,1.);\n" % (n + k) for k in range(1, n + 1))
    return listed(folder, [*("#%d=CLOUD((#%d),(),(TALLY(1)));\n" % (k, n + k) for k in range(1, n + 1)), *refused])


def broken_statements_listed(n, folder):
    return listed(folder, ("#%d=point($,1.,1.);\n" % k for k in range(n)))


def statements_without_ends_listed(n, folder):
    return listed(folder, ("#%d=POINT($,1.,1.)\n" % k for k in range(n)))


def lost_apostrophes_listed(n, folder):
    """Each string runs into the next statement, which is read once more."""
    return listed(folder, ("#%d=POINT('a,1.,1.);\n" % k for k in range(n)))


def remarks_without_ends_listed(n, folder):
    """Each remark runs on to the end of the file."""
    return listed(folder, ("#%d=POINT($,1.,1.); /* a\n" % k for k in range(n)))


def landmarks_in_a_string_listed(n, folder):
    """One string of a broken statement holds the others."""
    return listed(folder, ["#0=POINT('\n", *("#%d=POINT($,1.,1);\n" % k for k in range(1, n)), "',nan,1.);\n"])


def one_broken_statement_of_many_lines(n, folder):
    return listed(folder, ["#0=point(\n", *("#%d,\n" % k for k in range(n)), "1.);\n"])


def listed_alone(folder, pieces):
    return ["syntax", "--all", data(folder, pieces)]


def broken_statements_alone(n, folder):
    return listed_alone(folder, ("#%d=point($,1.,1.);\n" % k for k in range(n)))


def remarks_without_ends_alone(n, folder):
    return listed_alone(folder, ("#%d=POINT($,1.,1.); /* a\n" % k for k in range(n)))


def names_given_twice_alone(n, folder):
    return listed_alone(folder, (POINT % (1 + k // 2) for k in range(n)))


def references_alone(n, folder):
    return listed_alone(folder, ("#%d=CLOUD((#%d),(),(TALLY(1)));\n" % (k, n + k) for k in range(1, n + 1)))


def few_listed_of_many(n, folder):
    return ["check", "--most", "5", str(DEMO), data(folder, [*(POINT % k for k in range(n)), *("#%d=POINT($);\n" % k for k in range(n, n + 10))])]


def few_references_listed_of_many(n, folder):
    return ["check", "--most", "5", str(DEMO), data(folder, ("#%d=CLOUD((#%d),(),(TALLY(1)));\n" % (k, n + k) for k in range(1, n + 1)))]


def canonical_references(n, folder):
    clouds = ("#%d=CLOUD((#%d,#%d),((2.,1.),(1.)),(TALLY(1),#%d));\n" % (k, n + k, n + 1 + k % n, n + k) for k in range(1, n + 1))
    return ["canon", str(DEMO), data(folder, [*clouds, *(POINT % (n + k) for k in range(1, n + 1))])]


def canonical_texts(n, folder):
    return ["canon", str(DEMO), data(folder, ("#%d=POINT('%s',1.,1.);\n" % (k, "\xc3\xa9" * 30) for k in shuffled_names(n)))]


def canonical_sections(n, folder):
    each = ("DATA('s%07d',('DEMO'));\n" % k + POINT % k + "ENDSEC;\n" for k in shuffled_names(n))
    return ["canon", str(DEMO), write(folder, "f.step", [START % "DEMO", *each, END])]


def parameter_of_letters(n, folder):
    return ["param", write(folder, "p.txt", ["'", "\xc3\xa9" * n, "'"])]


def parameter_of_digits(n, folder):
    return ["param", write(folder, "p.txt", ["9" * n])]


# Values and references that a usual file has.

EACH_KIND = (
    "TYPE e = ENUMERATION OF (red, green); END_TYPE; ENTITY a; END_ENTITY; ENTITY b SUBTYPE OF (a); END_ENTITY; ENTITY c SUBTYPE OF (b);"
    " END_ENTITY; ENTITY k; i : INTEGER; r : REAL; n : NUMBER; s : STRING; y : BINARY; o : BOOLEAN; l : LOGICAL; m : e; q : OPTIONAL REAL;"
    " END_ENTITY; ENTITY p; x : LIST OF c; END_ENTITY; ENTITY d; END_ENTITY;\n"
)


def values_of_each_kind(n, folder):
    lines = ("#%d=K(%d,%d.5,1.E3,'text %d',\"0F\",.T.,.U.,.GREEN.,$);\n" % (k, k, k, k) for k in range(n))
    return check(folder, [EACH_KIND], lines)


def values_with_remarks(n, folder):
    """Such instances go token by token."""
    lines = ("#%d=K(%d,/**/%d.5,1.E3,'text %d',\"0F\",.T.,.U.,.GREEN.,$);\n" % (k, k, k, k) for k in range(n))
    return check(folder, [EACH_KIND], lines)


def references_to_a_small_set(n, folder):
    """What serves stands last in the set."""
    return check(folder, [EACH_KIND], ["#0=C();\n", *("#%d=P((%s));\n" % (k, ",".join(["#0"] * 20)) for k in range(1, n))])


def references_ahead_to_small_sets(n, folder):
    lines = [*("#%d=P((#%d,#%d));\n" % (k, n + k, n + (k * 7) % n) for k in range(n)), *("#%d=C();\n" % (n + k) for k in range(n))]
    return check(folder, [EACH_KIND], lines)


def records_of_two_leaves(n, folder):
    return check(folder, [EACH_KIND], ("#%d=(A()B()C()D());\n" % k for k in range(n)))


# Models for `canon --names`, the worst shapes for ranks by rounds: nodes that are equal but for what they refer to.

NODES = (
    "ENTITY node; mark : INTEGER; one : OPTIONAL node; other : OPTIONAL node; END_ENTITY;"
    " ENTITY hub; all : SET OF node; next : hub; END_ENTITY;\n"
)


def numbers_of(folder, lines):
    return ["canon", "--names", schema_of(folder, [NODES]), data(folder, lines, "S")]


def node(name, one=0, other=0, mark=0):
    """A node that refers to up to two others; 0 is none."""
    return "#%d=NODE(%d,%s,%s);\n" % (name, mark, *("#%d" % it if it else "$" for it in (one, other)))


def path(n, mark=lambda k: 0):
    return (node(k, k + 1 if k < n else 0, mark=mark(k)) for k in range(1, n + 1))


def numbers_of_points(n, folder):
    return ["canon", "--names", str(DEMO), data(folder, ("#%d=POINT($,%d.,%d.);\n" % (k, k % 977, k % 991) for k in shuffled_names(n)))]


def numbers_along_a_path(n, folder):
    """Half as many rounds as nodes, each of which tells two."""
    return numbers_of(folder, path(n))


def numbers_along_a_ruler(n, folder):
    """A path whose marks are those of a ruler: it is told apart by halves."""
    return numbers_of(folder, path(n, lambda k: (k & -k).bit_length() % 2))


def numbers_on_a_circle(n, folder):
    """A circle whose marks are the Fibonacci word, for which halving has the most to do."""
    word, more = "0", "01"
    while len(more) < n:
        word, more = more, more + word
    return numbers_of(folder, (node(k, k % n + 1, mark=int(more[k - 1])) for k in range(1, n + 1)))


def numbers_of_a_de_bruijn_graph(n, folder):
    """A De Bruijn graph: in each round nearly all nodes are fresh."""
    whole = 1 << (n.bit_length() - 1)
    return numbers_of(folder, (node(k + 1, 2 * k % whole + 1, (2 * k + 1) % whole + 1) for k in range(whole)))


def numbers_of_a_grid(n, folder):
    side = int(n ** 0.5)

    def at(row, column):
        return row * side + column + 1 if row < side and column < side else 0
    cells = ((row, column) for row in range(side) for column in range(side))
    return numbers_of(folder, (node(at(row, column), at(row + 1, column), at(row, column + 1)) for row, column in cells))


def numbers_of_a_random_graph(n, folder):
    chance = random.Random(1)
    return numbers_of(folder, (node(k, chance.randint(1, n), chance.randint(1, n)) for k in range(1, n + 1)))


def numbers_on_a_comb(n, folder):
    """Paths of 1, 2, 3 nodes and so on, which begin along a path."""
    def teeth():
        first, length = 1, 1
        while first + length <= n:
            behind = first + length + 1
            yield node(first, behind if behind + length + 1 <= n else 0, first + 1)
            for k in range(first + 1, behind):
                yield node(k, k + 1 if k + 1 < behind else 0)
            first, length = behind, length + 1
    return numbers_of(folder, teeth())


def numbers_below_hubs(n, folder):
    """Ten hubs in a circle, each of which holds all nodes of a path: no two of them are told apart, and it is refused."""
    held = ",".join("#%d" % k for k in range(11, n + 11))
    hubs = ("#%d=HUB((%s),#%d);\n" % (k, held, k % 10 + 1) for k in range(1, 11))
    return numbers_of(folder, [*hubs, *(node(k + 10, k + 11 if k < n else 0) for k in range(1, n + 1))])


def numbers_of_equal_pairs(n, folder):
    return numbers_of(folder, (node(k, k + 1 if k % 2 else 0) for k in range(1, 2 * n + 1)))


# Commands that list what differs in two files, by names and by pairs.

def distinct_points(n, first=1, ordered=True):
    """Points of which no two are equal."""
    places = range(n) if ordered else (place - 1 for place in shuffled_names(n))
    return ("#%d=POINT($,%d.,%d.);\n" % (first + k, k % 977, k % 991) for k in places)


def differences_at_the_end(n, folder):
    return ["diff", *different_at_the_end(n, folder)[1:]]


def differences_of_each_instance(n, folder):
    one, other = (data(folder, ("#%d=POINT($,%d.,1.);\n" % (k, k + more) for k in range(1, n + 1)), name=name) for more, name in ((0, "one.step"), (1, "other.step")))
    return ["diff", str(DEMO), one, other]


def pairs_in_another_order(n, folder):
    one = data(folder, distinct_points(n), name="one.step")
    return ["diff", "--names", str(DEMO), one, data(folder, distinct_points(n, n, False), name="other.step")]


def pairs_of_equal_instances(n, folder):
    one, other = (data(folder, (POINT % (k + first) for k in range(n)), name=name) for first, name in ((1, "one.step"), (n, "other.step")))
    return ["diff", "--names", str(DEMO), one, other]


def pairs_along_a_path(n, folder):
    """A path in which the mark in the middle differs."""
    one, other = (data(folder, path(n, lambda k: int(k == n // 2) * mark), "S", name) for mark, name in ((1, "one.step"), (2, "other.step")))
    return ["diff", "--names", schema_of(folder, [NODES]), one, other]


globals().update({name: of_lines(made) for name, made in LINES.items()})
globals().update({name: of_file(made) for name, made in WHOLE.items()})
globals().update({name: of_schema(made) for name, made in TEXTS.items()})
