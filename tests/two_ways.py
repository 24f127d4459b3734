#!/usr/bin/env python3
"""Holds the two ways of an instance against one another: files that are read as they are, and byte by byte.

A session takes usual instances straight from their bytes where these stand whole in a piece (docs/ARCHITECTURE.md), and all
else token by token; a file that is read byte by byte has no usual ones. Each case is a file that is made by chance, right or
broken, of a schema with types of every kind. `p21 check` and `p21 canon` have to answer it alike, in status and in both
streams, whether each read gives what it can or one byte; `p21 canon` also where each gives some bytes, so that one file goes
both ways. A case is fixed by the seed and its number: `--only NUMBER` runs one alone. The status is 1 where two answers
differ; the texts of the first such case are then kept, and named.
"""

import argparse
import collections
import functools
import itertools
import pathlib
import random
import re
import sys
import tempfile

ROOT = pathlib.Path(__file__).resolve().parent.parent
sys.path[:0] = [str(ROOT / "tests"), str(ROOT / "tests" / "hostile")]
from fuzzing import made_files, made_schemas, mutate, rows, usual  # noqa: E402
from plain.refusal import RefusedSchema  # noqa: E402
from plain.schema import TWO, read_schema  # noqa: E402
from rigged import Rigged  # noqa: E402

ACCEPTED = re.compile(rb"accepted, instances ([0-9]+), canonical bytes [0-9]+\n")
SCHEMA, FILE = "schema.exp", "file.step"


def items(count):
    """The items of an enumeration."""
    return ", ".join(f"a{number}" for number in range(1, count + 1))


# What rows.KINDS leaves out: as many items as are looked up one by one, and one more; aggregates of each kind in one another.
EVERY = f"""SCHEMA every;
TYPE most = ENUMERATION OF ({items(128)}); END_TYPE; TYPE more = ENUMERATION OF ({items(129)}); END_TYPE;
TYPE flag = BOOLEAN; END_TYPE; TYPE doubt = LOGICAL; END_TYPE; TYPE letter = STRING(1); END_TYPE; TYPE code = BINARY(6) FIXED; END_TYPE;
TYPE shelf = ARRAY [0:3] OF OPTIONAL UNIQUE letter; END_TYPE; TYPE pile = BAG [0:3] OF SET OF letter; END_TYPE;
TYPE deep = LIST OF choice; END_TYPE; TYPE nodes = SELECT (node, edge); END_TYPE;
TYPE choice = SELECT (deep, most, more, flag, doubt, code, shelf, pile, nodes); END_TYPE;
ENTITY node; label : OPTIONAL letter; END_ENTITY;
ENTITY named SUBTYPE OF (node); SELF\\node.label : letter; END_ENTITY;
ENTITY settled SUBTYPE OF (node); DERIVE SELF\\node.label : letter := 'a'; END_ENTITY;
ENTITY edge; front, back : node; via : OPTIONAL nodes; END_ENTITY;
ENTITY scalars; a : most; b : more; c : OPTIONAL code; d : flag; e : doubt; f : NUMBER; g : letter; h : BINARY; i : INTEGER; END_ENTITY;
ENTITY lists; a : ARRAY [1:2] OF UNIQUE letter; b : shelf; c : pile; d : SET [1:3] OF choice; e : LIST OF UNIQUE LIST OF NUMBER;
f : BAG OF nodes; g : ARRAY [1:2] OF ARRAY [1:2] OF REAL; END_ENTITY;
END_SCHEMA;
"""


def arguments():
    """The command line."""
    parser = argparse.ArgumentParser(description=__doc__)
    parser.add_argument("--cases", type=int, default=800, help="how many files")
    parser.add_argument("--seed", default="1", help="any text")
    parser.add_argument("--only", type=int, default=None, help="run this case alone")
    parser.add_argument("--keep", default=None, help="where the texts of a difference are kept")
    return parser.parse_args()


@functools.lru_cache(maxsize=400)
def schema_of(text):
    """A schema text with the plain reading of it, and the sets of entities that instances may have: with one leaf, and two."""
    schema = read_schema(text.encode())
    concrete = [name for name, entity in schema.entities.items() if not entity.abstract]
    pairs = [list(pair) for pair in itertools.combinations(concrete, 2)]
    single, double = ([schema.closure(leaves) for leaves in found] for found in ([[x] for x in concrete], pairs))
    return schema, [x for x in single if is_sound(schema, x)], [x for x in double if is_sound(schema, x)]


def is_sound(schema, entities):
    """May an instance have this set?"""
    places = [(e, attribute) for e in entities for attribute in schema.entities[e].own]
    return not schema.clashes(entities) and all(schema.type_at(entities, place) != TWO for place in places)


def made_schema(chance):
    """A schema text that is made by chance, and read."""
    while True:
        text = made_schemas.sound_schema_text(random.Random(f"schema {chance.randrange(300)}")).decode()
        try:
            schema_of(text)
            return text
        except RefusedSchema:
            continue


def maker_of(text, count):
    """Makes the values of as many instances of a schema."""
    _, single, double = schema_of(text)

    class Maker(made_files.Maker):
        def choose_sets(self):
            chance = self.chance
            step, first = chance.choice([(1, 1), (1, 1), (1, 0), (10, 7), (10**9, 3), (10**15, 99)])
            for place in range(count if single else 0):
                found = double if double and chance.random() < 0.1 else single
                self.sets[first + place * step] = chance.choice(found)

    return Maker


class File(made_files.File):
    """A file whose instances are spelled as they usually are, but for some by chance."""

    def __init__(self, chance, text, odd, count, unusual):
        super().__init__(chance, schema_of(text)[0], odd, maker_of(text, count))
        self.unusual = unusual

    def instance(self, chance, name):
        if chance.random() < self.unusual:
            return super().instance(chance, name)
        leaves = self.schema.leaves(self.sets[name])
        return usual.instance(chance, name, [self.one_part(name, leaves[0])] if len(leaves) == 1 else self.parts(name))


def case(chance):
    """A schema text, a file, and how many bytes a read gives in the third run."""
    schema = chance.choice([rows.KINDS] * 5 + [EVERY] * 3 + [chance.choice(rows.SCHEMAS), made_schema(chance)])
    odd = chance.choice([0] * 6 + [0.0002, 0.001, 0.01])
    count = 1500 if chance.random() < 0.005 else chance.choice([1, 5, 20, 60, 100, 200])
    unusual = chance.choice([0, 0, 0.02, 0.2, 1])
    text = File(chance, schema, odd, count, unusual).write(chance)
    if chance.random() < 0.15:
        text = mutate.file(chance, text)
    return schema.encode(), text, chance.choice([2, 7, 50, 200, 1000, 4096])


def answers(rigged, schema, text, some):
    """What is answered by each command, in each way of reading."""
    rigged.write(SCHEMA, schema)
    rigged.write(FILE, text)
    found = {}
    for command, sizes in (("check", [1]), ("canon", [1, some])):
        words = [command, SCHEMA, FILE]
        found[command] = [rigged.answer(words), *(rigged.failing(words, READ_MOST=size)[0] for size in sizes)]
    return found


def differing(found):
    """The first command that answers otherwise in another way of reading, or neither accepts nor refuses: none mostly."""
    for command, given in found.items():
        if given.count(given[0]) != len(given) or given[0].status not in (0, 1):
            return command
    return None


def shown(sizes, answers):
    """Each answer by the bytes of a read, from its output what stands around the first byte at which the outputs differ."""
    outputs = [answer.output for answer in answers]
    differ = (place for place, found in enumerate(zip(*outputs)) if len(set(found)) > 1)
    place = next(differ, min(map(len, outputs)))
    for size, answer in zip(sizes, answers):
        print(f"  read {size}: status {answer.status}, {answer.output[max(place - 80, 0) : place + 80]!r}, {answer.error!r}")


def kept(keep, schema, text):
    """Keeps the texts of a case, and says where."""
    folder = pathlib.Path(keep or tempfile.mkdtemp(prefix="two-ways-"))
    folder.mkdir(parents=True, exist_ok=True)
    paths = [folder / SCHEMA, folder / FILE]
    for path, found in zip(paths, (schema, text)):
        path.write_bytes(found)
    return " ".join(map(str, paths))


def main():
    """Runs the cases up to the first that differs."""
    given = arguments()
    numbers = [given.only] if given.only is not None else range(given.cases)
    counts = collections.Counter()
    with Rigged() as rigged:
        for number in numbers:
            schema, text, some = case(random.Random(f"{given.seed} {number}"))
            found = answers(rigged, schema, text, some)
            counts["cases"] += 1
            accepted = ACCEPTED.fullmatch(found["check"][0].output)
            counts["accepted"] += bool(accepted)
            counts["instances"] += int(accepted[1]) if accepted else 0
            command = differing(found)
            if command:
                counts["differences"] += 1
                print(f"difference in case {number} of seed {given.seed}: {command} {kept(given.keep, schema, text)}")
                shown(("whole", 1, some), found[command])
                break
    refused = counts["cases"] - counts["accepted"]
    print(f"{counts['accepted']} files accepted, with {counts['instances']} instances; {refused} refused")
    print(f"{counts['cases']} cases, {counts['differences']} differences")
    sys.exit(counts["differences"] > 0)


if __name__ == "__main__":
    main()
