#!/usr/bin/env python3
"""Compares files up to the names of their instances: generated files of which the right answer is known from how they were
made, through tools/p21-diff --names and tools/p21-table --names. P21 names another program than ./p21.

What the program lists by pairs tests/pairs.py holds against lines that were worked out by hand. That the hash doesn't depend on names,
and tells whatever else differs, tests/numbering.py tries.
"""

import collections
import hashlib
import json
import os
import random
import re
import subprocess

import exchange
from tooling import ROOT, Tests
from renaming import renumbered, shuffled

SCHEMA = "tests/naming.exp"


def file_of(records):
    """A file of these records, by their names."""
    return exchange.file_of("NAMING", "".join(f"#{name}={record};\n" for name, record in records.items())).encode("ascii")


# --- Files that are made ---


class Maker:
    """Makes records by chance, each of which refers to others in front of it, or to any where cycles are wanted."""

    def __init__(self, chance, count, cyclic):
        self.chance = chance
        self.count = count
        self.cyclic = cyclic
        self.at = 0

    def ref(self):
        """A reference."""
        return f"#{self.chance.randint(1, self.count if self.cyclic else self.at - 1)}"

    def refs(self, most=4):
        """Some references."""
        return [self.ref() for _ in range(self.chance.randint(0, most))]

    def members(self, most=4):
        """The references of a set, in the order of their texts."""
        return sorted(set(self.refs(most)))

    def record(self, name):
        """A record of any entity."""
        self.at = name
        kind = self.chance.choice(KINDS) if name > 1 or self.cyclic else leaf
        return kind(self)


def listed(items):
    """The text of a list."""
    return f"({','.join(items)})"


def leaf(maker):
    """A leaf, of which some say the same."""
    return f"LEAF('{maker.chance.choice('abc')}',{maker.chance.randint(1, 9)}.)"


def row(maker):
    """A list."""
    return f"ROW({listed(maker.refs())})"


def bag(maker):
    """A bag, in which an instance may be twice."""
    return f"SACK({listed(sorted(maker.refs()))})"


def group(maker):
    """A set beside a reference."""
    return f"GROUP({maker.chance.choice(['$', chr(39) + 'g' + chr(39)])},{listed(maker.members())},{maker.ref()})"


def link(maker):
    """Two references, or none."""
    return f"LINK({maker.chance.choice(['$', maker.ref()])},{maker.ref()})"


def deep(maker):
    """A set of lists."""
    return f"DEEP({listed(sorted({listed(maker.refs(2)) for _ in range(3)}))})"


def nest(maker):
    """A list of sets of sets."""
    sets = [listed(sorted({listed(maker.members(2)) for _ in range(2)})) for _ in range(2)]
    return f"NEST({listed(sets)})"


def choice(maker):
    """A set of references, typed lists and reals."""
    items = {maker.ref(), f"FEW({listed(maker.refs(2))})", f"MANY({listed(maker.members(3))})", "LENGTH(2.)"}
    return f"CHOICE({listed(sorted(items))})"


def complex_one(maker):
    """An instance of two parts."""
    return f"(BACK({listed(sorted(maker.refs()))})SIDE({maker.ref()})THING())"


KINDS = [leaf, leaf, leaf, row, bag, group, link, deep, nest, choice, complex_one]


def by_chance(seed, count, cyclic):
    """Records by a seed."""
    maker = Maker(random.Random(seed), count, cyclic)
    return {name: maker.record(name) for name in range(1, count + 1)}


def ring(first, count):
    """Links in a circle."""
    return {first + at: f"LINK(#{first + (at + 1) % count},$)" for at in range(count)}


def rings(*counts):
    """Circles one behind the other."""
    found = {}
    for count in counts:
        found.update(ring(len(found) + 1, count))
    return found


def neighbours(edges, count):
    """A bag for each node, of the nodes around it."""
    around = {node: sorted(f"#{b + 1 if a == node else a + 1}" for a, b in edges if node in (a, b)) for node in range(count)}
    return {node + 1: f"SACK({listed(around[node])})" for node in range(count)}


def rook():
    """Sixteen fields, each beside those of its row and its column."""
    pairs = [(a, b) for a in range(16) for b in range(a) if a // 4 == b // 4 or a % 4 == b % 4]
    return neighbours(pairs, 16)


def shrikhande():
    """Sixteen fields of which each has as many neighbours, and each two as many common ones, as among those of the rook."""
    steps = [(0, 1), (1, 0), (1, 1)]
    pairs = {tuple(sorted((4 * a + b, 4 * ((a + c) % 4) + (b + d) % 4))) for a in range(4) for b in range(4) for c, d in steps}
    return neighbours(sorted(pairs), 16)


SHARED = {1: "LEAF('a',1.)", 2: "ROW((#1))", 3: "LINK(#1,#2)"}
COPIED = {1: "LEAF('a',1.)", 2: "ROW((#4))", 3: "LINK(#1,#2)", 4: "LEAF('a',1.)"}
USED_BY_TWO = {1: "LEAF('a',1.)", 2: "LEAF('a',1.)", 3: "ROW((#1))", 4: "SACK((#1))", 5: "LINK(#2,$)"}
USED_BY_OTHERS = {1: "LEAF('a',1.)", 2: "LEAF('a',1.)", 3: "ROW((#1))", 4: "SACK((#2))", 5: "LINK(#2,$)"}
EQUAL = {**{name: "LEAF('a',1.)" for name in range(1, 101)}, 200: f"SACK({listed(sorted(f'#{n}' for n in range(1, 101)))})"}
PARTS = {
    **{3 * at + 1: "LEAF('a',1.)" for at in range(50)},
    **{3 * at + 2: f"ROW((#{3 * at + 1}))" for at in range(50)},
    **{3 * at + 3: f"LINK(#{3 * at + 1},#{3 * at + 2})" for at in range(50)},
}
MIXED = rings(*[6] * 20, *[3] * 42), rings(*[6] * 21, *[3] * 40)

# What files may be called that mean the same but for names, and whose model doesn't tell their instances apart: that they differ is said
# of the pairs that were made. And what those that don't mean the same, and whose model doesn't tell them apart.
ALIKE, UNLIKE = {"same", "different", "undecided"}, {"different", "undecided"}
# Each row: a name, the records of both files, and the verdicts that are right. A model doesn't tell instances apart that hang together
# and look alike from everywhere, as those of a circle, nor equal ones of a bag.
ROWS = [
    ("empty", {}, {}, {"same"}),
    ("one instance", {1: "LEAF('a',1.)"}, {1: "LEAF('a',1.)"}, {"same"}),
    ("one instance and none", {1: "LEAF('a',1.)"}, {}, {"different"}),
    ("an instance that refers to itself", {1: "LINK(#1,$)"}, {1: "LINK(#1,$)"}, {"same"}),
    ("itself and nothing", {1: "LINK(#1,$)"}, {1: "LINK($,$)"}, {"different"}),
    ("shared and copied", SHARED, COPIED, {"different"}),
    ("copied", COPIED, COPIED, {"same"}),
    ("used by two and used by others", USED_BY_TWO, USED_BY_OTHERS, {"different"}),
    ("a bag of equal instances", EQUAL, EQUAL, ALIKE),
    ("equal parts", PARTS, PARTS, {"same"}),
    ("a circle", rings(6), rings(6), ALIKE),
    ("a circle and two smaller ones", rings(6), rings(3, 3), UNLIKE),
    ("a circle and another entity", rings(6), {**rings(5), 6: "LEAF('a',1.)"}, UNLIKE),
    ("a circle and a row", rings(6), {**{at: f"LINK(#{at + 1},$)" for at in range(1, 6)}, 6: "LINK($,$)"}, {"different"}),
    ("a long circle", rings(1000), rings(1000), ALIKE),
    ("circles", rings(6, 3, 3), rings(3, 6, 3), ALIKE),
    ("the same but for two circles", *MIXED, UNLIKE),
    ("a rook's fields", rook(), rook(), ALIKE),
    ("fields of two kinds that refinement can't tell apart", rook(), shrikhande(), UNLIKE),
    ("a list in another order", {1: "LEAF('a',1.)", 2: "LEAF('b',1.)", 3: "ROW((#1,#2))"}, {1: "LEAF('a',1.)", 2: "LEAF('b',1.)", 3: "ROW((#2,#1))"}, {"different"}),
    ("sets of lists", {1: "LEAF('a',1.)", 2: "LEAF('b',1.)", 3: "DEEP(((#1,#2),(#2,#1)))"}, {1: "LEAF('b',1.)", 2: "LEAF('a',1.)", 3: "DEEP(((#1,#2),(#2,#1)))"}, {"same"}),
    ("sets of lists that differ", {1: "LEAF('a',1.)", 2: "LEAF('b',1.)", 3: "DEEP(((#1,#2),(#2,#2)))"}, {1: "LEAF('b',1.)", 2: "LEAF('a',1.)", 3: "DEEP(((#1,#1),(#1,#2)))"}, {"different"}),
    ("typed sets and lists", {1: "LEAF('a',1.)", 2: "LEAF('b',1.)", 3: "CHOICE((FEW((#1,#2)),MANY((#1,#2))))"}, {7: "LEAF('b',1.)", 9: "LEAF('a',1.)", 3: "CHOICE((FEW((#9,#7)),MANY((#7,#9))))"}, {"same"}),
    ("a typed list in another order", {1: "LEAF('a',1.)", 2: "LEAF('b',1.)", 3: "CHOICE((FEW((#1,#2))))"}, {7: "LEAF('b',1.)", 9: "LEAF('a',1.)", 3: "CHOICE((FEW((#7,#9))))"}, {"different"}),
]  # fmt: skip


# --- What is tried ---


def verdict(tests, options, first, second):
    """The objects that p21-diff --names prints of two files, without the verdict; the verdict; and the status."""
    paths = [tests.make("a.step", first), tests.make("b.step", second)]
    output, error, status = tests.run(["--names", "--format", "json", *options, SCHEMA, *paths])
    objects = [json.loads(line) for line in output.splitlines()]
    return objects[:-1], objects[-1] if objects else error, status


def known(tests):
    """Files of which the answer is known."""
    for name, first, second, words in ROWS:
        for seed in (1, 2):
            other, _ = shuffled(file_of(second), seed)
            objects, found, status = verdict(tests, [], file_of(first), other)
            wanted = {"same": 0, "different": 1, "undecided": 3}[found["verdict"]], found["verdict"] == "different"
            tests.judge(f"{name}, {seed}", (True, *wanted), (found["verdict"] in words, status, bool(objects)))


def pairings(tests):
    """The pairs of shuffled files, by which the program says that they are the same."""
    for seed in range(40):
        text = file_of(by_chance(seed, 3 + 3 * seed, cyclic=seed % 2 == 1))
        other, _ = shuffled(text, seed)
        pairs = str(tests.here / "pairs")
        objects, found, status = verdict(tests, ["--pairing", pairs], text, other)
        tests.judge(f"shuffled, {seed}", ([], "same", 0), (objects, found["verdict"], status))
        with open(pairs, encoding="ascii") as file:
            lines = [[int(name) for name in re.fullmatch(r"#(\d+)\t#(\d+)\n", line).groups()] for line in file]
        count = text.count(b"\n#")
        tests.judge(f"so many pairs, {seed}", (count, count, sorted(lines)), (found["pairs"], len(lines), lines))
        paths = tests.make("renumbered.step", renumbered(text, dict(lines))), str(tests.here / "b.step")
        answer = subprocess.run([tests.program, "same", SCHEMA, *paths], capture_output=True, check=False)
        tests.judge(f"renumbered, {seed}", b"same\n", answer.stdout)


def changes(tests):
    """One leaf has another value: just that is listed, with both names, where nothing else says the same."""
    for seed in range(20):
        records = by_chance(seed, 30, cyclic=seed % 2 == 1)
        chance = random.Random(seed)
        leaves = [name for name, record in records.items() if record.startswith("LEAF")]
        for at, name in enumerate(leaves):
            records[name] = f"LEAF('leaf {at}',1.)"
        name = chance.choice(leaves)
        changed = {**records, name: records[name].replace("1.)", "2.5)")}
        other, names = shuffled(file_of(changed), seed)
        objects, found, status = verdict(tests, [], file_of(records), other)
        wanted = {
            "kind": "changed", "what": "instance", "a": name, "b": names[name], "entity": "LEAF", "attribute": "X",
            "keywords": "LEAF", "before": "1.", "after": "2.5",
        }  # fmt: skip
        tests.judge(f"one value, {seed}", ([wanted], "different", 1), (objects, found["verdict"], status))
        objects, found, status = verdict(tests, ["--tolerance", "0.6"], file_of(records), other)
        said = [{"kind": "left out", "tolerance": "0.6"}]
        tests.judge(f"one value within the tolerance, {seed}", (said, "different", 1, 0), (objects, found["verdict"], found["near"], status))


def gone(tests):
    """Leaves that nothing refers to go, and a group comes."""
    records = {name: f"LEAF('leaf {name}',{name}.)" for name in range(1, 20)}
    records[20] = "ROW((#1,#2,#3))"
    left = {name: record for name, record in records.items() if name not in (7, 8)}
    other, names = shuffled(file_of({**left, 30: "GROUP('new',(#1),#2)"}), 5)
    objects, found, _ = verdict(tests, ["--stat"], file_of(records), other)
    wanted = [
        {"kind": "stat", "entity": "LEAF", "changed": 0, "came": 0, "went": 2},
        {"kind": "stat", "entity": "GROUP", "changed": 0, "came": 1, "went": 0},
    ]
    tests.judge("a table in front of what came and went", wanted, objects[:2])
    rows = [
        {"kind": "went", "what": "instance", "a": 7, "entity": "LEAF", "before": "#7=LEAF('leaf 7',7.);"},
        {"kind": "went", "what": "instance", "a": 8, "entity": "LEAF", "before": "#8=LEAF('leaf 8',8.);"},
    ]
    new = f"#{names[30]}=GROUP('new',(#{names[1]}),#{names[2]});"
    rows.append({"kind": "came", "what": "instance", "b": names[30], "entity": "GROUP", "after": new})
    tests.judge("what came and went", (rows, 18), (sorted(objects[2:], key=lambda row: row.get("a", 99)), found["pairs"]))


# --- What differs, and what is shown of it ---

LEAVES = {name: f"LEAF('leaf {name}',1.)" for name in range(1, 12)}
SACKS = {**LEAVES, 30: "SACK((#1,#2,#3))", 31: "SACK((#4,#5))"}
LINKED = {**SACKS, 40: "LINK(#30,$)", 41: "LINK(#31,$)"}
ROWED = {**LEAVES, 30: "ROW((#1,#2,#3))", 31: "ROW((#4,#5))", 32: "ROW((#30,#31))"}
GROUPS = {**LEAVES, 30: "GROUP('g',(#1,#2),#3)", 31: "GROUP('g',(#4,#5),#3)"}
NEW = {50: "LEAF('new',1.)"}
# Each row: a name, the records of the first file, what the second has besides or otherwise, and how many changed, came and went.
GROWN = [
    ("a bag", SACKS, {30: "SACK((#1,#2,#3,#6))"}, (1, 0, 0)),
    ("two bags", SACKS, {30: "SACK((#1,#2,#3,#6))", 31: "SACK((#4,#5,#7))"}, (2, 0, 0)),
    ("a bag, by what is new", SACKS, {30: "SACK((#1,#2,#3,#50))", **NEW}, (1, 1, 0)),
    ("a bag beside a new one", SACKS, {30: "SACK((#1,#2,#3,#6))", 32: "SACK((#8,#9))"}, (1, 1, 0)),
    ("two bags that are referred to", LINKED, {30: "SACK((#1,#2,#3,#6))", 31: "SACK((#4,#5,#7))"}, (2, 0, 0)),
    ("a list, in front", ROWED, {30: "ROW((#6,#1,#2,#3))"}, (1, 0, 0)),
    # The program takes each list for the other one, so that the list of both changed too; two rows would do.
    ("two lists, in front", ROWED, {30: "ROW((#6,#1,#2,#3))", 31: "ROW((#7,#4,#5))"}, (3, 0, 0)),
    ("two sets", GROUPS, {30: "GROUP('g',(#1,#2,#6),#3)", 31: "GROUP('g',(#4,#5,#7),#3)"}, (2, 0, 0)),
    ("two sets, by one of the other each", GROUPS, {30: "GROUP('g',(#1,#2,#4),#3)", 31: "GROUP('g',(#1,#4,#5),#3)"}, (2, 0, 0)),
    ("a set of lists", {**LEAVES, 30: "DEEP(((#1,#2),(#3,#4)))"}, {30: "DEEP(((#1,#2),(#3,#4),(#5,#6)))"}, (1, 0, 0)),
]


def grown(tests):
    """A list, a bag or a set that has grown by an element is one change, whatever the names are."""
    for name, records, others, wanted in GROWN:
        for seed in (1, 2):
            _, found, _ = verdict(tests, [], file_of(records), shuffled(file_of({**records, **others}), seed)[0])
            tests.judge(f"grown: {name}, {seed}", wanted, (found["changed"], found["came"], found["went"]))


# Each row: a name, the records of both files, and the lines that are printed.
SHOWN = [
    (
        "two that have changed names",
        {1: "LINK(#5,$)", 5: "LEAF('a',1.)", 7: "LEAF('b',1.)"},
        {1: "LINK(#5,$)", 5: "LEAF('b',1.)", 7: "LEAF('a',1.)"},
        ["changed #1 LINK.NEXT: #5/#7 -> #7/#5", "different: 1 changed, 0 came, 0 went"],
    ),
    (
        "one of another entity in its place",
        {1: "LINK(#5,$)", 2: "ROW((#5,#1))", 5: "LEAF('a',1.)"},
        {1: "LINK(#5,$)", 2: "ROW((#5,#1))", 5: "ROW(())"},
        ["changed #1 LINK.NEXT: A#5 -> B#5", "changed #2 ROW.ITEMS[1]: A#5 -> B#5", "only in A: #5=LEAF('a',1.);", "only in B: #5=ROW(());"]
        + ["different: 2 changed, 1 came, 1 went"],
    ),
    (
        "one of another entity at another name",
        {1: "LINK(#5,#5)", 5: "LEAF('a',1.)"},
        {1: "LINK(#6,#6)", 6: "ROW(())"},
        ["changed #1 LINK.NEXT: A#5 -> B#6", "changed #1 LINK.OTHER: A#5 -> B#6", "only in A: #5=LEAF('a',1.);", "only in B: #6=ROW(());"]
        + ["different: 1 changed, 1 came, 1 went"],
    ),
    (
        "three alike of which one is gone",
        {1: "LEAF('a',1.)", 2: "LEAF('a',1.)", 3: "LEAF('a',1.)", 4: "LINK(#2,#3)"},
        {2: "LEAF('a',1.)", 3: "LEAF('a',1.)", 4: "LINK(#2,#3)"},
        ["only in A: #1=LEAF('a',1.);", "different: 0 changed, 0 came, 1 went"],
    ),
    (
        "names in strings are none",
        {1: "GROUP('#5/#6',(#5),#5)", 5: "LEAF('#1',1.)"},
        {1: "GROUP('#5',(#6),#6)", 6: "LEAF('#1',1.)"},
        ["changed #1 GROUP.LABEL: '#5/#6' -> '#5'", "different: 1 changed, 0 came, 0 went"],
    ),
]


def shown(tests):
    """Names of both files are told apart."""
    for name, first, second, lines in SHOWN:
        paths = [tests.make("a.step", file_of(first)), tests.make("b.step", file_of(second))]
        output, error, status = tests.run(["--names", SCHEMA, *paths])
        found = [line.partition("; ")[0] if line.startswith("different") else line for line in output.splitlines()]
        tests.judge(f"shown: {name}", (lines, "", 1), (found, error, status))


# A file that doesn't tell #1 from #2, which stand in one bag.
UNTOLD = {1: "LEAF('a',1.)", 2: "LEAF('a',1.)", 3: "SACK((#1,#2))", 4: "LEAF('b',1.)"}
# Each row: a name, the records of the second file, the status, and the lines that are printed with --names.
OF_UNTOLD = [
    (
        "renumbered",
        {11: "LEAF('a',1.)", 12: "LEAF('a',1.)", 13: "SACK((#11,#12))", 14: "LEAF('b',1.)"},
        0,
        ["same up to names: 4 pairs"],
    ),
    ("changed", {**UNTOLD, 4: "LEAF('b',2.)"}, 1, ["changed #4 LEAF.X: 1. -> 2.", "different: 1 changed, 0 came, 0 went"]),
]
NOT_DECIDED = "not decided: too many instances are alike to be paired"
# What a program does that is asked for what differs by pairs, and what is said then.
NO_ANSWERS = [
    ("want of memory", "echo 'out of memory' >&2; exit 3", "out of memory"),
    ("a signal", "kill -9 $$", "ended by signal 9"),
    ("an answer, and a signal", """echo '{"kind":"verdict","verdict":"same"}'; kill -9 $$""", "ended by signal 9"),
    ("an answer of another status", """echo '{"kind":"verdict","verdict":"same"}'; exit 1""", "ended with status 1"),
    ("not decided, and done", """echo '{"kind":"verdict","verdict":"undecided"}'; exit 0""", "the list of what differs isn't whole"),
    ("a refusal", "echo 'first: refused 27 CanonicalTooLong' >&2; exit 1", "{here}/a.step: refused 27 CanonicalTooLong"),
    ("pairs alone", """echo '{"kind":"pair","a":1,"b":2}'; exit 0""", "the list of what differs isn't whole"),
    ("nothing", "exit 0", "the list of what differs isn't whole"),
]
# The same of one that is to leave out the header, and doesn't say that it did, or how much that was.
SAID = """echo '{"kind":"left out","header":true}';"""
NO_ANSWERS_WITHOUT_HEADER = [
    ("nothing of it", """echo '{"kind":"verdict","verdict":"same","changed":0,"came":0,"went":0}'; exit 0"""),
    ("not how much", f"""{SAID} echo '{{"kind":"verdict","verdict":"different","changed":0,"came":0,"went":0}}'; exit 0"""),
    ("no end", f"{SAID} exit 0"),
    ("what wasn't asked for", """echo '{"kind":"left out","tolerance":"1"}'; echo '{"kind":"verdict","verdict":"same"}'; exit 0"""),
]
# The same of one that is asked whether files are the same but for names.
NO_ANSWERS_OF_SAME = [
    ("want of memory", "echo 'out of memory' >&2; exit 3", "out of memory"),
    ("an answer, and a signal", "echo same; kill -9 $$", "ended by signal 9"),
    ("a refusal, and a signal", "echo 'first: refused 59 Alike in #1' >&2; kill -9 $$", "first: refused 59 Alike in #1 ended by signal 9"),
    ("an answer of another status", "echo same; exit 1", "ended with status 1"),
    ("another refusal", "echo 'first: refused 27 CanonicalTooLong' >&2; exit 1", "first: refused 27 CanonicalTooLong"),
    ("nothing", "exit 0", "the program doesn't say whether the files are the same but for names"),
]


def undecided(tests):
    """Instances that the model doesn't tell apart are paired too. Where the program can't decide, nothing is listed and no file of pairs
    is written; and where it has no answer there is none."""
    first = tests.make("a.step", file_of(UNTOLD))
    for name, second, status, lines in OF_UNTOLD:
        tests.expect(f"not told apart: {name}", ["--names", SCHEMA, first, tests.make("b.step", file_of(second))], status, lines)
    paths = [tests.make("a.step", file_of(LEAVES)), tests.make("b.step", shuffled(file_of(LEAVES), 1)[0])]
    program = tests.rigged("rigged", """case "$*" in *--pairs*) echo '{"kind":"verdict","verdict":"undecided"}'; exit 1;; esac""")
    for name, options, output in [
        ("as text", ["--stat", "--pairing", f"{tests.here}/none"], f"{NOT_DECIDED}\n"),
        ("as an object", ["--format", "json", "--stat"], '{"kind": "verdict", "verdict": "undecided"}\n'),
        ("with what is to be left out", ["--tolerance", "1"], f"{NOT_DECIDED}\n"),
    ]:
        found = tests.run(["--names", *options, SCHEMA, *paths], program=program)
        tests.judge(f"not decided, {name}", (output, "", 3), found)
    tests.judge("not decided, pairs", False, (tests.here / "none").exists())
    page, _, status = tests.run(["--names", "--format", "html", SCHEMA, *paths], program=program)
    found = "<h1>Not decided</h1>" in page, NOT_DECIDED in page, "differences" in page, status
    tests.judge("not decided, as a page", (True, True, False, 3), found)
    for name, lines, error in NO_ANSWERS:
        program = tests.rigged("rigged", f'case "$*" in *--pairs*) {lines};; esac')
        without_answer(tests, name, [["--names"], ["--names", "--format", "html"]], paths, program, error)
    for name, lines in NO_ANSWERS_WITHOUT_HEADER:
        program = tests.rigged("rigged", f'case "$*" in *--data*) {lines};; esac')
        all_options = [["--data", *words] for words in ([], ["--names"], ["--format", "json"], ["--format", "html"])]
        without_answer(tests, f"left out, {name}", all_options, paths, program, "the list of what differs isn't whole")
    for name, lines, error in NO_ANSWERS_OF_SAME:
        program = tests.rigged("rigged", f'case "$*" in *--names*) {lines};; esac')
        without_answer(tests, name, [["--stat"]], paths, program, error)


def without_answer(tests, name, all_options, paths, program, error):
    """A program that has no answer: none is told."""
    for options in all_options:
        output, said, status = tests.run([*options, SCHEMA, *paths], program=program)
        told = any(word in output for word in ("same", "not decided", "Not decided", "different:"))
        tests.judge(f"no answer, {name}, {options}", (False, f"p21-diff: {error.format(here=tests.here)}\n", 2), (told, said, status))


TOKEN = re.compile(r"'[^']*'|[^'(),]+")


def words_of(text, at):
    """The words of a text that is shown, with the names of one file as they stand in it, each as often as it comes: those of a set may
    stand in another order."""
    return collections.Counter(TOKEN.findall(re.sub(r"#(\d+)/#(\d+)", rf"#\{at + 1}", text).replace("AB"[at] + "#", "#")))


def crossed(tests):
    """Files that keep some names: no change has equal texts, and what is shown of each file stands in that file."""
    kept = 0
    for seed in range(12):
        chance = random.Random(f"crossed {seed}")
        records = by_chance(seed, 80, cyclic=seed % 2 == 0)
        changed = {**records, **{name: Maker(chance, 80, True).record(name) for name in chance.sample(list(records), 7)}}
        texts = [file_of(records), file_of(changed) if seed % 3 else shuffled(file_of(changed), seed)[0]]
        rows, _, _ = verdict(tests, [], *texts)
        rows = [row for row in rows if row["kind"] == "changed"]
        tests.judge(f"equal texts, {seed}", [], [row for row in rows if row.get("before") == row.get("after")])
        lines = [dict(line.split("=", 1) for line in canonical(tests, text).decode().splitlines() if line[0] == "#") for text in texts]
        for row in rows:
            for at, (key, side) in enumerate((("before", "a"), ("after", "b"))):
                text = row.get(key, "")
                kept += "/" in text
                stray = words_of(text, at) - words_of(lines[at][f"#{row[side]}"], at)
                tests.judge(f"what is shown of {row}", [], list(stray))
    tests.judge("some names are told apart", True, kept > 20)


def canonical(tests, text):
    """The canonical file of a file."""
    return subprocess.run([tests.program, "canon", SCHEMA, tests.make("c.step", text)], capture_output=True, check=True).stdout


# --- The hash ---


def table(tests):
    """The rows of p21-table --names: the hash is that of the numbered file, and where there is none the row has none."""
    records = by_chance(4, 30, cyclic=False)
    leaf = next(name for name, record in records.items() if record.startswith("LEAF"))
    changed = {**records, leaf: "LEAF('changed',1.)"}
    files = [tests.make("one.step", file_of(records)), tests.make("two.step", shuffled(file_of(records), 4)[0])]
    files += [tests.make("other.step", file_of(changed)), tests.make("circle.step", file_of(rings(6)))]
    numbered = [
        subprocess.run([tests.program, "canon", "--names", SCHEMA, file], capture_output=True, check=False).stdout for file in files[:3]
    ]
    for of_data in (False, True):
        command = ["tools/p21-table", "--names", *(["--data"] if of_data else []), "--format", "json", SCHEMA, *files]
        done = subprocess.run(command, capture_output=True, check=False, text=True)
        rows = [json.loads(line) for line in done.stdout.splitlines()]
        texts = [text.partition(b"\nENDSEC;\n")[2] if of_data else text for text in numbered]
        wanted = [hashlib.sha256(text).hexdigest() for text in texts]
        found = [row["sha256"] for row in rows]
        tests.judge(f"hashes in rows, {of_data}", ([*wanted, None], True, True), (found, found[0] == found[1], found[0] != found[2]))
        tests.judge(f"answers in rows, {of_data}", (["accepted"] * 3, 59, 1), ([row["answer"] for row in rows[:3]], rows[3]["number"], done.returncode))
        same = f"the same{' data' if of_data else ''} but for names: {files[0]} {files[1]}"
        tests.judge(f"which are the same, {of_data}", ["4 files, 3 accepted, 1 not", "     1 refused 59 Alike", same], done.stderr.splitlines())


def main():
    tests = Tests("p21-diff")
    known(tests)
    pairings(tests)
    changes(tests)
    gone(tests)
    grown(tests)
    shown(tests)
    undecided(tests)
    crossed(tests)
    table(tests)
    tests.end()


if __name__ == "__main__":
    os.chdir(ROOT)
    main()
