#!/usr/bin/env python3
"""Runs each command with its allocations refused: each one alone, each with all behind it, and some by chance.

A refused run ends with status 3, `out of memory` and no byte of output. One place alone may go on with less memory, and then
answer as if none had been refused (`excuse`); those runs are counted. Arguments name the parts that are
run, all without any. The environment variable P21 names the program. Wants `nm` and `objdump`.
"""

import collections
import random
import sys

from cases import PARAMETERS, file_of, write_all
from rigged import OUT_OF_MEMORY, Rigged, Tally
from symbols import Symbols

FILES_WITH_A_NAME = {"point": "2", "sizes": "1", "select": "1", "converted": "10", "sections": "2", "late": "9", "long": "2"}

TEXTS = [["param", name] for name in PARAMETERS]
SCHEMAS = [["schema", "demo.exp"], ["schema", "long.exp"], ["schema", "ladder.exp"]]
ONE_FILE = [
    [command, "demo.exp", *rest]
    for file, name in FILES_WITH_A_NAME.items()
    for command, *rest in (
        ["check", file],
        ["canon", file],
        ["show", file, "--name", name],
        ["show", file, "--name", "77"],
    )
]
REFUSED = [
    ["check", "demo.exp", "twice"],
    ["check", "demo.exp", "rows"],
    ["schema", "point"],
    ["check", "point", "point"],
    ["schema", "unknown.exp"],
]
EVERY_REFUSAL = [
    ["check", "--all", "demo.exp", "several"],
    ["check", "--all", "--most", "2", "demo.exp", "several"],
    ["check", "--all", "demo.exp", "twice"],
    ["check", "--all", "demo.exp", "point"],
    ["check", "--all", "point", "point"],
    ["check", "--all", "demo.exp", "broken"],
    ["check", "--all", "--most", "3", "demo.exp", "broken"],
]
LONG = [["canon", "kinds.exp", "kinds"], ["check", "--all", "kinds.exp", "kinds"]]
HARDER_SCHEMAS = [["schema", name] for name in ("unknown.exp", "circular.exp", "anew.exp")] + [["canon", "wide.exp", "wide"]]
TWO_FILES = [
    ["same", "demo.exp", *files]
    for files in (
        ["bags", "bags.same"],
        ["bags", "bags.other"],
        ["converted", "canonical"],
        ["sections", "sections"],
        ["twice", "point"],
        ["point", "twice"],
    )
]
NAMES = [
    ["canon", "--names", "demo.exp", "late"],
    ["canon", "--names", "demo.exp", "alike"],
    ["check", "--names", "demo.exp", "late"],
    ["check", "--names", "--all", "demo.exp", "late"],
    ["check", "--names", "--all", "demo.exp", "alike"],
    ["same", "--names", "demo.exp", "late", "late.other"],
    ["same", "--names", "demo.exp", "bags", "bags.other"],
    ["same", "--names", "demo.exp", "alike", "alike.other"],
    ["same", "--names", "demo.exp", "late", "twice"],
]
DIFFERENCES = [
    ["diff", *words, "demo.exp", *files]
    for words in ([], ["--names"], ["--names", "--format", "jsonl"])
    for files in (["converted", "canonical"], ["bags", "bags.other"], ["late", "late.other"], ["alike", "alike.other"], ["late", "twice"])
]
WORDS = [
    ["--help"],
    ["param", "--help"],
    ["--version"],
    [],
    ["frob"],
    ["chekc"],
    ["param"],
    ["canon", "demo.exp", "point", "more"],
    ["show", "demo.exp", "point", "--name", "x"],
    ["show", "demo.exp", "point", "--name", "+2"],
    ["show", "demo.exp", "point", "--nam", "2"],
    ["faults"],
    ["check", "demo.exp", "nowhere"],
    ["param", "\udcff"],
]
PARTS = {
    "param": TEXTS,
    "schema": SCHEMAS,
    "refused and wide schemas": HARDER_SCHEMAS,
    "long values": LONG,
    "check, canon, show": ONE_FILE,
    "refusals": REFUSED,
    "every refusal": EVERY_REFUSAL,
    "same": TWO_FILES,
    "names": NAMES,
    "differences": DIFFERENCES,
    "help and usage": WORDS,
}

# The parts whose files are read byte by byte too, so that tokens are put together from pieces, and statements are passed over by pieces.
BYTE_BY_BYTE_TOO = ("long values", "every refusal")

# Two files of 200 instances with one meaning, the second with each name early and other spellings.
MANY = file_of(
    "".join(
        f"#{2 * k + 1}=CLOUD((#{2 * k}),((2.,1.),()),(TALLY(1)));\n#{2 * k}=POINT('\\X2\\00E9\\X0\\a',1.,1.);\n"
        for k in range(100, 0, -1)
    )
)
MANY_RISING = file_of(
    "".join(
        f"#{2 * k}=POINT('\\X2\\00E9\\X0\\a',1.,1.0);\n#{2 * k + 1}=CLOUD((#{2 * k}),((1.,2.),()),(TALLY(01)));\n"
        for k in range(1, 101)
    )
)
LONGER = [["canon", "demo.exp", "many"], ["same", "demo.exp", "many", "many.rising"]]

# A file of records and names that are refused, and of references that nothing serves or that aren't judged.
SEVERAL = file_of(
    "#1=POINT($,1.,1.);\n#2=POINT($,1.);\n#3=CLOUD((#1,#2,#9),(),(TALLY(1)));\n#1=POINT($,2.,2.);\n#4=CLOUD((#3),(),(TALLY(1)));\n"
    + "".join(f"#{k}=POINT($,1.);\n#{k + 100}=CLOUD((#{k + 200}),(),(TALLY(1)));\n" for k in range(10, 30))
)

# A schema with a name that isn't declared: what comes first of several refusals is looked for in all of it.
UNKNOWN = """SCHEMA unknown;
ENTITY e; x, y : NUMBER; z : nothing; END_ENTITY;
ENTITY f SUBTYPE OF (e); SELF\\e.x : INTEGER; DERIVE SELF\\e.y : REAL := 0.0; END_ENTITY;
TYPE t = ENUMERATION OF (a, b); END_TYPE;
TYPE u = SELECT (e, f); END_TYPE;
END_SCHEMA;
"""


SUGGESTIONS = "of words like a mistaken one"
# What is asked for beside the answer: bytes in which the place of a refusal is looked for, and what is known of large sets.
BESIDE = {
    "p21_stream_statements::source::Source::": "for the place of a refusal",
    "p21_stream_statements::marks::marks_of": "for the place of a refusal",
    "p21_mapping::refused_shape::": "for the place of a refusal",
    "p21_stream_kept::judgements::Judgements::remember": "of what large sets don't serve",
}
# Functions of refused_shape stand inside the one that calls them, and ask for the attributes of an entity there. What else asks for these
# in it, `known`, is proved to answer want of memory.
INSIDE = ["p21_schema::schema::Schema::places", "p21_mapping::check::check_owned_record"]


def excuse(functions):
    """Why an allocation that these functions asked for, the innermost first, may be refused unseen; none where it may not.

    For words like a mistaken one `clap` collects letters, and where that finds no room it asks for less; only wrong command
    lines come there. The place of a refusal is then that of its statement, and a large set is looked through again.
    """
    asking = [name for name in functions if not name.startswith("std_alloc::vec::Vec::grow_amortized")]
    if asking[:1] and asking[0].startswith("strsim::chars_of"):
        return SUGGESTIONS
    if asking[:2] == INSIDE:
        return BESIDE["p21_mapping::refused_shape::"]
    return next((BESIDE[way] for way in BESIDE for name in functions if name.startswith(way)), None)


class Refusing:
    """Runs with allocations refused, which have to say so, and those that are excused for not saying it."""

    def __init__(self, rigged, tally):
        self.rigged, self.tally = rigged, tally
        self.symbols = Symbols(rigged.program)
        self.excused = collections.Counter()

    def run(self, name, plain, arguments, **failures):
        """One run, which answers as `plain` where nothing is refused. Says whether something was."""
        found, counted = self.rigged.failing(arguments, **failures)
        if not counted.refused:
            self.tally.check(name, found, plain)
        elif found == plain and not failures.get("REFUSE_ON") and self.is_excused(name, arguments, failures):
            self.tally.check(name, found, plain)
        else:
            self.tally.check(name, found, OUT_OF_MEMORY)
        return counted.refused > 0

    def is_excused(self, name, arguments, failures):
        """Whether each allocation that the run has refused is one that may be refused unseen. Names the functions else."""
        _, _, places = self.rigged.traced(arguments, **failures)
        sites = [self.symbols.calls(site) for site in places]
        excuses = [excuse(site) for site in sites]
        if None in excuses:
            print(f"  {name}: unseen in {' in '.join(sites[excuses.index(None)])}")
            return False
        self.excused[excuses[0]] += 1
        return True

    def part(self, name):
        """Ends a part."""
        excused = "".join(f", {count} unseen {way}" for way, count in self.excused.items())
        self.excused.clear()
        self.tally.part(name, excused)


def in_turn(rigged, refusing, parts):
    """Each allocation of each run refused, alone and with all behind it."""
    for part in parts or PARTS:
        for arguments in PARTS[part]:
            for most in (0, 1) if part in BYTE_BY_BYTE_TOO else (0,):
                plain, counts = rigged.failing(arguments, READ_MOST=most)
                for on in (0, 1):
                    for at in range(1, counts.allocations + 1):
                        name = f"{' '.join(arguments)!r}, allocation {at}{' and on' if on else ''}{', byte by byte' * most}"
                        refusing.run(name, plain, arguments, REFUSE=at, REFUSE_ON=on, READ_MOST=most)
        refusing.part(f"{part}, each allocation refused")


def by_chance(rigged, refusing, count, seed):
    """Runs with one allocation of some refused."""
    chance = random.Random(seed)
    runs = [*SCHEMAS, *ONE_FILE, *TWO_FILES, *WORDS, *LONGER * 10, *TEXTS]
    plain = {}
    refused = 0
    for _ in range(count):
        arguments = chance.choice(runs)
        key = tuple(arguments)
        if key not in plain:
            plain[key] = rigged.answer(arguments)
        given = {"REFUSE_SEED": chance.randrange(1, 2**40), "REFUSE_ONE_IN": chance.choice([20, 100, 400, 1000, 3000])}
        refused += refusing.run(f"{' '.join(arguments)!r}, {given}", plain[key], arguments, **given)
    refusing.part(f"allocations refused by chance, seed {seed}, in {refused} runs")


def behind_a_write(rigged, tally):
    """Once a byte is written, no command takes memory: so no answer is cut for want of it."""
    for arguments in [run for runs in PARTS.values() for run in runs] + LONGER:
        plain = rigged.answer(arguments)
        found, counted = rigged.failing(arguments, BEHIND_WRITE=1)
        tally.check(f"{' '.join(arguments)!r}, behind a write", (found, counted.allocations), (plain, 0))
    tally.part("no allocation behind the first write")


def main():
    tally = Tally()
    with Rigged() as rigged:
        write_all(rigged)
        rigged.write("many", MANY)
        rigged.write("many.rising", MANY_RISING)
        rigged.write("several", SEVERAL)
        rigged.write("unknown.exp", UNKNOWN)
        refusing = Refusing(rigged, tally)
        in_turn(rigged, refusing, sys.argv[1:])
        if not sys.argv[1:]:
            by_chance(rigged, refusing, count=4000, seed=3)
            behind_a_write(rigged, tally)
    tally.end()


if __name__ == "__main__":
    main()
