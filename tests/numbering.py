#!/usr/bin/env python3
"""Holds what the program says where names of instances don't count (`--names` of `canon`, `same` and `check`) against three other things:

- all renamings of small files: pairs of graphs of at most six instances, one renamed, changed, rewired, or another one. `same` and
  `different` have to be as it is tried, renaming by renaming, and 59 stands where it isn't decided;
- the plain reading (tests/plain), which follows docs/CANONICAL.md: the same answers about these pairs, and about files of all kinds
  of schemas that are made by chance, right or broken;
- itself: a file with other names and another order has the same bytes, from a file and from a pipe in pieces, and one with another
  value or reference has others.

    tests/numbering.py [--pairs N] [--files N] [--seed TEXT] [--only NUMBER] [SCHEMA FILE..]

By default it tries so many pairs and files as take some three minutes; `--pairs 8000 --files 10000` is the whole number. A pair or a file
is fixed by the seed and its number: `--only NUMBER` runs one of each alone. Real FILEs of one SCHEMA are given other names and another
order too, and those of examples always. `--alone` tries the plain reading alone, without the program. P21 names another program than
./p21, and P21_PLAIN another folder that holds the plain reading.
"""

import argparse
import collections
import functools
import os
import pathlib
import random
import re
import shutil
import subprocess
import sys
import tempfile
import time

ROOT = pathlib.Path(__file__).resolve().parent.parent
sys.path.insert(0, str(ROOT / "tests"))

import fuzz  # noqa: E402
from fuzzing import made_files, mutate, small_graphs  # noqa: E402

sys.path.insert(0, os.environ.get("P21_PLAIN", str(ROOT / "tests")))
from plain import commands, numbering  # noqa: E402
from plain.files import read_file  # noqa: E402
from plain.refusal import RefusedFile  # noqa: E402
from renaming import names_in, renumbered, shuffled  # noqa: E402

read_schema = functools.lru_cache(maxsize=400)(commands.read_schema)
commands.read_schema = read_schema
ALIKE = re.compile(r"refused 59 Alike in #([0-9]+)")
MOST = 6
REAL = re.compile(rb"[-+]?\d+\.\d*(?:E[-+]?\d+)?")
SAME, DIFFERENT = ("same\n", "", 0), ("different\n", "", 1)


def arguments():
    """The command line."""
    parser = argparse.ArgumentParser(description=__doc__, formatter_class=argparse.RawDescriptionHelpFormatter)
    parser.add_argument("--pairs", type=int, default=1_500, help="how many pairs of small files")
    parser.add_argument("--files", type=int, default=1_500, help="how many files of any schema")
    parser.add_argument("--seed", default="1", help="any text")
    parser.add_argument("--only", type=int, default=None, help="run this pair and this file alone")
    parser.add_argument("--alone", action="store_true", help="try the plain reading alone")
    parser.add_argument("paths", nargs="*", type=pathlib.Path, help="a schema and files of it")
    return parser.parse_args()


class Different(Exception):
    """Two answers differ."""


class Tests:
    """The answers of the program and of the plain reading, and how often each kind of answer came."""

    def __init__(self, program, folder):
        self.program = program
        self.folder = folder
        self.counts = collections.Counter()

    def answer(self, command, *texts):
        """What the program answers, as far as the rules say it: which instance 59 names is left open, but it has to share its rank. The
        plain reading says the same."""
        plain = getattr(commands, command)(*texts)
        found = self.program.answer(command, texts, []) if self.program else plain
        if ALIKE.sub("59", found[1]) != ALIKE.sub("59", plain[1]) or found[::2] != plain[::2]:
            raise Different(f"{command}: the program {found!r}, the plain reading {plain!r}", texts)
        alike = ALIKE.search(found[1])
        if alike:
            self.is_alike(texts, int(alike[1]))
        self.counts[outcome(found)] += 1
        return found[0], ALIKE.sub("59", found[1]), found[2]

    def is_alike(self, texts, name):
        """An instance of the first file shares its rank."""
        schema = read_schema(texts[0])
        rank = numbering.Numbering(schema, read_file(schema, texts[1])).rank
        self.judge(f"#{name} shares its rank", texts, list(rank.values()).count(rank.get(name)) > 1)

    def judge(self, name, texts, right):
        """One condition that has to hold."""
        if not right:
            raise Different(name, texts)


def outcome(answer):
    """The kind of an answer."""
    if ALIKE.search(answer[1]):
        return "59"
    if answer[1]:
        return "refused"
    return {"same\n": "same", "different\n": "different"}.get(answer[0], "accepted" if answer[0][:1] == "a" else "numbered")


# Small files


def pair(chance):
    """Two small files."""
    first = small_graphs.graph(chance, MOST - 1)
    again = small_graphs.shuffled(chance, first)
    match chance.randrange(8):
        case 0 | 1 | 2:
            second = again
        case 3 | 4:
            second = small_graphs.changed(chance, again)
        case 5 | 6:
            second = small_graphs.rewired(chance, again)
        case _:
            second = small_graphs.graph(chance, MOST - 1)
    return first, second


def try_pair(tests, chance):
    """Two small files are the same exactly where a renaming makes one the other, or 59 is said of them; and a numbered file is the
    same for both, or 59 for both."""
    first, second = pair(chance)
    texts = [small_graphs.SCHEMA, small_graphs.text(chance, first), small_graphs.text(chance, second)]
    said = tests.answer("same_names", *texts)
    are_same = small_graphs.are_same(first, second)
    allowed = [SAME if are_same else DIFFERENT, ("", "first: 59\n", 1)]
    tests.judge(f"same --names: {said}, and a renaming {'exists' if are_same else 'does not exist'}", texts, said in allowed)
    numbered = [tests.answer("canon_names", texts[0], text) for text in texts[1:]]
    checked = tests.answer("check_names", *texts[:2])
    tests.judge("check --names beside canon --names", texts, checked[1:] == numbered[0][1:])
    tests.judge("the numbered files of two that are the same", texts, not are_same or numbered[0] == numbered[1])
    tests.judge("the numbered files of two that aren't", texts, are_same or numbered[0] != numbered[1] or numbered[0][1] == "59\n")
    if numbered[0][2] == 0:
        again = tests.answer("canon_names", texts[0], numbered[0][0].encode())
        tests.judge("the numbered file of a numbered file", texts, again == numbered[0])


# Files of any schema


class Made(fuzz.Cases):
    """Schemas and files that are made by chance, most of them right. They are written twice, with other names the second time."""

    def spellings(self, chance):
        """A schema, and two spellings of one file of it."""
        text, schema = self.schema_of_file(chance)
        found = made_files.File(chance, schema, chance.choice([0, 0, 0, 0, 0, 0.02]))
        if chance.random() < 0.4:
            add_copies(found)
        return text, found.write(chance), with_other_names(chance, found.write(chance))


def add_copies(found):
    """Puts each instance of a file there a second time, in the same section; references within the copies lead to copies."""
    new = dict(zip(found.sets, range(2**40, 2**41)))
    for name, again in new.items():
        found.sets[again] = found.sets[name]
        found.section_of[again] = found.section_of[name]
        found.values[again] = {place: led_to(value, new) for place, value in found.values[name].items()}


def led_to(value, names):
    """A value whose references lead to other names, where these have them."""
    if isinstance(value, list):
        return [led_to(x, names) for x in value]
    if isinstance(value, tuple) and value[0] == "name":
        return ("name", names.get(value[1], value[1]))
    return tuple(led_to(x, names) for x in value) if isinstance(value, tuple) else value


def with_other_names(chance, text):
    """A text whose instances have other names, where they all fit."""
    old = [name for name in names_in(text) if name < 2**64]
    new = chance.sample(range(chance.choice((1, 1, 2**62)), 2**63), len(old))
    names = collections.defaultdict(lambda: 2**64, zip(old, new))
    return renumbered(text, names)


def try_file(tests, made, chance):
    """A file that is accepted has the same bytes under other names, and where it is changed what the plain reading says."""
    schema, text, other = made.spellings(chance)
    numbered = tests.answer("canon_names", schema, text)
    again = tests.answer("canon_names", schema, other)
    if all(commands.canon(schema, found)[2] == 0 for found in (text, other)):
        tests.judge("the numbered file under other names", (schema, text, other), numbered == again)
        said = tests.answer("same_names", schema, text, other)
        is_same = commands.same(schema, text, other) == SAME
        wanted = SAME if numbered[2] == 0 or is_same else ("", "first: 59\n", 1)
        tests.judge(f"same --names under other names: {said}", (schema, text, other), said == wanted)
    mutated = mutate.inside(chance, other)
    tests.answer("same_names", schema, text, mutated)
    tests.answer("canon_names", schema, mutated)


# Real files


def try_real(tests, schema, path, seed):
    """A file has the same bytes under other names and in another order, by a pipe in pieces too; with another value or with another
    reference it has others."""
    chance = random.Random(f"{seed} {path}")
    text, listing = path.read_bytes(), schema.read_bytes()
    other = shuffled(text, chance.randrange(2**30))[0]
    numbered = tests.answer("canon_names", listing, text)
    tests.judge("accepted", (listing, text), numbered[2] == 0)
    tests.judge("the numbered file under other names", (listing, text, other), tests.answer("canon_names", listing, other) == numbered)
    tests.judge("by a pipe", (listing, other), tests.program is None or piped(tests, listing, other, chance) == numbered)
    tests.judge("same --names", (listing, text, other), tests.answer("same_names", listing, text, other) == SAME)
    tests.judge("its own", (listing, text), tests.answer("canon_names", listing, numbered[0].encode()) == numbered)
    for name, change in (("another value", another_value), ("another reference", another_reference)):
        changed = change(chance, listing, other)
        tests.judge(name, (listing, text, changed), tests.answer("canon_names", listing, changed)[:2] != numbered[:2])
        tests.judge(name, (listing, text, changed), tests.answer("same_names", listing, text, changed) == DIFFERENT)


def another_value(chance, schema, text):
    """An accepted text with another real behind its header."""
    behind = text.index(b"DATA;")
    places = [found for found in REAL.finditer(text, behind) if b"'" not in text[found.start() - 1 : found.start()]]
    while True:
        found = chance.choice(places)
        changed = text[: found.start()] + b"12345.678" + text[found.end() :]
        if commands.canon(schema, changed)[2] == 0:
            return changed


def another_reference(chance, schema, text):
    """An accepted text where one reference leads to another instance, which is told apart from the first one."""
    found = read_schema(schema)
    rank = numbering.Numbering(found, read_file(found, text)).rank
    places = [x for x in re.finditer(rb"(?<=[(,])#(\d+)", text) if int(x[1]) in rank]
    while True:
        place, new = chance.choice(places), chance.choice(list(rank))
        changed = text[: place.start()] + b"#%d" % new + text[place.end() :]
        if rank[new] != rank[int(place[1])] and is_another(found, text, changed):
            return changed


def is_another(schema, text, changed):
    """Is the changed text accepted, and has it another meaning?"""
    try:
        return read_file(schema, changed) != read_file(schema, text)
    except RefusedFile:
        return False


def piped(tests, schema, text, chance):
    """What the program answers where a pipe gives it the file in pieces."""
    path = tests.program.file("schema.exp", schema)
    command = [tests.program.path, "canon", "--names", path, "-"]
    with subprocess.Popen(command, stdin=subprocess.PIPE, stdout=subprocess.PIPE, stderr=subprocess.PIPE, bufsize=0) as run:
        at = 0
        while at < len(text):
            size = chance.choice((1, 7, 100, 4096, 5000))
            run.stdin.write(text[at : at + size])
            at += size
        output, error = run.communicate()
    return output.decode(), ALIKE.sub("59", error.decode()), run.returncode


def kept(texts):
    """Keeps the texts of a difference, and names them."""
    folder = pathlib.Path(tempfile.mkdtemp(prefix="numbering-"))
    for number, text in enumerate(texts):
        (folder / ("schema.exp" if number == 0 else f"{number}.step")).write_bytes(text)
    return folder


def cases(given, tests):
    """What is tried, each with its name, its random numbers, and what is done with them."""
    made = Made(commands)
    numbers = {"pair": given.pairs, "file": given.files}
    for kind, run in (("pair", try_pair), ("file", lambda tests, chance: try_file(tests, made, chance))):
        for number in range(numbers[kind]) if given.only is None else [given.only]:
            yield f"{kind} {number} of seed {given.seed}", run, random.Random(f"{kind} {given.seed} {number}")
    examples = ROOT / "examples"
    real = [(examples / "product.exp", path) for path in sorted(examples.glob("*.step"))]
    real += [(given.paths[0], path) for path in given.paths[1:]]
    for schema, path in real:
        yield str(path), lambda tests, _, schema=schema, path=path: try_real(tests, schema, path, given.seed), None


def told(tests, kind, count, begun):
    """A line about all cases of one kind."""
    said = ", ".join(f"{name} {often}" for name, often in sorted(tests.counts.items()))
    print(f"{kind}: {count} tried, {time.monotonic() - begun:.0f} s; answers {said}", flush=True)
    tests.counts.clear()


def run(given, tests):
    """Runs the cases, and answers how many differ: none, or one, at which it stops."""
    kind, count, begun = "pair", 0, time.monotonic()
    for name, case, chance in cases(given, tests):
        if name.split()[0] != kind and count and kind in ("pair", "file"):
            told(tests, kind, count, begun)
            count, begun = 0, time.monotonic()
        kind = name.split()[0]
        count += 1
        try:
            case(tests, chance)
        except Different as difference:
            print(f"{name}: {difference.args[0]}\nkept in {kept(difference.args[1])}")
            return 1
    told(tests, "real files", count, begun)
    return 0


def main():
    given = arguments()
    folder = pathlib.Path(tempfile.mkdtemp(prefix="numbering-", dir="/dev/shm" if os.path.isdir("/dev/shm") else None))
    try:
        program = None if given.alone else fuzz.Program(os.environ.get("P21", str(ROOT / "p21")), folder)
        failed = run(given, Tests(program, folder))
    finally:
        shutil.rmtree(folder)
    print(f"{failed} failed")
    return failed


if __name__ == "__main__":
    sys.exit(main())
