#!/usr/bin/env python3
"""Shows what tests/fuzz.py and tests/numbering.py find: each rule below is turned in a copy of the plain reading, and a case must tell
them apart.

    tests/wrong_readings.py [NUMBER..]     the rules of these numbers, or all

Prints for each rule the number of the case at which the program and the wrong reading differ. A rule that no case tells
apart is named, and the status is 1. The environment variable P21 names the program.
"""

import os
import pathlib
import re
import shutil
import subprocess
import sys
import tempfile

ROOT = pathlib.Path(__file__).resolve().parent.parent
MOST_CASES = 20_000
SEED = "1"

# The rule that is turned, the module, the text that stands in it once, and what it becomes.
RULES = [
    ("byte 7F is no separator", "tokens", 'SEPARATORS = bytes(range(0x21)) + b"\\x7f"', "SEPARATORS = bytes(range(0x21))"),
    ("hex digits may be small", "tokens", 'HEX_DIGITS = b"0123456789ABCDEF"', 'HEX_DIGITS = b"0123456789ABCDEFabcdef"'),
    ("a name may be 2^64", "tokens", "GREATEST_NAME = 2**64 - 1", "GREATEST_NAME = 2**64"),
    ("a control byte in a string is refused", "tokens", "        if byte in IGNORED:", "        if byte in b'':"),
    ("`\\PB\\` is a directive", "tokens", 'in_directive(front, b"A")', 'in_directive(front, b"AB")'),
    ("a low surrogate stands alone", "tokens", "if (0xDC00 <= unit < 0xE000) != (high is not None):", "if high is not None and not 0xDC00 <= unit < 0xE000:"),
    ("bits at the left may be one", "tokens", "int(digits, 16) >> (4 - int(padding))", "False"),
    ("zero has a sign", "scalars", 'return ("whole", "0")', 'return ("whole", "-0" if sign == "-" else "0")'),
    ("an exponent may be 10,000", "scalars", "if not -9999 <= exponent <= 9999:", "if not -9999 <= exponent <= 10000:"),
    ("a written exponent may have ten digits", "scalars", "if len(exponent_digits) > 9:", "if len(exponent_digits) > 10:"),
    ("zeros behind the digits stay", "scalars", 'significant.rstrip("0")', "significant"),
    ("a tilde has a directive", "scalars", 'if " " <= character <= "~":', 'if " " <= character <= "}":'),
    ("lists are 65 deep", "grammar", "DEEPEST = 64", "DEEPEST = 65"),
    ("a header has two records", "grammar", "if place < 3:", "if place < 2:"),
    ("a record of FILE_SCHEMA may stand twice", "grammar", "return part.key not in FIRST_KEYS", "return part.key not in FIRST_KEYS[:2]"),
    ("remarks aren't nested", "lexemes", "            depth += 1\n", "            depth = 1\n"),
    ("a bound may be 2^32", "declarations", "GREATEST = 4_294_967_295", "GREATEST = 4_294_967_296"),
    ("supertypes stand in the order of their declarations", "schema", "for supertype in self.entities[name].supertypes:", "for supertype in sorted(self.entities[name].supertypes):"),
    ("ONEOF lists say nothing", "schema", "return any(sum(e in entities for e in names) > 1 for names in self.one_of)", "return False"),
    ("an array has one element less", "records", "(high - low + 1, high - low + 1)", "(high - low, high - low)"),
    ("a set may hold a value twice", "records", 'if (unique or word == "SET") and', "if unique and"),
    ("a bag counts nothing", "records", 'return ("bag", frozenset(Counter(values).items()))', 'return ("bag", frozenset((x, 1) for x in values))'),
    ("FIXED says nothing", "records", "if length > most or (fixed and length != most):", "if length > most:"),
    ("parts may be missing", "records", "if not internal and entities != set(keys):", "if False:"),
    ("a reference serves anywhere", "records", "return not need.wanted.isdisjoint(entities)", "return True"),
    ("names of instances differ in each section alone", "files", "if statement.name in self.meaning.instances:", "if statement.name in self.meaning.instances and self.meaning.instances[statement.name][0] == self.section:"),
    ("the name of the schema counts its case", "files", "[0].upper() == schema.name", "[0] == schema.name"),
    ("the elements of a set fall", "canonical", "return joined(sorted(value(x, names) for x in elements))", "return joined(sorted((value(x, names) for x in elements), reverse=True))"),
    ("sections rise without their apostrophes", "canonical", 'key=lambda x: "" if x is None else section_name(x)', 'key=lambda x: "" if x is None else section_name(x)[1:-1]'),
    ("parts stand in any order", "canonical", "for e in sorted(meaning.entities)\n    )", "for e in meaning.entities\n    )"),
]
# Those of the rules by which names of instances don't count, which tests/numbering.py tells apart.
RULES_OF_NUMBERS = [
    ("a place counts the elements of a list from 0", "numbering", "enumerate(elements, 1)", "enumerate(elements, 0)"),
    ("it counts how often an element is in a bag", "numbering", "for element, _ in counted:\n                yield from (((0, *way)", "for element, often in counted:\n                yield from (((often, *way)"),
    ("the name of a section says nothing", "numbering", "[section.name, section.schema_text]", "[section.schema_text]"),
    ("users come before what is used", "numbering", "return [side, *(step + 1", "return [1 - side, *(step + 1"),
    ("no 0 stands behind a place", "numbering", "for step in place), 0, rank]", "for step in place), rank]"),
    ("only what is used counts", "numbering", "        if use.user in fresh:", "        if False:"),
    ("all are always fresh, to the end", "numbering", "    return {name for name in rank if rank[name] not in left_out}", "    return set(rank) if rank != before else set()"),
    ("of several largest parts the last is left out", "numbering", "(-sizes[part], part)", "(-sizes[part], -part)"),
    ("the smallest part is left out", "numbering", "(-sizes[part], part)", "(sizes[part], part)"),
    ("ranks are counted without gaps", "numbering", "for position, name in enumerate(sorted(keys, key=keys.__getitem__)):\n        below.setdefault(key_of(keys[name]), position)", "for name in sorted(keys, key=keys.__getitem__):\n        below.setdefault(key_of(keys[name]), len(below))"),
    ("instances of one rank may say what they like", "numbering", "if first[1:] != other[1:]:", "if False:"),
    ("references to those that share ranks are free", "numbering", "                if self.shares(target):", "                if False:"),
    ("a set may have some of a rank", "numbering", "self.of_rank[self.rank[element[1]]] <= plain)", "True)"),
    ("no set may have all of a rank", "numbering", "if not (element[0] == \"name\" and self.of_rank[self.rank[element[1]]] <= plain):", "if True:"),
    ("two of a rank may hang together", "numbering", "                if ranks[self.rank[name]] > 1:", "                if False:"),
    ("copies of each rank stand in a sequence of their own", "numbering", "key=lambda name: (self.rank[name], copy[name])", "key=lambda name: (self.rank[name], copy[name] * (-1) ** self.rank[name])"),
    ("numbers are counted from 0", "numbering", "enumerate(order, 1)", "enumerate(order, 0)"),
]


def script(copy, module):
    """The command line of the script that tells a wrong reading of this module apart, and how it names a case."""
    if module == "numbering":
        return [ROOT / "tests/numbering.py", "--seed", SEED], r"^((?:pair|file) \d+) of seed"
    words = [ROOT / "tests/fuzz.py", "--plain", copy, "--seed", SEED, "--cases", str(MOST_CASES), "--keep", copy / "kept"]
    return words, r"difference in (case \d+)"


def found_at(folder, module, old, new):
    """The first case that tells the wrong reading from the program: none where none does."""
    copy = pathlib.Path(folder)
    shutil.copytree(ROOT / "tests/plain", copy / "plain", ignore=shutil.ignore_patterns("__pycache__"))
    path = copy / "plain" / f"{module}.py"
    text = path.read_text()
    if text.count(old) != 1:
        sys.exit(f"{module}.py has this {text.count(old)} times: {old}")
    path.write_text(text.replace(old, new))
    words, case = script(copy, module)
    environment = dict(os.environ, PYTHONDONTWRITEBYTECODE="1", PYTHONHASHSEED="1", P21_PLAIN=str(copy), TMPDIR=folder)
    run = subprocess.run(words, env=environment, capture_output=True, text=True, check=False)
    found = re.search(case, run.stdout, re.M)
    if found is None and run.returncode != 0:
        sys.exit(f"{words[0].name} ended with status {run.returncode}:\n{run.stderr[-2000:]}")
    return found and found[1]


def main():
    rules = RULES + RULES_OF_NUMBERS
    chosen = [int(word) for word in sys.argv[1:]] or range(1, len(rules) + 1)
    missed = 0
    for number in chosen:
        title, module, old, new = rules[number - 1]
        with tempfile.TemporaryDirectory() as folder:
            case = found_at(folder, module, old, new)
        missed += case is None
        print(f"{number} {title}: {case or 'NOT FOUND'}", flush=True)
    print(f"{len(chosen)} wrong readings, {missed} not found")
    sys.exit(missed > 0)


if __name__ == "__main__":
    main()
