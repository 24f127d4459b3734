#!/usr/bin/env python3
"""What `p21 check --all` and `p21 syntax --all` list of files with broken statements, behind which the reading goes on.

First come files by hand, each with the list that it has and the place of each refusal; each read of theirs fails in turn too. Then files as
careless exporters write them, each with one habit at several places: each place is listed, and nothing else. Last come files that are made
by chance, with two or more broken statements, which are read whole and in pieces, against the plain reading in tests/plain. The first
refusal of each list is the one that `p21 check` answers, with the same place; so it is of the file of each refusal in docs/FAULTS.md.
What each of these files says by itself, without a schema, is listed as the plain reading lists it, and first what `p21 syntax` answers.

In a text `~20~` says that a refusal of this number stands at the byte behind the mark, and `~|~` that the statement begins there whose
refusal ends the list; the marks are taken out again. The environment variable P21 names the program.
"""

import argparse
import collections
import json
import pathlib
import random
import re
import sys

ROOT = pathlib.Path(__file__).resolve().parent.parent
sys.path[:0] = [str(ROOT / "tests"), str(ROOT / "tests" / "hostile")]
import going_on_rows  # noqa: E402
import texts  # noqa: E402
import two_ways  # noqa: E402
from fuzzing import made_files, mutate, rows  # noqa: E402
from plain import commands  # noqa: E402
from plain.schema import read_schema  # noqa: E402
from plain.survey import Survey  # noqa: E402
from rigged import Answer, Rigged, Tally  # noqa: E402

SCHEMA, FILE = "schema.exp", "file.step"
MARK = re.compile(rb"~(\d\d?|\|)~")
# How many bytes a read gives, beside all that there are.
SIZES = (1, 2, 3, 5, 7, 13, 64, 251)
FEW = 13


def arguments():
    """The command line."""
    parser = argparse.ArgumentParser(description=__doc__, formatter_class=argparse.RawDescriptionHelpFormatter)
    parser.add_argument("--cases", type=int, default=1_000, help="how many files are made by chance")
    parser.add_argument("--seed", default="1", help="any text")
    parser.add_argument("--only", type=int, default=None, help="run this made file alone")
    return parser.parse_args()


def unmarked(text):
    """A text without its marks; the numbers with their places; and where the statement begins that ends the list."""
    places, end, taken = [], None, 0
    for mark in MARK.finditer(text):
        place = mark.start() - taken
        taken += len(mark[0])
        if mark[1] == b"|":
            end = place
        else:
            places.append((int(mark[1]), place))
    return MARK.sub(b"", text), places, end


def count_line(count, end, most=False):
    """The line that counts the refusals."""
    return f"refusals {count}" + ("" if end is None else f", read {end} bytes") + (", no more were looked for" if most else "")


def refused(*lines):
    """The answer that a file is refused, with these lines."""
    return Answer(1, b"", "".join(f"{line}\n" for line in lines).encode())


def told(line):
    """A refusal by its line, without its place: what an object of `--format jsonl` says of it."""
    number, name, *_, place = re.fullmatch(r"refused (\d+) (\S+) (at statement |in #)(\d+)", line).groups()
    return int(number), name, int(place)


def told_by(row):
    """The same of an object."""
    return row["number"], row["name"], row.get("statement", row.get("instance"))


def places_told(objects):
    """The numbers of refusals with their places, by the objects of a list; -1 for one that has none."""
    return sorted((row["number"], row.get("byte", -1)) for row in objects[:-1])


class Files:
    """Runs the program on one file after the other."""

    def __init__(self, rigged, tally):
        self.rigged = rigged
        self.tally = tally

    def objects(self, *options):
        """The objects that list the refusals of the file that was written last, and the last one, of their end."""
        found = self.rigged.answer(["check", "--all", "--format", "jsonl", *options, SCHEMA, FILE])
        return [json.loads(line) for line in found.error.splitlines()]

    def passed_over(self, name, text, objects):
        """The statements that were passed over are those of the plain reading: each begins and ends there."""
        survey = Survey(read_schema((self.rigged.folder / SCHEMA).read_bytes()), None)
        survey.read(text)
        self.tally.check(f"{name}, passed over", [row["passed"] for row in objects if "passed" in row], survey.stretches)

    def use(self, schema):
        """The files behind are of this schema."""
        self.rigged.write(SCHEMA, schema)

    def check(self, name, text, lines, sizes=SIZES):
        """The list of a file, whole and in pieces. Its first line is the answer of `check`."""
        self.rigged.write(FILE, text)
        answer = refused(*lines)
        self.tally.check(name, self.rigged.answer(["check", "--all", SCHEMA, FILE]), answer)
        for size in sizes:
            found = self.rigged.failing(["check", "--all", SCHEMA, FILE], READ_MOST=size)[0]
            self.tally.check(f"{name}, by {size} bytes", found, answer)
        self.tally.check(f"{name}, the first", self.rigged.answer(["check", SCHEMA, FILE]), refused(lines[0]))
        self.alone(name, text, sizes)

    def alone(self, name, text, sizes=(), most=None):
        """The list of the file that was written last by itself, whole and in pieces. Its first line is the answer of `syntax`."""
        output, error, status = commands.syntax_all(text, most)
        wanted = Answer(status, output.encode(), error.encode())
        words = ["syntax", "--all", *(["--most", str(most)] if most else []), FILE]
        self.tally.check(f"{name}, by itself", self.rigged.answer(words), wanted)
        for size in sizes:
            self.tally.check(f"{name}, by itself by {size} bytes", self.rigged.failing(words, READ_MOST=size)[0], wanted)
        first = wanted._replace(error=b"".join(wanted.error.splitlines(True)[:1]))
        self.tally.check(f"{name}, the first by itself", self.rigged.answer(["syntax", FILE]), first)

    def most(self, name, lines):
        """The first refusals of each number of the file that was written last."""
        for count in range(1, len(lines) - 1):
            words = ["check", "--most", str(count), SCHEMA, FILE]
            self.tally.check(f"{name}, {count} of them", self.rigged.answer(words), refused(*lines[:count], count_line(count, None, True)))

    def places(self, name, text, lines, places, end):
        """The places of the refusals of the file that was written last, and what is said of its end."""
        objects = self.objects()
        count = len(lines) - 1
        last = {"refusals": count, "extent": "whole"} if end is None else {"refusals": count, "extent": "part", "read": end}
        self.tally.check(f"{name}, the end", objects[-1:], [last])
        self.tally.check(f"{name}, as JSON", [told_by(row) for row in objects[:-1]], [told(line) for line in lines[:-1]])
        self.tally.check(f"{name}, places", places_told(objects), sorted(places))
        self.passed_over(name, text, objects)
        self.first_place(name, objects[:1])

    def places_alone(self, name, places, end):
        """By itself, where bytes, tokens and grammar alone are judged, the refusals of the file that was written last have these places."""
        found = self.rigged.answer(["syntax", "--all", "--format", "jsonl", FILE])
        objects = [json.loads(line) for line in found.error.splitlines()]
        self.tally.check(f"{name}, places by itself", places_told(objects), sorted(places))
        self.tally.check(f"{name}, the end by itself", objects[-1].get("read"), end)

    def first_place(self, name, objects):
        """The first refusal stands where `check` says, at the same value. The entity of a part isn't found where a statement in a string in
        front of it is read; and `check` passes over nothing."""
        first = self.rigged.answer(["check", "--format", "jsonl", SCHEMA, FILE])
        found, listed = (json.loads(first.error or "null"), *({**row} for row in objects), None)[:2]
        if listed:
            listed.pop("passed", None)
        if found and listed and "entity" not in listed and "attribute" not in found:
            found.pop("entity", None)
        self.tally.check(f"{name}, the first place", found, listed)


def try_rows(files):
    """The rows by hand."""
    files.use(going_on_rows.SCHEMA)
    for name, marked, lines in going_on_rows.ROWS:
        text, places, end = unmarked(going_on_rows.file_of(marked))
        listed = [f"refused {line}" for line in lines]
        listed.append(count_line(len(listed), end))
        files.check(name, text, listed)
        if end is None:
            files.most(name, listed)
        files.places(name, text, listed, places, end)


def try_failing_reads(files):
    """Each row by reads of a few bytes, of which each fails in turn: what was found before is listed."""
    files.use(going_on_rows.SCHEMA)
    before = files.rigged.failing(["schema", SCHEMA], READ_MOST=FEW)[1].reads
    words = ["check", "--all", SCHEMA, FILE]
    for name, marked, _ in going_on_rows.ROWS:
        text = unmarked(going_on_rows.file_of(marked))[0]
        files.rigged.write(FILE, text)
        for read in range(5, -(-len(text) // FEW) + 1):
            output, error, status = commands.check_all(going_on_rows.SCHEMA, text[: read * FEW], None, True)
            found = files.rigged.failing(words, READ_MOST=FEW, READ_FAILS=before + read + 1)[0]
            found = found._replace(error=found.error.partition(b"note: ")[0])
            files.tally.check(f"{name}, a read fails behind {read}", found, Answer(status, output.encode(), error.encode()))
            output, error, status = commands.syntax_all(text[: read * FEW], None, True)
            found = files.rigged.failing(["syntax", "--all", FILE], READ_MOST=FEW, READ_FAILS=read + 1)[0]
            found = found._replace(error=found.error.partition(b"note: ")[0])
            files.tally.check(f"{name}, a read fails by itself behind {read}", found, Answer(status, output.encode(), error.encode()))
    files.tally.part("rows by hand, whose reads fail")


def try_habits(files):
    """The files with one habit each, several times. What is listed of records and references names an instance, the rest its statement."""
    files.use((ROOT / "examples" / "product.exp").read_bytes())
    count = places_of_all = 0
    for name, marked in going_on_rows.broken_files():
        text, places, end = unmarked(marked)
        files.rigged.write(FILE, text)
        objects = files.objects()
        files.tally.check(name, places_told(objects), sorted(places))
        files.tally.check(f"{name}, the end", objects[-1].get("read"), end)
        files.passed_over(name, text, objects)
        files.first_place(name, objects[:1])
        files.places_alone(name, places, end)
        plain = commands.check_all(files.rigged.folder.joinpath(SCHEMA).read_bytes(), text)
        files.check(name, text, plain[1].splitlines(), sizes=(1, 100))
        count, places_of_all = count + 1, places_of_all + len(places)
    files.tally.part("files with one habit each", f", {count} files with {places_of_all} places")


def try_faults(files):
    """The file of each refusal in docs/FAULTS.md, and those of examples/refused: the first of all is the one that `check` answers."""
    example = (ROOT / "examples" / "product.exp").read_bytes()
    of_files = [words for _, words, _ in texts.faults(files.rigged.folder) if words[0] == "check" and "--names" not in words]
    found = [(pathlib.Path(words[1]).read_bytes(), (ROOT / words[2]).read_bytes()) for words in of_files]
    found += [(example, path.read_bytes()) for path in sorted((ROOT / "examples" / "refused").glob("*.step"))]
    for schema, text in found:
        files.rigged.write(SCHEMA, schema)
        files.rigged.write(FILE, text)
        files.first_place(repr(text[-80:]), files.objects()[:1])
        plain = commands.check_all(schema, text)
        files.tally.check(repr(text[-80:]), files.rigged.answer(["check", "--all", SCHEMA, FILE]), Answer(1, b"", plain[1].encode()))
    files.tally.part("files of each refusal", f", {len(found)} files")


# How a statement is broken: what stands in the place of what is found in it.
BREAKS = [
    (rb";$", b""), (rb"\);$", b";"), (rb"\);$", b")"), (rb"\);$", b""), (rb"\(", b"(("), (rb"\)", b"))"), (rb"'", b""), (rb"'", b"'''"),
    (rb"'", b"' /* "), (rb"=", b""), (rb"=", b" "), (rb"=", b"=="), (rb",", b";"), (rb",", b"=,"), (rb";$", b";;"),
    (rb"[A-Z]+\(", b"point("), (rb"[0-9]\.", b"nan"), (rb"[0-9]", b"1,5"), (rb"'", b"'\xe9"), (rb"'", b"'\\u00e9"), (rb"'", b"'\\X2\\D8"),
    (rb"#", b"#x"), (rb"#", b""), (rb"#", b"##"), (rb"\n", b"\r"), (rb"\n", b""), (rb";\n", b";"), (rb"$", b"/*"), (rb"$", b" */"),
    (rb"^", b"ENDSEC"), (rb"^", b"ENDSEC;\n"), (rb"^", b"END-ISO-10303-21;\n"), (rb"^", b"ISO-10303-21;\n"),
    (rb"[0-9]+", b"99999999999999999999"), (rb"\(", b"(1.E99999,"), (rb"\(", b'("4",'), (rb"\(", b"(!A(1),"), (rb"=", b"=&SCOPE\n"),
    (rb"'", b"';\n#7='"), (rb"'", b"')\nENDSEC ;"), (rb"\(", b"(\x00"), (rb"\(", b"(@1,"), (rb"^", b"\n\n /* a */ "),
    (rb"\)", b",A(B(C(1))))"), (rb"=", b" /* a */ ="), (rb"\(", b"(-"),
]  # fmt: skip


def broken_statements(chance, text):
    """A file with two to eight broken statements, or more, by the table or by other changes of a statement: mostly of instances."""
    first = re.search(rb"\n#[0-9]", text)
    front = text[: first.start()] if first else b""
    statements = re.split(rb"(?<=;)", text[len(front) :])
    for _ in range(chance.choice([2, 2, 3, 4, 6, 8])):
        at = chance.randrange(len(statements) if chance.random() < 0.1 else max(len(statements) - 3, 1))
        found, by = chance.choice(BREAKS)
        places = list(re.finditer(found, statements[at]))
        if chance.random() < 0.2 or not places:
            statements[at] = mutate.bytes_of(chance, statements[at])
        else:
            place = chance.choice(places)
            statements[at] = statements[at][: place.start()] + by + statements[at][place.end() :]
    broken = front + b"".join(statements)
    if chance.random() < 0.05:
        broken = mutate.bytes_of(chance, broken)
    if chance.random() < 0.05:
        broken = broken[: chance.randrange(len(broken))]
    if chance.random() < 0.05:
        broken += text
    return broken


def made(chance):
    """A schema text, and a file with broken statements."""
    text = chance.choice([*rows.SCHEMAS, rows.KINDS, rows.KINDS, two_ways.EVERY])
    schema = read_schema(text.encode())
    odd, kind = chance.choice([0, 0, 0.001, 0.02]), chance.random()
    if kind < 0.2 and schema.name in rows.INSTANCES:
        file = made_files.frame(chance, schema.name)
    elif kind < 0.4:
        file = made_files.File(chance, schema, odd).write(chance)
    else:
        file = two_ways.File(chance, text, odd, chance.choice([5, 10, 20, 60]), chance.choice([0, 0.02, 0.2, 1])).write(chance)
    return text.encode(), broken_statements(chance, file)


def try_made(files, given):
    """Files that are made by chance, whole and in pieces, against the plain reading."""
    counts = collections.Counter()
    for number in [given.only] if given.only is not None else range(given.cases):
        chance = random.Random(f"{given.seed} {number}")
        schema, text = made(chance)
        files.rigged.write(SCHEMA, schema)
        files.rigged.write(FILE, text)
        options = ["--most", str(chance.choice([1, 2, 3, 5]))] if chance.random() < 0.2 else []
        output, error, status = commands.check_all(schema, text, *map(int, options[1:]))
        wanted = Answer(status, output.encode(), error.encode())
        words = ["check", "--all", *options, SCHEMA, FILE]
        name = f"made file {number} of seed {given.seed}"
        files.tally.check(name, files.rigged.answer(words), wanted)
        sizes = chance.sample(SIZES, 2)
        for size in sizes:
            files.tally.check(f"{name}, by {size} bytes", files.rigged.failing(words, READ_MOST=size)[0], wanted)
        files.alone(name, text, sizes, *map(int, options[1:]))
        objects = files.objects(*options)
        if not options:
            files.passed_over(name, text, objects)
        files.first_place(name, objects[:1])
        count(counts, error)
        if given.only is not None:
            print(text, error, sep="\n")
    shown = ", ".join(f"{name} {number}" for name, number in sorted(counts.items()))
    files.tally.part("made files", f"\n  {shown}")


def count(counts, error):
    """Counts how many files have so many refusals of bytes, tokens or the grammar, and how their lists end."""
    broken = len(re.findall(r"at statement", error))
    counts[f"broken {min(broken, 4)}{'+' if broken > 3 else ''}"] += 1
    last = error.splitlines()[-1:]
    counts["ended" if last and ", read" in last[0] else "no more" if last and "no more" in last[0] else "whole"] += 1


def main():
    """Runs all of it."""
    given = arguments()
    tally = Tally()
    with Rigged() as rigged:
        files = Files(rigged, tally)
        if given.only is None:
            try_rows(files)
            tally.part("rows by hand", f", {len(going_on_rows.ROWS)} rows")
            try_failing_reads(files)
            try_habits(files)
            try_faults(files)
        try_made(files, given)
    tally.end()


if __name__ == "__main__":
    main()
