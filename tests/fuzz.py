#!/usr/bin/env python3
"""Holds two readings of the same texts against one another: the program, and the plain one in tests/plain.

Each case is one run of one command on texts that are made by chance, from rows, by rules, and by changes of both. What
both write and the status must be equal, and the first of all refusals the one that `check` answers. A case is fixed by the seed and its number: `--only NUMBER` runs one alone. The
status is 1 where the readings differ; the texts of the first such case are then kept, and named.
"""

import argparse
import collections
import functools
import os
import pathlib
import random
import re
import secrets
import shutil
import sys
import tempfile
import time

ROOT = pathlib.Path(__file__).resolve().parent.parent


def arguments():
    """The command line."""
    parser = argparse.ArgumentParser(description=__doc__)
    parser.add_argument("--program", default=os.environ.get("P21", str(ROOT / "p21")), help="the program to try")
    parser.add_argument("--plain", default=str(ROOT / "tests"), help="the folder that holds the plain reading")
    parser.add_argument("--seed", default=None, help="any text; by default another one each time, which is printed")
    parser.add_argument("--cases", type=int, default=10_000, help="how many cases")
    parser.add_argument("--first", type=int, default=0, help="the number of the first case")
    parser.add_argument("--only", type=int, default=None, help="run this case alone, and print it")
    parser.add_argument("--kinds", default="param,schema,file,same,all,syntax", help="the kinds of cases")
    parser.add_argument("--keep", default=None, help="where the texts of a difference are kept")
    return parser.parse_args()


class Program:
    """The program, run on files in a folder that is its own."""

    def __init__(self, path, folder):
        self.path = path
        self.folder = folder
        self.streams = [str(folder / "output"), str(folder / "error")]
        flags = os.O_WRONLY | os.O_CREAT | os.O_TRUNC
        self.actions = [(os.POSIX_SPAWN_OPEN, i + 1, path, flags, 0o600) for i, path in enumerate(self.streams)]
        self.written = {}

    def file(self, name, text):
        """The path of a file with this text."""
        path = self.folder / name
        if self.written.get(name) != text:
            path.write_bytes(text)
            self.written[name] = text
        return str(path)

    def answer(self, command, texts, options):
        """What the program writes to both streams, and its status; a signal is a status below 0. What it notes of files behind
        its lines is left out."""
        paths = [self.file(name, text) for name, text in zip(names_of(command), texts)]
        line = [self.path, *WORDS.get(command, [command]), *paths, *options]
        child = os.posix_spawn(self.path, line, os.environ, file_actions=self.actions)
        status = os.waitstatus_to_exitcode(os.waitpid(child, 0)[1])
        output, error = (pathlib.Path(stream).read_bytes().decode("utf-8", "replace") for stream in self.streams)
        return output, NOTE.sub("", error), status


# A line behind those of a command, about a file that it was given.
NOTE = re.compile("^note: .*\n", re.M)
# The words of a command that is not its own word.
WORDS = {
    "check_all": ["check", "--all"],
    "syntax_told": ["syntax", "--header", "--count"],
    "check_names": ["check", "--names"],
    "canon_names": ["canon", "--names"],
    "same_names": ["same", "--names"],
}


def names_of(command):
    """The names of the files that a command takes."""
    return {
        "param": ["parameter.txt"],
        "schema": ["schema.exp"],
        "syntax": ["file.step"],
        "syntax_told": ["file.step"],
        "same": ["schema.exp", "first.step", "second.step"],
        "same_names": ["schema.exp", "first.step", "second.step"],
    }.get(command, ["schema.exp", "file.step"])


class Cases:
    """Makes the cases. `plain` has the commands of the plain reading."""

    def __init__(self, plain):
        self.plain = plain
        self.made = {}

    def case(self, kind, chance):
        """A command, the texts that it takes, and its options."""
        return getattr(self, kind)(chance)

    def param(self, chance):
        """One parameter."""
        if chance.random() < 0.4:
            text = chance.choice(rows.PARAMETERS)
            changes = chance.choice([0, 1, 1, 2])
        else:
            text = (spellings.blank(chance) + spellings.scalar(chance) + spellings.blank(chance)).encode("utf-8")
            changes = chance.choice([0, 0, 1, 1, 2, 3])
        for _ in range(changes):
            text = mutate.bytes_of(chance, text)
        return "param", [text], []

    def schema(self, chance):
        """One schema text."""
        return "schema", [made_schemas.schema_text(chance)], []

    def schema_of_file(self, chance):
        """A schema text that is read, with the plain reading of it."""
        if chance.random() < 0.6:
            text = chance.choice(rows.SCHEMAS).encode("utf-8")
            return text, self.plain.read_schema(text)
        number = chance.randrange(300)
        while number not in self.made:
            text = made_schemas.sound_schema_text(random.Random(f"schema {number} {len(self.made)} {chance.random()}"))
            try:
                self.made[number] = text, self.plain.read_schema(text)
            except self.plain.RefusedSchema:
                continue
        return self.made[number]

    def one_file(self, chance):
        """A schema text, and a file of it as values or, where it is of rows, as text."""
        text, schema = self.schema_of_file(chance)
        if schema.name in rows.INSTANCES and chance.random() < 0.5:
            return text, made_files.frame(chance, schema.name)
        return text, made_files.File(chance, schema, chance.choice([0, 0, 0.02, 0.1]))

    def file(self, chance):
        """A file, changed or not, by one of the commands over one file."""
        schema, found = self.one_file(chance)
        text = found if isinstance(found, bytes) else found.write(chance)
        if chance.random() < 0.5:
            text = mutate.file(chance, text)
        command = chance.choice(["canon"] * 6 + ["check", "check", "show"])
        options = []
        if command == "show":
            names = [int(x) for x in re.findall(rb"#([0-9]{1,18})", text)]
            options = ["--name", str(chance.choice([*names, 1, 2**64 - 1]))]
        return command, [schema, text], options

    def all(self, chance):
        """A file with several changes, of which every refusal is wanted, or so many of them."""
        schema, found = self.one_file(chance)
        text = found if isinstance(found, bytes) else found.write(chance)
        for _ in range(chance.choice([0, 1, 1, 2, 3, 5])):
            text = mutate.inside(chance, text) if chance.random() < 0.9 else mutate.file(chance, text)
        options = ["--most", str(chance.choice([1, 2, 3, 5]))] if chance.random() < 0.2 else []
        return "check_all", [schema, text], options

    def syntax(self, chance):
        """A file by itself, changed or not, or cut off."""
        _, found = self.one_file(chance)
        text = found if isinstance(found, bytes) else found.write(chance)
        for _ in range(chance.choice([0, 0, 1, 1, 2])):
            text = mutate.inside(chance, text) if chance.random() < 0.5 else mutate.file(chance, text)
        if chance.random() < 0.1:
            text = text[: chance.randrange(len(text) + 1)]
        return chance.choice(["syntax", "syntax_told"]), [text], []

    def same(self, chance):
        """Two files: one spelled twice, two of one schema, or one of which something is changed."""
        schema, found = self.one_file(chance)
        if isinstance(found, bytes):
            texts = [found, found]
        else:
            texts = [found.write(chance), found.write(chance)]
        if chance.random() < 0.5:
            which = chance.randrange(2)
            texts[which] = mutate.file(chance, texts[which])
        return "same", [schema, *texts], []


def outcome(answer):
    """The kind of an answer, for the counts."""
    output, error, status = answer
    found = re.search(r"refused (\S+)", error)
    if found:
        return found[1] if "first" not in error and "second" not in error else f"same: {found[1]}"
    return {"same\n": "same", "different\n": "different"}.get(output, "answered" if status == 0 else error.split("#")[0].strip())


def shown(case, answers):
    """A case with the answers of both readings."""
    command, texts, options = case
    print(f"{command} {' '.join(options)}")
    for text in texts:
        print(f"  {text!r}")
    for reader, answer in zip(("program", "plain"), answers):
        print(f"  {reader}: {answer!r}")


def kept(case, keep):
    """Keeps the texts of a case, and says with which command line it is run."""
    command, texts, options = case
    words = " ".join(WORDS.get(command, [command]))
    folder = pathlib.Path(keep or tempfile.mkdtemp(prefix="fuzz-difference-"))
    folder.mkdir(parents=True, exist_ok=True)
    paths = []
    for name, text in zip(names_of(command), texts):
        (folder / name).write_bytes(text)
        paths.append(str(folder / name))
    print(f"kept: {words} {' '.join(paths)} {' '.join(options)}")


def plain_answer(plain, case):
    """The answer of the plain reading."""
    command, texts, options = case
    return getattr(plain, command)(*texts, *(int(x) for x in options[1:]))


def begins_alike(program, case, answer):
    """Whether the first line of all refusals is the one that `check` answers; true of every other command."""
    command, texts, _ = case
    if command != "check_all":
        return True
    output, error, status = program.answer("check", texts, [])
    return (output, error.split("\n")[0], status) == (answer[0], answer[1].split("\n")[0], answer[2])


def run(given, program, cases, plain):
    """Runs the cases, and answers how many differ: none, or one, at which it stops."""
    kinds = given.kinds.split(",")
    counts = collections.Counter()
    numbers = [given.only] if given.only is not None else range(given.first, given.first + given.cases)
    start = time.monotonic()
    differ = 0
    for number in numbers:
        kind = kinds[number % len(kinds)]
        case = cases.case(kind, random.Random(f"{given.seed} {number}"))
        answers = program.answer(*case), plain_answer(plain, case)
        counts[outcome(answers[0])] += 1
        if given.only is not None:
            shown(case, answers)
        if answers[0] != answers[1] or not begins_alike(program, case, answers[0]):
            differ += 1
            print(f"difference in case {number} of seed {given.seed}")
            shown(case, answers)
            kept(case, given.keep)
            break
    taken = time.monotonic() - start
    done = sum(counts.values())
    print(", ".join(f"{name} {count}" for name, count in sorted(counts.items(), key=lambda x: (len(x[0]), x[0]))))
    print(f"{done} cases, {differ} different, {done / max(taken, 0.001):.0f} a second; seed {given.seed}")
    return differ


def main():
    """Runs the cases in a folder that is taken away again."""
    given = arguments()
    given.seed = given.seed or secrets.token_hex(4)
    print(f"seed {given.seed}", flush=True)
    folder = pathlib.Path(tempfile.mkdtemp(prefix="fuzz-", dir="/dev/shm" if os.path.isdir("/dev/shm") else None))
    try:
        return 1 if run(given, Program(given.program, folder), Cases(commands), commands) else 0
    finally:
        shutil.rmtree(folder)


sys.path.insert(0, str(ROOT / "tests"))
from fuzzing import made_files, made_schemas, mutate, rows, spellings  # noqa: E402

if __name__ == "__main__":
    sys.path.insert(0, arguments().plain)
    from plain import commands

    commands.read_schema = functools.lru_cache(maxsize=400)(commands.read_schema)
    sys.exit(main())
