#!/usr/bin/env python3
"""Runs the inputs of guided fuzzing through the program and the plain reading, which have to answer alike.

    tests/guided/replay.py [FOLDER]      FOLDER holds `files` and `schemas`; by default tests/guided/corpus

Each input is put between the texts that its driver (files.c, schemas.c) puts around it. `canon` answers it, and what it answers
is its own canonical file. Each run is also held against the bounds of time that usual inputs have. P21 names the program.
"""

import os
import pathlib
import shutil
import sys
import tempfile
import time

HERE = pathlib.Path(__file__).resolve().parent
ROOT = HERE.parent.parent
sys.path.insert(0, str(ROOT / "tests"))

import exchange  # noqa: E402
import fuzz  # noqa: E402
from plain import commands  # noqa: E402

HEADER, END = exchange.header("%s").encode(), exchange.END.encode()
DATA, DATA_END = b"DATA;\n", b"ENDSEC;\n"
# No input of these sizes takes longer, on a machine at work too.
MOST_SECONDS = 10


def file_input(given):
    """The schema and the file that an input of `files` is."""
    schema, around, text = (HERE / "schema.exp").read_bytes(), given[0] & 15, given[1:]
    header = HEADER % b"R"
    made = {1: text, 2: header + text + END}.get(around, header + DATA + text + DATA_END + END)
    return schema, made


def schema_input(given):
    """The schema and the file that an input of `schemas` is."""
    declarations, _, instances = given.partition(b"\xfe")
    return b"SCHEMA s;" + declarations + b"END_SCHEMA;", HEADER % b"S" + DATA + instances + DATA_END + END


KINDS = {"files": file_input, "schemas": schema_input}


def differences(program, schema, text):
    """What is wrong with an input."""
    cases = [("schema", [schema], []), ("canon", [schema, text], [])]
    for case in cases:
        begun = time.monotonic()
        found = program.answer(*case)
        if time.monotonic() - begun > MOST_SECONDS:
            yield f"{case[0]} took more than {MOST_SECONDS} s"
        wanted = fuzz.plain_answer(commands, case)
        if found != wanted:
            yield f"{case[0]}: the program answers {found!r}, the plain reading {wanted!r}"
    if found[2] == 0:
        again = program.answer("canon", [schema, found[0].encode()], [])
        if again != found:
            yield f"the canonical file isn't its own: {again!r}"


def main():
    corpus = pathlib.Path(sys.argv[1] if len(sys.argv) > 1 else HERE / "corpus")
    program_path = os.environ.get("P21", str(ROOT / "p21"))
    folder = pathlib.Path(tempfile.mkdtemp(prefix="guided-", dir="/dev/shm" if os.path.isdir("/dev/shm") else None))
    count = failed = accepted = 0
    try:
        program = fuzz.Program(program_path, folder)
        for kind, texts_of in KINDS.items():
            for path in sorted((corpus / kind).iterdir()):
                given = path.read_bytes()
                if not given:
                    continue
                texts = texts_of(given)
                count += 1
                wrong = list(differences(program, *texts))
                accepted += program.answer("canon", list(texts), [])[2] == 0
                failed += bool(wrong)
                for what in wrong:
                    print(f"{path}: {what}"[:2000], flush=True)
    finally:
        shutil.rmtree(folder)
    print(f"{count} inputs, of which {accepted} are accepted, {failed} different")
    return int(failed > 0 or count == 0)


if __name__ == "__main__":
    sys.exit(main())
