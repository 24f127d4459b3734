#!/usr/bin/env python3
"""Runs the programs of docs/LIBRARY.md, "Tasks of everyday", in one language, over the examples and over files that are made.

  tests/bindings/tasks.py c|cpp|python LIBRARY [COMPILER WORD..]

LIBRARY is a static library for C and C++, and a shared one for Python. P21 in the environment names the program, which the tools
ask; without it the rows that need one are left out, and so is what needs pandas where it isn't here. Expected are known hashes, the
words of docs/FAULTS.md, and what other tests say of the same files. The last line says how many rows passed, and what was left out.
"""

import csv
import hashlib
import io
import os
import pathlib
import re
import shlex
import shutil
import socket
import struct
import subprocess
import sys
import tempfile
import threading

ROOT = pathlib.Path(__file__).resolve().parents[2]
sys.path[:0] = [str(ROOT / "tests"), str(ROOT / "tests" / "bindings")]

from model import named  # noqa: E402
from plain import canonical as canonical_form  # noqa: E402
from plain.files import read_file  # noqa: E402
from plain.schema import read_schema  # noqa: E402

EXAMPLES = ROOT / "examples"
SCHEMA = EXAMPLES / "product.exp"
BLOCK = "5d11fa2abae65fa2bff1265d357ae88c5adf85242cd77e53a1c8b9877eff411c"
CHANGED = "2c7249104ea26fc6fa7c66495f8df8c2bf8f9ed06ab1ca0553e38d142f7e1c20"
ASSEMBLY = ROOT / "tests" / "bindings" / "assembly"
COUNT = "The record has another number of values than the entity."
ENDINGS = {"python": "py", "c": "c", "cpp": "cpp"}
# Where C and C++ answer by a status that there is no answer, Python raises, which ends a program with this one.
NO_ANSWER = {"python": 1, "c": 3, "cpp": 3}


def part_of(title):
    """What docs/LIBRARY.md has below the title of a task."""
    page = (ROOT / "docs" / "LIBRARY.md").read_text()
    return page.split(f"\n#### {title}\n")[1].split("\n#### ")[0].split("\n## ")[0]


class Tasks:
    """The programs of one language."""

    def __init__(self, language, library, command):
        self.language = language
        self.library = library
        self.command = command
        self.folder = tempfile.TemporaryDirectory()
        self.here = pathlib.Path(self.folder.name)
        self.passed = self.failed = 0
        self.left_out = []
        self.environment = dict(os.environ, PATH=f"{ROOT / 'tools'}:{os.environ['PATH']}", PYTHONDONTWRITEBYTECODE="1")
        self.environment.update(PYTHONPATH=str(ROOT / "python"), P21_LIBRARY=os.path.abspath(library))
        self.has_program = bool(os.environ.get("P21"))

    def words(self, title):
        """The words that run the program below a title, which is compiled first."""
        part = part_of(title)
        source = self.here / f"{re.sub('[^a-z]+', '_', title.lower())}.{ENDINGS[self.language]}"
        source.write_text(re.search(rf"^```{self.language}\n(.*?)^```$", part, re.M | re.S)[1])
        if self.language == "python":
            return [sys.executable, str(source)]
        program = source.with_suffix("")
        subprocess.run([*self.command, f"-I{ROOT / 'include'}", "-o", program, source, self.library], check=True)
        return [str(program)]

    def run(self, words, *given):
        """What a program writes to each stream, and its status."""
        done = subprocess.run([*words, *given], capture_output=True, check=False, timeout=300, env=self.environment, cwd=ROOT)
        return done.stdout, done.stderr.decode(errors="replace"), done.returncode

    def judge(self, name, wanted, found):
        """One row: what is found is what is wanted."""
        if wanted == found:
            self.passed += 1
        else:
            self.failed += 1
            print(f"{self.language}, {name}:\n  wanted {wanted}\n  found  {found}")

    def shown(self, title, words):
        """One row: the example below a title prints what stands behind it, in any order where four processes print it."""
        lines = re.search(r"^```console\n(.*?)^```$", part_of(title), re.M | re.S)[1].splitlines()
        here = self.here / "shown"
        shutil.rmtree(here, ignore_errors=True)
        here.mkdir()
        for name in ("examples", "tests"):
            (here / name).symlink_to(ROOT / name)
        run = here / "program"
        run.write_text(f'#!/bin/sh\nexec {shlex.join(words)} "$@"\n')
        run.chmod(0o755)
        script = "".join(f"{line[2:]}\n" for line in lines if line.startswith("$ "))
        environment = dict(self.environment, PATH=f"{here}:{self.environment['PATH']}")
        done = subprocess.run(["sh", "-c", script], capture_output=True, check=False, timeout=300, env=environment, cwd=here, text=True)
        wanted, found = [line for line in lines if not line.startswith("$ ")], done.stdout.splitlines()
        if title.startswith("Hash"):
            found.sort(key=lambda line: line.partition("  ")[2])
        self.judge(f"{title}, as it is shown", (wanted, ""), (found, done.stderr))

    def mistaken(self, title, words, *given):
        """Rows about a schema that is refused, one that isn't there, and words that are too few."""
        output, error, status = self.run(words, EXAMPLES / "product.step", *given)
        self.judge(f"{title}, a schema that is refused", (True, 1), ("schema refused S2 Syntax" in output.decode() + error, status))
        self.unanswered(f"{title}, a schema that isn't there", *self.run(words, self.here / "none.exp", *given))
        if self.language != "python":
            output, error, status = self.run(words)
            self.judge(f"{title}, no words", (b"", True, 2), (output, error.startswith("usage: program "), status))

    def unanswered(self, name, output, error, status):
        """One row: the program has no answer, and says none."""
        self.judge(name, (NO_ANSWER[self.language], False), (status, b"refused" in output or b"accepted" in output))
        self.judge(f"{name}: something is said", True, bool(error))


def catch(tasks):
    """A refusal with its place."""
    words = tasks.words("Catch a refusal with its place")
    tasks.judge("accepted", (b"accepted, instances 128\n", "", 0), tasks.run(words, SCHEMA, EXAMPLES / "product.step"))
    of_schema = ["refused 31 SchemaName at statement 5", "The file is of another schema than the one given."]
    dangling = ["refused 56 Dangling in #2", "A reference names an instance that is not in the file."]
    # The places are those of tests/tools_where.py.
    rows = (("Count", ["refused 45 Count in #3", COUNT], ":11:31: AXIS2_PLACEMENT_3D.REF_DIRECTION"), ("SchemaName", of_schema, ":6:14"), ("Dangling", dangling, None))
    for name, lines, place in rows:
        path = EXAMPLES / "refused" / f"{name}.step"
        lines = [*lines, f"{path}{place}"] if place is not None else lines
        output, error, status = tasks.run(words, SCHEMA, path)
        tasks.judge(f"refused, {name}", (lines, "", 1), (output.decode().splitlines(), error, status))
    output, _, status = tasks.run(words, EXAMPLES / "product.step", SCHEMA)
    wanted = ["schema refused S2 Syntax", "No declaration goes on so."]
    tasks.judge("a schema that is none", (wanted, 1), (output.decode().splitlines(), status))
    tasks.unanswered("a folder", *tasks.run(words, SCHEMA, EXAMPLES))
    tasks.unanswered("a file that isn't there", *tasks.run(words, SCHEMA, tasks.here / "none.step"))
    tasks.shown("Catch a refusal with its place", words)
    tasks.mistaken("a refusal", words, EXAMPLES / "product.step")


def syntax(tasks):
    """What a file says of itself."""
    words = tasks.words("Say what a file is, without a schema")
    output, error, status = tasks.run(words, EXAMPLES / "product.step")
    lines = output.decode().splitlines()
    tasks.judge("well formed", ("well formed, instances 128, schema PRODUCT_MODEL", "", 0), (lines[0], error, status))
    tasks.judge("a header in words", ["file name: block.step", "author: Edda Krüger", "originating system:"], [lines[3], lines[5], lines[8]])
    tasks.judge("keywords", ["ADVANCED_FACE 6", "AXIS2_PLACEMENT_3D 7"], lines[11:13])
    path = EXAMPLES / "refused" / "EndsEarly.step"
    output, error, status = tasks.run(words, path)
    tasks.judge("not well formed", (["refused 24 EndsEarly at statement 10", f"{path}:11:24"], "", 1), (output.decode().splitlines(), error, status))
    tasks.unanswered("a folder", *tasks.run(words, EXAMPLES))
    tasks.unanswered("a file that isn't there", *tasks.run(words, tasks.here / "none.step"))
    tasks.shown("Say what a file is, without a schema", words)


def canonical(tasks):
    """The canonical file is written, or nothing."""
    words = tasks.words("Write the canonical file")
    written = tasks.here / "canonical.step"
    tasks.judge("canonical", (b"", "", 0), tasks.run(words, SCHEMA, EXAMPLES / "product-other.step", written))
    tasks.judge("its bytes", BLOCK, hashlib.sha256(written.read_bytes()).hexdigest())
    none = tasks.here / "none.step"
    _, error, status = tasks.run(words, SCHEMA, EXAMPLES / "refused" / "Count.step", none)
    tasks.judge("refused", (True, 1, False), ("refused 45" in error, status, none.exists()))
    tasks.unanswered("a full disk", *tasks.run(words, SCHEMA, EXAMPLES / "product.step", "/dev/full"))
    tasks.unanswered("a folder", *tasks.run(words, SCHEMA, EXAMPLES, none))
    tasks.shown("Write the canonical file", words)
    tasks.mistaken("canonical", words, EXAMPLES / "product.step", none)


def compare(tasks):
    """Two files are the same, the same but for names, or different."""
    words = tasks.words("Compare, but for numbering")
    renumbered = tasks.here / "renumbered.step"
    renumbered.write_text(re.sub("#0*", "#7", (EXAMPLES / "product-other.step").read_text()))
    rows = [("product-other.step", b"same\n"), (renumbered, b"same but for names\n"), ("product-changed.step", b"different\n")]
    for second, wanted in rows:
        tasks.judge(f"compared with {second}", (wanted, 0), tasks.run(words, SCHEMA, EXAMPLES / "product.step", EXAMPLES / second)[::2])
    output, error, status = tasks.run(words, SCHEMA, EXAMPLES / "product.step", EXAMPLES / "refused" / "Count.step")
    tasks.judge("the second is refused", (True, 1), ("second: refused 45" in output.decode() + error, status))


def sent(text, how):
    """The port at which a text is sent to whoever comes, in pieces of 1,000 bytes. The connection is ended, or is broken."""
    server = socket.create_server(("127.0.0.1", 0))

    def serve():
        connection, _ = server.accept()
        with server, connection:
            try:
                for at in range(0, len(text), 1000):
                    connection.sendall(text[at : at + 1000])
            except OSError:
                # The other side has heard enough.
                return
            if how == "broken":
                connection.setsockopt(socket.SOL_SOCKET, socket.SO_LINGER, struct.pack("ii", 1, 0))

    threading.Thread(target=serve, daemon=True).start()
    return str(server.getsockname()[1])


def receive(tasks):
    """A file that comes over a connection."""
    words = tasks.words("Read from a socket in pieces")
    text = (EXAMPLES / "product.step").read_bytes()
    found = tasks.run(words, SCHEMA, "127.0.0.1", sent(text, "whole"))
    tasks.judge("received", (b"accepted, instances 128\n", "", 0), found)
    for name, what in (("Count", (EXAMPLES / "refused/Count.step").read_bytes()), ("EndsEarly", text[:3000])):
        output, error, status = tasks.run(words, SCHEMA, "127.0.0.1", sent(what, "whole"))
        number = {"Count": "refused 45", "EndsEarly": "refused 24"}[name]
        tasks.judge(f"received, {name}", (b"", True, 1), (output, number in error, status))
    output, error, status = tasks.run(words, SCHEMA, "127.0.0.1", sent(text[:3000], "broken"))
    tasks.unanswered("a connection that breaks", output + error.encode(), error, status)
    with socket.create_server(("127.0.0.1", 0)) as server:
        closed = str(server.getsockname()[1])
    tasks.unanswered("no connection", *tasks.run(words, SCHEMA, "127.0.0.1", closed))


def hashes(tasks):
    """The hashes of a folder, of which no file is left out and none has two."""
    words = tasks.words("Hash a folder in four processes")
    folder = tasks.here / "hashed"
    folder.mkdir()
    wanted = []
    for number in range(11):
        source, found = [("product.step", BLOCK), ("product-other.step", BLOCK), ("product-changed.step", CHANGED)][number % 3]
        shutil.copy(EXAMPLES / source, folder / f"{number}.step")
        wanted.append(f"{found}  {folder}/{number}.step")
    (folder / "notes.txt").write_text("no STEP file\n")
    output, error, status = tasks.run(words, SCHEMA, folder)
    tasks.judge("hashes", (sorted(wanted), "", 0), (sorted(output.decode().splitlines()), error, status))
    shutil.copy(EXAMPLES / "refused" / "Count.step", folder / "refused.step")
    output, error, status = tasks.run(words, SCHEMA, folder)
    of_refused = [line for line in output.decode().splitlines() if "refused.step" in line]
    is_told = len(of_refused) == 1 and of_refused[0].startswith("refused 45 Count") and BLOCK not in of_refused[0]
    tasks.judge("hashes, and a refusal", (12, True, 0 if tasks.language == "python" else 1), (output.count(b"\n"), is_told, status))
    (folder / "dangling.step").symlink_to("nowhere.step")
    output, error, status = tasks.run(words, SCHEMA, folder)
    tasks.judge("a file that isn't there", NO_ANSWER[tasks.language], status)
    lines = [line for line in output.decode().splitlines() if "dangling" in line]
    tasks.judge("its line", [], [line for line in lines if not line.startswith("no answer")])
    tasks.shown("Hash a folder in four processes", words)
    tasks.mistaken("hashes", words, folder)


def table(tasks):
    """A table of names of any bytes, as pandas reads it."""
    try:
        import pandas
    except ImportError:
        tasks.left_out.append("pandas")
        return
    words = tasks.words("A table for pandas")
    folder = tasks.here / "table"
    folder.mkdir()
    names = [b"a.step", b'b "c", d.step', b"e\xff.step", "f ü.step".encode()]
    for name in names:
        shutil.copy(EXAMPLES / "product.step", os.fsencode(folder) + b"/" + name)
    shutil.copy(EXAMPLES / "refused" / "Count.step", folder / "g.step")
    paths = [os.fsdecode(os.fsencode(folder) + b"/" + name) for name in [*names, b"g.step"]]
    if tasks.language == "python":
        written = folder / "table.csv"
        output, error, status = tasks.run(words, SCHEMA, folder, written)
        counts = [line.split() for line in output.decode().splitlines()[:2]]
        tasks.judge("counts", ([["accepted", "4"], ["refused", "45", "Count", "in", "#3", "1"]], "", 0), (counts, error, status))
        text = written.read_bytes()
    else:
        text, error, status = tasks.run(words, SCHEMA, *paths)
        tasks.judge("the table", ("", 1), (error, status))
    read = pandas.read_csv(io.BytesIO(text), encoding_errors="surrogateescape")
    tasks.judge("names", paths, list(read["file"]))
    tasks.judge("answers", ["accepted"] * 4 + ["refused 45 Count"], [answer.partition(" in ")[0] for answer in read["answer"]])
    tasks.judge("instances", [128] * 4, [int(count) for count in read["instances"][:4]])
    tasks.judge("no instances", True, bool(pandas.isna(read["instances"][4])))
    if tasks.language == "python":
        tasks.judge("hashes of the table", [BLOCK] * 4, list(read["sha256"][:4]))
    else:
        text, _, status = tasks.run(words, SCHEMA, paths[0], folder / "none.step")
        rows = list(csv.reader(io.StringIO(text.decode())))
        tasks.judge("a file that isn't there", ([str(folder / "none.step"), "no answer", ""], 3), (rows[2], status))


# A trolley of two axles, on each of which two wheels are, as the file says it by its remarks; and one that stands in itself.
TROLLEY = ["TR-1 Trolley", *["  AX-2 Axle", "    WH-3 Wheel, Ø 80", "    WH-3 Wheel, Ø 80"] * 2, "  BX-4 Box"]
RING = ["TR-1 Trolley", "  AX-2 Axle", "    BX-4 Box", "      AX-2 Axle"]


def assembly(tasks):
    """Assemblies with their parts."""
    title = "Walk an assembly"
    words = tasks.words(title)
    schema, file = f"{ASSEMBLY}.exp", pathlib.Path(f"{ASSEMBLY}.step")
    tasks.judge(title, ("\n".join([*TROLLEY, ""]), "", 0), answered(tasks.run(words, schema, file)))
    front, _, rest = file.read_text().partition("#31=")
    uses = [("21", "22"), ("22", "24"), ("24", "22")]
    ring = tasks.here / "ring.step"
    ring.write_text(front + "".join(f"#3{at}=NEXT_ASSEMBLY_USAGE_OCCURRENCE('','',$,#{a},#{b},$);\n" for at, (a, b) in enumerate(uses)) + rest[rest.index("ENDSEC;") :])
    tasks.judge(f"{title}, one that stands in itself", ("\n".join([*RING, ""]), "", 0), answered(tasks.run(words, schema, ring)))
    none = tasks.here / "parts.step"
    none.write_text(front + rest[rest.index("ENDSEC;") :])
    tasks.judge(f"{title}, parts alone", ("", "", 0), answered(tasks.run(words, schema, none)))
    tasks.unanswered(f"{title}, a folder", *tasks.run(words, schema, EXAMPLES))
    tasks.shown(title, words)
    tasks.mistaken(title, words, file)


def model(tasks):
    """What the instances of a file say, as the plain reading finds it."""
    schema = read_schema(SCHEMA.read_bytes())
    meaning = read_file(schema, (EXAMPLES / "product.step").read_bytes())
    told = {name: meant for name, (_, meant) in sorted(meaning.instances.items())}
    values = {name: dict(meant.values) for name, meant in told.items()}
    products = [
        f"#{name} {' '.join(str(values[name]['PRODUCT', attribute][1]) for attribute in ('ID', 'NAME'))}"
        for name in told
        if "PRODUCT" in told[name].entities
    ]
    counts = [(sum(entity in meant.entities for meant in told.values()), entity) for entity in schema.entities]
    uses = [
        f"#{name} {entity}.{attribute}"
        for name in told
        for entity, attribute in schema.places(schema.leaves(told[name].entities)[0])
        if 15 in set(named(values[name][entity, attribute]))
    ]

    def walked(name, depth, met):
        if name not in met:
            met.add(name)
            yield "  " * depth + canonical_form.instance(schema, name, told[name])
            for place in schema.places(schema.leaves(told[name].entities)[0]):
                for target in named(values[name][place]):
                    yield from walked(target, depth + 1, met)

    simple = [name for name in told if len(schema.leaves(told[name].entities)) == 1]
    tasks.judge("the file has instances to walk from", True, 16 in simple and len(products) == 1 and len(uses) > 0)
    rows = [
        ("List products", [], products),
        ("Count by type", [], [f"{many} {entity}" for many, entity in counts if many > 0]),
        ("Find who refers to an instance", ["15"], uses),
        ("Find who refers to an instance", ["999"], []),
        ("Follow the references of an instance", ["15"], list(walked(15, 0, set()))),
        ("Follow the references of an instance", ["999"], []),
    ]
    for title, given, wanted in rows:
        words = tasks.words(title)
        if given != ["999"]:
            tasks.shown(title, words)
            tasks.mistaken(title, words, EXAMPLES / "product.step", *given)
        tasks.judge(f"{title} {given}", ("\n".join([*wanted, ""]) if wanted else "", "", 0), answered(tasks.run(words, SCHEMA, EXAMPLES / "product.step", *given)))
        _, _, status = tasks.run(words, SCHEMA, EXAMPLES / "refused" / "Count.step", *given)
        tasks.judge(f"{title}, refused", 1, status)
        tasks.unanswered(f"{title}, a folder", *tasks.run(words, SCHEMA, EXAMPLES, *given))


def answered(ran):
    """An answer as text."""
    return (ran[0].decode(), ran[1], ran[2])


def main():
    language, library, *command = sys.argv[1:]
    tasks = Tasks(language, library, command)
    for task in (catch, syntax, canonical, compare, receive, hashes, table, assembly, model):
        task(tasks)
    if not tasks.has_program:
        tasks.left_out.append("what asks the program")
    left_out = f"; left out: {', '.join(tasks.left_out)}" if tasks.left_out else ""
    print(f"{tasks.passed} passed, {tasks.failed} failed{left_out}")
    sys.exit(1 if tasks.failed else 0)


if __name__ == "__main__":
    main()
