#!/usr/bin/env python3
"""Runs tools/p21-table over the examples and over files that are made. P21 names another program than ./p21."""

import csv
import hashlib
import io
import json
import os
import re
import runpy
import shutil
import sqlite3
import subprocess
import sys

from tooling import AS_OTHERS, MOST_SECONDS, ROOT, RUN_BY, SCHEMA, Tests, file_of

sys.path.insert(0, str(ROOT / "tools"))

try:
    import pandas
except ImportError:
    # Where Debian keeps it for a Python that isn't Debian's.
    sys.path.append("/usr/lib/python3/dist-packages")
    try:
        import pandas
    except ImportError:
        pandas = None

BLOCK = "5d11fa2abae65fa2bff1265d357ae88c5adf85242cd77e53a1c8b9877eff411c"
CHANGED = "2c7249104ea26fc6fa7c66495f8df8c2bf8f9ed06ab1ca0553e38d142f7e1c20"
# The columns of a table for programs, of which the seconds come last, and what they stand in.
COLUMNS = ["file", "answer", "instances", "sha256", "schema", "schema_sha256", "form"]
BEHIND = ["bytes", "file_schema", "preprocessor_version", "originating_system", "seconds"]
HEAD = "\t".join([*COLUMNS, *BEHIND])
SECONDS = re.compile(r"[0-9]+\.[0-9]{1,3}")

# Of each example the answer, how many instances it has, and its hash, as `p21 canon .. | sha256sum` has it.
EXAMPLES = [
    ("examples/product-changed.step", "accepted", 128, CHANGED),
    ("examples/product-other.step", "accepted", 128, BLOCK),
    ("examples/product.step", "accepted", 128, BLOCK),
    ("examples/refused/BadByte.step", "refused 1 BadByte at statement 1", None, None),
    ("examples/refused/BadDirective.step", "refused 4 BadDirective at statement 4", None, None),
    ("examples/refused/Count.step", "refused 45 Count in #3", None, None),
    ("examples/refused/Dangling.step", "refused 56 Dangling in #2", None, None),
    ("examples/refused/EndsEarly.step", "refused 24 EndsEarly at statement 10", None, None),
    ("examples/refused/Missing.step", "refused 46 Missing in #2", None, None),
    ("examples/refused/NotUtf8.step", "refused 6 NotUtf8 at statement 8", None, None),
    ("examples/refused/SchemaName.step", "refused 31 SchemaName at statement 5", None, None),
    ("examples/refused/UnknownEntity.step", "refused 41 UnknownEntity in #3", None, None),
    ("examples/refused/WrongKind.step", "refused 49 WrongKind in #1", None, None),
]
SUMMARY = """13 files, 3 accepted, 10 not
     1 refused 1 BadByte
     1 refused 4 BadDirective
     1 refused 45 Count
     1 refused 56 Dangling
     1 refused 24 EndsEarly
     1 refused 46 Missing
     1 refused 6 NotUtf8
     1 refused 31 SchemaName
     1 refused 41 UnknownEntity
     1 refused 49 WrongKind
passed over: 4 files with other endings: 2 .exp, 1 .md, 1 .txt
the same: examples/product-other.step examples/product.step"""


def by(schema, sha256):
    """What stands behind a row: the schema, its hash, and the version of the form where there is a hash of a canonical file."""
    return schema, hashlib.sha256((ROOT / schema).read_bytes()).hexdigest(), 1 if sha256 else None


def said(file):
    """What a file says of itself, by hand: the schema and the programs; and its size, as the system says it."""
    name = os.path.basename(file)
    schema = {"SchemaName.step": "AUTOMOTIVE_DESIGN { 1 0 10303 214 1 1 1 1 }", "demo.step": "DEMO", "other.step": "OTHER"}
    programs = ("written by hand", "") if name.startswith(("product", "a later")) else ("", "")
    return (os.stat(file).st_size, schema.get(name, "PRODUCT_MODEL"), *programs)


def tsv(row, schema=SCHEMA):
    """A row as a line with tabs, without the seconds."""
    return "\t".join("" if field is None else str(field) for field in (*row, *by(schema, row[3]), *said(row[0])))


def without_seconds(tests, name, output):
    """The lines of a table with tabs without their last column, which has to be a time."""
    lines = [line.rpartition("\t") for line in output.splitlines()]
    tests.judge(f"{name}: seconds", [], [last for _, _, last in lines[1:] if not SECONDS.fullmatch(last)])
    return [front for front, _, _ in lines]


def expect_table(tests, name, arguments, status, lines, error):
    """A run that prints a table with these lines, but for the seconds, and what it says beside it."""
    output, said_beside, found = tests.run(arguments)
    wanted = [HEAD.rpartition("\t")[0], *lines], error + "\n", status
    tests.judge(name, wanted, (without_seconds(tests, name, output), said_beside, found))


def examples(tests):
    """The folder of the examples, in each form and with several processes."""
    lines = list(map(tsv, EXAMPLES))
    for jobs in ("1", "5"):
        expect_table(tests, f"tabs, -j {jobs}", ["--format", "tsv", "-j", jobs, SCHEMA, "examples"], 1, lines, SUMMARY)
    output, error, status = tests.run(["--format", "json", SCHEMA, "examples"])
    rows = [json.loads(line) for line in output.splitlines()]
    found = [tuple(row[name] for name in [*COLUMNS, *BEHIND[:-1]]) for row in rows]
    wanted = [(*row, *by(SCHEMA, row[3]), *said(row[0])) for row in EXAMPLES]
    tests.judge("JSON", (wanted, SUMMARY + "\n", 1), (found, error, status))
    tests.judge("JSON: seconds", True, all(isinstance(row["seconds"], float) and 0 < row["seconds"] < 300 for row in rows))
    output, error, status = tests.run(["--format", "csv", SCHEMA, "examples"])
    head, *rows = csv.reader(io.StringIO(output, newline=""))
    wanted = [["" if field is None else str(field) for field in row] for row in wanted]
    tests.judge("commas", ([*COLUMNS, *BEHIND], wanted, SUMMARY + "\n", 1), (head, [row[:-1] for row in rows], error, status))
    output, error, status = tests.run([SCHEMA, "examples"])
    wanted = [f"{file:35}  {answer:40}  {count or '-':>9}  {sha or '-'}" for file, answer, count, sha in EXAMPLES]
    tests.judge("text", (wanted, SUMMARY + "\n", 1), (output.splitlines(), error, status))


def hashes(tests):
    """The hash is that of what `p21 canon` writes, for files of several lengths."""
    for count in (0, 1, 2000):
        points = (f"#{name}=CARTESIAN_POINT('a;#1=',({name}.,0.,0.));" for name in range(1, count + 1))
        path = tests.make(f"{count}.step", file_of("\n".join(points)))
        written = subprocess.run([tests.program, "canon", SCHEMA, path], capture_output=True, check=True).stdout
        row = (path, "accepted", count, hashlib.sha256(written).hexdigest())
        expect_table(tests, f"{count} instances", ["--format", "tsv", SCHEMA, path], 0, [tsv(row)], "1 file, 1 accepted, 0 not")


def data(tests):
    """With --data the hash is that of what `p21 canon` writes behind the header, so that the time stamp doesn't count."""
    text = (ROOT / "examples" / "product.step").read_text()
    later = tests.make("a later one.step", text.replace("2024-03-15T10:30:00", "2024-03-16T08:00:00"))
    command = f"'{tests.program}' canon {SCHEMA} examples/product.step | sed '1,/^ENDSEC;$/d' | sha256sum"
    written = subprocess.run(command, shell=True, capture_output=True, check=True, text=True).stdout.split()[0]
    files = ["examples/product.step", later]
    lines = [tsv((file, "accepted", 128, written)) for file in files]
    summary = f"2 files, 2 accepted, 0 not\nthe same data: examples/product.step '{later}'"
    expect_table(tests, "the data alone", ["--data", "--format", "tsv", SCHEMA, *files], 0, lines, summary)
    output, error, status = tests.run([SCHEMA, *files])
    found = len(set(line.split()[-1] for line in output.splitlines())), error, status
    tests.judge("the data and the header", (2, "2 files, 2 accepted, 0 not\n", 0), found)


def schemas(tests):
    """Each file is checked by the first schema that it names, and by the first one of all where it names none of them."""
    demo = tests.make("demo.step", file_of("#1=POINT($,1.,2);", [("PRODUCT_MODEL", "DEMO")]))
    other = tests.make("other.step", file_of("", [("PRODUCT_MODEL", "OTHER")]))
    rows = [
        ("examples/product.step", "accepted", 128, BLOCK),
        (demo, "refused 49 WrongKind in #1", None, None),
        (other, "refused 31 SchemaName at statement 5", None, None),
    ]
    given = ["--format", "tsv", "--schema", "examples/demo.exp", "--schema", SCHEMA, SCHEMA, *(row[0] for row in rows)]
    summary = "3 files, 1 accepted, 2 not\n     1 refused 49 WrongKind\n     1 refused 31 SchemaName"
    expect_table(tests, "several schemas", given, 1, list(map(tsv, rows, [SCHEMA, "examples/demo.exp", SCHEMA])), summary)
    given = ["--schema", "examples/product.step", SCHEMA, demo]
    refused = "p21-table: examples/product.step: schema refused S2 Syntax"
    tests.expect("a further schema that is refused", given, 2, [], refused)


def names(tests):
    """Which files are checked: those of folders and lists too, in the order of the command line."""
    file = file_of("")
    for name in ("b.STP", "a.p21", "c.ifc", "notes.txt", "noname", "e.stp.GZ", "deep/d.step", "a\ttab.step"):
        (tests.here / "many" / name).parent.mkdir(parents=True, exist_ok=True)
        tests.make(f"many/{name}", file)
    made = tests.make("list", f"{tests.here}/many/notes.txt\n\n{tests.here}/none.step\n")
    output, error, status = tests.run(["--format", "tsv", "--files-from", made, SCHEMA, "{here}/many"])
    found = [tuple(line.split("\t")[:2]) for line in output.splitlines()[1:]]
    wanted = [("many/a\\ttab.step", "accepted"), ("many/a.p21", "accepted"), ("many/b.STP", "accepted")]
    wanted += [("many/c.ifc", "accepted"), ("many/deep/d.step", "accepted"), ("many/notes.txt", "accepted")]
    wanted = [(f"{tests.here}/{name}", answer) for name, answer in wanted]
    wanted.append((f"{tests.here}/none.step", f"cannot open {tests.here}/none.step: there is no such file"))
    counts = ["7 files, 6 accepted, 0 not, 1 without an answer", "     1 cannot open"]
    counts.append("passed over: 3 files with other endings: 1 without one, 1 .gz, 1 .txt")
    tests.judge("folders and lists", (wanted, counts, 3), (found, error.splitlines()[:3], status))
    tool, schema = ROOT / "tools" / "p21-table", ROOT / SCHEMA
    tests.make("many/deep/-e.step", file)
    done = subprocess.run([tool, schema, "."], capture_output=True, check=False, cwd=tests.here / "many" / "deep", text=True)
    found = [line.split()[:2] for line in done.stdout.splitlines()]
    tests.judge("a name that begins with a dash", ([["-e.step", "accepted"], ["d.step", "accepted"]], 0), (found, done.returncode))
    output, _, status = tests.run(["--format", "tsv", "--files-from", "-", SCHEMA], f"{tests.here}/many/a.p21\n".encode())
    tests.judge("a list from standard input", (2, 0), (len(output.splitlines()), status))


def controls(tests):
    """Names with control characters, and one that isn't UTF-8: one row for each in every form, and no escape."""
    file = file_of("")
    written = {"a\x1b[31m.step": "a\\x1b[31m.step", "b\naccepted.step": "b\\naccepted.step", "c\udcff.step": "c\\xff.step"}
    for name in written:
        (tests.here / "named").mkdir(exist_ok=True)
        tests.make(f"named/{name}", file)
    folder = f"{tests.here}/named"
    for form in ("text", "tsv", "json"):
        output, error, status = tests.run(["--format", form, SCHEMA, folder, f"{folder}/none\x1b.step"])
        lines = output.splitlines()[form == "tsv" :]
        tests.judge(f"{form}: rows", (4, False, 3), (len(lines), any(sign in output + error for sign in "\x1b\udcff"), status))
        if form == "json":
            found = [json.loads(line)["file"] for line in lines[:3]]
            tests.judge("names in JSON", [f"{folder}/{name}" for name in written], found)
            continue
        found = [line.split("\t")[:2] if form == "tsv" else line.split()[:2] for line in lines[:3]]
        tests.judge(f"{form}: names", [[f"{folder}/{name}", "accepted"] for name in written.values()], found)
        missing = f"{folder}/none\\x1b.step".replace("\\", "\\\\") if form == "tsv" else f"{folder}/none\\x1b.step"
        tests.judge(f"{form}: a file that isn't there", True, f"cannot open {folder}/none" in lines[3] and missing.replace("\\\\", "\\") in lines[3])
        command = next(line for line in error.splitlines() if line.startswith("the same: ")).removeprefix("the same: ")
        named = subprocess.run(["bash", "-c", f"printf '%s\\0' {command}"], capture_output=True, check=True).stdout
        wanted = [os.fsencode(f"{folder}/{name}") for name in written]
        tests.judge(f"{form}: names as words of a shell", wanted, named.split(b"\0")[:-1])


def full_disk(tests):
    """An output to which nothing can be written."""
    error = "p21-table: [Errno 28] No space left on device\n"
    for form in ("text", "tsv", "csv", "json"):
        tests.judge(f"a full disk, {form}", (error, 2), tests.full_disk(["--format", form, SCHEMA, "examples/product.step"]))


def headers(tests):
    """The hash of the data alone where the end of the header stands in two pieces of what the program writes."""
    tool = runpy.run_path(str(ROOT / "tools" / "p21-table"))
    text = b"HEADER;\nA();\nENDSEC;\nDATA;\n#1=A();\n#2=A();\nENDSEC;\n"
    behind = hashlib.sha256(text.partition(b"\nENDSEC;\n")[2]).hexdigest()
    for size in range(1, 20):
        found = tool["Canonical"](True)
        for at in range(0, len(text), size):
            found.add(text[at : at + size])
        tests.judge(f"pieces of {size} bytes", (behind, 2), (found.hash.hexdigest(), found.instances))


def pipes(tests):
    """The schema or a file from a pipe, and a file as standard input."""
    step = ROOT / "examples" / "product.step"
    digest = by(SCHEMA, BLOCK)[1]
    line = f"{{}}\taccepted\t128\t{BLOCK}\t{{}}\t{digest}\t1\t{step.stat().st_size}\tPRODUCT_MODEL\twritten by hand\t"
    summary = "1 file, 1 accepted, 0 not\n"

    def judge(name, file, schema, found):
        output, error, status = found
        lines = [HEAD.rpartition("\t")[0], line.format(file, schema)]
        tests.judge(name, (lines, summary, 0), (without_seconds(tests, name, output), error, status))

    judge("a schema from a pipe", step, "/dev/stdin", tests.run(["--format", "tsv", "/dev/stdin", str(step)], (ROOT / SCHEMA).read_bytes()))
    given = ["--format", "tsv", SCHEMA, "/dev/stdin"]
    judge("a file from a pipe", "/dev/stdin", SCHEMA, tests.run(given, step.read_bytes()))
    with step.open("rb") as file:
        judge("a file as standard input", "/dev/stdin", SCHEMA, tests.run(given, file=file))
    judge("standard input as -", "-", SCHEMA, tests.run(["--format", "tsv", SCHEMA, "-"], step.read_bytes()))


def refusals(tests):
    """The parts of each answer in JSON."""
    rows = [
        ("examples/product.step", None, None, None, None),
        ("examples/refused/BadByte.step", 1, "BadByte", 1, None),
        ("examples/refused/Count.step", 45, "Count", None, "#3"),
        (tests.make("scope.step", file_of("#1=!X();")), 26, "LeftOut(UserKeyword)", 8, None),
        (tests.make("broken\n.step", file_of("#1=PERSON($,$,$,$);")), 46, "Missing", None, "#1"),
    ]
    given = [SCHEMA, "--format", "json", rows[0][0], "--schema", "examples/demo.exp", *(row[0] for row in rows[1:])]
    output, _, status = tests.run(given)
    found = [json.loads(line) for line in output.splitlines()]
    names = ("file", "number", "name", "statement", "instance")
    tests.judge("the parts of an answer, options among names", (rows, 1), ([tuple(row[name] for name in names) for row in found], status))
    output, _, _ = tests.run([SCHEMA, rows[4][0], rows[0][0]])
    tests.judge("a name with a line feed", 2, len(output.splitlines()))


# What a program does in place of an answer about b.step, and what is said of it.
NO_ANSWERS = [
    ("a signal", "kill -9 $$", "ended by signal 9"),
    ("a signal that a shell tells", "echo Killed >&2; exit 137", "Killed ended with status 137"),
    ("want of memory", "echo 'out of memory' >&2; exit 3", "out of memory"),
    ("no word", "exit 1", "ended with status 1"),
    ("words that are no refusal", "echo 'refused 45 Count in #3, or so' >&2; exit 1", "no answer: refused 45 Count in #3, or so"),
    ("a refusal, and a signal", "echo 'refused 45 Count in #3' >&2; kill -9 $$", "no answer: refused 45 Count in #3 ended by signal 9"),
    ("a refusal, and done", "echo 'refused 45 Count in #3' >&2; exit 0", "the canonical file isn't whole"),
    ("words in front", "echo 'Loading p21'; \"$real\" \"$@\"; exit 0", "the canonical file isn't whole"),
    ("a command line that it doesn't know", "echo usage >&2; exit 2", "usage"),
    ("nothing, and done", "exit 0", "the canonical file isn't whole"),
    ("a part, and done", '"$real" "$@" | head -c 4871; exit 0', "the canonical file isn't whole"),
    ("a part, and a refusal of the writing", '"$real" "$@" | head -c 4871; echo "write fault" >&2; exit 3', "write fault"),
]


def unanswered(tests):
    """A program that doesn't answer about one of three files: its row says so, and the others have theirs."""
    folder = tests.here / "unanswered"
    folder.mkdir()
    for name in "abc":
        shutil.copy(ROOT / "examples" / "product.step", folder / f"{name}.step")
    digests = dict.fromkeys(("with names", "--names"), BLOCK)
    digests["--names"] = tests.run(["--names", SCHEMA, "examples/product.step"])[0].split()[-1]
    for name, lines, answer in NO_ANSWERS:
        program = tests.rigged("rigged", f'case "$1 $*" in canon*/b.step*) {lines} ;; esac')
        for how, digest in digests.items():
            given = [*([how] if how == "--names" else []), "--format", "json", SCHEMA, str(folder)]
            output, error, status = tests.run(given, program=program)
            fields = ("file", "answer", "instances", "sha256", "form", "number")
            found = [tuple(map(json.loads(line).get, fields)) for line in output.splitlines()]
            form = 1 if how == "with names" else None
            rows = [(f"{folder}/{name}.step", "accepted", 128, digest, form, None) for name in "abc"]
            rows[1] = (rows[1][0], answer, None, None, None, None)
            counts = "3 files, 2 accepted, 0 not, 1 without an answer"
            tests.judge(f"{name}, {how}", (rows, counts, 3), (found, error.split("\n")[0], status))
    program = tests.rigged("rigged", 'case "$1" in canon) head -c 1000000 /dev/zero | tr "\\0" x >&2; sleep 0.2 ;; esac')
    _, error, status = tests.run([SCHEMA, str(folder)], program=program)
    tests.judge("a slow one that says much beside", ("3 files, 3 accepted, 0 not", 0), (error.split("\n")[0], status))
    program = tests.rigged("rigged", 'case "$*" in *" /dev/null") kill -9 $$ ;; esac')
    tests.expect("of the schema", [SCHEMA, str(folder)], 2, [], f"p21-table: {SCHEMA}: ended by signal 9", program=program)
    line = "p21-table: cannot run /nowhere/p21: No such file or directory"
    tests.expect("no program", [SCHEMA, str(folder)], 2, [], line, program="/nowhere/p21")
    line = "p21-table: /bin/true doesn't say which canonical form it writes: it says nothing"
    tests.expect("another program", [SCHEMA, str(folder)], 2, [], line, program="/bin/true")


# What stands in the last two parameters but one of FILE_NAME, and what that says: by the standard, by hand.
SPELLED = [
    (b"'ST-DEVELOPER v18','SolidWorks 2020'", "ST-DEVELOPER v18", "SolidWorks 2020"),
    (b"/* preprocessor_version */ 'a;b' ,\n/* originating_system, ')' */ '',/**/", "a;b", ""),
    (b"'it''s','C:\\\\tmp'", "it's", "C:\\tmp"),
    (b"'Caf\\X2\\00E9\\X0\\','Caf\\X\\E9'", "Caf\u00e9", "Caf\u00e9"),
    (b"'Caf\\S\\i','\\X4\\0001F600\\X0\\'", "Caf\u00e9", "\U0001f600"),
    (b"'\\X2\\D83DDE00\\X0\\','Caf\xc3\xa9\n'", "\U0001f600", "Caf\u00e9"),
    (b"$,'x'", None, "x"),
    # A character that isn't shown is told by its directive, and a text that looks like a line of the answer is a text.
    (b"'a\\X\\0Aschema: B','originating system: c'", "a\\X2\\000A\\X0\\schema: B", "originating system: c"),
    # These are refused: another page, half of a pair, no directive, no UTF-8, and no text. What isn't refused is told.
    (b"'\\PE\\\\S\\0','\\X2\\D83D\\X0\\'", None, None),
    (b"'C:\\parts','M\xfcller'", None, None),
    (b"'C:\\parts','CAD 7'", None, "CAD 7"),
    (b"'written by hand','M\xfcller'", "written by hand", None),
    (b"5,('x')", None, None),
    (b"'a','b','c'", "a", "b"),
]
ACCEPTED = 8
NO_HEADERS = [
    (b"", None, None),
    (b"no STEP file; 'FILE_SCHEMA(''A'')'; \x00\xff", None, None),
    (b"ISO-10303-21;HEADER;FILE_SCHEMA(('A','B'));FILE_NAME('','',(''),(''),'p');", None, "p"),
    (b"ISO-10303-21;HEADER;FILE_SCHEMA(());FILE_NAME(('p'", None, None),
    (b"ISO-10303-21;HEADER;ENDSEC;DATA;FILE_SCHEMA(('A'));", None, None),
    (b"\xef\xbb\xbfISO-10303-21;HEADER;FILE_SCHEMA(('a\\X\\5F1'));FILE_NAME('','',(''),(''),'\\", "a_1", None),
    (b"ISO-10303-21;HEADER;FILE_DESCRIPTION((''),'2;1');FILE_NAME('C:\\a','',(''),(''),'p','','');FILE_SCHEMA(('A'));ENDSEC;", "A", "p"),
]
LABELS = ("schema", "preprocessor version", "originating system")


def by_syntax(tests, path):
    """What `p21 syntax --header` says of a file, by its lines."""
    done = subprocess.run([tests.program, "syntax", "--header", path], capture_output=True, check=True)
    lines = [line.partition(":") for line in done.stdout.decode().split("\n")]
    texts = {word: behind[1:] for word, _, behind in lines}
    return [texts.get(word) for word in LABELS]


def of_headers(tests):
    """What a row says of the header, accepted or not: what `p21 syntax --header` does, where it answers."""
    frame = file_of("").encode()
    first, last = frame.split(b"(''),'','','');")
    paths = []
    for number, (text, _, _) in enumerate(SPELLED):
        paths.append(tests.make(f"header{number}.step", first + b"('')," + text.rstrip(b",/*") + b",'');" + last))
    for number, (text, _, _) in enumerate(NO_HEADERS):
        paths.append(tests.make(f"none{number}.step", text))
    output, _, status = tests.run(["--format", "json", SCHEMA, *paths])
    rows = [json.loads(line) for line in output.splitlines()]
    wanted = [["PRODUCT_MODEL", *texts] for _, *texts in SPELLED]
    wanted += [[schema, program, "" if number == 6 else None] for number, (_, schema, program) in enumerate(NO_HEADERS)]
    tests.judge("what headers say", (wanted, 1), ([[row[name] for name in BEHIND[1:4]] for row in rows], status))
    accepted = [row["answer"] == "accepted" for row in rows]
    tests.judge("which of them are accepted", [True] * ACCEPTED + [False] * (len(rows) - ACCEPTED), accepted)
    for path, texts in zip(paths[:ACCEPTED], wanted):
        tests.judge(f"{path} by itself", texts, by_syntax(tests, path))
    long = tests.make("long.step", first + b"(''),'" + b"p" * 200_000 + b"','','');" + last)
    row = json.loads(tests.run(["--format", "json", SCHEMA, long])[0])
    tests.judge("a long header", ("p" * 200_000, "PRODUCT_MODEL"), (row["preprocessor_version"], row["file_schema"]))
    asked = tests.here / "asked"
    program = tests.rigged("rigged", f'case "$1" in syntax) [ -e {asked} ] || {{ touch {asked}; kill -9 $$; }} ;; esac')
    for name, options, wanted in [
        ("the header has no answer", [], ("ended by signal 9", None, 3)),
        ("the header has one when it is tried again", ["--retry", "1"], ("accepted", "written by hand", 0)),
    ]:
        asked.unlink(missing_ok=True)
        output, _, status = tests.run(["--format", "json", *options, SCHEMA, "examples/product.step"], program=program)
        row = json.loads(output)
        tests.judge(name, wanted, (row["answer"], row["preprocessor_version"], status))


# Names of any bytes: no UTF-8, what isn't shown, and what means something in a table.
NAMES = [b"\xff", b"half\xc3", "\u0085".encode(), b"\x85", "\u00a0".encode(), b"\xa0", "\u2028".encode(), "\U000e0001".encode()]
NAMES += [b"a\tb", b"a\nb", b"a\rb", b"a\x1b[1m", b"\\xff", b"a\\\\b", b'"quoted", and', b"'", b"#1", b" NA", "\u00fc \U0001f600".encode()]


def bytes_by_shell(text):
    """The bytes that a text with escapes stands for, as bash says it."""
    command = ["bash", "-c", "printf '%b' \"$1\"", "bash", text]
    return subprocess.run(command, capture_output=True, check=True, env={**os.environ, "LC_ALL": "C.UTF-8"}).stdout


def any_names(tests):
    """Names of any bytes come back from each form: of tables by a shell, and from JSON as Python has them."""
    folder = tests.here / "any"
    folder.mkdir()
    wanted = sorted(os.fsencode(folder) + b"/" + name + b".step" for name in NAMES)
    for path in wanted:
        with open(path, "wb") as file:
            file.write(file_of("").encode())
    database = str(tests.here / "any.db")
    found = {}
    for form in ("tsv", "csv", "json"):
        output = tests.run(["--format", form, SCHEMA, str(folder)])[0]
        tests.judge(f"{form}: a line each", len(NAMES) + (form != "json"), len(output.splitlines()))
        if form == "json":
            found[form] = [os.fsencode(json.loads(line)["file"]) for line in output.splitlines()]
            continue
        rows = [line.split("\t") for line in output.split("\n")[:-1]] if form == "tsv" else list(csv.reader(io.StringIO(output)))
        found[form] = [bytes_by_shell(row[0]) for row in rows[1:]]
    tests.run(["--format", "sqlite", "--database", database, SCHEMA, str(folder)])
    found["sqlite"] = [bytes_by_shell(row[0]) for row in sqlite3.connect(database).execute("SELECT file FROM files")]
    for form, names in found.items():
        tests.judge(f"{form}: names of any bytes", wanted, sorted(names))
    if pandas is None:
        return "pandas"
    output = tests.run(["--format", "csv", SCHEMA, str(folder)])[0]
    table = pandas.read_csv(io.StringIO(output), keep_default_na=False, na_values=[""])
    tests.judge("pandas: names", wanted, sorted(map(bytes_by_shell, table["file"])))
    tests.judge("pandas: columns", ([*COLUMNS, *BEHIND], "int64", "float64"), (list(table), str(table["bytes"].dtype), str(table["seconds"].dtype)))
    output = tests.run(["--format", "json", SCHEMA, str(folder)])[0]
    table = pandas.DataFrame(map(json.loads, output.splitlines()))
    tests.judge("pandas: names from JSON", wanted, sorted(map(os.fsencode, table["file"])))
    table = pandas.read_sql("SELECT * FROM files", sqlite3.connect(database))
    tests.judge("pandas: names from a database", wanted, sorted(map(bytes_by_shell, table["file"])))
    return ""


def again(tests):
    """A file without an answer is tried again, behind the others and as often as is said; one that has an answer isn't."""
    folder = tests.here / "again"
    folder.mkdir()
    for name in "abc":
        shutil.copy(ROOT / "examples" / "product.step", folder / f"{name}.step")
    shutil.copy(ROOT / "examples" / "refused" / "Count.step", folder / "refused.step")
    runs, log = folder / "runs", []

    def table(lines, *options):
        runs.write_text("")
        program = tests.rigged("rigged", f'case "$1" in canon) echo "${{4##*/}}" >> {runs} ;; esac\n{lines}')
        output, error, status = tests.run(["--format", "json", "-j", "2", *options, SCHEMA, str(folder)], program=program)
        log[:] = sorted(runs.read_text().split())
        rows = [json.loads(line) for line in output.splitlines()]
        return [(os.path.basename(row["file"])[:-5], row["answer"]) for row in rows], error.splitlines(), status

    kill = 'case "$1 $*" in canon*/b.step*)'
    once = f"{kill} [ -e {folder}/killed ] || {{ touch {folder}/killed; kill -9 $$; }} ;; esac"
    answered = [("a", "accepted"), ("c", "accepted"), ("refused", "refused 45 Count in #3")]
    said_again = "tried again: 1 file, of which 1 has an answer now"
    rows, error, status = table(once, "--retry", "1")
    tests.judge("killed once", ([*answered, ("b", "accepted")], True, 1), (rows, said_again in error, status))
    tests.judge("the runs of one that is killed once", ["a.step", "b.step", "b.step", "c.step", "refused.step"], log)
    (folder / "killed").unlink()
    rows, error, status = table(once)
    tests.judge("killed once, without --retry", (("b", "ended by signal 9"), False, 3), (rows[1], any(line.startswith("tried again") for line in error), status))
    rows, error, status = table(f"{kill} kill -9 $$ ;; esac", "--retry", "2")
    said_again = "tried again: 1 file, of which 0 have an answer now"
    tests.judge("killed each time", ([*answered, ("b", "ended by signal 9")], True, 3), (rows, said_again in error, status))
    tests.judge("the runs of one that is killed each time", ["a.step", "b.step", "b.step", "b.step", "c.step", "refused.step"], log)
    late = folder / "late.step"
    command = ["--retry", "1", "--format", "json", SCHEMA, str(late), str(folder / "a.step")]
    program = tests.rigged("rigged", f'case "$1 $*" in canon*/a.step*) cp {folder}/a.step {late} ;; esac')
    output, _, status = tests.run(command, program=program)
    rows = [(json.loads(line)["file"], json.loads(line)["answer"]) for line in output.splitlines()]
    tests.judge("a file that comes late", ([(str(folder / "a.step"), "accepted"), (str(late), "accepted")], 0), (rows, status))
    late.unlink()
    manifest = tests.here / "again.json"
    (folder / "killed").unlink(missing_ok=True)
    table(once, "--retry", "1", "--manifest", str(manifest))
    paths = [json.loads(line)["path"] for line in manifest.read_text().splitlines()[1:]]
    tests.judge("a manifest", sorted(str(folder / f"{name}.step") for name in ("a", "b", "c", "refused")), sorted(paths))
    for number in ("x", "-1", "", "99999"):
        _, _, status = tests.run([f"--retry={number}", SCHEMA, str(folder)])
        tests.judge(f"--retry={number}", 2, status)


def without_listings(tests):
    """The listing of a schema isn't asked for, which may be many times as long as the schema."""
    program = tests.rigged("listing", '[ "$1" = schema ] && { echo "the listing is asked for" >&2; exit 3; }')
    for options in ([], ["--data"], ["--names"]):
        given = [*options, "--format", "tsv", SCHEMA, "examples/product.step", "examples/refused/Count.step"]
        (wanted, *beside), (found, *others) = tests.run(given), tests.run(given, program=program)
        name = f"without a listing, {options}"
        tests.judge(name, (without_seconds(tests, name, wanted), beside), (without_seconds(tests, name, found), others))


def databases(tests):
    """A database has a row for each answer, to which later runs add theirs, and what has no answer apart."""
    database = str(tests.here / "files.db")
    given = ["--format", "sqlite", "--database", database, SCHEMA]
    tests.expect("a database", [*given, "examples"], 1, [], SUMMARY)

    def rows(columns, table="files", order="file"):
        with sqlite3.connect(database) as opened:
            return opened.execute(f"SELECT {columns} FROM {table} ORDER BY {order}").fetchall()

    def sha256(path):
        return hashlib.sha256((ROOT / path).read_bytes()).hexdigest()

    wanted = [(file, answer, count, found, sha256(file)) for file, answer, count, found in EXAMPLES]
    tests.judge("its rows", wanted, rows("file, answer, instances, canonical_sha256, sha256"))
    tests.judge("its columns", [said(row[0]) for row in EXAMPLES], rows(", ".join(BEHIND[:-1])))
    data = "d1ef44e135ce9068e56fb79f3288b855d8667e3ab9be1ff07a71f07f7cdf80ef"
    found = rows("number, name, statement, instance, data_sha256, form, schema, schema_sha256")
    listing = by(SCHEMA, None)[:2]
    wanted = [(45, "Count", None, "#3", None, None, *listing), (None, None, None, None, data, 1, *listing)]
    tests.judge("a refusal and an answer", wanted, [found[5], found[2]])
    opened = sqlite3.connect(database)
    same = "SELECT group_concat(file, ' ') FROM (SELECT * FROM files ORDER BY file) WHERE canonical_sha256 IS NOT NULL"
    found = opened.execute(f"{same} GROUP BY canonical_sha256 HAVING count(*) > 1").fetchall()
    tests.judge("what means the same", [("examples/product-other.step examples/product.step",)], found)
    for column, index in (("sha256", "files_by_bytes"), ("canonical_sha256", "files_by_meaning"), ("file", "files_by_name")):
        ((*_, plan),) = opened.execute(f"EXPLAIN QUERY PLAN SELECT * FROM files WHERE {column} = ''")
        tests.judge(f"the index of {column}", index, plan.split("INDEX ")[1].split()[0])
    opened.close()
    before = rows("max(checked)")
    tests.expect("the same again", [*given, "examples"], 1, [], SUMMARY)
    tests.judge("no row twice, and each anew", (13, True), (len(rows("file")), rows("min(checked)") > before))
    path = tests.make("changing.step", (ROOT / "examples" / "product.step").read_text())
    tests.run([*given, path])
    tests.make("changing.step", (ROOT / "examples" / "product-changed.step").read_text())
    tests.run([*given, path])
    tests.judge("other bytes at a path", [(BLOCK,), (CHANGED,)], rows("canonical_sha256", f"files WHERE file = '{path}'", "checked"))
    program = tests.rigged("rigged", 'case "$1 $*" in canon*/changing.step*) kill -9 $$ ;; esac')
    _, _, status = tests.run([*given, path, "{here}/none.step"], program=program)
    gone = (f"{tests.here}/none.step", f"cannot open {tests.here}/none.step: there is no such file")
    tests.judge("no answers", (3, [(path, "ended by signal 9"), gone]), (status, rows("file, why", "unanswered")))
    tests.judge("no answers are in no other table", [(path,), (path,)], rows("file", "files WHERE file LIKE '%/changing.step' OR file LIKE '%none%'"))
    tests.judge("nothing but answers", [], rows("answer", "files WHERE answer <> 'accepted' AND answer NOT LIKE 'refused %'"))
    tests.run([*given, path])
    tests.judge("an answer at last", [gone], rows("file, why", "unanswered"))
    program = tests.rigged("rigged", 'case "$1 $*" in canon*Count.step*) sleep 1; kill -9 $PPID ;; esac')
    other = str(tests.here / "ended.db")
    files = ["examples/product.step", "examples/refused/Count.step"]
    _, _, status = tests.run(["--format", "sqlite", "--database", other, "-j", "1", SCHEMA, *files], program=program)
    found = sqlite3.connect(other).execute("SELECT file FROM files").fetchall()
    tests.judge("a run that is ended", (-9, [("examples/product.step",)]), (status, found))
    words = [*RUN_BY, "tools/p21-table", "--format", "sqlite", "--database", f"{tests.here}/both.db", SCHEMA]
    folders = ("examples", str(ROOT / "examples" / "refused"))
    together = [subprocess.Popen([*words, folder], stderr=subprocess.DEVNULL) for folder in folders]
    statuses = [run.wait() for run in together]
    found = sqlite3.connect(tests.here / "both.db").execute("SELECT count(*) FROM files").fetchall()
    tests.judge("two runs at once", ([1, 1], [(23,)]), (statuses, found))


def wrong_databases(tests):
    """What is no database, or one of somebody else, is told and stays as it is."""
    text = tests.make("text.db", "no database, but long enough to be looked at\n" * 20)
    other = sqlite3.connect(tests.here / "other.db")
    other.execute("CREATE TABLE files (name TEXT)")
    other.commit()
    os.mkfifo(tests.here / "pipe.db")
    rows = [
        (text, f"cannot write {text}: file is not a database"),
        ("{here}/other.db", "{here}/other.db has another table files"),
        ("{here}/none/a.db", "cannot write {here}/none/a.db: unable to open database file"),
        ("{here}/pipe.db", "cannot write {here}/pipe.db: it is no plain file"),
        ("{here}", "cannot write {here}: it is no plain file"),
    ]
    for path, line in rows:
        given = ["--format", "sqlite", "--database", path, SCHEMA, "examples/product.step"]
        tests.expect(f"a database: {line}", given, 2, [], f"p21-table: {line}")
    tests.judge("a table of somebody else", [("files",)], other.execute("SELECT name FROM sqlite_master").fetchall())
    together = "--format sqlite and --database go together"
    wrong = [
        (["--format", "sqlite"], together),
        (["--database", "a.db"], together),
        (["--format", "sqlite", "--database", "a.db", "--names"], "a database has the hashes with names, with the header and without it"),
        (["--format", "sqlite", "--database", "a.db", "--data"], "a database has the hashes with names, with the header and without it"),
        (["--format", "sqlite", "--database", "a.db", "--manifest", "a.json"], "--format sqlite goes with no manifest"),
        (["--format", "sqlite", "--database", "a.db", "--verify", "a.json"], "--format sqlite goes with no manifest"),
        (["--retry", "1", "--verify", "a.json"], "--retry and --format csv don't go with --verify"),
        (["--format", "csv", "--verify", "a.json"], "--retry and --format csv don't go with --verify"),
    ]
    for given, line in wrong:
        tests.expect(" ".join(given), [*given, SCHEMA, "examples/product.step"], 2, [], f"p21-table: {line}")


def changing(tests):
    """A listing that changes while files are checked by it, and a file that changes while it is checked: it isn't known of which
    text an answer would be."""
    shutil.copy(ROOT / SCHEMA, tests.here / "changing.exp")
    program = tests.rigged("rigged", f"case $1 in canon) echo '-- later' >> {tests.here}/changing.exp ;; esac")
    output, _, status = tests.run(["--format", "json", "{here}/changing.exp", "examples/product.step"], program=program)
    line = f"{tests.here}/changing.exp changed while it was in use: begin again"
    tests.judge("a listing that changes", (line, None, 3), (*map(json.loads(output).get, ("answer", "sha256")), status))
    shutil.copy(ROOT / "examples" / "product.step", tests.here / "changing.step")
    program = tests.rigged("rigged", f"case $1 in canon) echo >> {tests.here}/changing.step ;; esac")
    output, _, status = tests.run(["--format", "json", SCHEMA, "{here}/changing.step"], program=program)
    line = "it changed while it was read"
    tests.judge("a file that changes", (line, None, 3), (*map(json.loads(output).get, ("answer", "sha256")), status))


def folders(tests):
    """What can't be read in a folder has its row, and isn't waited for. Links to other folders are named."""
    file = file_of("")
    folder = tests.here / "folder"
    (folder / "closed").mkdir(parents=True)
    tests.make("folder/a.step", file)
    tests.make("folder/closed/hidden.step", file)
    tests.make("folder/secret.step", file)
    (folder / "dangling.step").symlink_to("nowhere.step")
    (folder / "dangling.txt").symlink_to("nowhere.txt")
    (folder / "linked.step").symlink_to("a.step")
    (folder / "further").symlink_to("..")
    os.mkfifo(folder / "pipe.step")
    (folder / "secret.step").chmod(0)
    (folder / "closed").chmod(0)
    rows = [
        ("a.step", "accepted"),
        ("closed", "cannot open {}: it may not be read"),
        ("dangling.step", "cannot open {}: it is a link to what isn't there"),
        ("linked.step", "accepted"),
        ("pipe.step", "cannot open {}: it is no plain file"),
        ("secret.step", "cannot open {}: it may not be read"),
    ]
    wanted = [(f"{folder}/{name}", answer.format(f"{folder}/{name}")) for name, answer in rows]
    output, error, status = tests.run(["--format", "tsv", SCHEMA, str(folder)], before=AS_OTHERS)
    found = [tuple(line.split("\t")[:2]) for line in output.splitlines()[1:]]
    tests.judge("what can't be read", (wanted, 3), (found, status))
    counts = ["6 files, 2 accepted, 0 not, 4 without an answer", "     4 cannot open"]
    counts.append(f"passed over: 1 link to a folder: {folder}/further")
    tests.judge("what can't be read, counted", counts, error.splitlines()[:3])
    (folder / "closed").chmod(0o755)
    deep = folder / "deep"
    for _ in range(1200):
        deep.mkdir()
        deep = deep / "d"
    deep.write_text(file)
    deep.rename(deep.with_suffix(".step"))
    _, error, status = tests.run([SCHEMA, f"{folder}/deep"])
    tests.judge("a deep folder", ("1 file, 1 accepted, 0 not\n", 0), (error, status))
    subprocess.run(["rm", "-r", f"{folder}/deep"], check=True)
    secret, none = f"{folder}/secret.step", f"{folder}/none"
    for name, given, line in [
        ("a schema that may not be read", [secret, "examples"], f"cannot open {secret}: it may not be read"),
        ("a list that may not be read", ["--files-from", secret, SCHEMA], f"cannot open {secret}: it may not be read"),
        ("a list that isn't there", ["--files-from", none, SCHEMA], f"cannot open {none}: there is no such file"),
    ]:
        tests.expect(name, given, 2, [], f"p21-table: {line}", before=AS_OTHERS)
    names = [b"\xff.step", b"with\rreturn.step", b"windows.step"]
    for name in names:
        (folder / os.fsdecode(name)).write_text(file)
    listed = b"\n".join(os.fsencode(folder) + b"/" + name for name in names) + b"\r\n"
    _, error, status = tests.run(["--files-from", "-", SCHEMA], listed)
    tests.judge("names that aren't UTF-8, or have a return", ("3 files, 3 accepted, 0 not", 0), (error.split("\n")[0], status))
    line = "p21-table: - has a NUL: a list has a name in each line"
    tests.judge("a list with a NUL", ("", f"{line}\n", 2), tests.run(["--files-from", "-", SCHEMA], b"a.step\0b.step\0"))


# What befalls a tool, the line that it says, and whether the place in its sources is shown.
BEFALLS = [
    ("raise MemoryError", "p21-table: out of memory"),
    ("raise OSError(errno.ENOMEM, 'Cannot allocate memory', 'a.step')", "p21-table: out of memory"),
    ("raise OSError(errno.EIO, 'Input/output error', '/proc/self/status')", "p21-table: cannot open /proc/self/status: Input/output error"),
    ("raise reading.Trouble('a\\nb')", "p21-table: a\\nb"),
    ("raise RuntimeError('can\\'t start new thread')", "RuntimeError: can't start new thread"),
    ("return 0 // 0", "ZeroDivisionError: integer division or modulo by zero"),
]


def closed_streams(tests):
    """Streams that are closed: nothing of one comes on the other, and no status is that of an answer."""
    for closed, wanted in [(">&-", ("", "p21-table: standard output is closed\n", 2)), ("2>&-", (f"{BLOCK}\n", "", 0))]:
        command = f"tools/p21-table {SCHEMA} examples/product.step {closed}"
        done = subprocess.run(["sh", "-c", command], capture_output=True, check=False, text=True)
        tests.judge(f"a stream that is closed: {closed}", wanted, (done.stdout[-65:], done.stderr, done.returncode))


def without_room(tests):
    """Less and less memory for the tool itself: each row that it prints is right or says why it has no answer, and no status is
    that of an answer where a row is missing."""
    files = ["examples/product.step", "examples/refused/Count.step"]
    answers = dict(zip(files, ("accepted", "refused 45 Count in #3")))

    def limited(kilobytes, *words):
        command = ["sh", "-c", f'ulimit -v {kilobytes}; exec "$@"', "sh", *words]
        try:
            done = subprocess.run(command, capture_output=True, check=False, text=True, timeout=MOST_SECONDS)
        except subprocess.TimeoutExpired as ended:
            # Python itself may never end where it has no memory for an exception in front of the tool.
            return (ended.stdout or b"").decode(), 2
        return done.stdout, done.returncode

    # With less Python doesn't come to the tool.
    compiled = "compile(open('tools/p21-table').read(), 'p21-table', 'exec')"
    least = next(size for size in range(8_000, 200_000, 500) if limited(size, sys.executable, "-c", compiled)[1] == 0)
    statuses = set()
    for size in range(least + 1_000, least + 60_000, 1_500):
        output, status = limited(size, sys.executable, "tools/p21-table", "-j", "2", "--format", "tsv", SCHEMA, *files)
        rows = dict(line.split("\t")[:2] for line in output.splitlines()[1:])
        answered = {file for file, answer in rows.items() if answer == answers[file]}
        wanted = {2} if len(rows) < 2 else {1} if len(answered) == 2 else {3}
        tests.judge(f"{size} kilobytes", True, status in wanted)
        statuses.add(status)
    tests.judge("too little and enough", {1, 2}, statuses - {3})


def befallen(tests):
    """Whatever befalls a tool, its status is that of trouble, and not the one that says that something is refused."""
    for what, line in BEFALLS:
        code = f"import errno, sys\nimport p21_reading as reading\ndef work():\n    {what}\nsys.exit(reading.ended('p21-table', 2, work))"
        with_tools = dict(os.environ, PYTHONPATH="tools")
        done = subprocess.run([sys.executable, "-c", code], capture_output=True, check=False, text=True, env=with_tools)
        tests.judge(what, ("", line, 2), (done.stdout, (done.stderr.splitlines() or [""])[-1], done.returncode))


def main():
    tests = Tests("p21-table")
    examples(tests)
    hashes(tests)
    data(tests)
    schemas(tests)
    names(tests)
    pipes(tests)
    refusals(tests)
    controls(tests)
    of_headers(tests)
    left_out = any_names(tests)
    again(tests)
    without_listings(tests)
    databases(tests)
    wrong_databases(tests)
    unanswered(tests)
    changing(tests)
    folders(tests)
    without_room(tests)
    befallen(tests)
    closed_streams(tests)
    full_disk(tests)
    headers(tests)
    refused = "examples/product.step: schema refused S2 Syntax"
    tests.expect("exchanged arguments", ["examples/product.step", SCHEMA], 2, [], f"p21-table: {refused}")
    tests.expect("no file", [SCHEMA], 2, [], "p21-table: no file is named")
    tests.expect("a folder without STEP files", [SCHEMA, str(ROOT / "tools")], 2, [], "p21-table: no file is named")
    tests.end(left_out)


if __name__ == "__main__":
    main()
