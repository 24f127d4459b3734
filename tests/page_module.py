#!/usr/bin/env python3
"""Runs the module of the page in Node: over the rows of tests/program.sh, with a memory that can't grow, and its scripts over
the refused texts that tools/p21-where is tested by, over files that differ as p21-diff tells it, and over shelves of schemas.

P21 names another program than ./p21. The status is 77 where there is no Node that has 64-bit WebAssembly memory, or no
`rt`, which makes the page.
"""

import json
import os
import pathlib
import random
import re
import shlex
import shutil
import subprocess
import sys

import needs
import release
import texts
import tools_adapt
import tools_names
import tools_where
from renaming import shuffled
from web import making
from tooling import ROOT, SCHEMA, Tests, file_of

sys.path.insert(0, str(ROOT / "tools"))
import p21_pages  # pylint: disable=wrong-import-position
import p21_reading  # pylint: disable=wrong-import-position
import p21_shelf  # pylint: disable=wrong-import-position

PAIRS = 30


def as_program(tests, node, module, name="p21"):
    """A command that runs a module as the program."""
    path = pathlib.Path(tests.make(name, ""))
    words = shlex.join([*node, str(ROOT / "tests" / "web" / "program.mjs"), str(module)])
    path.write_text(f'#!/bin/sh\nexec {words} "$@"\n')
    path.chmod(0o755)
    return path


def program_rows(tests, node):
    """The rows of tests/program.sh."""
    program = as_program(tests, node, making.MODULE)
    done = subprocess.run(
        ["tests/program.sh"], env=making.environment(program), capture_output=True, text=True, check=False
    )
    print(f"tests/program.sh: {done.stdout.count('as it must be')} rows as they must be")
    tests.judge("tests/program.sh with the module", ("", 0), (done.stderr, done.returncode))


def want_of_memory(tests, node):
    """A memory that can't grow, or not by much: the program says so, or answers."""
    module = making.MODULE.read_bytes()
    demo = "examples/demo.exp"
    points = "\n".join(f"#{number}=POINT($,1.,1.);" for number in range(1, 20001))
    path = tests.make("points.step", file_of(points, [("PRODUCT_MODEL", "DEMO")]))
    counts = {"out of memory": 0, "accepted": 0}
    answered = subprocess.run([tests.program, "check", demo, path], capture_output=True, text=True, check=True).stdout, "", 0
    for pages in (0, 1, 2, 4, 8, 16, 24, 32, 48, 64, 128, 1024):
        made = tests.make(f"limited{pages}.wasm", making.limited(module, pages))
        program = as_program(tests, node, made, "limited")
        done = subprocess.run([program, "check", demo, path], capture_output=True, text=True, check=False)
        found = done.stdout, done.stderr, done.returncode
        said = "accepted" if found[2] == 0 else "out of memory"
        wanted = answered if found[2] == 0 else ("", "out of memory\n", 3)
        tests.judge(f"a memory that grows by {pages} pages", wanted, found)
        counts[said] += 1
    tests.judge("some memories suffice and some don't", True, all(counts.values()))


def growth(tests, node):
    """Memory doubles, so that a browser that moves it whole at each growth moves it seldom."""
    rows = "\n".join(f"#{number}=POINT($,{number}.,1.);" for number in range(1, 1_000_001))
    path = tests.make("points.step", file_of(rows, [("PRODUCT_MODEL", "DEMO")]))
    command = [*node, "tests/web/memory.mjs", str(making.MODULE), "examples/demo.exp", path]
    found = json.loads(subprocess.run(command, capture_output=True, text=True, check=True).stdout)
    sizes = found["sizes"]
    tests.judge("the memory of a large file", (0, True), (found["status"], sizes[-1] > 30_000_000))
    tests.judge("each size of it but the last is doubled", [2 * size for size in sizes[:-1]], sizes[1:])
    os.unlink(path)


def refused_texts(tests):
    """The texts that tools/p21-where is tested by: schemas and files under them."""
    found = [[SCHEMA, str(path)] for path in sorted(pathlib.Path("examples/refused").iterdir())]
    # The page has no parameters alone, and no files that are numbered.
    found += [words for _, (command, *words), _ in texts.faults(tests.here) if command != "param" and words[0] != "--names"]
    for number, (_, instances, *_) in enumerate(tools_where.VALUES):
        text, *_ = tools_where.unmarked(file_of(instances, [("PRODUCT_MODEL", "DEMO")]))
        found.append([tools_where.DEMO, tests.make(f"value{number}.step", text)])
    for number, (_, text) in enumerate(tools_where.SCHEMAS):
        found.append([tests.make(f"schema{number}.exp", tools_where.unmarked(text)[0])])
    data = pathlib.Path("examples/product-other.step").read_bytes()
    chance = random.Random("page")
    for number in range(12):
        found.append([SCHEMA, tests.make(f"cut{number}.step", data[: chance.randrange(len(data))])])
        at, byte = chance.randrange(len(data)), chance.choice(b"#'(),;=$*.\\/!&@\x80\xfcAz0 \n\"")
        found.append([SCHEMA, tests.make(f"changed{number}.step", data[:at] + bytes([byte]) + data[at + 1 :])])
    found += [["examples/product.step"], ["examples/product.step", SCHEMA], [SCHEMA, SCHEMA], [SCHEMA, "/bin/sh"]]
    return found


def places(tests, node):
    """What the page says of refused texts is what tools/p21-where prints, line by line, with the same status."""
    given = refused_texts(tests) + list(broken_files(tests))
    command = [*node, "tests/web/where.mjs", str(making.MODULE)]
    done = subprocess.run(command, input=json.dumps(given), stdout=subprocess.PIPE, text=True, check=True)
    for paths, (*found, of_all) in zip(given, json.loads(done.stdout), strict=True):
        output, error, status = tests.run(paths)
        tests.judge(" ".join(paths), [output.splitlines(), status], found if not error else error)
        if of_all is not None:
            output, error, _ = tests.run(["--all", *paths])
            tests.judge(f"all of {' '.join(paths)}", output.splitlines(), of_all if not error else error)


def broken_files(tests):
    """Files with many refusals, of one kind and of several, in the order of the file and in references."""
    chance = random.Random("broken")
    broken = [
        "POINT($,1.);",
        "POINT($,1.,2);",
        "POINT($,'a',2.);",
        "POINT(1.,2.);",
        "NOTHING(1.);",
        "CLOUD((#1,#{other},#{none},#{none}),(),(TALLY(1)));",
        "CLOUD((#{other}),((1.,2)),(TALLY(1)));",
        "MARKED(#{other},.RED.);",
        "MARKED($,.BLUE.);",
        "(MARKED(.RED.)POINT(1.,2)SHAPE($));",
        "CLOUD((),(),(#{other},#{none},#1));",
        "CLOUD((),(),(DISTANCE(1.),DISTANCE(10.E-1)));",
        "POINT($,1.,2.);",
    ]
    name = 2**64 - 3
    long_names = f"#{name}=POINT($,1.,2.);\n#{name + 1}=POINT($,1.,'a');\n#0{name}=ORIGIN($,*,1.);"
    yield [tools_where.DEMO, tests.make("long_names.step", file_of(long_names, [("PRODUCT_MODEL", "DEMO")]))]
    references = ",".join(f"#{name}" for name in range(2, 142))
    for number, other in enumerate(("", "\n".join(f"#{name}=MARKED($,.RED.);" for name in range(2, 142, 2)))):
        rows = f"#1=CLOUD(({references}),(),(TALLY(1)));\n{other}"
        yield [tools_where.DEMO, tests.make(f"references{number}.step", file_of(rows, [("PRODUCT_MODEL", "DEMO")]))]
    for number in range(20):
        count = chance.randint(2, 40)
        rows = []
        for name in range(1, count + 1):
            row = chance.choice(broken).replace("#{other}", f"#{chance.randint(1, count)}").replace("#{none}", f"#{count + 99}")
            rows.append(f"#{name if chance.random() < 0.9 else chance.randint(1, count)}={row}")
        if number % 5 == 4:
            rows.append("#9=POINT($,1.,p);")
        yield [tools_where.DEMO, tests.make(f"broken{number}.step", file_of("\n".join(rows), [("PRODUCT_MODEL", "DEMO")]))]


def pairs_of_files(tests):
    """Schemas with two files each: the examples, files of which the right answer is known, and files that are made by chance and
    renumbered, changed or not."""
    steps = ["examples/product.step", "examples/product-other.step", "examples/product-changed.step"]
    for first in steps:
        for second in steps:
            yield [SCHEMA, first, second]
    for number, (_, first, second, *_) in enumerate(tools_names.ROWS):
        yield tools_names.SCHEMA, tools_names.file_of(first), shuffled(tools_names.file_of(second), number)[0]
    for seed in range(PAIRS):
        chance = random.Random(f"pair {seed}")
        records = tools_names.by_chance(seed, chance.randint(1, 60), seed % 2 == 0)
        changed = dict(records)
        for name in chance.sample(list(records), min(len(records), chance.randint(0, 3))):
            changed[name] = tools_names.Maker(chance, len(records), True).record(name)
        for name in chance.sample(list(records), min(len(records) - 1, chance.choice([0, 0, 1]))):
            if not any(re.search(rf"#{name}\b", record) for record in changed.values()):
                del changed[name]
        yield tools_names.SCHEMA, tools_names.file_of(records), shuffled(tools_names.file_of(changed), seed)[0]


# What is asked of p21-diff, as its command line has it and as the page does.
OPTIONS = (([], {}), (["--data"], {"data": True}), (["--tolerance", "0.5"], {"tolerance": "0.5"}), (["--data", "--tolerance", "1E-7"], {"data": True, "tolerance": "1E-7"}))
# Of so many pairs the reports are compared too.
REPORTS = 20


def differences(tests, node):
    """What differs by names and up to names is what p21-diff prints, with each of its options, and the reports are the same bytes."""
    tests.tool = "p21-diff"
    given = []
    for number, (schema, *files) in enumerate(pairs_of_files(tests)):
        texts_of = (file if isinstance(file, str) else tests.make(f"pair{number}.{at}.step", file) for at, file in enumerate(files))
        given.append([schema, *texts_of])
    accepted = [paths for paths in given if all(is_accepted(tests, paths[0], path) for path in paths[1:])]
    tests.judge("most pairs are accepted", True, 2 * len(accepted) > len(given))
    asked = []
    for number, (schema, *files) in enumerate(accepted):
        _, options = OPTIONS[number % len(OPTIONS)]
        asked.append({"schema": schema, "files": files, "options": options, "withReport": number < REPORTS})
    style = {"style": p21_pages.STYLE, "script": p21_pages.SCRIPT}
    command = [*node, "tests/web/differences.mjs", str(making.MODULE)]
    text = json.dumps({"given": asked, "style": style})
    done = subprocess.run(command, input=text, capture_output=True, text=True, check=True)
    for number, (paths, both) in enumerate(zip(accepted, json.loads(done.stdout), strict=True)):
        words, _ = OPTIONS[number % len(OPTIONS)]
        for found, names in zip(both, ([], ["--names"]), strict=True):
            options = [*names, *words, "--stat"]
            output, _, _ = tests.run([*options, *paths])
            left_out, _, rest = output.partition("\n") if words else ("", "", output)
            tests.judge(f"what is left out by {options}", left_out, found["leftOut"])
            table, _, lines = rest.partition("\n\n") if "\n\n" in rest else ("", "", rest)
            tests.judge(" ".join([*options, *paths]), lines.splitlines(), [*found["lines"], found["verdict"]])
            rows = [[row[0], *map(int, row[1:])] for row in map(str.split, table.splitlines()[1:-1])]
            tests.judge(f"the table of {' '.join([*options, *paths])}", rows, found["table"])
            if found["report"] is not None:
                options = [*names, *words, "--format", "html"]
                output, _, _ = tests.run([*options, *paths])
                tests.judge(f"the report, {' '.join([*options, *paths])}", output, found["report"])
    tests.tool = "p21-where"


CHANGED = '{"kind":"changed","what":"instance","a":1,"b":2,"entity":"A","attribute":"X","keywords":"A","before":"1","after":"2"}\n'
COUNTED = '{"kind":"verdict","verdict":"different","changed":1,"came":0,"went":0}\n'
UNDECIDED = '{"kind":"verdict","verdict":"undecided"}\n'
# Each row: what the program writes by pairs, behind a `!` why it has no answer, how many differences the page shows, and what it says.
NO_ANSWERS = (
    (f"{CHANGED}{COUNTED}", 1, "different: 1 changed, 0 came, 0 went", True),
    (UNDECIDED, 0, "not decided: too many instances are alike to be paired", False),
    ("!out of memory", 0, "no answer: out of memory", False),
    (f"{CHANGED}!the browser stopped the program: out of memory", 0, "no answer: the browser stopped the program: out of memory", False),
    (CHANGED, 0, "no answer: the list of what differs isn’t whole", False),
    (f"{CHANGED}{COUNTED[:20]}", 0, "no answer: the list of what differs isn’t whole", False),
    ("", 0, "no answer: the list of what differs isn’t whole", False),
)
# The same where the header is to be left out: the program has to say that it is, and of files that differ how much that was.
SAID = '{"kind":"left out","header":true}\n'
WITHOUT_HEADER = (
    (f"{SAID}{COUNTED[:-2]},\"in_header\":2}}\n", 0, "the same but for the header: 0 changed, 0 came, 0 went; 2 differences in the header not listed", True),
    (f"{SAID}{COUNTED}", 0, "no answer: the list of what differs isn’t whole", False),
    (COUNTED, 0, "no answer: the list of what differs isn’t whole", False),
    (UNDECIDED, 0, "not decided: too many instances are alike to be paired", False),
)


def no_answers(tests, node):
    """Where the program doesn't say what differs, or not to its end, nothing is listed, and that is said."""
    command = [*node, "tests/web/no_answers.mjs"]
    rows = [*((row, False) for row in NO_ANSWERS), *((row, True) for row in WITHOUT_HEADER)]
    given = json.dumps([(row[0], data) for row, data in rows])
    done = subprocess.run(command, input=given, capture_output=True, text=True, check=True)
    for ((text, count, verdict, is_listed), _), found in zip(rows, json.loads(done.stdout), strict=True):
        tests.judge(f"no answer, {text!r}", [count, count, count, verdict, is_listed], found)


def adapting(tests, node):
    """A listing that is made fit, and the lines about it, are those of p21-adapt."""
    tests.tool = "p21-adapt"
    texts_of = [f"SCHEMA s;\n{listing}\nEND_SCHEMA;\n" for listing, *_ in tools_adapt.EDITS]
    texts_of += ["SCHEMA s; USE FROM other (q, r); ENTITY z; x : q; END_ENTITY; END_SCHEMA;", "\xef\xbb\xbfSCHEMA s; END_SCHEMA;", "SCHEMA s; ENTITY a; x : foo; END_ENTITY; END_SCHEMA;"]
    other = "SCHEMA other; TYPE q = REAL; END_TYPE; ENTITY r; y : p; END_ENTITY; TYPE p = q; END_TYPE; END_SCHEMA;"
    command = [*node, "tests/web/adapting.mjs", str(making.MODULE)]
    done = subprocess.run(command, input=json.dumps([[text, other] for text in texts_of]), capture_output=True, text=True, check=True)
    path = tests.make("other.exp", other)
    for number, (text, found) in enumerate(zip(texts_of, json.loads(done.stdout), strict=True)):
        listing = tests.make(f"adapt{number}.exp", text.encode("latin-1"))
        copy, error, _ = tests.run(["--from", path, listing])
        tests.judge(f"a listing made fit, {text}", (error.splitlines(), copy), (found["lines"], found["copy"]))
    tests.tool = "p21-where"


# What files hold, as people count it: the header, and the instances by keyword. Strings have what looks like the end of a statement.
ALONE = (
    (
        "ISO-10303-21;HEADER;FILE_DESCRIPTION(('a','b;'),'2;1');/* ; */FILE_NAME('It''s \\X\\FC','2026',('\\X2\\00DF\\X0\\',''),(''),$,'\\S\\'','none');"
        "FILE_SCHEMA(('DEMO { 1 2 }'));ENDSEC;DATA;\n#1=POINT($,1.,2.);/*#9=POINT();*/#2 = /* a */ POINT ($,'#3=LINE();',2.)\n;\n#3=(B(1)A('x'));#4=A((#1,#2));ENDSEC;END-ISO-10303-21;",
        [["Description", ["a", "b;"]], ["Implementation level", ["2;1"]], ["Name", ["It's \u00fc"]], ["Time stamp", ["2026"]], ["Author", ["\u00df"]], ["System", ["\u00a7"]], ["Authorization", ["none"]], ["Schema", ["DEMO { 1 2 }"]]],
        [["POINT", 2], ["A", 1], ["A+B", 1]],
    ),
    (
        "ISO-10303-21;HEADER;FILE_DESCRIPTION($,$);FILE_NAME($,$,$,$,$,$,$);FILE_SCHEMA(('S'));ENDSEC;DATA;ENDSEC;END-ISO-10303-21;",
        [["Schema", ["S"]]],
        [],
    ),
)


def alone(tests, node):
    """What files say by themselves: the line is that of `p21 syntax`, and where one is refused is where p21-where says it of a file that
    is refused for the same reason under a schema."""
    paths = [tests.make(f"alone{number}.step", text) for number, (text, *_) in enumerate(ALONE)]
    examples = sorted(str(path) for path in pathlib.Path("examples").rglob("*.step"))
    given = [*paths, *examples]
    command = [*node, "tests/web/alone.mjs", str(making.MODULE)]
    done = subprocess.run(command, input=json.dumps(given), capture_output=True, text=True, check=True)
    found = json.loads(done.stdout)
    for (_, header, keywords), said in zip(ALONE, found):
        tests.judge("the header, and what a file holds", (header, keywords), (said.get("header"), said.get("keywords")))
    same = 0
    for path, said in zip(given, found, strict=True):
        line = subprocess.run([tests.program, "syntax", path], capture_output=True, text=True, check=False)
        tests.judge(f"{path} by itself", (line.stdout + line.stderr).splitlines()[0], said["line"])
        if "lines" in said:
            lines = tests.run([SCHEMA, path])[0].splitlines()
            if lines[0] == said["line"]:
                same += 1
                tests.judge(f"where {path} is refused by itself", lines[:3], said["lines"][:3])
        else:
            count = int(re.search(r"instances (\d+)", said["line"])[1])
            tests.judge(f"what {path} holds", count, sum(number for _, number in said["keywords"]))
    tests.judge("some are refused with a schema and without", True, same >= 5)


def is_accepted(tests, schema, path):
    """Is a file accepted?"""
    return subprocess.run([tests.program, "check", schema, path], capture_output=True, check=False).returncode == 0


def shelves(tests, node):
    """What serves a name on a shelf, or what is wrong with it, is what the tools say."""
    product, demo = (pathlib.Path("examples", name).read_text() for name in ("product.exp", "demo.exp"))
    both = {"product.exp": product, "demo.exp": demo}
    given = [
        (both, None),
        (both, "# one schema by two names\n\nautomotive_design = product.exp\n"),
        ({"product.exp": "-- a remark\n" + product, "demo.exp": demo}, "A = demo.exp\r\nB=product.exp"),
        ({**both, "a.exp": product}, None),
        (both, "DEMO = product.exp\n"),
        (both, "# a\nA: demo.exp\n"),
        (both, "A = none.exp"),
        ({**both, "empty.exp": ""}, None),
    ]
    names = ["PRODUCT_MODEL", "DEMO", "AUTOMOTIVE_DESIGN", "A", "B", "OTHER", None]
    rows = [{"listings": listings, "aliases": aliases, "names": names} for listings, aliases in given]
    command = [*node, "tests/web/shelf.mjs"]
    done = subprocess.run(command, input=json.dumps(rows), capture_output=True, text=True, check=True)
    for number, ((listings, aliases), found) in enumerate(zip(given, json.loads(done.stdout), strict=True)):
        folder = tests.here / f"shelf{number}"
        folder.mkdir()
        for name, text in listings.items():
            (folder / name).write_text(text, newline="")
        if aliases is not None:
            (folder / "aliases").write_text(aliases, newline="")
        tests.judge(f"shelf {number}", of_shelf(folder, names), found)


def of_shelf(folder, names):
    """What the tools say of a shelf, without the folder in front of names."""
    try:
        shelf = p21_shelf.Shelf(folder)
    except p21_reading.Trouble as trouble:
        return str(trouble).replace(f"{folder}/", "")
    served = [shelf.serving(name) for name in names]
    paths = [each and (each.listing, each.change, pathlib.Path(each.path).read_text()) for each in served]
    return [each and [pathlib.Path(each[0]).name, each[1].replace(f"{folder}/", ""), each[2]] for each in paths]


def marks(tests, _):
    """The page is marked as unproved unless the record of the build says that the gate passed these sources. Tried in a copy of
    the repository, with files in place of what is built."""
    copy = tests.here / "copy"
    shutil.copytree(ROOT / "crates", copy / "crates", ignore=shutil.ignore_patterns("must-fail", "out"))
    for part in ("making", "web", "tools", "examples"):
        shutil.copytree(ROOT / part, copy / part, ignore=shutil.ignore_patterns("__pycache__"))
    shutil.copytree(ROOT / "platforms", copy / "platforms", ignore=shutil.ignore_patterns("out"))
    (copy / "docs").mkdir()
    for part in ("crates.txt", "HANDLES", "docs/SCHEMAS.md"):
        shutil.copy(ROOT / part, copy / part)
    out = copy / "crates" / "p21" / "out"
    out.mkdir()

    def said(*words):
        command = [copy / "making" / "build-page", *words, tests.here / "marked.html"]
        line = subprocess.run(command, check=True, capture_output=True, text=True, env={**os.environ, "P21_KEEP": "1"}).stdout
        is_marked = "const isProved = false;" in (tests.here / "marked.html").read_text()
        return line.strip().partition("marked as unproved: ")[2], is_marked

    tests.judge("without a record", ("there is no crates/p21/out/record", True), said())
    for name in ("p21", "p21.o"):
        (out / name).write_text(name)
    record = release.true_record(copy, "p21")

    def recorded(lines):
        (out / "record").write_text("\n".join(lines) + "\n")
        return said()

    tests.judge("with a whole record", ("", False), recorded(record))
    own = "is a module of its own"
    tests.judge("with another module", (True, True), ((found := said("--module", making.MODULE))[0].endswith(own), found[1]))
    checked = ["checks over kept work" if line.startswith("gate ") else line for line in record]
    tests.judge("with checks in place of the gate", ("p21 was proved by checks over kept work, and not by the gate", True), recorded(checked))
    failed = [line.replace("passed, 0 failed", "passed, 1 failed") for line in record]
    tests.judge("with a gate that failed", ("the gate ended with", True), ((found := recorded(failed))[0][:19], found[1]))
    without = [line for line in record if line != "proved p21_stream"]
    tests.judge("with a crate unproved", ("nothing of p21_stream was proved", True), recorded(without))
    source = copy / "crates" / "p21_values" / "src" / "lib.rt"
    checksum = [copy / "making" / "build-page", "--sources"]
    before = subprocess.run(checksum, check=True, capture_output=True, text=True).stdout
    source.write_text(source.read_text() + "\n")
    os.utime(source, (0, 0))
    tests.judge("with another source", ("the sources below p21 aren't those that were proved", True), recorded(record))
    after = subprocess.run(checksum, check=True, capture_output=True, text=True).stdout
    tests.judge("another checksum of other sources", True, re.fullmatch(r"[0-9a-f]{64}\n", after) is not None and before != after)


def main():
    node = making.node()
    if not node:
        needs.skipped("there is no Node with 64-bit WebAssembly memory")
    needs.wanted("rt")
    tests = Tests("p21-where")
    making.make_page(tests.here / "p21.html")
    for group in (marks, program_rows, want_of_memory, growth, places, differences, no_answers, shelves, adapting, alone):
        group(tests, node)
    tests.end()


if __name__ == "__main__":
    main()
