#!/usr/bin/env python3
"""Runs p21-table, p21-where and p21-diff with a folder of schemas, over the examples and files that are made. P21 names another
program than ./p21."""

import hashlib
import json
import os
import shutil

from tooling import AS_OTHERS, ROOT, SCHEMA, Tests, file_of

BLOCK = "5d11fa2abae65fa2bff1265d357ae88c5adf85242cd77e53a1c8b9877eff411c"
HEAD = "file\tanswer\tinstances\tsha256\tschema\tschema_sha256\tform"
ALIASES = "# one schema by two names\n\nautomotive_design = product.exp\n"


def shelf(tests, name, aliases=None, listings=("product.exp", "demo.exp")):
    """A folder with these listings of the examples."""
    folder = tests.here / name
    folder.mkdir()
    for listing in listings:
        shutil.copy(ROOT / "examples" / listing, folder)
    if aliases is not None:
        (folder / "aliases").write_text(aliases)
    return str(folder)


def hash_of(listing):
    """The hash of a listing of the examples."""
    return hashlib.sha256((ROOT / "examples" / listing).read_bytes()).hexdigest()


def tables(tests, folder):
    """Each file has its row by the listing that serves the name in it."""
    demo = tests.make("demo.step", file_of("#1=POINT($,1.,2.);", [("PRODUCT_MODEL", "Demo { 1 0 }")]))
    other = tests.make("other.step", file_of("", [("PRODUCT_MODEL", "OTHER")]))
    none = tests.make("none.step", "ISO-10303-21;HEADER;ENDSEC;")
    alias = "examples/refused/SchemaName.step"
    product = [f"{folder}/product.exp", hash_of("product.exp")]
    first = [f"{folder}/demo.exp", hash_of("demo.exp")]
    rows = [
        ["examples/product.step", "accepted", "128", BLOCK, *product, "1"],
        [demo, "accepted", "1", None, *first, "1"],
        [alias, "accepted", "1", None, *product, "1"],
        [other, "no schema", "", "", "", "", ""],
        [none, "refused 30 HeaderShape at statement 3", "", "", *product, ""],
        ["examples/product-other.step", "accepted", "128", BLOCK, *product, "1"],
    ]
    output, error, status = tests.run(["--format", "tsv", "--schemas", folder, *(row[0] for row in rows)])
    found = [line.split("\t")[: len(rows[0])] for line in output.splitlines()]
    for row, line in zip(rows, found[1:]):
        line[3] = None if row[3] is None else line[3]
    tests.judge("the head", HEAD.split("\t"), found[0])
    for row, line in zip(rows, found[1:]):
        tests.judge(f"row of {row[0]}", row, line)
    tests.judge("the status", 1, status)
    counts = "6 files, 4 accepted, 2 not\n     1 no schema\n     1 refused 30 HeaderShape\n"
    tests.judge("the counts", counts, error[: error.find("the same: ")])
    change = f"{folder}/product.exp:1: SCHEMA product_model -> SCHEMA AUTOMOTIVE_DESIGN\n"
    by = [f"by {first[0]}, SHA-256 {first[1]}: 1 file\n", f"by {product[0]}, SHA-256 {product[1]}: 4 files\n"]
    lacking = f"no schema OTHER on the shelf {folder}\n"
    tests.judge("what is said of the shelf", "".join(by) + lacking + change, error[error.find("by ") :])
    output, _, status = tests.run(["--format", "json", "--schemas", folder, "examples/product.step"])
    tests.judge("JSON", ([*product, 1], 0), ([json.loads(output)[name] for name in HEAD.split("\t")[4:]], status))


def variable(tests, folder):
    """P21_SCHEMAS names the folder where the first name is no schema."""
    os.environ["P21_SCHEMAS"] = folder
    output, error, status = tests.run(["--format", "tsv", "examples/product.step"])
    folders = {os.path.dirname(line.split("\t")[4]) for line in output.splitlines()[1:]}
    tests.judge("the variable", ({folder}, True, 0), (folders, "\nby " in error, status))
    output, error, status = tests.run(["--format", "tsv", SCHEMA, "examples/product.step"])
    tests.judge("a schema that is named", (SCHEMA, False, 0), (output.splitlines()[1].split("\t")[4], "\nby " in error, status))
    del os.environ["P21_SCHEMAS"]


def places(tests, folder):
    """p21-where finds the schema too, and shows the change that an alias makes."""
    tests.tool = "p21-where"
    count = "examples/refused/Count.step"
    wanted = tests.run([SCHEMA, count])
    tests.judge("the same place", wanted, tests.run(["--schemas", folder, count]))
    with open(count, "rb") as file:
        output, _, status = tests.run(["--schemas", folder, "/dev/stdin"], file.read())
    tests.judge("from a pipe", (wanted[0].replace(count, "/dev/stdin"), 1), (output, status))
    change = f"{folder}/product.exp:1: SCHEMA product_model -> SCHEMA AUTOMOTIVE_DESIGN"
    given = ["--schemas", folder, "examples/refused/SchemaName.step"]
    tests.expect("an alias", given, 0, ["accepted, instances 1, canonical bytes 303"], change)
    other = str(tests.here / "other.step")
    lacking = f"no schema OTHER on the shelf {folder}"
    tests.expect("no such schema", ["--schemas", folder, other], 1, ["no schema", f"  {lacking}"])
    given = ["--all", "--format", "lines", "--schemas", folder, other, "examples/refused/Dangling.step"]
    place = "examples/refused/Dangling.step:10:29: 56 Dangling in #2: "
    output, error, status = tests.run(given)
    lines = output.splitlines()
    found = lines[0], lines[1][: len(place)], len(lines), error, status
    tests.judge("no such schema, and another file", (f"{other}: no schema: {lacking}", place, 2, "", 1), found)
    two = ["--format", "lines", "--schemas", folder, count, "examples/refused/SchemaName.step"]
    found = "45 Count in #3: AXIS2_PLACEMENT_3D has 4 attributes, and here are 3 values; without one: REF_DIRECTION"
    tests.expect("several files", two, 1, [f"{count}:11:31: {found}"], change)
    tests.tool = "p21-table"


def differences(tests, folder):
    """p21-diff finds the schema that the first file names."""
    tests.tool = "p21-diff"
    first, second = "examples/product.step", "examples/product-changed.step"
    line = "changed #24 CARTESIAN_POINT.COORDINATES[3]: 1.25E1 -> 1.225E1"
    tests.expect("by the folder", ["--schemas", folder, first, second], 1, [line])
    demo = [tests.make(f"{name}.step", file_of(f"#1=POINT($,1.,{name}.);", [("PRODUCT_MODEL", "DEMO")])) for name in "12"]
    tests.expect("by another listing", [*demo, "--schemas", folder], 1, ["changed #1 POINT.Y: 1. -> 2."])
    with open(first, "rb") as file:
        found = tests.run(["--schemas", folder, "-", second], file.read())
    tests.judge("from a pipe", (f"{line}\n", "", 1), found)
    os.environ["P21_SCHEMAS"] = folder
    tests.expect("by the variable", [first, second], 1, [line])
    tests.expect("a schema that is named, with the variable", [SCHEMA, first, second], 1, [line])
    del os.environ["P21_SCHEMAS"]
    change = f"{folder}/product.exp:1: SCHEMA product_model -> SCHEMA AUTOMOTIVE_DESIGN"
    alias = "examples/refused/SchemaName.step"
    tests.expect("an alias", ["--schemas", folder, alias, alias], 0, [], change)
    other = tests.make("other.step", file_of("", [("PRODUCT_MODEL", "OTHER")]))
    line = f"p21-diff: {other}: no schema OTHER on the shelf {folder}"
    tests.expect("no such schema", ["--schemas", folder, other, first], 2, [], line)
    line = f"p21-diff: {demo[0]}: refused 31 SchemaName at statement 5"
    tests.expect("files of two schemas", ["--schemas", folder, first, demo[0]], 2, [], line)
    for name, given, end in [
        ("no schema", [first, second], "a schema is wanted in front of two files, or a folder by --schemas or P21_SCHEMAS"),
        ("a schema beside the folder", ["--schemas", folder, SCHEMA, first, second], "with --schemas there is no S"),
    ]:
        output, error, status = tests.run(given)
        tests.judge(name, ("", f"p21-diff: error: {end}", 2), (output, error.splitlines()[-1], status))
    tests.tool = "p21-table"


def refused(tests):
    """Folders that are no shelves."""
    (tests.here / "empty").mkdir()
    twice = shelf(tests, "twice", "DEMO = product.exp\n")
    shutil.copy(ROOT / SCHEMA, tests.here / "twice" / "a.exp")
    (tests.here / "twice" / "aliases").unlink()
    given = [
        (f"{tests.here}/nowhere", f"{tests.here}/nowhere is no folder of schemas"),
        (f"{tests.here}/empty", f"{tests.here}/empty has no listing whose name ends in .exp"),
        (twice, f"{twice}/a.exp and {twice}/product.exp both serve PRODUCT_MODEL"),
    ]
    for name, aliases, line in [
        ("served", "DEMO = product.exp\n", "{0}/demo.exp and {0}/product.exp both serve DEMO"),
        ("wrong", "# a\nA: demo.exp\n", "{0}/aliases:2: no NAME = LISTING of this folder: A: demo.exp"),
        ("absent", "A = none.exp", "{0}/aliases:1: no NAME = LISTING of this folder: A = none.exp"),
    ]:
        folder = shelf(tests, name, aliases)
        given.append((folder, line.format(folder)))
    for folder, line in given:
        tests.expect(folder, ["--schemas", folder, "examples/product.step"], 2, [], f"p21-table: {line}")
    folder = shelf(tests, "unfit", listings=["demo.exp"])
    unfit = tests.make("unfit/unfit.EXP", "SCHEMA product_model;\nENTITY a; x : LIST [1:n] OF REAL; END_ENTITY;\nEND_SCHEMA;\n")
    output, error, status = tests.run(["--schemas", folder, "examples/product.step"])
    line = f"{unfit} is refused: p21-where shows where, and p21-adapt may make it fit"
    tests.judge("a listing that is refused", (True, line, 1), ("schema refused S6 LeftOut" in output, error.splitlines()[-1], status))
    tests.expect("no schema at all", [], 2, [], "p21-table: no schema is named")


def closed(tests):
    """What of a shelf may not be read, or is no plain file, is said so, and isn't waited for."""
    folder = shelf(tests, "closed")
    given = ["--schemas", folder, "examples/product.step"]
    for name in ("aliases", "demo.exp"):
        tests.make(f"closed/{name}", "SCHEMA demo;\n")
        os.chmod(f"{folder}/{name}", 0)
        line = f"p21-table: cannot open {folder}/{name}: it may not be read"
        tests.expect(f"{name} that may not be read", given, 2, [], line, before=AS_OTHERS)
        os.remove(f"{folder}/{name}")
        os.symlink("nowhere", f"{folder}/{name}")
        line = f"p21-table: cannot open {folder}/{name}: it is a link to what isn't there"
        tests.expect(f"{name} that is a link to nothing", given, 2, [], line)
        os.remove(f"{folder}/{name}")
        os.mkfifo(f"{folder}/{name}")
        tests.expect(f"{name} that is a pipe", given, 2, [], f"p21-table: cannot open {folder}/{name}: it is no plain file")
        os.remove(f"{folder}/{name}")
    os.chmod(folder, 0)
    tests.expect("a shelf that may not be read", given, 2, [], f"p21-table: cannot open {folder}: it may not be read", before=AS_OTHERS)
    os.chmod(tests.here, 0o600)
    line = f"p21-table: {folder} is no folder of schemas: it may not be read"
    tests.expect("a shelf in a folder that may not be entered", given, 2, [], line, before=AS_OTHERS)
    os.chmod(tests.here, 0o700)


# Texts of FILE_SCHEMA that the program reads as one name, and whether they begin with PRODUCT_MODEL.
SPELLINGS = [
    ("product_Model { 1 0 10303 }", True),
    ("PRODUCT\\PA\\_MODEL", True),
    ("\\X\\50RODUCT_MODEL", True),
    ("\\X2\\00500052004F\\X0\\DUCT_MODEL", True),
    ("\\X4\\000000500000005200\\X0\\", None),
    ("PRODUCT_MODE\\X4\\0000004C\\X0\\", True),
    ("PRO\tDUCT_MODEL\x7f", True),
    ("PRODUCT_MODEL''S", True),
    ("PRODUCT_MODEL\\\\S", True),
    ("PRODUCT_MODEL\\S\\D", True),
    ("PRODUCT_MODEL\u00e4", True),
    ("PRODUCT_MODEL\\X2\\0041\\X0\\", False),
    ("PRODUCT_MODELS", False),
    ("''PRODUCT_MODEL", None),
]


def spellings(tests, folder):
    """A name is found however its string is spelled: as the program reads it, which says whether it is PRODUCT_MODEL."""
    for text, is_product in SPELLINGS:
        file = tests.make("spelled.step", file_of("", [("PRODUCT_MODEL", text)]))
        alone = tests.run(["--format", "json", SCHEMA, file])
        by_program = json.loads(alone[0])["answer"]
        found = json.loads(tests.run(["--format", "json", "--schemas", folder, file])[0])
        if is_product is not None:
            tests.judge(f"{text}: the program", is_product, by_program == "accepted")
            wanted = ("accepted", f"{folder}/product.exp") if is_product else ("no schema", None)
            tests.judge(text, wanted, (found["answer"], found["schema"]))
        else:
            tests.judge(f"{text}: refused", True, by_program.startswith("refused ") and found["answer"].startswith("refused "))


def headers(tests, folder):
    """The name is found behind a header record of any length, and wherever the first piece that is read of it ends."""
    for length in (0, 1 << 17, (1 << 18) - 130, (1 << 18) - 120, (1 << 18) - 110, 1 << 18, 1 << 21):
        text = file_of("#1=POINT($,1.,2.);", [("PRODUCT_MODEL", "DEMO"), ("FILE_NAME(''", f"FILE_NAME('{'x' * length}'")])
        output, _, status = tests.run(["--format", "json", "--schemas", folder, tests.make("long.step", text)])
        found = json.loads(output)
        tests.judge(f"a header of {length} bytes more", ("accepted", f"{folder}/demo.exp", 0), (found["answer"], found["schema"], status))


def main():
    tests = Tests("p21-table")
    os.environ.pop("P21_SCHEMAS", None)
    folder = shelf(tests, "shelf", ALIASES)
    tables(tests, folder)
    variable(tests, folder)
    places(tests, folder)
    differences(tests, folder)
    headers(tests, folder)
    spellings(tests, folder)
    refused(tests)
    closed(tests)
    tests.end()


if __name__ == "__main__":
    main()
