#!/usr/bin/env python3
"""Writes manifests of the examples by p21-table, changes the files, and verifies. P21 names another program than ./p21."""

import hashlib
import json
import os
import pathlib
import shutil
import signal
import subprocess
import time

from tooling import AS_OTHERS, ROOT, RUN_BY, Tests, file_of

BLOCK = "5d11fa2abae65fa2bff1265d357ae88c5adf85242cd77e53a1c8b9877eff411c"
SCHEMA = str(ROOT / "examples" / "product.exp")
FILES = ["a.step", "b.step", "c.step", "deep/d.step", "deep/Count.step"]
SOURCES = ["product.step", "product-other.step", "product-changed.step", "product.step", "refused/Count.step"]


def delivery(tests, name):
    """A folder with five files, and its path."""
    folder = tests.here / name
    (folder / "deep").mkdir(parents=True)
    for file, source in zip(FILES, SOURCES):
        shutil.copy(ROOT / "examples" / source, folder / file)
    return folder


def sha256_of(path):
    """The SHA-256 of a file's bytes."""
    return hashlib.sha256(pathlib.Path(path).read_bytes()).hexdigest()


def of_shell(command):
    """The first word that a shell's command prints."""
    return subprocess.run(command, shell=True, capture_output=True, check=True, text=True).stdout.split()[0]


def entries(tests):
    """Each line of a manifest, by what other programs say of the file."""
    folder = delivery(tests, "entries")
    manifest = tests.here / "entries.json"
    _, _, status = tests.run(["--manifest", str(manifest), SCHEMA, str(folder)])
    head, *lines = map(json.loads, manifest.read_text().splitlines())
    tests.judge("the head", ({"p21_manifest": 1, "canonical_form": 1}, 1), (head, status))
    canon = f"'{tests.program}' canon {SCHEMA} {folder}/a.step"
    common = {"schema": SCHEMA, "schema_sha256": sha256_of(SCHEMA), "form": 1}
    accepted = {
        "path": f"{folder}/a.step",
        "bytes": (folder / "a.step").stat().st_size,
        "sha256": of_shell(f"sha256sum {folder}/a.step"),
        **common,
        "canonical_sha256": of_shell(f"{canon} | sha256sum"),
        "data_sha256": of_shell(f"{canon} | sed '1,/^ENDSEC;$/d' | sha256sum"),
        "instances": 128,
        "answer": "accepted",
    }
    tests.judge("an accepted file", accepted, lines[0])
    tests.judge("its canonical file", BLOCK, lines[0]["canonical_sha256"])
    refused = {"path": f"{folder}/deep/Count.step", "bytes": (folder / "deep/Count.step").stat().st_size}
    refused |= {"sha256": sha256_of(folder / "deep/Count.step"), **common, "canonical_sha256": None, "data_sha256": None}
    tests.judge("a refused file", refused | {"instances": None, "answer": "refused 45 Count in #3"}, lines[3])
    tests.judge("the files", [f"{folder}/{name}" for name in sorted(FILES)], sorted(line["path"] for line in lines))
    there = f"p21-table: {manifest} is there already: --resume goes on with it"
    tests.expect("a manifest that is there", ["--manifest", str(manifest), SCHEMA, str(folder)], 2, [], there)


def verified(tests):
    """What is said of files that changed in each way."""
    folder = delivery(tests, "changed")
    manifest = str(tests.here / "changed.json")
    tests.run(["--manifest", manifest, SCHEMA, str(folder)])
    given = ["--verify", manifest, SCHEMA, str(folder)]
    tests.expect("nothing changed", given, 0, [], "5 files: 5 as it was")
    shutil.copy(ROOT / "examples" / "product-other.step", folder / "a.step")
    tests.expect("other bytes", given, 0, [f"other bytes of the same meaning: {folder}/a.step"], "5 files: 4 as it was, 1 other bytes of the same meaning")
    later = (folder / "b.step").read_text().replace("2024-03-15T10:30:00", "2024-03-16T08:00:00")
    (folder / "b.step").write_text(later)
    (folder / "c.step").unlink()
    (folder / "e.step").write_text(later)
    (folder / "deep/Count.step").write_text(later)
    shutil.copy(ROOT / "examples" / "refused" / "Missing.step", folder / "deep/d.step")
    rows = [
        ("a.step", "other bytes of the same meaning", ""),
        ("b.step", "changed", "the header alone"),
        ("c.step", "missing", "No such file or directory"),
        ("deep/Count.step", "changed", "accepted, where it was refused 45 Count in #3"),
        ("deep/d.step", "changed", "refused 46 Missing in #2"),
        ("e.step", "new", ""),
    ]
    rows = [(f"{folder}/{name}", *rest) for name, *rest in rows]
    said = "6 files: 1 other bytes of the same meaning, 1 new, 3 changed, 1 missing\n"
    lines = ["file\tfound\twhy", *("\t".join(row) for row in rows)]
    output, error, status = tests.run(["--format", "tsv", *given])
    tests.judge("each change", (lines, said, 1), (output.splitlines(), error, status))
    output, error, status = tests.run(["--format", "json", *given])
    tests.judge("JSON", (rows, 1), ([tuple(json.loads(line).values()) for line in output.splitlines()], status))
    _, error, status = tests.run(["--verify", manifest, SCHEMA])
    tests.judge("no files beside the manifest", ("5 files: 1 other bytes of the same meaning, 3 changed, 1 missing\n", 1), (error, status))


def resumed(tests):
    """An interrupted run goes on: whole lines stay, a cut one is written again, and no file has two."""
    folder = delivery(tests, "resumed")
    manifest = tests.here / "resumed.json"
    given = ["--manifest", str(manifest), SCHEMA, str(folder)]
    tests.run(given)
    whole = manifest.read_bytes()
    for cut in (len(whole), len(whole) - 10, whole.index(b"\n", 200) + 20, whole.index(b"\n") + 1, 10, 0):
        manifest.write_bytes(whole[:cut])
        _, error, _ = tests.run(["--resume", *given])
        kept = max(whole[:cut].count(b"\n") - 1, 0)
        wanted = (whole, f"{kept} file{'' if kept == 1 else 's'} had an entry already" if kept else "")
        tests.judge(f"cut at {cut}", wanted, (manifest.read_bytes(), error.splitlines()[0] if kept else ""))
    manifest.write_bytes(whole[:-10])
    line = f"p21-table: {manifest}:6: the last line is cut; --resume goes on with it"
    tests.expect("a manifest that is cut", ["--verify", str(manifest), SCHEMA], 2, [], line)
    manifest.unlink()
    tests.run(["--resume", *given])
    tests.judge("--resume without a manifest", whole, manifest.read_bytes())


def bagit(tests):
    """Lines that sha256sum reads too, and manifests of BagIt."""
    folder = delivery(tests, "bag")
    (folder / "50%.step").write_bytes((folder / "a.step").read_bytes())
    os.chdir(folder)
    tool = [ROOT / "tools" / "p21-table"]
    given = [*tool, "--manifest", "../bag.json", "--bagit", SCHEMA, "."]
    lines = subprocess.run(given, capture_output=True, check=False, text=True).stdout
    bag = folder / "manifest-sha256.txt"
    bag.write_text(lines)
    tests.judge("a % in a path", 1, lines.count("  50%25.step\n"))
    bag.write_text(lines.replace("%25", "%"))
    tests.judge("sha256sum", 0, subprocess.run(["sha256sum", "--status", "-c", bag], check=False).returncode)
    os.chdir(ROOT)
    bag.write_text(lines)
    tests.expect("a bag", ["--verify", str(bag)], 0, [], "6 files: 6 as it was")
    (folder / "b.step").unlink()
    shutil.copy(ROOT / "examples" / "product-other.step", folder / "a.step")
    wanted = [f"changed: {folder}/a.step: the bytes, and a manifest of BagIt doesn't have the meaning"]
    wanted.append(f"missing: {folder}/b.step: No such file or directory")
    tests.expect("a bag that changed", ["--verify", str(bag)], 1, wanted, "6 files: 4 as it was, 1 changed, 1 missing")


# Names that aren't UTF-8, that have what else ends a line in some texts, or that begin as the signs of a line do.
LINE_ENDS = ["a\u2028b.step".encode(), "a\x85b.step".encode(), b"a\x0bb.step", b"a\x0cb.step"]
NAMES = [b"\xff.step", *LINE_ENDS, b" blank.step", b"*star.step", b"back\\slash.step"]


def names(tests):
    """Names of any bytes in manifests of both kinds."""
    folder = tests.here / "named"
    folder.mkdir()
    for name in NAMES:
        shutil.copy(ROOT / "examples" / "product.step", os.fsencode(folder) + b"/" + name)
    given = ["--manifest", "../named.json", "--bagit", SCHEMA, "."]
    done = subprocess.run([ROOT / "tools" / "p21-table", *given], capture_output=True, check=False, cwd=folder)
    bag = folder / "manifest-sha256.txt"
    bag.write_bytes(done.stdout)
    tests.judge("each name as it is", sorted(NAMES), sorted(line[66:] for line in done.stdout.split(b"\n")[:-1]))
    done = subprocess.run(["sha256sum", "--strict", "-c", bag.name], capture_output=True, check=False, cwd=folder)
    tests.judge("by sha256sum", (len(NAMES), 0), (done.stdout.count(b": OK\n"), done.returncode))
    counts = f"{len(NAMES)} files: {len(NAMES)} as it was"
    tests.expect("by --verify", ["--verify", str(bag)], 0, [], counts)
    bag.write_bytes(bag.read_bytes().replace(b"\n", b"\r\n"))
    tests.expect("with returns", ["--verify", str(bag)], 0, [], counts)
    given = ["--base", str(folder), "--verify", "{here}/named.json", SCHEMA, str(folder)]
    tests.expect("a manifest of objects", given, 0, [], counts)


def unanswered(tests):
    """A file about which the program doesn't answer, or that can't be read, has no entry, and is tried again."""
    folder = delivery(tests, "unanswered")
    manifest = tests.here / "unanswered.json"
    given = ["--manifest", str(manifest), SCHEMA, str(folder)]
    tests.run(given)
    whole = sorted(manifest.read_bytes().splitlines())
    for name, lines, answer in [
        ("a signal", "kill -9 $$", "ended by signal 9"),
        ("want of memory", "echo 'out of memory' >&2; exit 3", "out of memory"),
        ("a part", '"$real" "$@" | head -c 4871; exit 0', "the canonical file isn't whole"),
    ]:
        manifest.unlink()
        program = tests.rigged("rigged", f'case "$1 $*" in canon*/b.step*) {lines} ;; esac')
        output, error, status = tests.run(given, program=program)
        said = next(line for line in output.splitlines() if "b.step" in line).split(None, 1)[1]
        counts = "5 files, 3 accepted, 1 not, 1 without an answer"
        tests.judge(f"{name}: its row", (True, counts, 3), (said.startswith(answer), error.split("\n")[0], status))
        listed = [json.loads(line).get("path", "")[-8:] for line in manifest.read_text().splitlines()]
        tests.judge(f"{name}: no entry", (5, False), (len(listed), "/b.step" in listed))
        output, error, status = tests.run(["--resume", *given], program=program)
        tests.judge(f"{name}: again", (1, counts, 3), (len(output.splitlines()), error.splitlines()[1], status))
        _, error, status = tests.run(["--resume", *given])
        found = sorted(manifest.read_bytes().splitlines())
        tests.judge(f"{name}: with an answer", (whole, "5 files, 4 accepted, 1 not", 1), (found, error.splitlines()[1], status))
    (folder / "b.step").write_bytes((folder / "b.step").read_bytes() + b"\n")
    program = tests.rigged("rigged", "case $1 in canon) kill -9 $$ ;; esac")
    verify = ["--verify", str(manifest), SCHEMA]
    _, error, status = tests.run(verify, program=program)
    tests.judge("other bytes and no answer", ("5 files: 4 as it was, 1 not known\n", 3), (error, status))
    (folder / "b.step").chmod(0)
    lines = [f"not known: {folder}/b.step: cannot open {folder}/b.step: it may not be read"]
    tests.expect("a file that may not be read", verify, 3, lines, "5 files: 4 as it was, 1 not known", before=AS_OTHERS)
    program = tests.rigged("rigged", f"case $1 in canon) echo >> {folder}/a.step ;; esac")
    manifest.unlink()
    output, _, status = tests.run(["--manifest", str(manifest), SCHEMA, f"{folder}/a.step"], program=program)
    is_said = "it changed while it was read" in output
    tests.judge("a file that changes", (True, 3, 1), (is_said, status, len(manifest.read_text().splitlines())))
    os.mkfifo(folder / "pipe")
    for name, given in [("standard input", "-"), ("standard input by its path", "/dev/stdin"), ("a pipe", f"{folder}/pipe")]:
        line = f"p21-table: {given} is no plain file, as those of a manifest are"
        tests.expect(name, ["--manifest", "{here}/pipes.json", SCHEMA, given], 2, [], line)


def forms(tests):
    """The version of the form is the one that the program says."""
    program = tests.rigged("rigged", "case $1 in --version) echo 'p21 0.9.0 (canonical form 7)'; exit ;; esac")
    given = ["--format", "json", "--manifest", "{here}/seven.json", SCHEMA, "examples/product.step"]
    output, _, status = tests.run(given, program=program)
    head, entry = map(json.loads, (tests.here / "seven.json").read_text().splitlines())
    tests.judge("another form", (7, 7, 7, 0), (head["canonical_form"], entry["form"], json.loads(output)["form"], status))
    line = "p21-table: {here}/seven.json:1: its hashes are of form 7, those of this program of 1"
    tests.expect("verified by another program", ["--verify", "{here}/seven.json", SCHEMA], 2, [], line)
    tests.expect("resumed by another program", ["--resume", *given], 2, [], line)
    tests.expect("verified by its own", ["--verify", "{here}/seven.json", SCHEMA], 0, [], "1 file: 1 as it was", program=program)


def listings(tests):
    """A listing that changed, or isn't read any more, is said beside each file, and hides no change of the data."""
    folder = delivery(tests, "listed")
    schema = tests.here / "listed.exp"
    shutil.copy(SCHEMA, schema)
    manifest = str(tests.here / "listed.json")
    tests.run(["--manifest", manifest, str(schema), str(folder)])
    shutil.copy(ROOT / "examples" / "product-changed.step", folder / "a.step")
    for name, further, refusal in [
        ("other bytes", "-- a remark\n", None),
        ("one that isn't read", "END_SCHEMA;\n", "schema refused S2 Syntax"),
    ]:
        schema.write_text(pathlib.Path(SCHEMA).read_text() + further)
        listing = f"the listing of its schema, which is {schema} with SHA-256 {sha256_of(schema)} now"
        for how in ((), ("--full",)):
            output, error, status = tests.run(["--format", "json", "--verify", manifest, *how, str(schema)])
            whys = {name: [listing] for name in FILES}
            whys["a.step"].append(refusal or "the data")
            if how and refusal:
                for file in FILES[1:]:
                    whys[file].append(refusal if file != FILES[-1] else f"{refusal}, where it was refused 45 Count in #3")
            wanted = sorted((f"{folder}/{file}", "changed", "; ".join(why)) for file, why in whys.items())
            found = sorted(tuple(json.loads(line).values()) for line in output.splitlines())
            tests.judge(f"{name}, {how}", (wanted, "5 files: 5 changed\n", 1), (found, error, status))
    line = f"p21-table: {folder}/a.step is no schema: its first word isn't SCHEMA"
    tests.expect("no schema", ["--verify", manifest, f"{folder}/a.step", str(folder)], 2, [], line)


def fully(tests):
    """With --full each part of an entry is made anew."""
    folder = delivery(tests, "fully")
    manifest = tests.here / "fully.json"
    tests.run(["--manifest", str(manifest), SCHEMA, str(folder)])
    whole = manifest.read_text()
    given = ["--verify", str(manifest), SCHEMA, str(folder)]
    tests.expect("nothing changed", [*given, "--full"], 0, [], "5 files: 5 as it was")
    first = json.loads(whole.splitlines()[1])
    other = "0" * 64
    for field, new, what in [
        ("canonical_sha256", other, "canonical SHA-256"),
        ("data_sha256", other, "SHA-256 of the data"),
        ("instances", 127, "number of instances"),
        ("bytes", 1, "size"),
    ]:
        why = f"the {what}, which is {first[field]}, where the manifest has {new}"
        manifest.write_text(whole.replace(json.dumps({field: first[field]})[1:-1], json.dumps({field: new})[1:-1], 1))
        light = (0, []) if field != "bytes" else (1, [f"changed: {folder}/a.step: {why}"])
        counts = "5 files: 5 as it was" if field != "bytes" else "5 files: 4 as it was, 1 changed"
        tests.expect(f"another {field}, the bytes alone", given, *light, counts)
        tests.expect(f"another {field}", [*given, "--full"], 1, [f"changed: {folder}/a.step: {why}"], "5 files: 4 as it was, 1 changed")
    manifest.write_text(whole.replace("refused 45 Count in #3", "refused 46 Missing in #2"))
    line = f"changed: {folder}/deep/Count.step: refused 45 Count in #3, where it was refused 46 Missing in #2"
    tests.expect("another answer", [*given, "--full"], 1, [line], "5 files: 4 as it was, 1 changed")
    manifest.write_text(whole)
    program = tests.rigged("rigged", 'case "$1 $*" in canon*/b.step*) kill -9 $$ ;; esac')
    line = f"not known: {folder}/b.step: ended by signal 9"
    tests.expect("no answer", [*given, "--full"], 3, [line], "5 files: 4 as it was, 1 not known", program=program)
    line = "p21-table: --full wants a manifest of p21-table: one of BagIt has nothing but the bytes"
    tests.expect("a bag", ["--full", "--verify", tests.make("bag.txt", f"{other}  a.step\n")], 2, [], line)


def moved(tests):
    """A file that stands elsewhere now is found by its SHA-256."""
    folder = delivery(tests, "moved")
    manifest = str(tests.here / "moved.json")
    tests.run(["--manifest", manifest, SCHEMA, str(folder)])
    os.rename(folder / "b.step", folder / "deep" / "e.step")
    os.rename(folder / "deep" / "Count.step", folder / "Count.step")
    shutil.copy(ROOT / "examples" / "product.exp", folder / "new.step")
    lines = [
        f"moved: {folder}/b.step: to {folder}/deep/e.step",
        f"moved: {folder}/deep/Count.step: to {folder}/Count.step",
        f"new: {folder}/new.step",
    ]
    for how in ((), ("--full",)):
        tests.expect(f"moved, {how}", ["--verify", manifest, *how, SCHEMA, str(folder)], 1, lines, "6 files: 3 as it was, 2 moved, 1 new")
    none = [f"not known: {folder}/none.step: there is no such file"]
    counts = "6 files: 3 as it was, 2 missing, 1 not known"
    output, error, status = tests.run(["--verify", manifest, SCHEMA, f"{folder}/none.step"])
    tests.judge("a given file that isn't there", (none, f"{counts}\n", 3), (output.splitlines()[2:], error, status))
    missing = [f"missing: {folder}/{name}: No such file or directory" for name in ("b.step", "deep/Count.step")]
    tests.expect("where it isn't known to be", ["--verify", manifest, SCHEMA], 1, missing, "5 files: 3 as it was, 2 missing")
    bag = tests.make("moved/bag.txt", f"{sha256_of(folder / 'a.step')}  a.step\n{sha256_of(folder / 'deep/e.step')}  b.step\n")
    tests.expect("in a bag", ["--verify", bag, f"{folder}/deep/e.step"], 1, lines[:1], "2 files: 1 as it was, 1 moved")


def based(tests):
    """With --base a manifest verifies wherever the folder stands, and leads nowhere else."""
    folder = delivery(tests, "based")
    manifest = tests.here / "based.json"
    tests.run(["--base", str(folder), "--manifest", str(manifest), SCHEMA, str(folder)])
    paths = [json.loads(line)["path"] for line in manifest.read_text().splitlines()[1:]]
    tests.judge("paths below the folder", sorted(FILES), sorted(paths))
    elsewhere = tests.here / "elsewhere" / "deeper"
    elsewhere.parent.mkdir()
    os.rename(folder, elsewhere)
    given = ["--base", str(elsewhere), "--verify", str(manifest), SCHEMA, str(elsewhere)]
    tests.expect("at another path", given, 0, [], "5 files: 5 as it was")
    (tests.here / "linked").symlink_to("elsewhere/deeper")
    by_link = ["--base", "{here}/linked", "--verify", str(manifest), SCHEMA, "{here}/linked"]
    tests.expect("by a link", by_link, 0, [], "5 files: 5 as it was")
    os.rename(elsewhere / "a.step", elsewhere / "e.step")
    tests.expect("and moved", given, 1, [f"moved: a.step: to {elsewhere}/e.step"], "5 files: 4 as it was, 1 moved")
    os.rename(elsewhere / "e.step", elsewhere / "a.step")
    outside = tests.make("outside.step", (ROOT / "examples" / "product.step").read_bytes())
    (elsewhere / "link.step").symlink_to(outside)
    (elsewhere / "up").symlink_to("..")
    (elsewhere / "inside.step").symlink_to("a.step")
    whole = manifest.read_text()
    for path in ("up/deeper/a.step", "inside.step"):
        manifest.write_text(whole.replace('"path": "a.step"', f'"path": "{path}"'))
        tests.expect(path, given[:-1], 0, [], "5 files: 5 as it was")
    for path in ("../../outside.step", outside, "link.step", "up/../../outside.step"):
        manifest.write_text(whole.replace('"path": "a.step"', f'"path": "{path}"'))
        wanted = [f"a mistake in the manifest: {path}: it leads out of {elsewhere}"]
        tests.expect(path, given[:-1], 2, wanted, "5 files: 4 as it was, 1 a mistake in the manifest")
    bag = tests.make("based.txt", f"{sha256_of(outside)}  ../outside.step\n")
    lines = [f"a mistake in the manifest: ../outside.step: it leads out of {elsewhere.parent}"]
    tests.expect("a bag", ["--base", str(elsewhere.parent), "--verify", bag], 2, lines, "1 file: 1 a mistake in the manifest")
    for name in (outside, str(elsewhere / "link.step")):
        line = f"p21-table: {name} doesn't stand below {elsewhere}"
        tests.expect(f"to write {name}", ["--base", str(elsewhere), "--manifest", "{here}/out.json", SCHEMA, name], 2, [], line)
    tests.expect("no folder", ["--base", outside, "--verify", str(manifest), SCHEMA], 2, [], f"p21-table: {outside} is no folder")
    (tests.here / "closed" / "base").mkdir(parents=True)
    (tests.here / "closed").chmod(0)
    line = "p21-table: {here}/closed/base is no folder: it may not be read"
    tests.expect("a folder that may not be entered", ["--base", "{here}/closed/base", *given[2:]], 2, [], line, before=AS_OTHERS)
    (tests.here / "closed").chmod(0o755)
    manifest.write_text(whole)
    (tests.here / "same").mkdir()
    shutil.copy(ROOT / "examples" / "product.step", tests.here / "same" / "a.step")
    os.chdir(tests.here / "same")
    tool = [str(ROOT / "tools" / "p21-table")]
    subprocess.run([*tool, "--manifest", "../same.json", SCHEMA, "a.step"], capture_output=True, check=False)
    given = ["--verify", "../same.json", SCHEMA, f"{tests.here}/same/a.step", "./a.step"]
    done = subprocess.run([*tool, *given], capture_output=True, check=False, text=True)
    os.chdir(ROOT)
    tests.judge("other spellings of one path", ("1 file: 1 as it was\n", 0), (done.stderr, done.returncode))


def mixed(tests):
    """A manifest isn't gone on with under another listing."""
    folder = delivery(tests, "mixed")
    schema = tests.here / "mixed.exp"
    shutil.copy(SCHEMA, schema)
    manifest = tests.here / "mixed.json"
    tests.run(["--manifest", str(manifest), str(schema), f"{folder}/a.step"])
    before = manifest.read_bytes()

    def refused(name, given, path, listing):
        line = f"p21-table: {manifest} has {path} by another listing: {listing}; begin another manifest"
        tests.expect(name, ["--resume", "--manifest", str(manifest), *given, str(folder)], 2, [], line)
        tests.judge(f"{name}: the manifest stays", before, manifest.read_bytes())

    schema.write_text(pathlib.Path(SCHEMA).read_text() + "-- a remark\n")
    listing = f"the listing of its schema, which is {schema} with SHA-256 {sha256_of(schema)} now"
    refused("another listing", [str(schema)], f"{folder}/a.step", listing)
    shelf = tests.here / "shelf"
    shelf.mkdir()
    shutil.copy(SCHEMA, shelf / "one.exp")
    shutil.copy(ROOT / "examples" / "demo.exp", shelf)
    (shelf / "aliases").write_text("OTHER = one.exp\n")
    other = tests.make("mixed/other.step", file_of("", [("PRODUCT_MODEL", "OTHER")]))
    lacking = tests.make("mixed/lacking.step", file_of("", [("PRODUCT_MODEL", "LACKING")]))
    manifest.unlink()
    tests.run(["--manifest", str(manifest), "--schemas", str(shelf), other, lacking])
    before = manifest.read_bytes()
    _, error, status = tests.run(["--resume", "--manifest", str(manifest), "--schemas", str(shelf), other])
    counts = ["2 files had an entry already", "2 files, 1 accepted, 1 not"]
    tests.judge("the same shelf", (counts, 1), (error.splitlines()[:2], status))
    demo = f"the listing of its schema, which is {shelf}/demo.exp with SHA-256 {sha256_of(shelf / 'demo.exp')} now"
    (shelf / "aliases").write_text("OTHER = demo.exp\n")
    refused("another alias", ["--schemas", str(shelf)], other, demo)
    (shelf / "aliases").write_text("OTHER = one.exp\nLACKING = demo.exp\n")
    refused("a listing that came", ["--schemas", str(shelf)], lacking, demo)
    (shelf / "aliases").unlink()
    refused("an alias that went", ["--schemas", str(shelf)], other, "the listing of its schema, which isn't there now")
    lines = [f"changed: {other}: the listing of its schema, which isn't there now"]
    tests.expect("verified so", ["--schemas", str(shelf), "--verify", str(manifest)], 1, lines, "2 files: 1 as it was, 1 changed")


def whole(tests):
    """The counts and the status of a resumed run are those of the whole."""
    folder = delivery(tests, "whole")
    given = ["--manifest", "{here}/whole.json", SCHEMA, str(folder)]
    _, first, _ = tests.run(given)
    tests.expect("a whole one", ["--resume", *given], 1, [], f"5 files had an entry already\n{first.rstrip()}")
    accepted = [f"{folder}/{name}" for name in FILES[:-1]]
    _, error, status = tests.run(["--resume", *given[:-1], *accepted])
    tests.judge("with fewer files", ("5 files, 4 accepted, 1 not", 1), (error.splitlines()[1], status))


def writers(tests):
    """Two runs can't write one manifest. One that is killed leaves it free."""
    folder = delivery(tests, "writers")
    manifest = tests.here / "writers.json"
    program = tests.rigged("slow", f"case $1 in canon) touch {tests.here}/begun; sleep 60 ;; esac")
    command = ["tools/p21-table", "--manifest", str(manifest), SCHEMA, str(folder)]
    streams = {"stdout": subprocess.DEVNULL, "stderr": subprocess.DEVNULL}
    first = subprocess.Popen([*RUN_BY, *command], **streams, env=dict(os.environ, P21=program), start_new_session=True)
    try:
        end = time.monotonic() + 60
        while not (tests.here / "begun").exists() and time.monotonic() < end:
            time.sleep(0.02)
        line = f"p21-table: {manifest} is being written by another run"
        tests.expect("a second one that resumes", ["--resume", *command[1:]], 2, [], line)
        tests.expect("a second one", command[1:], 2, [], f"p21-table: {manifest} is there already: --resume goes on with it")
        tests.judge("the manifest stays", 1, manifest.read_bytes().count(b"\n"))
    finally:
        first.kill()
        first.wait()
    _, error, status = tests.run(["--resume", *command[1:]])
    tests.judge("behind one that was killed", ("5 files, 4 accepted, 1 not", 1), (error.splitlines()[0], status))
    os.killpg(first.pid, signal.SIGKILL)


def strangers(tests):
    """Manifests of strangers: each mistake is said on a line, and nothing but plain files is opened."""
    step = tests.make("stranger.step", (ROOT / "examples" / "product.step").read_bytes())
    tests.run(["--manifest", "{here}/stranger.json", SCHEMA, step])
    head, line = (tests.here / "stranger.json").read_text().splitlines()
    entry = json.loads(line)
    nothing = {"canonical_sha256": None, "data_sha256": None, "instances": None}
    wrong = [
        ("many brackets", "[" * 200_000),
        ("many braces", '{"a":' * 100_000),
        ("a NUL", json.dumps({**entry, "path": "a\0b.step"})),
        ("a lone surrogate", json.dumps({**entry, "path": "\ud800.step"})),
        ("no path", json.dumps({**entry, "path": ""})),
        ("a long number", line.replace(f'"bytes": {entry["bytes"]}', '"bytes": ' + "9" * 1_000_000)),
        ("a size that is no number", json.dumps({**entry, "bytes": True})),
        ("a size below zero", json.dumps({**entry, "bytes": -1})),
        ("no number at all", json.dumps({**entry, "instances": float("nan")})),
        ("a hash that is none", json.dumps({**entry, "sha256": "0" * 63 + "g"})),
        ("no hash", json.dumps({**entry, "canonical_sha256": None})),
        ("another form", json.dumps({**entry, "form": 2})),
        ("no answer", json.dumps({**entry, **nothing, "answer": "ended by signal 9"})),
        ("an accepted file without a listing", json.dumps({**entry, "schema": None, "schema_sha256": None})),
        ("a refused file with hashes", json.dumps({**entry, "answer": "refused 45 Count in #3"})),
        ("a further field", json.dumps({**entry, "more": 1})),
    ]
    for name, text in wrong:
        path = tests.make("strange.json", f"{head}\n{text}\n")
        for how in ("--verify", "--resume"):
            given = ["--verify", path, SCHEMA] if how == "--verify" else ["--resume", "--manifest", path, SCHEMA, step]
            tests.expect(f"{name}, {how}", given, 2, [], f"p21-table: {path}:2: no entry of a manifest")
        tests.judge(f"{name}: it stays", f"{head}\n{text}\n", pathlib.Path(path).read_text())
    path = tests.make("strange.json", f"{head}\n{line}\n{line}\n")
    tests.expect("a file twice", ["--verify", path, SCHEMA], 2, [], f"p21-table: {path}:3: {step} has an entry already")
    path = tests.make("strange.json", "[" * 200_000 + "\n")
    tests.expect("brackets alone", ["--verify", path, SCHEMA], 2, [], f"p21-table: {path}:1: no manifest of p21-table")
    path = tests.make("strange.json", f"{head}\n")
    tests.expect("no entries", ["--verify", path, SCHEMA], 2, [], f"p21-table: {path} has no entries")
    os.mkfifo(tests.here / "pipe")
    (tests.here / "zero.step").symlink_to("/dev/zero")
    for name in ("/dev/zero", f"{tests.here}/pipe", f"{tests.here}/zero.step", f"{tests.here}"):
        reason = "it is a folder" if os.path.isdir(name) else "it is no plain file"
        path = tests.make("strange.json", f"{head}\n{json.dumps({**entry, 'path': name})}\n{line}\n")
        found = [f"a mistake in the manifest: {name}: {reason}"]
        tests.expect(name, ["--verify", path, SCHEMA], 2, found, "2 files: 1 as it was, 1 a mistake in the manifest")
        path = tests.make("strange.txt", f"{'0' * 64}  {name}\n")
        tests.expect(f"{name} in a bag", ["--verify", path], 2, found, "1 file: 1 a mistake in the manifest")
    path = tests.make("absolute.json", f"{head}\n{line}\n")
    tests.expect("an absolute path", ["--verify", path, SCHEMA], 0, [], "1 file: 1 as it was")
    for name, text, number, why in [
        ("no line of a bag", b"%s  a.step\nand more\n", 2, "no line of a manifest of BagIt"),
        ("a NUL in a bag", b"%s  a\0b.step\n", 1, "no path of a file"),
        ("a path twice in a bag", b"%s  a.step\n%s  a.step\n", 2, "a.step has a line already"),
    ]:
        path = tests.make("strange.txt", text.replace(b"%s", b"0" * 64))
        tests.expect(name, ["--verify", path], 2, [], f"p21-table: {path}:{number}: {why}")
    for name in ("stranger.step", "one line.step"):
        text = (ROOT / "examples" / "product.step").read_text().replace("\n", "\n" if name == "stranger.step" else " ")
        path = tests.make(name, text)
        line = f"p21-table: {path}:1: no manifest of p21-table"
        tests.expect(f"--resume over {name}", ["--resume", "--manifest", path, SCHEMA, step], 2, [], line)
        tests.judge(f"{name} stays", text, pathlib.Path(path).read_text())
    line = "p21-table: cannot write {here}/pipe: it is no plain file"
    tests.expect("--resume over a pipe", ["--resume", "--manifest", "{here}/pipe", SCHEMA, step], 2, [], line)
    line = "p21-table: cannot write {here}/none/a.json: No such file or directory"
    tests.expect("a folder that isn't there", ["--manifest", "{here}/none/a.json", SCHEMA, step], 2, [], line)


def refused(tests):
    """Texts that are no manifests, and options that don't go together."""
    head = json.dumps({"p21_manifest": 1, "canonical_form": 1})
    texts = [
        ("", " is empty"),
        ("a\nb\n", ":1: no manifest of p21-table"),
        ('{"p21_manifest": 1, "canonical_form": 2}\n', ":1: its hashes are of form 2, those of this program of 1"),
        (f"{head}\n{{}}\n", ":2: no entry of a manifest"),
    ]
    for text, line in texts:
        path = tests.make("none.json", text)
        tests.expect(line, ["--verify", path, SCHEMA], 2, [], f"p21-table: {path}{line}")
    for given, line in [
        (["--resume"], "--resume and --bagit go with --manifest"),
        (["--full"], "--full goes with --verify"),
        (["--base", "."], "--base goes with --manifest or --verify"),
        (["--manifest", "a", "--verify", "b"], "--manifest and --verify don't go together"),
        (["--manifest", "a", "--data"], "a manifest has the hashes with names, with the header and without it"),
    ]:
        tests.expect(" ".join(given), [*given, SCHEMA, SCHEMA], 2, [], f"p21-table: {line}")
    output, _, status = tests.run(["--manifest", "{here}/one.json", SCHEMA, "{here}/absent.step"])
    tests.judge("a file that isn't there", (True, 3), ("cannot open" in output, status))
    tests.judge("it has no entry", 1, len((tests.here / "one.json").read_text().splitlines()))


def main():
    tests = Tests("p21-table")
    os.environ.pop("P21_SCHEMAS", None)
    parts = [entries, verified, resumed, bagit, names, unanswered, forms, listings, fully, moved, based, mixed, whole, writers]
    for part in (*parts, strangers, refused):
        part(tests)
    tests.end()


if __name__ == "__main__":
    main()
