#!/usr/bin/env python3
"""Tries wrong bodies, those that the gate tries (crates/CRATE/must-fail) and those beside it (tests/wrong_bodies/CRATE): the
prover must refuse each of them.

  tests/wrong_bodies.sh [--gate] [CRATE[/NAME]..]   tries these, or all; with --gate only those of the gate
  tests/wrong_bodies.sh --bugs [CRATE[/NAME]..]     tries the bugs of tests/bugs, and holds each against what is noted of it there
  tests/wrong_bodies.sh --stale                     names those that aren't shown to be refused, and the bugs that weren't tried,
                                                    over these sources, a line each, and says why
  tests/wrong_bodies.sh --count                     counts those, and fails where one of the gate's is among them
  tests/wrong_bodies.sh --from LOG                  takes what `rt ci` said, over the sources as they stand, into the record

tests/wrong_bodies/refused.txt is the record: a line for each edit that was refused, with its crate, its name, a checksum of the
edit and one of what it was tried over, by which tests/wrong_bodies/over.txt has the parts of that (sources.py says which). The
bugs of which the prover said what is noted of them stand in tests/bugs/tried.txt. What a record has over the sources as they
stand is not tried again, and a line is written as soon as an edit has been tried, so that a run that is broken off goes on where
it was. Where the prover refuses an edit only because a proof names what the edit took away, no clause was tried: the line ends
with `by_name`, and the edit isn't shown to be refused.

Over what `rt check` or `rt lib` left in the crate's `out` many edits are tried in one check (together.py): an edit takes a few
seconds of a processor, and by itself 8 to 50. Where nothing is left there, `rt ci CRATE` tries the edits of a crate together, over
one proof of the crate; a toolchain that keeps no proofs proves the crate first.
"""

import contextlib
import fcntl
import functools
import importlib.machinery
import importlib.util
import os
import pathlib
import shutil
import subprocess
import sys
import tempfile

ROOT = pathlib.Path(__file__).resolve().parent.parent.parent
CRATES = ROOT / "crates"
REFUSED = ROOT / "tests" / "wrong_bodies" / "refused.txt"
TRIED = ROOT / "tests" / "bugs" / "tried.txt"
OVER = ROOT / "tests" / "wrong_bodies" / "over.txt"
OPTIONS = ("--gate", "--stale", "--count")
BY_NAME = "by_name"

sys.path.insert(0, str(ROOT / "tests"))
import needs  # noqa: E402
import together  # noqa: E402
from edits import bugs, edits  # noqa: E402
from sources import PARTS, Sources, sum_of  # noqa: E402

SOURCES = Sources(ROOT)


# ---- the records


@functools.cache
def sum_over(crate):
    """The checksum of all that a crate is proved over."""
    return sum_of(f"{name} {value}" for name, value in SOURCES.under(crate).items())


def checksums(crate, path):
    """The checksums of an edit and of what it is tried over."""
    return sum_of([path.read_text()]), sum_over(crate)


def record(file):
    """What a record says of each edit: the two checksums, and the mark where there is one. A shorter line says nothing."""
    lines = (line.split() for line in file.read_text().splitlines())
    return {(crate, name): tuple(rest) for crate, name, *rest in lines if len(rest) > 1}


def parts_over():
    """By the checksum of what edits were tried over: the checksum of each part of that."""
    lines = (line.split() for line in OVER.read_text().splitlines())
    return {over: dict(part.split(":") for part in parts) for over, *parts in lines}


@contextlib.contextmanager
def records_alone():
    """Keeps other runs of this script, of other crates, from writing the records meanwhile."""
    folder = os.open(OVER.parent, os.O_RDONLY)
    try:
        fcntl.flock(folder, fcntl.LOCK_EX)
        yield
    finally:
        os.close(folder)


def write(file, lines):
    """Writes a record whole, so that no reader meets half of it."""
    written = file.with_suffix(".new")
    written.write_text("".join(f"{line}\n" for line in sorted(lines)))
    os.replace(written, file)


def note(file, crate, name, entry):
    """Writes what was found of an edit into a record; without an entry nothing is known of it over these sources."""
    there = {(crate, name) for crate, name, _ in (*edits(), *bugs())}
    with records_alone():
        found = {**record(file), (crate, name): entry}
        write(file, (" ".join((*key, *rest)) for key, rest in found.items() if rest and key in there))
        used = {over for it in (REFUSED, TRIED) for _, over, *_ in record(it).values()}
        parts = {**parts_over(), sum_over(crate): SOURCES.under(crate)}
        write(OVER, (" ".join((over, *(f"{it}:{value}" for it, value in parts[over].items()))) for over in used if over in parts))


def is_tried(found, crate, path):
    """Whether what a record says of an edit was found over the sources as they stand."""
    return found[:2] == checksums(crate, path)


def unshown():
    """The edits that aren't shown to be refused over the sources as they stand: crate, name and path, and what the record says
    of it. Those of the gate come first."""
    known = record(REFUSED)
    for crate, name, path in edits():
        found = known.get((crate, name), ())
        if not is_tried(found, crate, path) or BY_NAME in found:
            yield crate, name, path, found


def untried_bugs():
    """The bugs that weren't tried over the sources as they stand, as `unshown` has the edits."""
    known = record(TRIED)
    for crate, name, path in bugs():
        found = known.get((crate, name), ())
        if not is_tried(found, crate, path):
            yield crate, name, path, found


def of_gate(path):
    """Whether the gate tries an edit."""
    return path.parent.name == "must-fail"


# ---- trials


def keeps_proofs():
    """Whether the toolchain keeps proofs, so that `rt ci` takes the names of crates."""
    ran = subprocess.run(["rt", "help"], capture_output=True, text=True, check=False)
    return "--anew" in ran.stdout + ran.stderr


@functools.cache
def tool():
    """The toolchain's `rt`, as a module."""
    loader = importlib.machinery.SourceFileLoader("rt", str(pathlib.Path(shutil.which("rt")).resolve()))
    made = importlib.util.module_from_spec(importlib.util.spec_from_loader("rt", loader))
    sys.modules["rt"] = made
    loader.exec_module(made)
    return made


def copy_of_crates(folder):
    """A copy of the repository's crates, without what was built and without edits."""
    (folder / ".git").mkdir()
    for name in ("crates.txt", "HANDLES"):
        shutil.copy(ROOT / name, folder)
    shutil.copytree(CRATES, folder / "crates", ignore=shutil.ignore_patterns("out", "must-fail"))
    return folder


def said_by_gate(folder, crate, paths):
    """What `rt ci` says of edits of one crate, in a copy of the crates: each with its line, as soon as it is printed."""
    place = folder / "crates" / crate / "must-fail"
    place.mkdir()
    for path in paths:
        shutil.copy(path, place)
    left, last = {path.name: path for path in paths}, ""
    words = ["rt", "ci", crate]
    with subprocess.Popen(words, cwd=folder, stdout=subprocess.PIPE, stderr=subprocess.STDOUT, text=True, errors="replace") as ran:
        for line in ran.stdout:
            last = line.strip() or last
            name = line.removeprefix(f"rt: must-fail {crate}/").partition(": ")[0]
            if line.startswith(f"rt: must-fail {crate}/") and name in left:
                yield left.pop(name), line.strip().removeprefix("rt: ")
    shutil.rmtree(place)
    for path in left.values():
        yield path, f"must-fail {crate}/{path.name}: NOT TRIED: {last}"


def has_kept_work(crate):
    """Whether a check left its work in a crate's `out`."""
    return (CRATES / crate / "out" / "incremental").is_dir()


def said_by_prover(crate, paths):
    """What the prover says of edits of one crate, many in one check, over the kept work of the crate."""
    rt = tool()
    if not has_kept_work(crate):
        subprocess.run(["rt", "check"], cwd=CRATES / crate, stdout=subprocess.DEVNULL, check=True)
    found = next(it for it in rt.rtlib.crates_below(str(ROOT)) if it.name == crate)
    with tempfile.TemporaryDirectory() as room:
        kept = shutil.copytree(CRATES / crate / "out" / "incremental", pathlib.Path(room) / "kept")
        yield from together.tried(rt, found, paths, str(kept))


def entry_of(said, crate, path):
    """What the record is to say of an edit, by what the toolchain said of it."""
    if ": refused, as it must be" not in said:
        return None
    by_name = "only because a proof file names what the edit took away" in said
    return (*checksums(crate, path), BY_NAME) if by_name else checksums(crate, path)


def try_all(trials):
    """Tries edits, crate by crate, and writes down what was refused."""
    of_crates = {}
    for crate, _, path in trials:
        of_crates.setdefault(crate, []).append(path)
    with tempfile.TemporaryDirectory() as room:
        copy = copy_of_crates(pathlib.Path(room)) if keeps_proofs() else None
        for crate, paths in of_crates.items():
            by_gate = copy and not has_kept_work(crate)
            for path, said in said_by_gate(copy, crate, paths) if by_gate else said_by_prover(crate, paths):
                print(said, flush=True)
                note(REFUSED, crate, path.stem, entry_of(said, crate, path))


def take_log(log):
    """Writes down what the gate's log says of its edits."""
    said = {}
    for line in pathlib.Path(log).read_text(errors="replace").splitlines():
        if line.startswith("rt: must-fail "):
            said[line.removeprefix("rt: must-fail ").partition(".edit: ")[0]] = line
    for crate, name, path in edits():
        if of_gate(path) and f"{crate}/{name}" in said:
            note(REFUSED, crate, name, entry_of(said[f"{crate}/{name}"], crate, path))


# ---- bugs by hand


def found_by(crate):
    """By what each bug of a crate is found: the words behind its name."""
    lines = (ROOT / "tests" / "bugs" / f"{crate}.tsv").read_text().splitlines()
    return {name: found for name, found, *_ in (line.split("\t") for line in lines)}


def try_bugs(names):
    """Tries the bugs that weren't tried over these sources, and counts those of which the prover says something else than what is
    noted."""
    of_crates, others = {}, 0
    for crate, name, path, _ in untried_bugs():
        if not names or names & {crate, f"{crate}/{name}"}:
            of_crates.setdefault(crate, []).append(path)
    for crate, paths in of_crates.items():
        noted = found_by(crate)
        for path, said in said_by_prover(crate, paths):
            # A bug that is refused by a name alone is one that no contract finds.
            is_found = BY_NAME not in (entry_of(said, crate, path) or (BY_NAME,))
            by = noted[path.stem].split()[0]
            as_noted = by == "not" or is_found == (by not in ("test", "nothing"))
            others += not as_noted
            print(f"{said}{'' if as_noted else f' (noted: {noted[path.stem]})'}", flush=True)
            note(TRIED, crate, path.stem, checksums(crate, path) if as_noted and by != "not" else None)
    return others


# ---- the command


def changed(crate, path, found):
    """What changed since an edit was tried, by what the record says of it."""
    edit, over, *_ = found
    was, now = parts_over().get(over, {}), SOURCES.under(crate)
    names = [name for name in {**was, **now} if was.get(name) != now.get(name)]
    own, below = [name for name in names if name in PARTS], [name for name in names if name not in PARTS]
    if edit != checksums(crate, path)[0]:
        yield "the edit"
    if own:
        yield f"its own {', '.join(own)}"
    if below:
        yield f"what is seen of {', '.join(below)}"


def why(crate, path, found):
    """Why an edit isn't shown to be refused, or a bug not tried, by what the record says of it."""
    if not found:
        return "not tried"
    if is_tried(found, crate, path):
        return "refused only because a proof names what it took away"
    return f"tried before this changed: {'; '.join(changed(crate, path, found))}"


def count():
    """Counts the edits that aren't shown to be refused, says how many of them the gate has, and counts the bugs that weren't tried."""
    missing = list(unshown())
    gate = [it for it in missing if of_gate(it[2])]
    for crate, name, path, found in gate:
        print(f"{crate}/{name}: {why(crate, path, found)}")
    print(
        f"over these sources {len(gate)} wrong bodies of the gate aren't shown to be refused, {len(missing) - len(gate)} beside it, "
        f"and {len(list(untried_bugs()))} bugs aren't tried"
    )
    return len(gate)


def main(words):
    needs.wanted("rt")
    if words[:1] == ["--from"] and len(words) == 2:
        take_log(words[1])
        return 0
    if "--bugs" in words:
        return int(try_bugs(set(words) - {"--bugs"}) > 0)
    unknown = [word for word in words if word not in OPTIONS and word.partition("/")[0] not in SOURCES.uses]
    if unknown:
        sys.exit(f"there is no {unknown[0]}")
    if "--count" in words:
        return int(count() > 0)
    if "--stale" in words:
        for crate, name, path, found in (*unshown(), *untried_bugs()):
            print(f"{crate}/{name}: {why(crate, path, found)}")
        return 0
    names = {word for word in words if word not in OPTIONS}
    wanted = [
        (crate, name, path)
        for crate, name, path in edits()
        if (not names or names & {crate, f"{crate}/{name}"}) and (of_gate(path) or "--gate" not in words)
    ]
    missing = {(crate, name) for crate, name, path, found in unshown() if not is_tried(found, crate, path)}
    try_all([it for it in wanted if it[:2] in missing])
    shown = {(crate, name) for crate, name, _ in wanted} - {(crate, name) for crate, name, _, _ in unshown()}
    return int(len(shown) < len(wanted))


if __name__ == "__main__":
    sys.exit(main(sys.argv[1:]))
