#!/usr/bin/env python3
"""Whether each wrong body can be tried, in the gate (crates/CRATE/must-fail) and beside it (tests/wrong_bodies/CRATE), and each
bug by hand (tests/bugs/CRATE): its crate is there, each text behind `old: ` stands once in the file that `file: ` names, where a
further pair is looked for in what the earlier ones made, something is changed, and no name of a crate stands in two places. Of
each bug tests/bugs/CRATE.tsv says by what it is found, and docs/CONTRACTS.md has the table that counts these lines; with --table
that table is printed. The old text of each edit of hostile/wrong_programs.py stands once in its file too. The status is 1 where
that isn't so. It says nothing of whether the prover refuses the bodies.
"""

import collections
import pathlib
import sys

ROOT = pathlib.Path(__file__).resolve().parent.parent
sys.path.append(str(ROOT / "tests" / "hostile"))
from wrong_programs import EDITS  # noqa: E402

FOLDERS = ("src", "specs", "proofs")
# By what a bug is found, as the lists and as the table have it.
FOUND_BY = {
    "clause": "A clause or an invariant",
    "invariant": "A clause or an invariant",
    "bound": "A bound or a condition of a call",
    "condition": "A bound or a condition of a call",
    "test": "A test",
    "nothing": "Nothing",
    "not": "Not tried",
}


def wrong_with(crate, text):
    """What keeps an edit of a crate from being tried, or nothing."""
    texts, before, path, old = {}, {}, None, None
    for line in text.splitlines():
        key, _, value = line.partition(":")
        value = value.removeprefix(" ")
        if key == "file":
            path = crate / value
            if value.split("/")[0] not in FOLDERS or not path.is_file():
                return f"there is no {value}"
            before.setdefault(path, path.read_text())
            texts.setdefault(path, before[path])
        elif key == "old":
            old = value
        elif key == "new":
            if path is None or not old:
                return "a new text without an old one or without a file"
            count = texts[path].count(old)
            if count != 1:
                return f"the old text stands {count} times in {path.relative_to(crate)}: {old.strip()}"
            texts[path], old = texts[path].replace(old, value), None
        elif line.strip():
            return f"a line of another kind: {line}"
    if old:
        return "an old text without a new one"
    return None if texts != before else "it changes nothing"


def edits():
    """Each edit: its crate, its name and its path, those of the gate first."""
    for pattern, above in (("crates/*/must-fail/*.edit", 2), ("tests/wrong_bodies/*/*.edit", 1)):
        for path in sorted(ROOT.glob(pattern)):
            yield path.parts[-1 - above], path.stem, path


def bugs():
    """Each bug by hand: its crate, its name and its path."""
    for path in sorted(ROOT.glob("tests/bugs/*/*.edit")):
        yield path.parts[-2], path.stem, path


def wrong_with_bugs():
    """What keeps bugs from being tried, and which have no line in the list of their crate; a line each."""
    listed = {
        (path.stem, line.split("\t")[0])
        for path in ROOT.glob("tests/bugs/*.tsv")
        for line in path.read_text().splitlines()
    }
    for crate, name, path in bugs():
        wrong = wrong_with(ROOT / "crates" / crate, path.read_text())
        if wrong or (crate, name) not in listed:
            yield f"{path.relative_to(ROOT)}: {wrong or 'its list says nothing of it'}"
    for crate, name in sorted(listed - {(crate, name) for crate, name, _ in bugs()}):
        yield f"tests/bugs/{crate}.tsv: there is no {name}"


def wrong_with_programs():
    """Which edits of hostile/wrong_programs.py can't be made, a line each."""
    for edit in EDITS:
        count = (ROOT / edit.file).read_text().count(edit.old)
        if count != 1:
            yield f"tests/hostile/wrong_programs.py: {edit.title}: the old text stands {count} times in {edit.file}"


def table_of_bugs():
    """The table that docs/CONTRACTS.md has of the bugs: for each crate, in the order of crates.txt, by what how many are found."""
    columns = list(dict.fromkeys(FOUND_BY.values()))
    found = collections.defaultdict(collections.Counter)
    for path in ROOT.glob("tests/bugs/*.tsv"):
        for line in path.read_text().splitlines():
            column = FOUND_BY[line.split("\t")[1].split()[0]]
            found[path.stem][column] += 1
            found["all"][column] += 1
    columns = [column for column in columns if found["all"][column]]
    crates = (line.partition(":")[0].split() for line in (ROOT / "crates.txt").read_text().splitlines())
    rows = [(f"`{words[0]}`", words[0]) for words in crates if words and words[0] in found] + [("all", "all")]
    yield f"| Crate | Written | {' | '.join(columns)} |"
    yield "|---" * (len(columns) + 2) + "|"
    for name, crate in rows:
        counts = (str(found[crate][column] or "") for column in columns)
        yield f"| {name} | {sum(found[crate].values())} | {' | '.join(counts)} |"


def main():
    if sys.argv[1:] == ["--table"]:
        print("\n".join(table_of_bugs()))
        return 0
    count = {True: 0, False: 0}
    seen = {(crate, name) for crate, name, _ in bugs()}
    failed = 0
    if "\n".join(table_of_bugs()) not in (ROOT / "docs" / "CONTRACTS.md").read_text():
        failed += 1
        print("docs/CONTRACTS.md: its table of bugs isn't what tests/edits.py --table prints")
    for line in (*wrong_with_bugs(), *wrong_with_programs()):
        failed += 1
        print(line)
    for crate, name, path in edits():
        wrong = wrong_with(ROOT / "crates" / crate, path.read_text())
        if (crate, name) in seen:
            wrong = "the gate or the bugs have one of this name"
        seen.add((crate, name))
        count[path.parent.name == "must-fail"] += 1
        if wrong:
            failed += 1
            print(f"{path.relative_to(ROOT)}: {wrong}")
    print(f"{count[True]} wrong bodies in the gate, {count[False]} beside it, {sum(1 for _ in bugs())} bugs by hand, {failed} failed")
    return int(failed > 0 or not all(count.values()))


if __name__ == "__main__":
    sys.exit(main())
