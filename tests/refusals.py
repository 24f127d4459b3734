#!/usr/bin/env python3
"""Whether each refusal has one number, one name and one sentence. What making/make-refusals makes of docs/FAULTS.md has to be as it
makes it. The list there is compared with the titles of its sections and with what the pages show, with the code
(crates/*/src/fault.rt, and refusal.rt for 59) and with the definitions that its contracts cite (crates/*/specs/Fault.antt,
Refusals.antt); so are the names and numbers of what is left out, by their table there and by the section of LeftOut; the sentence of
each fault of each crate, by the table of sentences; and what tools/p21_files.py and web/files.mjs say was wanted. A test of the gate
(crates/p21_test_stream_parts) runs the code on each row of the table of sentences, but can't see that a fault has no row. The status
is 1 where something differs, is missing or isn't listed.
"""

import pathlib
import re
import runpy
import sys

ROOT = pathlib.Path(__file__).resolve().parent.parent
PAGES = ["README.md", "examples/README.md", *(path.relative_to(ROOT).as_posix() for path in sorted((ROOT / "docs").rglob("*.md")))]
HELP = "crates/p21_command_line/src/help.rt"
CODE = {
    "files": ("p21_values", "p21_tokens", "p21_grammar", "p21_grammar_tree", "p21_stream_statements", "p21_stream_numbered"),
    "schemas": ("p21_express_lexemes", "p21_express_outline"),
}

# An attribute of thiserror with its text, and below it the fault: a case of an enumeration, or a type of its own.
SENTENCE = re.compile(r'#\[error\("([^"]*)"\)\]\n\s*(?:pub struct )?(\w+)')
# Refusals of which no fault prints a sentence.
UNSAID = {"59"}
# Faults that print what they hold.
HOLDS = ("{0}", "{fault} {at}")
MADE = runpy.run_path(str(ROOT / "making" / "make-refusals"))


def read(name):
    return (ROOT / name).read_text()


def listed():
    """The list of docs/FAULTS.md: each number with its name."""
    section = re.search(r"^## All refusals\n(.*?)^## ", read("docs/FAULTS.md"), re.M | re.S)[1]
    return re.findall(r"^ {4,}(S?\d+) ([A-Z]\w+) ", section, re.M)


def left_out():
    """The names in the table of what is left out."""
    section = re.search(r"^### 26 LeftOut\n(.*?)^### ", read("docs/FAULTS.md"), re.M | re.S)[1]
    return {name for row in re.findall(r"^\| (`[^|]*) \|", section, re.M) for name in re.findall(r"`(\w+)`", row)}


def pairs_of(numbers, names):
    """Numbers and names by case as pairs; the name of what is left out is that of its case."""
    for case, number in numbers:
        yield number, names.get(case, case if case == "LeftOut" else f"no name of {case}")


def pairs_in_code(crate):
    """What `number` and `name` answer in the code, and what their contracts cite."""
    code, specs = ("refusal.rt", "Refusals.antt") if crate == "p21_stream_numbered" else ("fault.rt", "Fault.antt")
    text = read(f"crates/{crate}/src/{code}")
    names = dict(re.findall(r'\w+::(\w+)(?:\([\w, ]+\))? => "(\w+)",', text))
    yield "src/fault.rt", list(pairs_of(re.findall(r"\w+::(\w+)(?:\([\w, ]+\))? => (\d+),", text), names))
    text = read(f"crates/{crate}/specs/{specs}")
    names = dict(re.findall(r'^(?:fault|refusal)_name \(?(\w+)[\w ]*\)? = codes "(\w+)"$', text, re.M))
    yield "specs/Fault.antt", list(pairs_of(re.findall(r"^(?:fault|refusal)_number \(?(\w+)[\w ]*\)? = (\d+)$", text, re.M), names))


def schemas(pairs):
    return [(number if number == "90" else f"S{number}", name) for number, name in pairs]


def places():
    """Each place that has pairs of a number and a name: its title, the pairs, and what it has to have beside those of which it
    says nothing: a set of numbers, or nothing where it shows some."""
    known = dict(listed())
    files = {number for number in known if not number.startswith("S")}
    of_schemas = set(known) - files
    faults = read("docs/FAULTS.md")
    yield "docs/FAULTS.md, titles", re.findall(r"^### (S?\d+) (\w+)$", faults, re.M), set(known)
    for page in [*PAGES, HELP]:
        yield page, re.findall(r"refused (S?\d+) ([A-Z]\w+)", read(page)), None
    for kind, crates in CODE.items():
        together = {"src/fault.rt": [], "specs/Fault.antt": []}
        for crate in crates:
            for file, pairs in pairs_in_code(crate):
                pairs = schemas(pairs) if kind == "schemas" else pairs
                together[file] += pairs
                yield f"crates/{crate}/{file}", pairs, {number for number, _ in pairs} or {"a number"}
        wanted = files if kind == "files" else of_schemas | {"90"}
        for file, pairs in together.items():
            yield f"{file} of the crates of {kind}", pairs, wanted


def absent_places():
    """Each place that has what is left out: its title, and the names, or the numbers with their names."""
    code = read("crates/p21_tokens/src/fault.rt")
    yield "crates/p21_tokens/src/fault.rt", [(case, name) for case, name in re.findall(r'Absent::(\w+) => "LeftOut\((\w+)\)"', code)]
    specs = read("crates/p21_tokens/specs/Fault.antt")
    yield "crates/p21_tokens/specs/Fault.antt", re.findall(r'^absent_name (\w+) = codes "LeftOut\((\w+)\)"$', specs, re.M)


def absent_numbers():
    """Each place that has numbers of what is left out."""
    code = read("crates/p21_c/src/answers.rt")
    yield "crates/p21_c/src/answers.rt", {name: number for name, number in re.findall(r"Absent::(\w+) => (\d+),", code)}
    specs = read("crates/p21_c/specs/Reports.antt")
    yield "crates/p21_c/specs/Reports.antt", dict(re.findall(r"^absent_number_of (\w+) = (\d+)$", specs, re.M))


def sentences():
    """The sentence of each fault of the code, by its type and its case."""
    for path in sorted(ROOT.glob("crates/*/src/**/*.rt")):
        enumeration = ""
        for part in re.split(r"^(?=pub enum )", path.read_text(), flags=re.M):
            enumeration = (re.findall(r"^pub enum (\w+)", part) or [enumeration])[0]
            for sentence, case in SENTENCE.findall(part):
                if sentence not in HOLDS:
                    yield case if f"struct {case}" in part else f"{enumeration}::{case}", sentence


def wrong_in_sentences(refusals):
    """What differs from the table of sentences, and the rows there that the list doesn't have."""
    known = {fault: said.sentence for said in refusals.said for fault in said.faults}
    found = dict(sentences())
    for fault in sorted(known.keys() | found.keys()):
        if known.get(fault) != found.get(fault):
            yield f"{fault}: the code says {found.get(fault)!r}, and docs/FAULTS.md {known.get(fault)!r}"
    numbers = {said.number for said in refusals.said}
    yield from (f"docs/FAULTS.md: {number} in one of the list and the sentences" for number in sorted(numbers ^ refusals.names.keys() ^ UNSAID))


def wrong_in_wanted():
    """What the tool and the page of the browser say was wanted, where it is one sentence, and docs/FAULTS.md doesn't say."""
    page = read("docs/FAULTS.md").replace("`", "")
    for place in ("tools/p21_files.py", "web/files.mjs"):
        rows = re.findall(r'^ +(\d+): "([^"]*)",$', re.search(r"WANTED\b[^\n]* = \{\n(.*?)\}", read(place), re.S)[1], re.M)
        yield from (f"{place}: {number}: docs/FAULTS.md doesn't say {wanted!r}" for number, wanted in rows if wanted not in page)
        yield from ([] if rows else [f"{place}: no sentence of what was wanted"])


def stale():
    """What isn't as making/make-refusals makes it."""
    for name, text in MADE["sources"](read("docs/FAULTS.md")).items():
        if read(name) != text:
            yield f"{name} is not what docs/FAULTS.md says: making/make-refusals makes it"


def wrong_in_places():
    """What stands twice in the list, and what differs from it."""
    known = dict(listed())
    told = [number for number, _ in listed()] + [(number[0] == "S", name) for number, name in listed()]
    yield from (f"docs/FAULTS.md, the list: {it} stands twice" for it in sorted({str(it) for it in told if told.count(it) > 1}))
    for title, pairs, wanted in places():
        for number, name in sorted(set(pairs)):
            if known.get(number) != name:
                yield f"{title}: {number} {name}, and in the list {number} {known.get(number, 'is no refusal')}"
        found = {number for number, _ in pairs}
        for number in sorted(set() if wanted is None else wanted ^ found):
            yield f"{title}: {number} {'is missing' if number in wanted else 'should not be there'}"


def wrong_in_absent(refusals):
    """What differs from the table of the numbers of what is left out."""
    known = refusals.absent
    yield from (f"docs/FAULTS.md: {name} stands in one of its two tables" for name in sorted(known.keys() ^ left_out()))
    for title, pairs in absent_places():
        yield from (f"{title}: {case} is named {name}" for case, name in pairs if case != name)
        yield from (f"{title}: {name} stands in one of it and docs/FAULTS.md" for name in sorted(known.keys() ^ {it for it, _ in pairs}))
    for title, found in absent_numbers():
        yield from (f"{title}: {name} stands in one of it and docs/FAULTS.md" for name in sorted(known.keys() ^ found.keys()))
        yield from (f"{title}: {name} is {number}, and there {known[name]}" for name, number in found.items() if number != known.get(name))


def main():
    refusals = MADE["refusals_of"](read("docs/FAULTS.md"))
    wrong = [*stale(), *wrong_in_places(), *wrong_in_absent(refusals), *wrong_in_sentences(refusals), *wrong_in_wanted()]
    for line in wrong:
        print(line)
    count, absent = len(listed()), len(left_out())
    of = sum(1 for _, pairs, _ in places() if pairs) + sum(1 for _ in absent_places()) + sum(1 for _ in absent_numbers())
    said = len(dict(sentences()))
    print(f"{count} refusals, {absent} forms left out, {of} places, {said} sentences, {len(wrong)} failed")
    return int(bool(wrong) or not count or not absent or not said)


if __name__ == "__main__":
    sys.exit(main())
