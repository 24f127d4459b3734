#!/usr/bin/env python3
"""Whether each name in the tables of rules of docs/DEFINITIONS.md is there: definitions, examples and laws, functions and
types of the code, tests and their tables, wrong bodies, and what the plain reading has of a rule; whether each function of the
plain reading that refuses something stands there; and each call, clause and file in the tables of promises of docs/CONTRACTS.md;
whether each public call has a line that says what it does; and whether each page of docs that a file names is there.
The status is 1 where one isn't, where a rule has no code but has a test or a wrong body, where the scanner of tokens carries
out a rule and its row names no function of it, or where nothing of the plain reading carries a rule and no reason is said.
"""

import ast
import functools
import pathlib
import re
import runpy
import sys

ROOT = pathlib.Path(__file__).resolve().parent.parent
CRATES = ROOT / "crates"
# A page that making/make-contracts makes, and that is not committed.
MADE = b"docs/CALLS.md"
DEFINITIONS = ("p21_spec_basics", "p21_spec_exchange", "p21_spec_schema", "p21_spec_file", "p21_spec_syntax", "p21_spec_survey")
COLUMNS = ["Rule", "Definition", "Example or law", "Code", "Test", "Wrong body", "Plain reading"]
# Where the table of tokens has a further column: behind the code, what scans the token where it stands whole
WHOLE = COLUMNS.index("Code") + 1
SCANNER = "p21_scan"
PLAIN = ROOT / "tests" / "plain"
NAME = re.compile(r"(?:(?:(?P<crate>p21\w+)/)?(?P<file>[A-Z]\w*)\.)?(?P<name>[\w-]+)")


@functools.cache
def names_in(path):
    """All words of a file of definitions or proofs."""
    return set(re.findall(r"[\w-]+", path.read_text()))


def rows(page, section, first):
    """The cells of each row in the tables of a section, and the number of its line. The first column has this title."""
    inside = False
    for number, line in enumerate((ROOT / "docs" / page).read_text().splitlines(), 1):
        if line.startswith("## "):
            inside = line == f"## {section}"
        if inside and line.startswith("| ") and not line.startswith(f"| {first} |"):
            yield number, [cell.strip() for cell in line.strip("|").split(" | ")]


def quoted(cell):
    """What stands between the marks of code in a cell."""
    return re.findall(r"`([^`]+)`", cell)


def outside(cell):
    """A cell without what stands in parentheses; those in code count for nothing."""
    depth = 0
    kept = []
    for part in re.findall(r"`[^`]*`|.", cell):
        depth += part == "("
        if depth == 0:
            kept.append(part)
        depth -= part == ")"
    return "".join(kept)


def missing_statements(cell, folder):
    """The names of a cell that no file of this folder has. One without a file is in the file named last."""
    found = None
    for text in quoted(cell):
        name = NAME.fullmatch(text)
        if not name:
            yield text
            continue
        if name["file"]:
            crates = [name["crate"]] if name["crate"] else DEFINITIONS
            paths = (CRATES / crate / folder / f"{name['file']}.antt" for crate in crates)
            found = next((path for path in paths if path.is_file()), None)
        if found is None or name["name"] not in names_in(found):
            yield text


def missing_items(cell, kinds):
    """The names of a cell as CRATE::FILE::NAME that no source has as an item of one of these kinds."""
    for text in quoted(cell):
        crate, *module, name = text.split("::")
        files = (CRATES / crate / "src").rglob(f"{module[-1] if module else 'lib'}.rt")
        item = re.compile(rf"\b(?:{kinds})\s+{re.escape(name)}\b")
        if not any(item.search(path.read_text()) for path in files):
            yield text


def missing_edits(cell):
    """The names of a cell as CRATE/NAME of which there is no edit."""
    for text in quoted(cell):
        crate, name = text.split("/")
        places = (CRATES / crate / "must-fail", ROOT / "tests" / "wrong_bodies" / crate)
        if not any((place / f"{name}.edit").is_file() for place in places):
            yield text


def definitions_in(cell):
    """The definitions of a cell as (FILE, NAME). One without a file is in the file named last."""
    file = None
    for text in quoted(cell):
        if name := NAME.fullmatch(text):
            file = name["file"] or file
            yield file, name["name"]


@functools.cache
def scanned_definitions():
    """The definitions of tokens that the scanner's contracts and lemmas speak of, as (FILE, NAME)."""
    imports = re.findall(r"\buse Rattle\.p21_spec_exchange\.specs\.(\w+)\.\{([^}]*)\}", sources_in(CRATES / SCANNER))
    return {(file, name) for file, names in imports for name in names.split(", ")}


def missing_in_whole(whole, definition):
    """What is wrong in the cell that names the scanner's functions: a rule that the scanner carries out has one."""
    yield from missing_items(whole, "fn")
    if not quoted(whole) and not scanned_definitions().isdisjoint(definitions_in(definition)):
        yield f"no function of {SCANNER}"
    yield from (text for text in quoted(whole) if not text.startswith(f"{SCANNER}::"))


@functools.cache
def items_of_plain():
    """Whatever the plain reading has a name for, as MODULE.NAME, with whether it is a function that refuses something."""
    found = {}
    for path in sorted(PLAIN.glob("*.py")):
        for node in ast.walk(ast.parse(path.read_text())):
            if isinstance(node, (ast.FunctionDef, ast.ClassDef)):
                refuses = isinstance(node, ast.FunctionDef) and any(is_refusal(within) for within in ast.walk(node))
                found[f"{path.stem}.{node.name}"] = refuses
            elif isinstance(node, ast.Assign):
                found |= {f"{path.stem}.{target.id}": False for target in node.targets if isinstance(target, ast.Name)}
    return found


def is_refusal(node):
    """Whether a statement raises a refusal with a number that stands there."""
    return isinstance(node, ast.Raise) and any(isinstance(it, ast.Constant) and isinstance(it.value, int) for it in ast.walk(node))


def missing_in_plain(cell):
    """The names of a cell that the plain reading hasn't; a cell without names says in parentheses why."""
    yield from (text for text in quoted(cell) if text not in items_of_plain())
    if not quoted(cell) and not re.fullmatch(r"- \(.+\)", cell):
        yield f"no reason why nothing of the plain reading carries it: {cell}"


def unnamed_in_plain(found):
    """The functions of the plain reading that refuse something, and that no row names."""
    named = {text for _, cells in found for text in quoted(cells[-1])}
    return [name for name, refuses in items_of_plain().items() if refuses and name not in named]


def missing_in_rule(cells):
    """What is wrong in the row of a rule."""
    if len(cells) == len(COLUMNS) + 1:
        yield from missing_in_whole(cells[WHOLE], cells[COLUMNS.index("Definition")])
        cells = cells[:WHOLE] + cells[WHOLE + 1 :]
    if len(cells) != len(COLUMNS):
        yield f"{len(cells)} cells"
        return
    _, definition, example, code, test, wrong, plain = cells
    yield from missing_statements(definition, "specs")
    yield from missing_statements(outside(example), "proofs")
    yield from missing_items(code, "fn|struct|enum|trait")
    yield from missing_items(test, "fn|const")
    yield from missing_edits(wrong)
    yield from missing_in_plain(plain)
    if code == "-" and (test, wrong) != ("-", "-"):
        yield "a test or a wrong body without code"


def places_in(cell):
    """The files and folders of a cell. One without a folder stands beside the one in front of it, or in each crate of the
    cell."""
    folder = None
    for text in quoted(cell):
        if text.startswith("p21"):
            path = CRATES / text
            folder = path.parent if path.suffix else path
            yield path
        elif folder:
            yield folder / text


@functools.cache
def sources_in(folder):
    """What the files of a folder have, one behind the other."""
    return "".join(path.read_text() for suffix in ("rt", "antt") for path in sorted(folder.rglob(f"*.{suffix}")))


@functools.cache
def has_item(folder, name):
    """Whether the files of a folder have a function, a clause, a type or a definition of this name, or a field or a case."""
    item = rf"\b(?:fn|struct|enum|trait|ghost|ensures|record|data|abbrev|pub) {name}\b|^\s+{name}\b(?: :|,|\()"
    return re.search(item, sources_in(folder), re.M) is not None


def missing_in_promise(cells):
    """What is wrong in the row of a promise: a file that isn't there, or a call or a clause that neither the crates of the
    row nor any definition have."""
    if len(cells) != 3:
        yield f"{len(cells)} cells"
        return
    _, calls, files = cells
    crates = re.findall(r"`(p21\w*)", files)
    yield from (str(path) for path in places_in(files) if not path.exists())
    folders = [CRATES / crate / "src" for crate in crates] + list(CRATES.glob("*/specs"))
    for text in quoted(calls):
        for name in re.findall(r"\w+", text):
            if files and not any(has_item(folder, name) for folder in folders):
                yield name


def check(page, found, missing):
    """How many rows a page has, and how many names in them aren't there."""
    count = failed = 0
    for number, cells in found:
        count += 1
        for what in missing(cells):
            failed += 1
            print(f"docs/{page}:{number}: {what}")
    return count, failed


def calls_without_a_line():
    """The public calls above which no line says what they do, each with its crate."""
    made = runpy.run_path(str(ROOT / "making" / "make-contracts"))
    for crate in made["crates_in_order"]():
        yield from (f"{crate}: {call.name}" for call in made["calls_of"](crate) if not call.about)


def missing_pages():
    """The pages of docs that a file names and that aren't there, each with the file."""
    places = ("*.md", "docs/**/*.md", "tests/**/*", "tools/**/*", "making/**/*", "benchmarks/**/*", "include/*", "python/**/*.py", "web/*.mjs")
    for path in sorted(path for place in places for path in ROOT.glob(place) if path.is_file() and "corpus" not in path.parts):
        for page in sorted(set(re.findall(rb"\bdocs/[\w/]+\.md", path.read_bytes()))):
            if page != MADE and not (ROOT / page.decode()).exists():
                yield f"{path.relative_to(ROOT)}: there is no {page.decode()}"


def main():
    found = list(rows("DEFINITIONS.md", "Rules", "Rule"))
    rules, missing_rules = check("DEFINITIONS.md", found, missing_in_rule)
    unnamed = unnamed_in_plain(found)
    print("".join(f"tests/plain: no rule of docs/DEFINITIONS.md names {name}\n" for name in unnamed), end="")
    promises, missing = check("CONTRACTS.md", rows("CONTRACTS.md", "By promise", "Promise"), missing_in_promise)
    unsaid = list(calls_without_a_line())
    print("".join(f"no line says what {name} does\n" for name in unsaid), end="")
    unknown = list(missing_pages())
    print("".join(f"{line}\n" for line in unknown), end="")
    failed = missing_rules + len(unnamed) + missing + len(unsaid) + len(unknown)
    print(f"{rules} rules, {promises} promises, {failed} failed")
    return int(failed > 0 or rules == 0 or promises == 0)


if __name__ == "__main__":
    sys.exit(main())
