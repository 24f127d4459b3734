#!/usr/bin/env python3
"""Checks that docs/LIBRARY.md shows the examples in Rattle word for word.

Above each block stands the name of its file: `crates/NAME/FILE` or `crates.txt`. A file of a crate is shown whole, and each
file of the examples is, but for lists of files (`lib.rt`, `Lib.antt`). Of crates.txt lines are shown.
The status is 1 where the page shows something else. With --write the blocks are put there anew from the files.
"""

import pathlib
import re
import sys

ROOT = pathlib.Path(__file__).resolve().parent.parent
PAGE = ROOT / "docs" / "LIBRARY.md"
BLOCK = re.compile(r"(?<=\n)`(crates(?:/[\w./-]+|\.txt))`:?\n\n```(\w*)\n(.*?)```\n", re.DOTALL)


def shown(name):
    """The text of a file."""
    return (ROOT / name).read_text()


def examples():
    """The files of the examples that the page shows."""
    for path in sorted((ROOT / "crates" / "p21_examples").rglob("*")):
        name = path.relative_to(ROOT).as_posix()
        if path.is_file() and "/out/" not in name and path.suffix in (".rt", ".antt") and path.stem.lower() != "lib":
            yield name


def wrong(page):
    """What the page doesn't show as it stands."""
    names = set()
    for name, _, text in BLOCK.findall(page):
        names.add(name)
        if name == "crates.txt":
            lines = shown(name).splitlines()
            yield from (f"not in {name}: {line}" for line in text.splitlines() if line not in lines)
        elif not (ROOT / name).is_file():
            yield f"no such file: {name}"
        elif text != shown(name):
            yield f"shown otherwise: {name}"
    yield from (f"not shown: {name}" for name in examples() if name not in names)


def anew(block):
    """A block with the text of its file."""
    name, language, text = block.groups()
    if name != "crates.txt":
        text = shown(name)
    return f"`{name}`:\n\n```{language}\n{text}```\n"


def main():
    page = PAGE.read_text()
    if "--write" in sys.argv[1:]:
        page = BLOCK.sub(anew, page)
        PAGE.write_text(page)
    found = list(wrong(page))
    for line in found:
        print(line)
    print(f"{len(BLOCK.findall(page))} blocks, {len(found)} wrong")
    return 1 if found else 0


sys.exit(main())
