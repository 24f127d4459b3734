#!/usr/bin/env python3
"""Whether each copy of the schema DEMO in a crate of tests is the text of examples/demo.exp, which all other tests read: a source
of the language can't take a file in. The status is 1 where one differs, or where there is none.
"""

import pathlib
import re
import sys

ROOT = pathlib.Path(__file__).resolve().parent.parent
SCHEMA = ROOT / "examples" / "demo.exp"
CONSTANT = re.compile(r'const (\w+): &str = "((?:[^"\\]|\\.)*)";', re.S)
# What a copy has in common with the schema, whatever else was changed in it.
MARKS = ("SCHEMA demo;", "ENTITY cloud;")


def copies():
    """Each constant that is a copy: its file, its name and its text."""
    for path in sorted(ROOT.glob("crates/*/src/**/*.rt")):
        for name, text in CONSTANT.findall(path.read_text()):
            if all(mark in text for mark in MARKS):
                yield path.relative_to(ROOT), name, text.replace("\\\\", "\\")


def main():
    wanted = SCHEMA.read_text().rstrip("\n")
    found = list(copies())
    wrong = [f"{path}: {name} is not examples/demo.exp" for path, name, text in found if text.rstrip("\n") != wanted]
    print("\n".join([*wrong, f"{len(found)} copies of examples/demo.exp, {len(wrong)} failed"]))
    return int(bool(wrong) or not found)


if __name__ == "__main__":
    sys.exit(main())
