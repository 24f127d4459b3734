#!/usr/bin/env python3
"""Whether no pattern of the tools, and of what builds, has a repetition without a bound inside another one: on some text such a
pattern may never end.

All texts in their sources that are patterns are looked at, wherever they stand; those of making/make-.. apart, which read nothing
but the repository's pages. The status is 1 where one has such a repetition.
"""

import ast
import pathlib
import re
import sys

try:
    from re import _constants as constants
    from re import _parser as parser
except ImportError:
    import sre_constants as constants
    import sre_parse as parser

ROOT = pathlib.Path(__file__).resolve().parent.parent
REPEATS = (constants.MAX_REPEAT, constants.MIN_REPEAT)

# What has to be found, so that the test can fail.
NESTED = [r"(a*)*", r"(?:\s|--[^\n]*)*x", r"'[^']*(?:''[^']*)*'", r"(?:a|(b+?c)+)", r"(?:(?=a*)b)+"]
PLAIN = [r"a*b+", r"(a*)(b*)", r"(?:a{1,3})*", r"(?:a*){2}", r"[^'\\]*'"]


def is_nested(tree, is_inside=False):
    """Does a parsed pattern have such a repetition?"""
    for operation, given in tree:
        endless = operation in REPEATS and given[1] is constants.MAXREPEAT
        if endless and is_inside:
            return True
        if any(is_nested(part, is_inside or endless) for part in parts_of(given)):
            return True
    return False


def parts_of(given):
    """The patterns inside an operation of a pattern."""
    if isinstance(given, parser.SubPattern):
        yield given
    elif isinstance(given, (tuple, list)):
        for part in given:
            yield from parts_of(part)


def parsed(text):
    """A text as a pattern, or None."""
    try:
        return parser.parse(text)
    except (re.error, OverflowError, RecursionError):
        return None


def texts(tree):
    """The texts in a source with their lines, sums of texts as one."""
    for node in ast.walk(tree):
        if isinstance(node, ast.BinOp) and isinstance(node.op, ast.Add):
            pieces = [piece.value for piece in ast.walk(node) if isinstance(piece, ast.Constant)]
            if pieces and all(isinstance(piece, type(pieces[0])) for piece in pieces) and isinstance(pieces[0], (str, bytes)):
                yield node.lineno, type(pieces[0])().join(pieces)
        elif isinstance(node, ast.Constant) and isinstance(node.value, (str, bytes)):
            yield node.lineno, node.value


def sources():
    """The sources of the tools and of what builds, in Python."""
    for path in sorted(it for folder in ("tools", "making") for it in (ROOT / folder).rglob("*")):
        is_python = path.is_file() and (path.suffix == ".py" or path.read_bytes()[:40].startswith(b"#!/usr/bin/env python3"))
        if is_python and not path.name.startswith("make-"):
            yield path


def main():
    wrong = [f"{text}: is nested, and not found" for text in NESTED if not is_nested(parser.parse(text))]
    wrong += [f"{text}: isn't nested, and found" for text in PLAIN if is_nested(parser.parse(text))]
    count = 0
    for path in sources():
        for line, text in texts(ast.parse(path.read_text())):
            tree = parsed(text)
            count += tree is not None
            if tree is not None and is_nested(tree):
                wrong.append(f"{path.relative_to(ROOT)}:{line}: a repetition inside another one: {text!r}")
    print("\n".join([*wrong, f"{count} texts, {len(wrong)} failed"]))
    return int(bool(wrong) or not count)


if __name__ == "__main__":
    sys.exit(main())
