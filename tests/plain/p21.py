#!/usr/bin/env python3
"""p21.py COMMAND ..: the commands param, syntax, schema, check, canon, show and same, answered by the plain reading."""

import argparse
import pathlib
import sys

sys.path.insert(0, str(pathlib.Path(__file__).resolve().parent.parent))

from plain import commands  # noqa: E402


def arguments():
    """The command line, as that of the program."""
    parser = argparse.ArgumentParser(description=__doc__)
    of = parser.add_subparsers(dest="command", required=True)
    for command, names in {
        "param": ["file"],
        "syntax": ["file"],
        "schema": ["schema"],
        "check": ["schema", "file"],
        "canon": ["schema", "file"],
        "show": ["schema", "file"],
        "same": ["schema", "first", "second"],
    }.items():
        command_line = of.add_parser(command)
        for name in names:
            command_line.add_argument(name, type=pathlib.Path)
        if command == "show":
            command_line.add_argument("--name", type=int, required=True)
        if command == "syntax":
            command_line.add_argument("--header", action="store_true")
            command_line.add_argument("--count", action="store_true")
        if command == "check":
            command_line.add_argument("--all", action="store_true")
            command_line.add_argument("--most", type=int)
        if command in ("check", "canon", "same"):
            command_line.add_argument("--names", action="store_true")
    return parser.parse_args()


def main():
    """Reads the files, runs the command and writes its answer."""
    given = vars(arguments())
    command = given.pop("command")
    option = given.pop("name", None)
    every, most = given.pop("all", False), given.pop("most", None)
    if given.pop("names", False):
        command += "_names"
    if every or most is not None:
        command, option = "check_all", most
    flags = {name: given.pop(name) for name in ("header", "count") if name in given}
    texts = [path.read_bytes() for path in given.values()]
    output, error, status = getattr(commands, command)(*texts, *([] if option is None else [option]), **flags)
    sys.stdout.write(output)
    sys.stderr.write(error)
    return status


if __name__ == "__main__":
    sys.exit(main())
