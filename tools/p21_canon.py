"""Canonical files: how the program is asked for one."""

import mmap
import os
import re
import tempfile
from typing import Optional, Tuple

import p21_reading as reading
import p21_system as system
from p21_reading import shown

# How a canonical file begins and ends, and what is said of a program that gives something else.
BEGIN, END = b"ISO-10303-21;\n", b"\nEND-ISO-10303-21;\n"
NOT_WHOLE = "the canonical file isn't whole"
# A program for another system names it on a second line.
FORM = re.compile(r"p21 \S+ \(canonical form (\d+)\)\n(?:[\w-]+: [^\n]*\n)?")


def form_of(program: str) -> int:
    """The version of the canonical form that the program writes, as the program says it."""
    answer = reading.run(program, "--version")
    said = answer.output[:200].decode("ascii", "replace")
    found = FORM.fullmatch(said)
    if answer.status != reading.Status.DONE or found is None:
        raise reading.Trouble(f"{program} doesn't say which canonical form it writes: it says {answer.error or said or 'nothing'}")
    return int(found[1])


def handed(path: str) -> str:
    """A path that the program can take and read again: of a file whose name isn't UTF-8 that of the open file."""
    try:
        path.encode("utf-8")
    except UnicodeEncodeError:
        path = system.held(path)
    return str(reading.lasting(path))


def asked(program: str, schema: str, path: str) -> Tuple[Optional[mmap.mmap], str, reading.Status]:
    """The canonical file of a file, or None and why there is none, and what that came to."""
    with tempfile.TemporaryFile() as output:
        run = reading.run(program, "canon", schema, path, output=output)
        answer, status = reading.judged(run.error, run.status)
        if status != reading.Status.DONE:
            return None, answer, status
        text = mmap.mmap(output.fileno(), 0, access=mmap.ACCESS_READ) if os.fstat(output.fileno()).st_size else None
        if text is None or not is_whole(text[: len(BEGIN)], text[-len(END) :]):
            return None, NOT_WHOLE, reading.Status.FAILED
        return text, "", status


def is_whole(first: bytes, last: bytes) -> bool:
    """Are these the beginning and the end of a canonical file?"""
    return first.startswith(BEGIN) and last == END


def canonical(program: str, schema: str, path: str, named: Optional[str] = None) -> mmap.mmap:
    """The canonical file of a file, which a refusal names by its path, or as it is named here."""
    text, answer, _ = asked(program, schema, handed(path))
    if text is None:
        named = path if named is None else named
        raise reading.Trouble(f"{shown(named)}: {shown(reading.with_reason(answer, schema, named))}")
    return text
