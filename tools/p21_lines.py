"""Canonical files line by line: where their instances stand, and to which others each refers."""

import re
from typing import Iterator, List, Tuple

import p21_reading as reading
from p21_reading import Text

STRING_OR_REFERENCE = re.compile(rb"'[^']*'|#(\d+)")
HEADER_END = b"\nENDSEC;\n"
# No file has a name so great.
GREATER = 1 << 64


def front_of(data: Text) -> bytes:
    """What stands in front of the data sections."""
    return bytes(data[: data.find(HEADER_END) + len(HEADER_END)])


def lines_of(data: Text, start: int) -> Iterator[Tuple[int, int]]:
    """Where each line begins and ends, from a place on, up to the line that ends the section."""
    while data[start : start + 1] == b"#":
        end = data.find(b"\n", start)
        yield start, end
        start = end + 1


def sections_of(data: Text) -> List[Tuple[bytes, int]]:
    """The line that begins each data section, with the place behind it. No string of a canonical file has a line end."""
    found = []
    start = data.find(b"\nDATA")
    while start >= 0:
        end = data.find(b"\n", start + 1)
        found.append((data[start + 1 : end], end + 1))
        start = data.find(b"\nDATA", end)
    return found


def line_named(data: Text, sections: List[Tuple[bytes, int]], name: int) -> bytes:
    """The line of an instance in a canonical file of these sections, in each of which names rise; empty where there is none of its
    name."""
    ends = [start - len(heading) - 1 for heading, start in sections[1:]] + [len(data)]
    for (_, low), high in zip(sections, ends):
        while low < high:
            start = data.rfind(b"\n", low, (low + high) // 2) + 1 or low
            found = int(data[start + 1 : data.find(b"=", start)]) if data[start : start + 1] == b"#" else GREATER
            if found == name:
                return bytes(data[start : data.find(b"\n", start)])
            low, high = (data.find(b"\n", start) + 1, high) if found < name else (low, start)
    return b""


def keywords_of(line: bytes) -> bytes:
    """The keyword of an instance, or those of its parts with `+` between them."""
    at = line.index(b"=") + 1
    if line[at : at + 1] != b"(":
        return line[at : line.index(b"(", at)]
    return "+".join(part.key for part in reading.read_parts(line)).encode("latin-1")


def references_in(text: bytes) -> Iterator[int]:
    """The names of the instances to which a text refers."""
    return (int(found[1]) for found in STRING_OR_REFERENCE.finditer(text) if found[1])
