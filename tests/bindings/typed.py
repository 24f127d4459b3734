"""A program of a user, with types: mypy --strict finds no fault in it."""

import mmap
import sys
from pathlib import Path
from typing import Dict, List, Optional

import p21


def checked(schema: p21.Schema, paths: List[Path]) -> Dict[str, int]:
    """How many instances each file has; none for one that is refused."""
    found: Dict[str, int] = {}
    for path in paths:
        try:
            report: p21.Report = p21.check(schema, path)
        except p21.SchemaRefused:
            raise
        except p21.Refused as refusal:
            number: int = refusal.number
            instance: Optional[int] = refusal.instance
            place: Optional[p21.RefusalPlace] = refusal.place
            line: Optional[int] = place.line if place is not None else None
            print(path, number, refusal.name, refusal.sentence, refusal.advice, instance, line, file=sys.stderr)
            found[str(path)] = 0
        else:
            found[str(path)] = report.instances
    return found


def by_path(path: Path) -> int:
    """How many instances a file has, under a schema that is given by its path."""
    return p21.check(path.with_suffix(".exp"), path).instances + p21.check(str(path.with_suffix(".exp")), path).instances


def described(path: Path) -> str:
    """What a file says of itself."""
    found: p21.Syntax = p21.syntax(path)
    records: int = sum(found.keywords.values())
    return f"{found.schema} {found.instances} {records} {dict(found.header).get('author')}"


def compared(schema: p21.Schema, first: bytes, second: Path) -> bool:
    """Whether bytes and a file that is mapped into memory mean the same."""
    with open(second, "rb") as file, mmap.mmap(file.fileno(), 0, access=mmap.ACCESS_READ) as data:
        return p21.same(schema, first, data)


def first_line(schema: p21.Schema, path: Path) -> str:
    """The first statement of a file that comes in pieces, with the hash of its data."""
    with p21.Session(schema) as session, open(path, "rb") as file:
        while piece := file.read(65536):
            session.feed(piece)
        with session.finish() as accepted:
            line: Optional[bytes] = accepted.line(1)
            with accepted.open() as canonical:
                first: bytes = canonical.readline()
    place: Optional[p21.Place] = p21.where(schema, path)
    differences: p21.Differences = p21.diff(schema, path, path, data=True)
    digest: str = p21.hash(schema, path, data=True).sha256
    survey: p21.Survey = p21.survey(schema, path)
    read: Optional[int] = survey.read
    return f"{line!r} {first!r} {place} {differences.verdict['verdict']} {digest} {len(survey)} {read}"


if __name__ == "__main__":
    own = p21.Schema.read(sys.argv[1])
    print(checked(own, [Path(word) for word in sys.argv[2:]]))
