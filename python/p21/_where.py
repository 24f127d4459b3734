"""Where a file is refused."""

import dataclasses
import json
from typing import Any, Dict, List, Optional

from p21._html import table
from p21._numbers import RefusalNumber
from p21._schema import SchemaOrPath
from p21._source import Source
from p21._tools import as_paths, no_answer, run, tool


@dataclasses.dataclass(frozen=True)
class Place:
    """Where a file is refused, as ``p21-where`` finds it.

    Attributes:
        answer: the line of the program, as ``refused 45 Count in #3``.
        number, name, statement, instance: the parts of it, as ``Refused`` has them.
        line, column: the place in the text, each counted from 1, or None where there is none.
        attribute: the attribute, with the entity in front.
        expected: what is wanted there.
        found: what stands there.
        notes: what else there is to say.
    """

    answer: str
    number: RefusalNumber
    name: str
    statement: Optional[int]
    instance: Optional[int]
    line: Optional[int]
    column: Optional[int]
    attribute: Optional[str]
    expected: Optional[str]
    found: Optional[str]
    notes: List[str]

    def __str__(self) -> str:
        place = f"{self.line}:{self.column}: " if self.line is not None else ""
        return place + "; ".join([self.answer, *(note.strip() for note in self.notes)])

    def _repr_html_(self) -> str:
        rows = [(name.replace("_", " "), value) for name, value in dataclasses.asdict(self).items() if name != "notes" and value is not None]
        return table(None, [*rows, *(("", note) for note in self.notes)])


def row_in(line: str) -> Dict[str, Any]:
    """The row of ``p21-where`` that a line is, or an empty one."""
    try:
        row = json.loads(line)
    except ValueError:
        return {}
    return row if isinstance(row, dict) else {}


def where(schema: SchemaOrPath, source: Source) -> Optional[Place]:
    """Where a file is refused: line, column and attribute; None where it is accepted.

    The program and ``p21-where`` find it, which the wheel installs with this package. It is unproved, as ``diff`` is.

    Raises: ``OSError`` where a path can't be read, the program isn't here, or it ends without an answer; ``MemoryError`` where
    there is no memory.

    >>> place = p21.where(schema, point.replace(b"1.E0", b"1"))
    >>> place.line, place.column, place.attribute, place.expected, place.found
    (1, 131, 'POINT.Y', 'x, y : REAL', '1')
    """
    with as_paths(schema, source) as (schema_path, path):
        done = run([*tool("where"), "--format", "json", "--", schema_path, path])
    lines = done.stdout.decode("utf-8").split("\n")
    if done.returncode == 0 and lines == [""]:
        return None
    row = row_in(lines[0])
    if done.returncode != 1 or row.get("number") is None:
        raise no_answer(str(row.get("answer") or done.stderr.decode("utf-8", "replace")), done.returncode)
    instance = row["instance"]
    fields: Dict[str, Any] = {field.name: row.get(field.name) for field in dataclasses.fields(Place)}
    fields.update(number=RefusalNumber(int(row["number"])), instance=int(str(instance).lstrip("#")) if instance is not None else None)
    return Place(**fields)
