"""The refusals that one run finds of a file."""

import dataclasses
import re
from typing import Any, Dict, List, Optional, Pattern

from p21._faults import Refused
from p21._html import table
from p21._places import RefusalPlace
from p21._schema import SchemaOrPath
from p21._source import Source
from p21._tools import as_path, as_paths, no_answer, program, run
from p21._where import row_in

_ACCEPTED = re.compile(rb"accepted, instances \d+, canonical bytes \d+\n")
_WELL_FORMED = re.compile(rb"well formed, instances \d+, schema \S+\n")


@dataclasses.dataclass(frozen=True)
class Survey:
    """What a file is refused for: the first refusal of each statement, and those of references, but none of or to a refused record. A broken
    statement of a data section is passed over, up to where the next one begins; no reference is said to have no target then.

    Attributes:
        refusals: each refusal with its place, those of statements in the order of the file, and then those of references; none where the file
            is accepted, or by itself is well formed.
        is_whole: whether the file was read to its end, and the list wasn't ended by ``most``.
        read: how many bytes of the file stand in front of the statement whose refusal ended the reading: of what stands behind these
            nothing is known. None where no refusal ended it.
    """

    refusals: List[Refused]
    is_whole: bool
    read: Optional[int] = None

    def __len__(self) -> int:
        return len(self.refusals)

    def __repr__(self) -> str:
        extent = f", read {self.read} bytes" if self.read is not None else "" if self.is_whole else ", no more were looked for"
        return f"<p21.Survey, {len(self)} refusals{extent}>"

    def _repr_html_(self) -> str:
        rows = [(int(it.number), it.name, it.statement, it.instance and f"#{it.instance}", it.place and str(it.place), it.sentence) for it in self.refusals]
        return table(("number", "name", "statement", "instance", "place", "what it means"), rows)


def _refusal_of(row: Dict[str, Any]) -> Refused:
    """A refusal, by its object."""
    known = {name: row[name] for name in ("byte", "line", "column", "entity", "attribute") if name in row}
    place = RefusalPlace(**known, indices=tuple(row.get("indices", ()))) if known else None
    return Refused(row["number"], row["name"], row.get("statement"), row.get("instance"), place=place)


def _listed(command: str, most: Optional[int], paths: List[str], right: Pattern[bytes]) -> Survey:
    """What a command of the program lists of a file, which prints such a line of one that is right."""
    words = ["--format", "jsonl", "--all", *([] if most is None else ["--most", str(most)])]
    done = run([program(), command, *words, "--", *paths])
    said = done.stderr.decode("utf-8", "replace")
    if done.returncode == 0 and right.fullmatch(done.stdout):
        return Survey([], True)
    rows = [row_in(line) for line in said.split("\n")]
    end = next((row for row in rows if "refusals" in row), None)
    if done.returncode != 1 or end is None:
        raise no_answer(said, done.returncode)
    return Survey([_refusal_of(row) for row in rows if "number" in row], end["extent"] == "whole", end.get("read"))


def survey(schema: SchemaOrPath, source: Source, most: Optional[int] = None) -> Survey:
    """What ``p21 check --all`` lists of a file in one run. The program does it, which the wheel installs with this
    package.

    Args:
        most: end after so many.

    Raises: ``OSError`` where a path can't be read, the program isn't here or has no ``--all``, or it ends without an answer;
    ``MemoryError`` where there is no memory.
    """
    with as_paths(schema, source) as (schema_path, path):
        return _listed("check", most, [schema_path, path], _ACCEPTED)


def syntax_survey(source: Source, most: Optional[int] = None) -> Survey:
    """What ``p21 syntax --all`` lists of a file by itself in one run, without a schema. The program does it, as that of ``survey``; of a
    reference it tells no place.

    Args:
        most: end after so many.

    Raises: as ``survey``.
    """
    with as_path(source) as path:
        return _listed("syntax", most, [path], _WELL_FORMED)
