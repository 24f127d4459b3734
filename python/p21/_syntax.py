"""Files by themselves, without a schema."""

import dataclasses
from typing import BinaryIO, Dict, List, Tuple, cast

from p21._buffers import Passed
from p21._html import table
from p21._library import LIBRARY, Handle, PlaceStruct, ReportStruct, judge, taken
from p21._lines import telling_lines
from p21._source import Buffer, Source, is_buffer, is_path, pieces


@dataclasses.dataclass(frozen=True)
class Syntax:
    """What a well-formed file says of itself.

    Attributes:
        instances: how many instances it has.
        schema: the name of its schema, in upper case.
        header: the texts of its header in words, in their order: ``("file name", "part.step")``, ``("author", "")`` and so on.
        keywords: how many records of its instances have which keyword.
    """

    instances: int
    schema: str
    header: List[Tuple[str, str]]
    keywords: Dict[str, int]

    def __repr__(self) -> str:
        return f"<p21.Syntax of {self.schema}, {self.instances} instances>"

    def _repr_html_(self) -> str:
        rows = [("well formed, instances", str(self.instances)), ("schema", self.schema), *self.header]
        return table(None, [*rows, *((word, str(count)) for word, count in self.keywords.items())])


def _whole(source: Source) -> Buffer:
    """The bytes of a file: an object with a buffer itself, and of all else what is read."""
    if not is_path(source) and is_buffer(source):
        return cast(Buffer, source)
    return b"".join(bytes(memoryview(piece)) for piece in pieces(cast(BinaryIO, source)))  # type: ignore[arg-type]


def _lines_of(text: Handle) -> List[str]:
    return taken(text).decode("utf-8").split("\n")[:-1]


def syntax(source: Source) -> Syntax:
    """Whether a file is well formed by itself, without a schema, as ``p21 syntax`` says: bytes, tokens and grammar, the header, the name
    of the schema, names given once, and references to names that instances have. A path and an open file are read into memory.

    Raises:
        Refused: it isn't.
        MemoryError: there is no memory.
        OSError: a path can't be read.

    >>> found = p21.syntax(point)
    >>> found
    <p21.Syntax of S, 1 instances>
    >>> found.keywords, found.header[1]
    ({'POINT': 1}, ('implementation level', '2;1'))
    """
    schema, header, keywords = Handle(), Handle(), Handle()
    report, place = ReportStruct(), PlaceStruct()
    whole = _whole(source)
    with telling_lines(whole), Passed(whole) as (at, length):
        judge(LIBRARY.p21_syntax(at, length, schema, header, keywords, report, place), report, place)
    words = [line.partition(":") for line in _lines_of(header)]
    counts = [line.rpartition(" ") for line in _lines_of(keywords)]
    return Syntax(
        instances=report.instances,
        schema=taken(schema).decode("utf-8"),
        header=[(word, text[1:]) for word, _, text in words],
        keywords={word: int(count) for word, _, count in counts},
    )
