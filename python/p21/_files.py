"""Files, read whole."""

import ctypes
import hashlib
from typing import NamedTuple, Tuple, cast

from p21._buffers import Passed
from p21._faults import Refused
from p21._html import table
from p21._library import LIBRARY, Handle, PlaceStruct, ReportStruct, judge, taken
from p21._lines import telling_lines
from p21._schema import SchemaOrPath, schema_of
from p21._session import Report, accept, refused_as
from p21._source import Buffer, Source, is_buffer, is_path


def _is_in_memory(source: Source) -> bool:
    return not is_path(source) and is_buffer(source)


def check(schema: SchemaOrPath, source: Source) -> Report:
    """Whether a file is accepted under a schema, with its counts.

    A path and an open file are read piece by piece; an object with a buffer is read where it lies. In place of a schema, here and
    in every other call, the path of its text may be given, which is read for the call: ``Schema.read`` reads it once for many.

    Raises:
        Refused: it isn't.
        SchemaRefused: the text at the path of a schema declares none that is read.
        MemoryError: there is no memory.
        OSError: a path can't be read.
        ValueError: the schema is closed, or the path is the text of a file.

    >>> p21.check(schema, point)
    Report(instances=1, canonical_bytes=169)
    """
    if not _is_in_memory(source):
        with accept(schema, source) as accepted:
            return accepted.report
    report, place = ReportStruct(), PlaceStruct()
    with schema_of(schema)._shared() as handle, telling_lines(source), Passed(cast(Buffer, source)) as (at, length):
        judge(LIBRARY.p21_check_located(handle, at, length, report, place), report, place, handle)
    return Report(report.instances, report.bytes)


def canonical(schema: SchemaOrPath, source: Source) -> bytes:
    """The canonical file of a file: one text for each meaning.

    Raises: as ``check``.

    >>> print(p21.canonical(schema, point).decode().splitlines()[7])
    #1=POINT(5.E-1,1.);
    """
    if not _is_in_memory(source):
        with accept(schema, source) as accepted:
            return accepted.canonical()
    text = Handle()
    report, place = ReportStruct(), PlaceStruct()
    with schema_of(schema)._shared() as handle, telling_lines(source), Passed(cast(Buffer, source)) as (at, length):
        judge(LIBRARY.p21_canonical_located(handle, at, length, text, report, place), report, place, handle)
    return taken(text)


def texts(schema: SchemaOrPath, first: Source, second: Source) -> Tuple[bytes, bytes]:
    """The canonical files of two files. The second is looked at where the first is accepted."""
    found, schema = [], schema_of(schema)
    for which, source in (("first", first), ("second", second)):
        try:
            found.append(canonical(schema, source))
        except Refused as refusal:
            raise refused_as(which, refusal) from None
    return found[0], found[1]


def same(schema: SchemaOrPath, first: Source, second: Source) -> bool:
    """Whether two files mean the same under a schema.

    Raises: as ``check``; ``Refused.which`` says which file is refused. The second is looked at where the first is accepted.

    >>> p21.same(schema, point, point.replace(b"0.50", b"5.E-1")), p21.same(schema, point, moved)
    (True, False)
    """
    if not (_is_in_memory(first) and _is_in_memory(second)):
        one, other = texts(schema, first, second)
        return one == other
    answer = ctypes.c_uint8()
    report, place = ReportStruct(), PlaceStruct()
    with schema_of(schema)._shared() as handle, telling_lines(first, second):
        with Passed(cast(Buffer, first)) as one_text, Passed(cast(Buffer, second)) as other_text:
            status = LIBRARY.p21_same_located(handle, *one_text, *other_text, answer, report, place)
            judge(status, report, place, handle, of_two=True)
    return answer.value == 1


def numbered(schema: SchemaOrPath, source: Source) -> bytes:
    """The canonical file of a file under the numbers 1 to n that its model gives to its instances, whatever names an exporter gave
    them (docs/CANONICAL.md). Two files that have one are the same but for names exactly if these are equal.

    Raises: as ``check``, and ``Refused`` with ``RefusalNumber.ALIKE`` where the model doesn't tell an instance from another one.

    >>> p21.numbered(schema, point.replace(b"#1", b"#77")) == p21.numbered(schema, point) == p21.canonical(schema, point)
    True
    """
    if not _is_in_memory(source):
        schema = schema_of(schema)
        source = canonical(schema, source)
    text = Handle()
    report, place = ReportStruct(), PlaceStruct()
    with schema_of(schema)._shared() as handle, telling_lines(source), Passed(cast(Buffer, source)) as (at, length):
        judge(LIBRARY.p21_numbered(handle, at, length, text, report, place), report, place, handle)
    return taken(text)


def same_but_for_names(schema: SchemaOrPath, first: Source, second: Source) -> bool:
    """Whether two files mean the same under a schema but for the names of their instances.

    Raises: as ``same``, and ``Refused`` with ``RefusalNumber.ALIKE`` for the first file, where neither model tells its instances apart
        and the files aren't the same with the names that they have.

    >>> other = point.replace(b"#1", b"#77")
    >>> p21.same(schema, point, other), p21.same_but_for_names(schema, point, other), p21.same_but_for_names(schema, point, moved)
    (False, True, False)
    """
    schema = schema_of(schema)
    if not (_is_in_memory(first) and _is_in_memory(second)):
        first, second = texts(schema, first, second)
    answer = ctypes.c_uint8()
    report, place = ReportStruct(), PlaceStruct()
    with schema._shared() as handle, telling_lines(first, second):
        with Passed(cast(Buffer, first)) as one_text, Passed(cast(Buffer, second)) as other_text:
            status = LIBRARY.p21_same_but_for_names(handle, *one_text, *other_text, answer, report, place)
            judge(status, report, place, handle, of_two=True)
    return answer.value == 1


class Hash(NamedTuple):
    """The hash of a file's meaning, as ``p21-table`` prints it."""

    sha256: str
    """The SHA-256 of the canonical file or of the numbered one, or of its data, in hexadecimal digits."""
    instances: int
    """How many instances the file has."""

    def _repr_html_(self) -> str:
        return table(None, [("SHA-256", self.sha256), ("instances", self.instances)])


# The end of the header section in a canonical file.
_HEADER_END = b"\nENDSEC;\n"


def hash(schema: SchemaOrPath, source: Source, data: bool = False, names: bool = False) -> Hash:
    """The hash of what a file means: that of its canonical file, so that equal hashes are those of equal meanings.

    Args:
        data: hash the data without the header, in which two exports of one model mostly differ.
        names: hash the file as ``numbered`` gives it, so that the names of instances don't count.

    Raises: as ``check``, and with ``names`` as ``numbered``.

    >>> p21.hash(schema, point).sha256[:16], p21.hash(schema, point, data=True).sha256[:16]
    ('790561ecd9ac6c14', '087be9e3cdad9279')
    >>> p21.hash(schema, point.replace(b"#1", b"#77"), names=True) == p21.hash(schema, point, names=True)
    True
    """
    schema = schema_of(schema)
    with accept(schema, source) as accepted:
        text, report = accepted.canonical(), accepted.report
    if names:
        text = numbered(schema, text)
    start = text.index(_HEADER_END) + len(_HEADER_END) if data else 0
    return Hash(hashlib.sha256(memoryview(text)[start:]).hexdigest(), report.instances)
