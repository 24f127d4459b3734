"""Files that come in pieces."""

import ctypes
import io
import threading
from types import TracebackType
from typing import Any, NamedTuple, NoReturn, Optional, Type

from p21._buffers import Passed
from p21._html import table
from p21._library import FAILED, LIBRARY, REFUSED, CursorStruct, Handle, PlaceStruct, ReportStruct, judge, taken
from p21._lines import telling_lines
from p21._schema import SchemaOrPath, name_in, schema_of
from p21._source import Buffer, Source, pieces

# So many bytes of a canonical file are read at once.
PIECE = 65536


class Report(NamedTuple):
    """What is told of an accepted file.

    >>> instances, canonical_bytes = p21.check(schema, point)
    >>> instances, canonical_bytes
    (1, 169)
    """

    instances: int
    """How many instances it has."""
    canonical_bytes: int
    """How many bytes its canonical file has."""

    def _repr_html_(self) -> str:
        return table(None, [("accepted, instances", self.instances), ("canonical bytes", self.canonical_bytes)])


class _Held:
    """A handle that is let go by ``close``, at the end of a ``with``, or with the last name of what has it. One call of it runs
    at a time, in whatever thread."""

    def __init__(self, handle: Handle, schema: str) -> None:
        self._lock = threading.RLock()
        self._handle = handle
        self._schema = schema

    @property
    def closed(self) -> bool:
        """Whether it is let go."""
        return not self._handle.inside

    def close(self) -> None:
        """Lets go of it. A second time nothing happens."""
        with self._lock:
            LIBRARY.p21_session_free(self._handle)

    def _open(self) -> Handle:
        if self.closed:
            raise ValueError("p21: the session is closed")
        return self._handle

    def __exit__(self, kind: Optional[Type[BaseException]], error: Optional[BaseException], trace: Optional[TracebackType]) -> None:
        self.close()

    def __del__(self) -> None:
        if hasattr(self, "_lock"):
            self.close()

    def __reduce__(self) -> NoReturn:
        raise TypeError(f"p21: a {type(self).__name__} isn't pickled: send the file, and its canonical file back")


class Accepted(_Held):
    """An accepted file.

    Attributes:
        report: its counts.

    >>> with p21.accept(schema, point) as accepted:
    ...     print(accepted.report.instances, accepted.line(1))
    1 b'#1=POINT(5.E-1,1.);'

    Where it is closed, so are the files that ``open`` gave.
    """

    def __init__(self, handle: Handle, schema: str, report: Report) -> None:
        super().__init__(handle, schema)
        self.report = report

    def __enter__(self) -> "Accepted":
        return self

    def line(self, name: int) -> Optional[bytes]:
        """The canonical statement of the instance of this name, without a line feed; None where there is no such instance.

        Raises:
            MemoryError: there is no memory.
            ValueError: it is closed.
        """
        if not 0 <= name < 2**64:
            return None
        text = Handle()
        with self._lock:
            status = LIBRARY.p21_accepted_line(self._open(), name, text)
        if status == REFUSED:
            return None
        judge(status, ReportStruct())
        return taken(text)

    def canonical(self) -> bytes:
        """The canonical file.

        Raises: as ``line``.
        """
        text = Handle()
        with self._lock:
            judge(LIBRARY.p21_accepted_write(self._open(), text), ReportStruct())
        return taken(text)

    def open(self) -> io.BufferedReader:
        """The canonical file, as a binary file that is read piece by piece or line by line. So it needn't be in memory as a whole
        once more. Each such file begins at the beginning, and several are read side by side.

        Raises: its calls raise ValueError where this is closed.

        >>> accepted = p21.accept(schema, point)
        >>> with accepted.open() as file:
        ...     print(file.readline(), len(file.read()))
        b'ISO-10303-21;\\n' 155
        """
        return io.BufferedReader(_Reading(self), PIECE)

    def _read(self, cursor: CursorStruct, buffer: Buffer) -> int:
        """Fills a buffer with what stands behind a cursor, and moves that on."""
        count = ctypes.c_size_t()
        with Passed(buffer, written=True) as (at, length), self._lock:
            judge(LIBRARY.p21_accepted_read(self._open(), cursor, at, length, count), ReportStruct())
        return count.value

    def __repr__(self) -> str:
        counts = f"{self.report.instances} instances, {self.report.canonical_bytes} canonical bytes"
        return f"<p21.Accepted under {self._schema}, {'closed' if self.closed else counts}>"

    def _repr_html_(self) -> str:
        return self.report._repr_html_()


class _Reading(io.RawIOBase):
    """The canonical file of an accepted one."""

    def __init__(self, accepted: Accepted) -> None:
        super().__init__()
        self._accepted = accepted
        self._cursor = CursorStruct()

    def readable(self) -> bool:
        return True

    def readinto(self, buffer: Any) -> int:
        return self._accepted._read(self._cursor, buffer)


class Session(_Held):
    """Reads a file that comes in pieces of any size, and checks it under a schema.

    Args:
        schema: the schema. The session goes on where it is closed.

    Raises:
        MemoryError: there is no memory.
        ValueError: the schema is closed.

    >>> with p21.Session(schema) as session:
    ...     session.feed(point[:100])
    ...     session.feed(point[100:])
    ...     print(session.finish().report.canonical_bytes)
    169
    """

    def __init__(self, schema: SchemaOrPath) -> None:
        handle, read = Handle(), schema_of(schema)
        with read._shared() as shared:
            status = LIBRARY.p21_session_new(shared, handle)
        if status == FAILED:
            raise MemoryError("p21: out of memory")
        super().__init__(handle, name_in(read.text))
        self._fed = 0
        # A handle of the schema, for the names of attributes.
        self._under = Handle()
        read._share(self._under)

    def __enter__(self) -> "Session":
        return self

    def close(self) -> None:
        """Lets go of it. A second time nothing happens."""
        with self._lock:
            super().close()
            if hasattr(self, "_under"):
                LIBRARY.p21_schema_free(self._under)

    def feed(self, piece: Buffer) -> None:
        """Takes the next piece: any object with a buffer. It isn't copied, and not kept.

        Raises:
            Refused: nothing that is accepted begins so. Each later call raises the same.
            MemoryError: there is no memory.
            ValueError: it is closed, or ended.
        """
        report, place = ReportStruct(), PlaceStruct()
        with Passed(piece) as (at, length), self._lock:
            status = LIBRARY.p21_session_feed(self._open(), at, length, report)
            if status == REFUSED:
                LIBRARY.p21_session_place(self._handle, place)
            judge(status, report, place, self._under)
            self._fed += length

    def finish(self) -> Accepted:
        """The end of the file. The session is closed by it.

        Raises:
            Refused: the file isn't accepted.
            MemoryError: there is no memory.
            ValueError: it is closed, or ended.
        """
        report, place = ReportStruct(), PlaceStruct()
        with self._lock:
            judge(LIBRARY.p21_session_finish_located(self._open(), report, place), report, place, self._under)
            handle = Handle(self._handle.inside)
            self._handle.inside = None
        return Accepted(handle, self._schema, Report(report.instances, report.bytes))

    def __repr__(self) -> str:
        return f"<p21.Session under {self._schema}, {'closed' if self.closed else f'{self._fed} bytes taken'}>"


def accept(schema: SchemaOrPath, source: Source) -> Accepted:
    """Reads a file, and gives it as an accepted one, of which single statements can be asked for.

    Raises: as ``check``.

    >>> p21.accept(schema, point)
    <p21.Accepted under s, 1 instances, 169 canonical bytes>
    """
    with Session(schema) as session, telling_lines(source):
        for piece in pieces(source):
            session.feed(piece)
        return session.finish()


def refused_as(which: str, refusal: Any) -> Any:
    """The refusal of one of two files."""
    refusal.which = which
    refusal.args = (*refusal.args[:4], which, *refusal.args[5:])
    return refusal
