"""Schemas."""

import contextlib
import functools
import os
import pathlib
import re
import threading
from types import TracebackType
from typing import TYPE_CHECKING, Any, Iterator, Optional, Tuple, Type, Union

from p21._buffers import Passed, bytes_of
from p21._library import FAILED, LIBRARY, Handle, ReportStruct, judge
from p21._source import Buffer, Path, is_buffer

if TYPE_CHECKING:
    from p21._model import Entity

# So many schemas that came from other processes are kept, so that each is read once.
KEPT = 8


class Schema:
    """The schema that an EXPRESS text declares.

    Args:
        text: the text, as a ``str`` or as bytes. ``Schema.read`` reads a file.

    Raises:
        SchemaRefused: the text declares no schema that is read.
        ValueError: the text is the path of a file.
        MemoryError: there is no memory.

    Threads may share it and use it at once. It pickles by its text, so that processes get it, each of which reads it once. It
    is let go by ``close``, at the end of a ``with``, or with the last name of it. Sessions over it go on.

    >>> p21.Schema("SCHEMA s; ENTITY point; x, y : REAL; END_ENTITY; END_SCHEMA;")
    <p21.Schema s, 60 bytes>
    >>> p21.Schema("product.exp")
    Traceback (most recent call last):
    ValueError: p21: this is the path of a schema, and no text: p21.Schema.read('product.exp') reads the file
    """

    def __init__(self, text: Union[str, Buffer]) -> None:
        self._handle = Handle()
        self._lock = threading.RLock()
        refuse_path(text)
        self._text = text.encode() if isinstance(text, str) else bytes_of(text)
        report = ReportStruct()
        with Passed(self._text) as (at, length):
            judge(LIBRARY.p21_schema_new(at, length, self._handle, report), report)

    @classmethod
    def read(cls, path: Path) -> "Schema":
        """The schema that the text in a file declares.

        Raises: as ``Schema``; ``OSError`` where the file can't be read.

        >>> p21.Schema.read("examples/product.exp")
        <p21.Schema product_model, 6319 bytes>
        """
        return cls(pathlib.Path(path).read_bytes())

    @property
    def text(self) -> bytes:
        """The text that it was read from."""
        return self._text

    @property
    def entities(self) -> Tuple[str, ...]:
        """The names of the entities that it declares, in their order.

        >>> schema.entities
        ('POINT',)
        """
        from p21._model import entities_of

        return entities_of(self)

    def entity(self, name: str) -> "Entity":
        """What it declares of an entity, in whatever case its name is: whether that is abstract, its supertypes, and its attributes.

        Raises:
            KeyError: it declares none of this name.

        >>> [attribute.name for attribute in schema.entity("point").attributes]
        ['X', 'Y']
        """
        from p21._model import entity_of

        return entity_of(self, name)

    @property
    def closed(self) -> bool:
        """Whether it is let go."""
        return not self._handle.inside

    def close(self) -> None:
        """Lets go of it. A second time nothing happens."""
        with self._lock:
            LIBRARY.p21_schema_free(self._handle)

    def _share(self, shared: Handle) -> None:
        """Hands out another handle of it, which is the caller's own."""
        with self._lock:
            if self.closed:
                raise ValueError("p21: the schema is closed")
            if LIBRARY.p21_schema_share(self._handle, shared) == FAILED:
                raise MemoryError("p21: out of memory")

    @contextlib.contextmanager
    def _shared(self) -> Iterator[Handle]:
        """A handle of its own for a call, so that no thread lets go of it meanwhile."""
        handle = Handle()
        self._share(handle)
        try:
            yield handle
        finally:
            LIBRARY.p21_schema_free(handle)

    def __enter__(self) -> "Schema":
        return self

    def __exit__(self, kind: Optional[Type[BaseException]], error: Optional[BaseException], trace: Optional[TracebackType]) -> None:
        self.close()

    def __del__(self) -> None:
        if hasattr(self, "_lock"):
            self.close()

    def __reduce__(self) -> Tuple[Any, ...]:
        return _of_pickle, (self._text,)

    def __repr__(self) -> str:
        return f"<p21.Schema {name_in(self._text)}, {'closed' if self.closed else f'{len(self._text)} bytes'}>"


SchemaOrPath = Union[Schema, Path]
"""A schema, or the path of its text, which is read for the call."""


def schema_of(given: SchemaOrPath) -> Schema:
    """The schema that is given, or that the text in a file declares."""
    if isinstance(given, Schema):
        return given
    if isinstance(given, str) and set(given) & set(";\n"):
        raise ValueError("p21: a str is the path of a schema here: p21.Schema(text) reads a text")
    if isinstance(given, (str, os.PathLike)):
        return Schema.read(given)
    reads = ": p21.Schema(text) reads a text" if is_buffer(given) else ""
    raise TypeError(f"p21: a schema is a p21.Schema, or the path of its text, and no {type(given).__name__}{reads}")


@functools.lru_cache(maxsize=KEPT)
def _kept(text: bytes) -> Schema:
    """A schema that came from another process, read once."""
    return Schema(text)


def _of_pickle(text: bytes) -> Schema:
    """The schema of a pickle: another handle of the one that is kept of this text."""
    schema = Schema.__new__(Schema)
    schema._handle, schema._lock, schema._text = Handle(), threading.RLock(), text
    _kept(text)._share(schema._handle)
    return schema


def name_in(text: bytes) -> str:
    """The name that stands behind SCHEMA in a text that declares one."""
    plain = re.sub(rb"\(\*.*?\*\)|--[^\n]*", b" ", text, flags=re.S)
    found = re.search(rb"\bSCHEMA\s+(\w+)", plain, re.I)
    return found[1].decode("ascii", "replace") if found else "?"


def refuse_path(text: Union[str, Buffer, Path]) -> None:
    """Catches a path that is given for a text: no text of a schema is without a semicolon, and each path that is one has an
    ending, a folder in front or a file behind it."""
    if isinstance(text, os.PathLike):
        raise ValueError(f"p21: this is the path of a schema, and no text: p21.Schema.read({os.fspath(text)!r}) reads the file")
    if isinstance(text, str) and text.strip() and len(text) < 4096 and not set(text) & set(";\n\0"):
        looks = re.search(r"\.(exp|express|txt)\Z", text, re.I) or os.sep in text
        if looks or os.path.exists(text):
            raise ValueError(f"p21: this is the path of a schema, and no text: p21.Schema.read({text!r}) reads the file")
