"""Lines and columns of refusals."""

import contextlib
import ctypes
from typing import Iterator, cast

from p21._buffers import Passed
from p21._faults import Refused
from p21._places import position
from p21._source import PIECE, Buffer, Source, is_buffer, is_path, pieces


def _again(source: Source) -> Iterator[bytes]:
    """The bytes of a file, read once more: of one that is given open there are none."""
    if is_path(source):
        yield from (bytes(memoryview(piece)) for piece in pieces(source))  # type: ignore[arg-type]
    elif is_buffer(source):
        with Passed(cast(Buffer, source)) as (at, length):
            for start in range(0, length, PIECE):
                yield ctypes.string_at((at.value or 0) + start, min(PIECE, length - start))


def _add_lines(refusal: Refused, source: Source) -> None:
    place = refusal.place
    if place is None or place.byte is None or place.line is not None:
        return
    found = position(_again(source), place.byte) if is_path(source) or is_buffer(source) else None
    if found is not None:
        refusal.stand_at(place._replace(line=found[0], column=found[1]))


@contextlib.contextmanager
def telling_lines(first: Source, second: Source = b"") -> Iterator[None]:
    """Adds line and column to what is refused of a file, or of two. Where it can't be read again, they stay unknown."""
    try:
        yield
    except Refused as refusal:
        with contextlib.suppress(OSError):
            _add_lines(refusal, second if refusal.which == "second" else first)
        raise
