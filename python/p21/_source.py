"""What a file may be given as."""

# What a file may be in Python. A path and an open file are read piece by piece by a session, so that memory holds no
# copy of the file; an object with a buffer is read where it lies, by the interpreter's own call for buffers, since
# `ctypes` alone copies what may only be read. `p21.same` of two buffers is the library's own call, and else the
# comparison of both canonical files, which is the same by the claim. `p21.hash` answers a hash with the number of
# instances, as a row of `p21-table` does. `p21.where` and `p21.survey` run the tool and the program that the wheel has,
# so that nothing is told in two ways.
#
# A schema may be a path in Python, which is read for the one call: whoever writes `p21.check("schema.exp", file)` means
# that. Nothing is kept of it, so that a listing that changes is read as it is; many files want `Schema.read`. A `str`
# with a semicolon or a line end is a text, and is told so.

import array
import mmap
import os
from typing import Any, BinaryIO, Iterator, Protocol, Union, cast


class HasArray(Protocol):
    """What numpy makes an array of, as its own arrays."""

    def __array__(self, *words: Any, **more: Any) -> Any: ...


Buffer = Union[bytes, bytearray, memoryview, mmap.mmap, "array.array[Any]", HasArray]
"""An object whose bytes lie one behind the other in memory."""

Path = Union[str, "os.PathLike[str]"]
"""The path of a file."""

Source = Union[Path, Buffer, BinaryIO]
"""A file: its path; its bytes, as any object that has a buffer; or a file that is open for reading bytes."""

PIECE = 1 << 20


def is_path(source: Source) -> bool:
    """Is it the path of a file? A text of a file that is given as a path is caught.

    >>> is_path("part.step"), is_path(b"ISO-10303-21;")
    (True, False)
    >>> is_path("ISO-10303-21;HEADER;")
    Traceback (most recent call last):
    ValueError: p21: a str is the path of a file: give the text of a file as bytes, by text.encode()
    """
    if isinstance(source, str) and ("\n" in source or source.lstrip().startswith("ISO-10303-21")):
        raise ValueError("p21: a str is the path of a file: give the text of a file as bytes, by text.encode()")
    return isinstance(source, (str, os.PathLike))


def is_buffer(source: Source) -> bool:
    """Has it a buffer?"""
    try:
        memoryview(cast(Any, source)).release()
    except TypeError:
        return False
    except BufferError:
        pass
    return True


def pieces(source: Source) -> Iterator[Buffer]:
    """The pieces of a file. A piece is no longer valid when the next one is asked for."""
    if is_path(source):
        room = bytearray(PIECE)
        view = memoryview(room)
        with open(cast(Path, source), "rb", buffering=0) as file:
            while count := file.readinto(room):
                yield view[:count]
    elif is_buffer(source):
        yield cast(Buffer, source)
    elif hasattr(source, "read"):
        while (piece := cast(BinaryIO, source).read(PIECE)) != b"":
            if not isinstance(piece, bytes):
                raise TypeError(f"p21: reading the file gives {type(piece).__name__} and no bytes: open it for bytes, by open(path, 'rb')")
            yield piece
    else:
        raise TypeError(f"p21: a file is a path, an object with a buffer, or a file that is open for bytes, and no {type(source).__name__}")
