"""Where the bytes of an object lie, without a copy of them."""

import ctypes
from types import TracebackType
from typing import Any, Optional, Tuple, Type

from p21._source import Buffer


class _View(ctypes.Structure):
    """A view of an object's bytes, as the interpreter keeps it (``Py_buffer``)."""

    _fields_ = [
        ("buf", ctypes.c_void_p),
        ("obj", ctypes.py_object),
        ("len", ctypes.c_ssize_t),
        ("itemsize", ctypes.c_ssize_t),
        ("readonly", ctypes.c_int),
        ("ndim", ctypes.c_int),
        ("format", ctypes.c_char_p),
        ("shape", ctypes.c_void_p),
        ("strides", ctypes.c_void_p),
        ("suboffsets", ctypes.c_void_p),
        ("internal", ctypes.c_void_p),
    ]


_view_of = ctypes.pythonapi.PyObject_GetBuffer
_view_of.argtypes = [ctypes.py_object, ctypes.POINTER(_View), ctypes.c_int]
_view_of.restype = ctypes.c_int
_release = ctypes.pythonapi.PyBuffer_Release
_release.argtypes = [ctypes.POINTER(_View)]
_release.restype = None
# Bytes one behind the other, of whatever items they are; and such as may be written.
_PLAIN = 0
_WRITABLE = 1
# No pointer of a call is null, also where there are no bytes.
_NOTHING = ctypes.create_string_buffer(1)


class Passed:
    """The bytes of an object for the time of a ``with``: where they lie, and how many they are. So long the object can't be
    resized or closed. Where they are to be written, an object that is read only is refused as a BufferError."""

    def __init__(self, source: Buffer, written: bool = False) -> None:
        self._source = source
        self._view = _View()
        self._flags = _WRITABLE if written else _PLAIN

    def __enter__(self) -> Tuple[ctypes.c_void_p, int]:
        try:
            _view_of(self._source, self._view, self._flags)
        except BufferError as error:
            if self._flags == _WRITABLE:
                raise BufferError(f"p21: nothing can be put into this {type(self._source).__name__}: it is read only, or in several places") from error
            raise BufferError(f"p21: the bytes of this {type(self._source).__name__} don't lie one behind the other: pass a copy of it") from error
        return ctypes.c_void_p(self._view.buf or ctypes.addressof(_NOTHING)), int(self._view.len)

    def __exit__(self, kind: Optional[Type[BaseException]], error: Optional[BaseException], trace: Optional[TracebackType]) -> None:
        _release(self._view)


def bytes_of(source: Any) -> bytes:
    """A copy of an object's bytes."""
    with Passed(source) as (at, length):
        return ctypes.string_at(at, length)
