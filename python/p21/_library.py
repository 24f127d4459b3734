"""The shared library, its calls and what they answer."""

import ctypes
import os
import pathlib
import sys
from typing import Any, Optional, Tuple

from p21._faults import file_refusal, schema_refusal
from p21._places import RefusalPlace

DONE, REFUSED, MISUSED, FAILED = 0, 1, 2, 3
SCHEMA, FILE, SECOND = 1, 2, 3
STATEMENT, INSTANCE = 1, 2
# The statuses of a shell for a program that isn't there, and for one that can't be run: none of them is an answer.
NOT_THERE, NOT_RUN = 127, 126


class Handle(ctypes.Structure):
    """A handle, which holds nothing where it is null."""

    _fields_ = [("inside", ctypes.c_void_p)]


class ReportStruct(ctypes.Structure):
    """A report, as the library writes it."""

    _fields_ = [
        ("subject", ctypes.c_uint8),
        ("number", ctypes.c_uint8),
        ("absent", ctypes.c_uint8),
        ("place", ctypes.c_uint8),
        ("at", ctypes.c_uint64),
        ("instances", ctypes.c_uint64),
        ("bytes", ctypes.c_uint64),
    ]


class PlaceStruct(ctypes.Structure):
    """Where a refusal stands, as the library writes it."""

    _fields_ = [
        ("byte", ctypes.c_uint64),
        ("entity", ctypes.c_uint32),
        ("attribute", ctypes.c_uint32),
        ("indices", ctypes.c_uint32 * 8),
        ("levels", ctypes.c_uint8),
        ("known", ctypes.c_uint8),
        ("valued", ctypes.c_uint8),
    ]


class VersionStruct(ctypes.Structure):
    """The parts of a version."""

    _fields_ = [("major", ctypes.c_uint32), ("minor", ctypes.c_uint32), ("patch", ctypes.c_uint32)]


class CursorStruct(ctypes.Structure):
    """Where a reading of a canonical file stands: at the beginning, where all is zero."""

    _fields_ = [("part", ctypes.c_size_t), ("line", ctypes.c_size_t), ("byte", ctypes.c_size_t)]


class SpanStruct(ctypes.Structure):
    """Bytes where the library has them."""

    _fields_ = [("bytes", ctypes.c_void_p), ("length", ctypes.c_size_t)]


class LineStruct(ctypes.Structure):
    """An instance, by its name and its statement."""

    _fields_ = [("name", ctypes.c_uint64), ("line", SpanStruct)]


class AttributeStruct(ctypes.Structure):
    """An attribute with the value of an instance."""

    _fields_ = [("entity", ctypes.c_uint32), ("index", ctypes.c_uint32), ("value", SpanStruct)]


class UseStruct(ctypes.Structure):
    """An instance that refers to another one, and the attribute where it does."""

    _fields_ = [("user", ctypes.c_uint64), ("entity", ctypes.c_uint32), ("index", ctypes.c_uint32)]


class TypeStruct(ctypes.Structure):
    """A type where it is used."""

    _fields_ = [
        ("kind", ctypes.c_uint8),
        ("optional", ctypes.c_uint8),
        ("unique", ctypes.c_uint8),
        ("fixed", ctypes.c_uint8),
        ("bounded", ctypes.c_uint8),
        ("number", ctypes.c_uint32),
        ("low", ctypes.c_uint32),
        ("high", ctypes.c_uint32),
    ]


def _path() -> str:
    named = os.environ.get("P21_LIBRARY")
    return named if named else str(pathlib.Path(__file__).resolve().parent / ("p21.dll" if os.name == "nt" else "libp21.so"))


def _declared() -> Any:
    path = _path()
    try:
        # The interpreter's lock is let go for the time of each call.
        library = ctypes.CDLL(path)
    except OSError as error:
        said = f"p21: the shared library {path} can't be loaded: {error}; making/build-library builds it, and P21_LIBRARY names another one"
        if sys.argv[:1] == ["-m"]:
            # This is `python3 -m p21`, whose status of a failed import would be that of a refusal.
            print(said, file=sys.stderr)
            sys.exit(NOT_RUN)
        raise ImportError(said) from error
    handle = ctypes.POINTER(Handle)
    report = ctypes.POINTER(ReportStruct)
    place = ctypes.POINTER(PlaceStruct)
    text = [ctypes.c_void_p, ctypes.c_size_t]
    size = ctypes.c_size_t
    number = ctypes.POINTER(ctypes.c_uint32)
    calls = {
        "p21_schema_new": (text + [handle, report], ctypes.c_uint8),
        "p21_schema_share": ([handle, handle], ctypes.c_uint8),
        "p21_schema_free": ([handle], None),
        "p21_place_name": ([handle, ctypes.c_uint32, ctypes.c_uint32, handle], ctypes.c_uint8),
        "p21_check_located": ([handle] + text + [report, place], ctypes.c_uint8),
        "p21_canonical_located": ([handle] + text + [handle, report, place], ctypes.c_uint8),
        "p21_same_located": ([handle] + text + text + [ctypes.POINTER(ctypes.c_uint8), report, place], ctypes.c_uint8),
        "p21_numbered": ([handle] + text + [handle, report, place], ctypes.c_uint8),
        "p21_same_but_for_names": ([handle] + text + text + [ctypes.POINTER(ctypes.c_uint8), report, place], ctypes.c_uint8),
        "p21_syntax": (text + [handle, handle, handle, report, place], ctypes.c_uint8),
        "p21_session_new": ([handle, handle], ctypes.c_uint8),
        "p21_session_feed": ([handle] + text + [report], ctypes.c_uint8),
        "p21_session_place": ([handle, place], ctypes.c_uint8),
        "p21_session_finish_located": ([handle, report, place], ctypes.c_uint8),
        "p21_session_free": ([handle], None),
        "p21_accepted_line": ([handle, ctypes.c_uint64, handle], ctypes.c_uint8),
        "p21_accepted_write": ([handle, handle], ctypes.c_uint8),
        "p21_accepted_read": (
            [handle, ctypes.POINTER(CursorStruct)] + text + [ctypes.POINTER(ctypes.c_size_t)],
            ctypes.c_uint8,
        ),
        "p21_text_bytes": ([handle, ctypes.POINTER(ctypes.c_void_p), ctypes.POINTER(ctypes.c_size_t)], ctypes.c_uint8),
        "p21_text_free": ([handle], None),
        "p21_instance": ([handle, ctypes.c_uint64, ctypes.POINTER(LineStruct)], ctypes.c_uint8),
        "p21_instance_from": ([handle, ctypes.c_uint64, ctypes.POINTER(LineStruct)], ctypes.c_uint8),
        "p21_instance_section": ([handle, ctypes.c_uint64, ctypes.POINTER(SpanStruct)], ctypes.c_uint8),
        "p21_instance_entities": ([handle, ctypes.c_uint64, number, size, ctypes.POINTER(size)], ctypes.c_uint8),
        "p21_instance_values": ([handle, ctypes.c_uint64, ctypes.POINTER(AttributeStruct), size, ctypes.POINTER(size)], ctypes.c_uint8),
        "p21_users_new": ([handle, handle], ctypes.c_uint8),
        "p21_users_free": ([handle], None),
        "p21_users_of": ([handle, ctypes.c_uint64, ctypes.POINTER(UseStruct), size, ctypes.POINTER(size)], ctypes.c_uint8),
        "p21_schema_declares": ([handle, ctypes.POINTER(SpanStruct), number, number], ctypes.c_uint8),
        "p21_entity_named": ([handle] + text + [number], ctypes.c_uint8),
        "p21_entity_declares": ([handle, ctypes.c_uint32, ctypes.POINTER(SpanStruct), ctypes.POINTER(ctypes.c_uint8), number], ctypes.c_uint8),
        "p21_entity_supertypes": ([handle, ctypes.c_uint32, number, size, ctypes.POINTER(size)], ctypes.c_uint8),
        "p21_entity_order": ([handle, ctypes.c_uint32, number, size, ctypes.POINTER(size)], ctypes.c_uint8),
        "p21_attribute_name": ([handle, ctypes.c_uint32, ctypes.c_uint32, ctypes.POINTER(SpanStruct)], ctypes.c_uint8),
        "p21_attribute_type": (
            [handle, ctypes.c_uint32, ctypes.c_uint32, ctypes.c_uint32, ctypes.c_uint32, ctypes.POINTER(TypeStruct)],
            ctypes.c_uint8,
        ),
        "p21_version": ([ctypes.POINTER(VersionStruct)], None),
    }
    for name, (arguments, result) in calls.items():
        call = getattr(library, name)
        call.argtypes = arguments
        call.restype = result
    return library


LIBRARY = _declared()


def version() -> str:
    """The version of the library.

    >>> p21.version()
    '0.1.0'
    """
    parts = VersionStruct()
    LIBRARY.p21_version(parts)
    return f"{parts.major}.{parts.minor}.{parts.patch}"


def _names_of(place: PlaceStruct, schema: Optional[Handle]) -> Tuple[Optional[str], Optional[str]]:
    """The entity and the attribute of a place, by the schema under which it is one."""
    text = Handle()
    if not place.valued or schema is None or LIBRARY.p21_place_name(schema, place.entity, place.attribute, text) != DONE:
        return None, None
    entity, _, attribute = taken(text).decode("ascii").partition(".")
    return entity, attribute


def _place_in(place: PlaceStruct, schema: Optional[Handle]) -> Optional[RefusalPlace]:
    """What is known of a place, if anything is."""
    if not place.known and not place.valued:
        return None
    entity, attribute = _names_of(place, schema)
    return RefusalPlace(
        byte=place.byte if place.known else None,
        entity=entity,
        attribute=attribute,
        indices=tuple(place.indices[: place.levels]),
    )


def judge(
    status: int,
    report: ReportStruct,
    place: Optional[PlaceStruct] = None,
    schema: Optional[Handle] = None,
    of_two: bool = False,
) -> None:
    """Raises what a status and its report say, and where it stands."""
    if status == DONE:
        return
    if status == FAILED:
        raise MemoryError("p21: out of memory")
    if status == MISUSED:
        raise ValueError("p21: a handle doesn't hold what the call wants")
    if report.subject == SCHEMA:
        raise schema_refusal(report.number)
    raise file_refusal(
        report.number,
        report.absent,
        statement=report.at if report.place == STATEMENT else None,
        instance=report.at if report.place == INSTANCE else None,
        which=("second" if report.subject == SECOND else "first") if of_two else None,
        place=_place_in(place, schema) if place is not None else None,
    )


def taken(text: Handle) -> bytes:
    """The bytes of a text that was handed out, which is let go."""
    at = ctypes.c_void_p()
    length = ctypes.c_size_t()
    try:
        LIBRARY.p21_text_bytes(text, at, length)
        return ctypes.string_at(at, length.value)
    finally:
        LIBRARY.p21_text_free(text)
