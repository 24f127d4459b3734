"""Where refusals stand."""

from typing import Iterable, NamedTuple, Optional, Tuple


class RefusalPlace(NamedTuple):
    """Where in a file a refusal stands. What isn't known is None: of a reference the byte, but in what ``survey`` lists; line and column of
    a file that came in pieces, or that was given open.

    >>> try:
    ...     p21.check(schema, point.replace(b"1.E0", b"1"))
    ... except p21.Refused as refusal:
    ...     print(refusal.place)
    1:131: POINT.Y
    """

    byte: Optional[int] = None
    """How many bytes of the file stand in front of it."""
    line: Optional[int] = None
    """Its line, counted from 1. A line ends with a line feed, a carriage return, or both."""
    column: Optional[int] = None
    """Its byte in the line, counted from 1."""
    entity: Optional[str] = None
    """The entity that declares the attribute whose value is refused."""
    attribute: Optional[str] = None
    """This attribute."""
    indices: Tuple[int, ...] = ()
    """Which element of the value is refused: the way there through the aggregates, the outermost first, each from 1 on."""

    def __str__(self) -> str:
        at = "?" if self.byte is None else f"byte {self.byte}" if self.line is None else f"{self.line}:{self.column}"
        element = "".join(f"[{index}]" for index in self.indices)
        return at if self.attribute is None else f"{at}: {self.entity}.{self.attribute}{element}"


def position(pieces: Iterable[bytes], byte: int) -> Optional[Tuple[int, int]]:
    """The line and the column of the byte in front of which so many stand; None where there are fewer."""
    line, start, taken, is_behind_return = 1, 0, 0, False
    for piece in pieces:
        front = piece[: byte - taken]
        is_one_end = is_behind_return and front.startswith(b"\n")
        line += front.count(b"\n") + front.count(b"\r") - front.count(b"\r\n") - is_one_end
        last = max(front.rfind(b"\n"), front.rfind(b"\r"))
        start = taken + last + 1 if last >= 0 else start
        is_behind_return = front.endswith(b"\r")
        taken += len(front)
        if taken == byte:
            break
    return (line, byte - start + 1) if taken == byte else None
