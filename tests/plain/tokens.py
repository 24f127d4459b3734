"""Tokens: which bytes spell which token, and at which byte a text is refused.

A refusal comes at the first byte with which no token goes on. A token that only the byte behind it ends is given before
that byte is looked at, so that what is wrong with the token comes before what is wrong with the byte. What the limits say of
a byte comes before all else that is wrong with it.
"""

from typing import NamedTuple

from . import scalars
from .limits import USUAL
from .refusal import Refused

DIGITS = b"0123456789"
HEX_DIGITS = b"0123456789ABCDEF"
LETTERS = b"ABCDEFGHIJKLMNOPQRSTUVWXYZ_"
KEYWORD_BYTES = LETTERS + DIGITS
SEPARATORS = bytes(range(0x21)) + b"\x7f"
GRAPHIC = bytes(range(0x20, 0x7F))
IGNORED = bytes(range(0x20)) + b"\x7f"
SCALARS = ("whole", "real", "text", "bits", "item", "name", "$", "*")
GREATEST_NAME = 2**64 - 1


class Token(NamedTuple):
    """A token: its kind, its meaning, and whether the end of the bytes gave it and not the byte behind it."""

    kind: str
    value: object
    last: bool


class Front:
    """The bytes of a text and how many of them are read; `open` are those of tokens of the statement that is open."""

    def __init__(self, data, limits):
        self.data = data
        self.limits = limits
        self.at = 0
        self.open = 0

    def next(self):
        """The next byte, without reading it; an empty byte string, which is among any bytes, does not stand for the end."""
        return self.data[self.at : self.at + 1] or None

    def is_at(self, among):
        """Is the next byte one of these?"""
        byte = self.next()
        return byte is not None and byte in among

    def within(self, counts=True):
        """The next byte is within the limit on files and, where it counts as a byte of a token, within that on statements."""
        if self.at >= self.limits.file:
            raise Refused(23)
        if counts and self.open >= self.limits.record:
            raise Refused(22)

    def go(self, counts=True):
        """Reads over the next byte."""
        self.within(counts)
        self.at += 1
        self.open += counts

    def refused(self, *fault, counts=True):
        """The refusal of the next byte."""
        self.within(counts)
        return Refused(*fault)

    def take(self, among, fault, at_end=24, counts=True):
        """The next byte, which is one of these; another one is refused, and so is the end."""
        byte = self.next()
        if byte is None:
            raise Refused(at_end)
        if byte not in among:
            raise self.refused(fault, counts=counts)
        self.go(counts)
        return byte.decode("latin-1")

    def run(self, among, counts=True):
        """The bytes from here on that are among these, possibly none."""
        start = self.at
        while self.is_at(among):
            self.go(counts)
        return self.data[start : self.at].decode("latin-1")


def tokens(data, limits=USUAL):
    """The tokens of a text, one after another, between any separators. With a `;` a statement ends."""
    front = Front(data, limits)
    while True:
        separators(front)
        if front.next() is None:
            return
        kind, value, waits = token(front)
        if kind == ";":
            front.open = 0
        yield Token(kind, value, waits and front.next() is None)


def separators(front):
    """Reads over bytes 00 to 20 and 7F, and comments: `/*`, any bytes, and the first `*/` behind them. None of these bytes
    counts as one of a token, nor does one behind a `/` that begins no comment."""
    while True:
        front.run(SEPARATORS, counts=False)
        if not front.is_at(b"/"):
            return
        front.go(counts=False)
        front.take(b"*", 1, counts=False)
        end = front.data.find(b"*/", front.at)
        behind = len(front.data) if end < 0 else end + 2
        if behind > front.limits.file:
            raise Refused(23)
        if end < 0:
            raise Refused(3)
        front.at = behind


def token(front):
    """The token that begins here: its kind, its meaning, and whether it is known only by the byte behind it."""
    byte = front.next()
    if byte in b"(),;=$*":
        front.go()
        sign = byte.decode("ascii")
        return sign, (sign,), False
    if byte in LETTERS:
        return keyword(front)
    if byte in DIGITS + b"+-":
        return number(front)
    match byte:
        case b"!":
            front.go()
            return user_keyword(front)
        case b".":
            front.go()
            return item(front)
        case b'"':
            front.go()
            return binary(front)
        case b"#":
            front.go()
            return name(front)
        case b"'":
            front.go()
            return text(front)
        case b"&":
            raise front.refused(26, "Scope")
        case b"@":
            raise front.refused(26, "ValueName")
    raise front.refused(1)


def keyword(front):
    """A capital or `_`, then capitals, digits and `_`. A hyphen goes on only with ISO-10303-21 and END-ISO-10303-21."""
    word = front.run(KEYWORD_BYTES)
    if front.is_at(b"-"):
        whole = {"ISO": "ISO-10303-21", "END": "END-ISO-10303-21"}.get(word)
        if whole is None:
            raise front.refused(1)
        for byte in whole[len(word) :]:
            front.take(byte.encode("ascii"), 1)
        if front.is_at(KEYWORD_BYTES):
            raise front.refused(1)
        return ("Begin" if word == "ISO" else "Finish"), None, True
    return "keyword", word, True


def user_keyword(front):
    """`!` and a keyword; no hyphen stands behind it."""
    word = front.take(LETTERS, 1) + front.run(KEYWORD_BYTES)
    if front.is_at(b"-"):
        raise front.refused(1)
    return "user keyword", word, True


def item(front):
    """A keyword between two points."""
    word = front.take(LETTERS, 1) + front.run(KEYWORD_BYTES)
    front.take(b".", 1)
    return "item", ("item", word), False


def number(front):
    """An integer is a sign or none and digits; with a point behind it is a real, which may have an exponent."""
    sign = ""
    if front.is_at(b"+-"):
        sign = front.take(b"+-", 7)
    in_front = front.take(DIGITS, 7) + front.run(DIGITS)
    if not front.is_at(b"."):
        return "whole", scalars.whole(sign, in_front), True
    front.go()
    behind = front.run(DIGITS)
    exponent_sign = exponent = ""
    if front.is_at(b"E"):
        front.go()
        if front.is_at(b"+-"):
            exponent_sign = front.take(b"+-", 7)
        exponent = front.take(DIGITS, 7) + front.run(DIGITS)
    return "real", scalars.real(sign, in_front, behind, exponent_sign, exponent), True


def name(front):
    """`#` and digits for a number up to 2^64 - 1; the digit that passes it is refused. Behind `#` a letter is a constant's."""
    if front.is_at(LETTERS):
        raise front.refused(26, "ConstantName")
    number = int(front.take(DIGITS, 11))
    while front.is_at(DIGITS):
        number = 10 * number + int(front.take(DIGITS, 11))
        if number > GREATEST_NAME:
            raise Refused(10)
    return "name", ("name", number), True


def binary(front):
    """Between quotes a digit 0 to 3, which counts the zero bits put at the left, and hex digits. Those bits are zero."""
    padding = front.take(b"0123", 9)
    digits = ""
    while not front.is_at(b'"'):
        digits += front.take(HEX_DIGITS, 9)
        if len(digits) == 1 and int(digits, 16) >> (4 - int(padding)):
            raise Refused(9)
    if padding != "0" and not digits:
        raise front.refused(9)
    front.go()
    return "bits", ("bits", padding + digits), False


def text(front):
    """Units up to an apostrophe with none behind it; bytes 00 to 1F and 7F between units stand for nothing."""
    characters = ""
    while True:
        byte = front.next()
        if byte is None:
            raise Refused(2)
        if byte in IGNORED:
            front.go()
        elif byte >= b"\x80":
            characters += utf8(front)
        elif byte == b"'":
            front.go()
            if not front.is_at(b"'"):
                return "text", ("text", characters), True
            front.go()
            characters += "'"
        elif byte == b"\\":
            front.go()
            characters += directive(front)
        else:
            front.go()
            characters += byte.decode("ascii")


# Of a character in UTF-8: first bytes, how many bytes follow, and the bytes that may come second.
UTF8 = (
    (range(0xC2, 0xE0), 1, range(0x80, 0xC0)),
    (range(0xE0, 0xE1), 2, range(0xA0, 0xC0)),
    (range(0xE1, 0xED), 2, range(0x80, 0xC0)),
    (range(0xED, 0xEE), 2, range(0x80, 0xA0)),
    (range(0xEE, 0xF0), 2, range(0x80, 0xC0)),
    (range(0xF0, 0xF1), 3, range(0x90, 0xC0)),
    (range(0xF1, 0xF4), 3, range(0x80, 0xC0)),
    (range(0xF4, 0xF5), 3, range(0x80, 0x90)),
)


def utf8(front):
    """A character from U+0080 on in UTF-8. The first byte that cannot go on with one is refused."""
    start = front.at
    first = front.data[start]
    for firsts, follow, seconds in UTF8:
        if first in firsts:
            front.go()
            front.take(bytes(seconds), 6, at_end=2)
            for _ in range(follow - 1):
                front.take(bytes(range(0x80, 0xC0)), 6, at_end=2)
            return front.data[start : front.at].decode("utf-8")
    raise front.refused(6)


def in_directive(front, among):
    """The next byte of a directive."""
    return front.take(among, 4, at_end=2)


def directive(front):
    """The characters of a directive, whose backslash is read."""
    match in_directive(front, b"\\SPX"):
        case "\\":
            return "\\"
        case "S":
            in_directive(front, b"\\")
            return chr(ord(in_directive(front, GRAPHIC)) + 0x80)
        case "P":
            in_directive(front, b"A")
            in_directive(front, b"\\")
            return ""
    match in_directive(front, b"\\24"):
        case "2":
            in_directive(front, b"\\")
            return extended2(front)
        case "4":
            in_directive(front, b"\\")
            return extended4(front)
    return chr(group(front, 2))


def group(front, length):
    """The number of a group of hex digits."""
    return int("".join(in_directive(front, HEX_DIGITS) for _ in range(length)), 16)


def end_extended(front):
    """`\\X0\\`, of which the first backslash is read."""
    for byte in (b"X", b"0", b"\\"):
        in_directive(front, byte)


def extended2(front):
    """Groups of four hex digits, one at least: a character each, but a high surrogate and a low one make one character."""
    characters = ""
    high = None
    while True:
        unit = group(front, 4)
        if (0xDC00 <= unit < 0xE000) != (high is not None):
            raise Refused(5)
        if 0xD800 <= unit < 0xDC00:
            high = unit
        elif high is not None:
            characters += chr(0x10000 + ((high - 0xD800) << 10) + (unit - 0xDC00))
            high = None
        else:
            characters += chr(unit)
        if front.is_at(b"\\"):
            if high is not None:
                raise front.refused(5)
            front.go()
            end_extended(front)
            return characters


def extended4(front):
    """Groups of eight hex digits, one at least: a character each, which is no surrogate and at most 10FFFF."""
    characters = ""
    while True:
        unit = group(front, 8)
        if 0xD800 <= unit < 0xE000 or unit > 0x10FFFF:
            raise Refused(5)
        characters += chr(unit)
        if front.is_at(b"\\"):
            front.go()
            end_extended(front)
            return characters


TEXT_LIMIT = 16_777_216


def canonical_param(data):
    """The canonical spelling of the one scalar in a text."""
    if len(data) > TEXT_LIMIT:
        raise Refused(23)
    found = None
    for token in tokens(data):
        if found is not None or token.kind not in SCALARS:
            raise Refused(12)
        found = token.value
    if found is None:
        raise Refused(24)
    return scalars.spelled(found)
