#!/usr/bin/env python3
"""Tokens as long as the rows of bytes by which they are read, and one byte shorter and longer, cut off at each distance.

A session takes usual instances straight from their bytes, by rows of 16, 32 or 64 bytes where a piece has so many left, and
byte by byte behind them. Each case is a token of such a length, in a file with an instance for each distance from DISTANCES:
so many bytes behind the end of the token the piece ends, or in front of it where the distance is below 0. `p21 canon` reads
the file in those pieces and whole, and has to write the statement that the plain reading in tests/plain writes for one such
instance, each time with the instance's own name, or to refuse as it does. A file of one instance is read byte by byte.
"""

import sys
from pathlib import Path

ROOT = Path(__file__).resolve().parent.parent
sys.path[:0] = [str(ROOT / "tests"), str(ROOT / "tests" / "hostile")]
import exchange  # noqa: E402
from plain import commands  # noqa: E402
from rigged import Answer, Rigged, Tally  # noqa: E402

SIZES = (7, 8, 15, 16, 17, 31, 32, 33, 63, 64, 65, 95, 96, 97)
PIECE = 512
DISTANCES = range(-40, 131)
SCHEMA_FILE, FILE = "edges.exp", "edges.step"
KEYWORDS = range(2, 41)


def word(size, last):
    """A word of so many letters."""
    return "E" * (size - 1) + last


SCHEMA = f"""SCHEMA edges;
TYPE choice = ENUMERATION OF ({", ".join(word(size - 2, "x") for size in SIZES)}); END_TYPE;
ENTITY text; a : STRING; END_ENTITY;
ENTITY whole; a : INTEGER; END_ENTITY;
ENTITY size; a : REAL; b : REAL; END_ENTITY;
ENTITY code; a : BINARY; END_ENTITY;
ENTITY mark; a : choice; END_ENTITY;
ENTITY link; a : text; END_ENTITY;
{"".join(f"ENTITY {word(size, last)}; a : INTEGER; END_ENTITY;" for size in KEYWORDS for last in "AB")}
END_SCHEMA;
""".encode()

HEAD, FOOT = exchange.front("EDGES").encode(), exchange.BACK.encode()
TARGET = b"#1000000000000000003=TEXT('');\n"


def texts():
    """Strings with a unit of each kind at their end."""
    for size in SIZES:
        for unit in ("", "''", "\\\\", "\\S\\i", "\\X\\E9", "\\X2\\00E9\\X0\\", "\u00e9", "\u20ac", "\x7f"):
            room = size - 2 - len(unit.encode())
            if room >= 0:
                yield f"'{'a' * room}{unit}'"


def integers():
    """Integers with a sign, with zeros in front, and without."""
    for size in SIZES:
        yield from ("7" * size, "-" + "7" * (size - 1), "+" + "7" * (size - 1), "0" * (size - 1) + "7")


def reals():
    """Reals with the point at each end and in the middle, zeros on both sides of it, and exponents up to the limit."""
    for size in SIZES:
        for point in (1, 2, size // 2, size - 2, size - 1):
            behind = size - point - 1
            yield "7" * point + "." + "7" * behind
            yield "0" * (point - 1) + "7." + "7" * (behind - 1) + "0" * (behind > 0)
            yield "0" * point + "." + "0" * (behind - 1) + "7" * (behind > 0)
            yield "7" + "0" * (point - 1) + "." + "0" * behind
    for mantissa in ("1.", "-1.5", "0.0", "1234567890123456.", "0.00000000000000012"):
        for power in (0, 1, 9, 10, 15, 16, 17, 99, 100, 999, 1000, 9983, 9984, 9999, 10000):
            yield from (f"{mantissa}E{power}", f"{mantissa}E-{power}", f"{mantissa}E+0{power}")


def binaries():
    """Binaries with no padding, and with three bits of it."""
    for size in SIZES:
        yield from ('"0' + "A" * (size - 3) + '"', '"31' + "A" * (size - 4) + '"')


def blanks():
    """Separators of each kind, in each place of an instance."""
    for size in SIZES:
        comment = b"/*" + b"x" * (size - 4) + b"*/"
        for run in (b" " * size, b"\n" * size, (b"\r\n" * size)[:size], b"\t" * size, comment):
            yield from ((run + b"=TEXT('", b"');"), (b"=" + run + b"TEXT('", b"');"), (b"=TEXT" + run + b"('", b"');"))
            yield from ((b"=TEXT(" + run + b"'", b"');"), (b"=TEXT('a'" + run + b")", b";"), (b"=TEXT('a')" + run + b";", b""))


def cases():
    """What stands behind the name of an instance: up to the end of the token, and behind it."""
    for name, tokens in (("TEXT", texts), ("WHOLE", integers), ("CODE", binaries)):
        yield from ((f"={name}({token}".encode(), b");") for token in tokens())
    for token in reals():
        yield from ((f"=SIZE({token}".encode(), b",1.);"), (f"=SIZE(1.,{token}".encode(), b");"))
    yield from ((f"=MARK(.{word(size - 2, 'x').upper()}.".encode(), b");") for size in SIZES)
    yield from ((b"=LINK(#" + b"0" * zeros + TARGET[1:20], b");") for zeros in range(48))
    yield from ((f"={word(size, last)}".encode(), b"(1);") for size in KEYWORDS for last in "AB")
    yield from blanks()


def named(number, zeros):
    """The name of an instance."""
    return b"#" + b"0" * zeros + str(number).encode()


def file(front, behind):
    """The file of a case."""
    text = HEAD + TARGET
    for number, distance in enumerate(DISTANCES, 1):
        name = named(number, number % 3)
        text += b" " * (-(len(text) + len(name) + len(front) + distance) % PIECE)
        text += name + front + behind
    return text + b"\n" + FOOT


def plain_answer(text):
    """What the plain reading answers."""
    output, error, status = commands.canon(SCHEMA, text)
    return Answer(status, output.encode(), error.encode())


def repeated(answer):
    """The answer for one instance, where there is one for each distance."""
    if answer.status:
        return answer
    lines = answer.output.split(b"\n")
    place = next(at for at, line in enumerate(lines) if line.startswith(b"#1="))
    lines[place : place + 1] = (named(number, 0) + lines[place][2:] for number in range(1, len(DISTANCES) + 1))
    return Answer(0, b"\n".join(lines), b"")


def main():
    """Runs the cases."""
    tally = Tally()
    words = ["canon", SCHEMA_FILE, FILE]
    accepted = 0
    with Rigged() as rigged:
        rigged.write(SCHEMA_FILE, SCHEMA)
        for front, behind in cases():
            name = repr(front + behind)
            one = HEAD + TARGET + named(1, 0) + front + behind + b"\n" + FOOT
            answer = plain_answer(one)
            accepted += answer.status == 0
            rigged.write(FILE, one)
            tally.check(f"{name} byte by byte", rigged.failing(words, READ_MOST=1)[0], answer)
            rigged.write(FILE, file(front, behind))
            tally.check(f"{name} in pieces", rigged.failing(words, READ_MOST=PIECE)[0], repeated(answer))
            tally.check(f"{name} whole", rigged.answer(words), repeated(answer))
    tally.part("tokens at the edges of rows and pieces", f", {accepted} cases accepted")
    tally.end()


if __name__ == "__main__":
    main()
