"""A value of a canonical file as people write it: 52.5 for 5.25E1, “Müller” for 'M\\X2\\00FC\\X0\\ller'."""

import re
from typing import Match

from p21_reading import shown

# What stands as it is: binaries, items, names of instances and of types. Then a string, a real with its digits, and a comma.
WORD = re.compile(r'"[^"]*"|\.[A-Z_]\w*\.|#\d+|[A-Z_]\w*|\'((?:[^\']|\'\')*)\'|(-?)(\d)\.(\d*)(?:E(-?\d+))?|,', re.A)
ESCAPE = re.compile(r"''|\\\\|\\X[24]\\([0-9A-F]+)\\X0\\")
# A real is written without an exponent where that goes from the one of these to the other.
EXPONENTS = (-6, 15)


def unescaped(text: str) -> str:
    """The characters of a string, by what stands between its apostrophes."""
    return ESCAPE.sub(lambda word: chr(int(word[1], 16)) if word[1] else word[0][0], text)


def real(sign: str, first: str, further: str, exponent: int) -> str:
    """A real by its sign, its first digit, the further ones, and its exponent."""
    digits, point = first + further, exponent + 1
    if not EXPONENTS[0] <= exponent <= EXPONENTS[1]:
        return f"{sign}{first}{'.' if further else ''}{further}E{exponent}"
    if point <= 0:
        return f"{sign}0.{'0' * -point}{digits}"
    if point >= len(digits):
        return sign + digits.ljust(point, "0")
    return f"{sign}{digits[:point]}.{digits[point:]}"


def in_words(word: Match[str]) -> str:
    """A word of a value as people write it."""
    if word[1] is not None:
        return f"“{shown(unescaped(word[1]))}”"
    if word[3] is not None:
        return real(word[2], word[3], word[4], int(word[5] or 0))
    return ", " if word[0] == "," else word[0]


def plainly(value: str) -> str:
    """A value as people write it."""
    return WORD.sub(in_words, value)


def is_spelled(value: str) -> bool:
    """Does a value have what nobody writes: an exponent, or a sign that is doubled or spelled by its number?"""
    return any(word[5] is not None or (word[1] is not None and unescaped(word[1]) != word[1]) for word in WORD.finditer(value))
