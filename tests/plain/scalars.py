"""What the scalars mean, and the one canonical spelling of each.

A meaning is a tuple with its kind in front, and two scalars mean the same exactly if their tuples are equal:

    ("whole", "-12")         an integer: `-` only in front of a number that is not zero, no leading zeros
    ("real", Ratio)          a real
    ("text", "caf\u00e9")    a string: its characters
    ("bits", "23B")          a binary: as it is spelled, since it has one spelling alone
    ("item", "RED")          an enumeration item
    ("name", 7)              the name of an instance
    ("$",), ("*",)           no value; a derived value
"""

from typing import NamedTuple

from .refusal import Refused


class Ratio(NamedTuple):
    """A decimal, d.ddd times ten to the exponent: no zero stands in front of its digits or behind them; zero has no digits."""

    negative: bool
    digits: str
    exponent: int


ZERO = Ratio(False, "", 0)


def whole(sign, digits):
    """An integer by its sign and digits. Leading zeros and the sign of zero do not count, nor does `+`."""
    digits = digits.lstrip("0")
    if not digits:
        return ("whole", "0")
    return ("whole", "-" + digits if sign == "-" else digits)


def ratio(sign, in_front, behind, exponent=0):
    """The decimal with these digits in front of the point and behind it. Its exponent is from -9999 to 9999."""
    digits = in_front + behind
    significant = digits.lstrip("0")
    if not significant:
        return ZERO
    exponent += len(in_front) - 1 - (len(digits) - len(significant))
    if not -9999 <= exponent <= 9999:
        raise Refused(8)
    return Ratio(sign == "-", significant.rstrip("0"), exponent)


def real(sign, in_front, behind, exponent_sign, exponent_digits):
    """A real by what is written. The written exponent has at most nine digits, leading zeros apart, at a zero too."""
    exponent_digits = exponent_digits.lstrip("0")
    if len(exponent_digits) > 9:
        raise Refused(8)
    exponent = int(exponent_digits or "0")
    return ("real", ratio(sign, in_front, behind, -exponent if exponent_sign == "-" else exponent))


def ratio_of_whole(digits):
    """The ratio of an integer, by its canonical spelling."""
    sign = "-" if digits.startswith("-") else ""
    return ratio(sign, digits.lstrip("-"), "")


def spelled_ratio(number):
    """`0.`; or `-` or none, the first digit, a point, the others, and `E` with the exponent unless that is 0."""
    if number == ZERO:
        return "0."
    sign = "-" if number.negative else ""
    exponent = f"E{number.exponent}" if number.exponent else ""
    return f"{sign}{number.digits[0]}.{number.digits[1:]}{exponent}"


def spelled_character(character):
    """An apostrophe and a backslash are doubled, 20 to 7E are themselves, each other character has its own directive."""
    if character in "'\\":
        return character * 2
    if " " <= character <= "~":
        return character
    if character <= "\uffff":
        return f"\\X2\\{ord(character):04X}\\X0\\"
    return f"\\X4\\{ord(character):08X}\\X0\\"


def spelled(scalar):
    """The canonical spelling of a scalar."""
    match scalar:
        case ("whole", digits):
            return digits
        case ("real", number):
            return spelled_ratio(number)
        case ("text", characters):
            return "'" + "".join(map(spelled_character, characters)) + "'"
        case ("bits", digits):
            return f'"{digits}"'
        case ("item", word):
            return f".{word}."
        case ("name", number):
            return f"#{number}"
        case ("$",) | ("*",):
            return scalar[0]
    raise ValueError(scalar)
