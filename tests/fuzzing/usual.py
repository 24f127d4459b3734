"""Spellings as most converters write them: instances that a session takes straight from their bytes."""

from . import spellings


def real(value):
    """A real by its digits with a point among them, and an exponent where there would be many zeros."""
    negative, found, exponent = value
    if not found:
        return "0."
    sign = "-" if negative else ""
    if 0 <= exponent < 16:
        found = found.ljust(exponent + 1, "0")
        return f"{sign}{found[: exponent + 1]}.{found[exponent + 1 :]}"
    if -4 <= exponent < 0:
        return f"{sign}0.{'0' * (-exponent - 1)}{found}"
    return f"{sign}{found[0]}.{found[1:]}E{exponent}"


def number(chance, value):
    """A value at a NUMBER: now and then as an integer, where it is a short one."""
    negative, found, exponent = value
    if len(found) - 1 <= exponent < 16 and chance.random() < 0.3:
        return ("-" if negative else "") + found.ljust(exponent + 1, "0")
    return real(value)


def character(c):
    """A character as it stands in a string."""
    if c in "'\\":
        return c * 2
    if " " <= c <= "~":
        return c
    return spellings.extended2(c) if ord(c) < 0x10000 else spellings.extended4(c)


def parameter(chance, value):
    """A value, with no separators in it; the elements of sets and bags stand in any order."""
    match value:
        case ("whole", found):
            return found
        case ("real", found):
            return real(found)
        case ("number", found):
            return number(chance, found)
        case ("text", found):
            return f"'{''.join(map(character, found))}'"
        case ("name", found):
            return f"#{found}"
        case ("typed", key, within):
            return f"{key}({parameter(chance, within)})"
        case ("set" | "bag", found):
            return parameters(chance, chance.sample(found, len(found)))
        case ("list", found):
            return parameters(chance, found)
    return spellings.parameter(chance, value)


def parameters(chance, values):
    """Values in parentheses with commas between."""
    return f"({','.join(parameter(chance, value) for value in values)})"


def instance(chance, name, parts):
    """An instance of one entity, or of several with their own attributes each."""
    records = [key + parameters(chance, values) for key, values in parts]
    return f"#{name}={records[0] if len(records) == 1 else '(' + ''.join(records) + ')'};"
