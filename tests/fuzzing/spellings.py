"""Spellings by chance: of scalars, and many of one meaning."""

BLANKS = [""] * 14 + [" ", "\n", "\r\n", "\t", " /* c, ' ; */ ", "\x7f", "/**/", "\x00 "]
CHARACTERS = "aB z9~#(;/*,.=\u0080\u009f\u00e9\u00fc\u00a0\u00fe\u00ff\u07ff\u0800\u0416\u20ac\ud7ff\ue000\uffff\U00010000\U0001f600\U0010ffff'\\"


def blank(chance):
    """Separators, mostly none."""
    return chance.choice(BLANKS)


def digits(chance, most):
    """One digit at least."""
    return "".join(chance.choice("0012345679") for _ in range(chance.randint(1, most)))


def whole_value(chance):
    """An integer by its canonical spelling."""
    found = chance.choice(["0", "1", "7", digits(chance, 2), digits(chance, 5), digits(chance, 30)]).lstrip("0") or "0"
    return ("-" if found != "0" and chance.random() < 0.2 else "") + found


def whole(chance, value):
    """A spelling of an integer."""
    sign, found = ("-", value[1:]) if value.startswith("-") else (chance.choice(["", "", "", "+"]), value)
    if value == "0":
        sign = chance.choice(["", "", "+", "-"])
    return sign + chance.choice(["", "", "", "0", "000"]) + found


def real_value(chance):
    """A real as sign, digits without zeros at either end, and the exponent of the first digit; zero has no digits."""
    found = chance.choice(["", "1", "5", "25", digits(chance, 4), digits(chance, 30)]).strip("0")
    exponent = chance.choice([0, 0, 1, -1, 2, -7, chance.randint(-20, 20)])
    if chance.random() < 0.03:
        exponent = chance.choice([9999, -9999, 9998, 300, -300])
    return (bool(found) and chance.random() < 0.2, found, exponent if found else 0)


def real(chance, value):
    """A spelling of a real: its point anywhere, zeros at either end, and the exponent that goes with it."""
    negative, found, exponent = value
    sign = "-" if negative else chance.choice(["", "", "", "+"])
    if not found:
        sign = chance.choice(["", "", "+", "-"])
        tail = chance.choice(["", "", "E0", "E5", "E-999999999", "E+07"])
        return sign + chance.choice(["0", "00", "000"]) + "." + chance.choice(["", "0", "00"]) + tail
    found = chance.choice(["", "", "0", "00"]) + found + chance.choice(["", "", "0", "000"])
    first = len(found) - len(found.lstrip("0"))
    point = chance.randint(1, len(found))
    if chance.random() < 0.3 and first <= exponent + first < len(found):
        point = exponent + first + 1
    written = exponent - (point - 1 - first)
    text = sign + found[:point] + "." + found[point:]
    if written == 0:
        return text + chance.choice(["", "", "", "E0", "E-0", "E+00"])
    return text + "E" + ("-" if written < 0 else chance.choice(["", "+"])) + chance.choice(["", "", "0", "00"]) + str(abs(written))


def text_value(chance, most=8):
    """Characters."""
    return "".join(chance.choice(CHARACTERS) for _ in range(chance.randint(0, chance.choice([0, 1, 3, most]))))


def text(chance, value):
    """A spelling of a string: each character as itself where it may, or by some directive; several in one directive."""
    out = []
    at = 0
    while at < len(value):
        some = value[at : at + chance.choice([1, 1, 1, 2, 3])]
        ways = [plain(some)]
        if chance.random() < 0.4:
            ways = [extended4(some), extended2(some)]
        if chance.random() < 0.3 and all(ord(c) < 0x100 for c in some):
            ways = ["".join(f"\\X\\{ord(c):02X}" for c in some)]
        if chance.random() < 0.3 and all(0xA0 <= ord(c) <= 0xFE for c in some):
            ways = [chance.choice(["", "\\PA\\"]) + "".join(f"\\S\\{chr(ord(c) - 0x80)}" for c in some)]
        out += [chance.choice(ways), chance.choice([""] * 20 + ["\n", "\r\n", "\x00", "\\PA\\"])]
        at += len(some)
    return "'" + "".join(out) + "'"


def plain(characters):
    """Characters as themselves, apostrophes and backslashes doubled."""
    return "".join(c * 2 if c in "'\\" else c for c in characters)


def extended2(characters):
    """Characters in one directive of groups of four digits."""
    return "\\X2\\" + characters.encode("utf-16-be").hex().upper() + "\\X0\\"


def extended4(characters):
    """Characters in one directive of groups of eight digits."""
    return "\\X4\\" + characters.encode("utf-32-be").hex().upper() + "\\X0\\"


def bits_value(chance, most=24):
    """Bits."""
    return "".join(chance.choice("01") for _ in range(chance.randint(0, most)))


def bits(value):
    """The spelling of bits."""
    padding = -len(value) % 4
    padded = "0" * padding + value
    return f'"{padding}' + "".join(f"{int(padded[i : i + 4], 2):X}" for i in range(0, len(padded), 4)) + '"'


def scalar(chance):
    """A scalar, spelled."""
    match chance.randrange(8):
        case 0 | 1:
            return whole(chance, whole_value(chance))
        case 2 | 3:
            return real(chance, real_value(chance))
        case 4 | 5:
            return text(chance, text_value(chance))
        case 6:
            return bits(bits_value(chance))
    return chance.choice(["$", "*", ".T.", ".RED.", "._A9.", f"#{chance.randrange(10 ** chance.randint(1, 20))}", f"#0{chance.randrange(99)}"])


def parameter(chance, value):
    """A spelling of a value; sets and bags are written in any order.

    Values are scalars by kind, and ("list", values), ("set", values), ("bag", values), ("number", real or whole value),
    ("typed", keyword, value).
    """
    match value:
        case ("whole", found):
            return whole(chance, found)
        case ("real", found):
            return real(chance, found)
        case ("number", found):
            return number(chance, found)
        case ("text", found):
            return text(chance, found)
        case ("bits", found):
            return bits(found)
        case ("item", word):
            return f".{word}."
        case ("name", found):
            return f"#{chance.choice([''] * 9 + ['0', '00'])}{found}"
        case ("typed", key, within):
            return f"{key}{blank(chance)}({blank(chance)}{parameter(chance, within)}{blank(chance)})"
        case ("set" | "bag", found):
            return spelled_list(chance, chance.sample(found, len(found)))
        case ("list", found):
            return spelled_list(chance, found)
    return value[0]


def spelled_list(chance, values):
    """Values in parentheses with commas between."""
    texts = [f"{blank(chance)}{parameter(chance, x)}{blank(chance)}" for x in values]
    return "(" + (",".join(texts) if texts else blank(chance)) + ")"


def number(chance, value):
    """A spelling of a value at a NUMBER: as an integer too where it is one that is not too long."""
    negative, found, exponent = value
    if not found:
        return chance.choice(["0", "-0", "0.", "+00", "0.0E5"])
    if len(found) - 1 <= exponent < 60 and chance.random() < 0.5:
        return ("-" if negative else "") + found + "0" * (exponent - len(found) + 1)
    return real(chance, value)
