"""Changes of a text: of its bytes, of its tokens, and of what stands between commas and parentheses."""

import re

# Bytes that some rule turns on, and runs of them.
BYTES = [bytes([x]) for x in b"'\"\\SPXABF0123459DE.+-#&@!/*()$,;=_ \n\r\t:?[]{}|<>%az\x00\x1f\x7f\x80\x9f\xa0\xbf\xc2\xc3\xe0\xe9\xed\xef\xf0\xf4\xff"]
RUNS = [
    b"\\X2\\", b"\\X0\\", b"\\X4\\", b"\\X\\", b"\\S\\", b"\\PA\\", b"\\N\\", b"D83D", b"DE00", b"00E9", b"0001F600", b"00110000",
    b"/*", b"*/", b"''", b"\\\\", b"ISO-10303-21", b"END-ISO-10303-21", b"1.E", b"1.", b".T.", b"#1", b"9999", b"0000000000",
    b"18446744073709551615", b"18446744073709551616", "\u00e9".encode(), "\U0001f600".encode(), b"\xed\xa0\x80", b"ENDSEC;", b"DATA;",
    b"(*", b"*)", b"--", b"END_ENTITY;", b"4294967295", b"4294967296",
]  # fmt: skip

TOKEN = re.compile(
    rb"/\*.*?\*/|'(?:[^']|'')*'|\"[^\"]*\"|#[0-9]+|[-+]?[0-9]+(?:\.[0-9]*(?:E[-+]?[0-9]+)?)?|\.[A-Z_]+[A-Z0-9_]*\."
    rb"|!?[A-Za-z_][A-Za-z0-9_]*(?:-[0-9A-Z-]+)?|\s+|.",
    re.DOTALL,
)
ODD = [
    b"$", b"*", b"7", b"+07", b"1.5", b"-0.", b"''", b"'t'", b".T.", b".U.", b".RED.", b"#1", b"#2", b"#99", b"()", b"(1)", b"((1.),())",
    b"LEN(1.)", b"TALLY(1)", b'"0"', b'"23B"', b"!A", b"A(B(1))", b"1.E9999", b"10.E9999",
]  # fmt: skip
WORDS = [
    b"(", b")", b",", b";", b"=", b"$", b"*", b"#1", b"#3", b"#0", b"1", b"2.5", b"'a'", b".T.", b'"0"', b"DATA", b"ENDSEC", b"HEADER", b"ANCHOR",
    b"REFERENCE", b"SIGNATURE", b"FILE_SCHEMA", b"!A", b"A", b"POINT", b"ISO-10303-21", b"END-ISO-10303-21", b"&", b"@1", b"#A", b"#", b"/**/", b" ",
]  # fmt: skip


def bytes_of(chance, text):
    """One change of the bytes: some are taken out, put in, put in another place, doubled, or the text is cut."""
    at = chance.randint(0, len(text))
    end = min(len(text), at + chance.choice([1, 1, 1, 2, 3, 8]))
    match chance.randrange(7):
        case 0:
            return text[:at] + text[end:]
        case 1 | 2:
            return text[:at] + chance.choice(BYTES) + text[at:]
        case 3:
            return text[:at] + chance.choice(BYTES) + text[at + 1 :]
        case 4:
            return text[:at] + chance.choice(RUNS) + text[chance.choice([at, end]) :]
        case 5:
            to = chance.randint(0, len(text))
            return text[:to] + text[at:end] + text[to:]
    return text[:at] if chance.random() < 0.3 else text[:at] + bytes([chance.randrange(256)]) + text[end:]


def tokens_of(chance, text, words):
    """One change of the tokens: one is taken out, doubled, exchanged with another, or another word stands in its place."""
    found = TOKEN.findall(text)
    if not found:
        return chance.choice(words)
    at, other = chance.randrange(len(found)), chance.randrange(len(found))
    match chance.randrange(6):
        case 0:
            del found[at]
        case 1:
            found.insert(at, found[at])
        case 2:
            found[at], found[other] = found[other], found[at]
        case 3:
            found[at] = found[other]
        case 4:
            found[at] = chance.choice(words)
        case 5:
            found.insert(at, chance.choice(words))
    return b"".join(found)


def parameters_of(chance, text):
    """One change of a parameter: behind a `(` or a comma another one stands up to the next comma or parenthesis."""
    found = TOKEN.findall(text)
    places = [i + 1 for i, token in enumerate(found) if token in (b"(", b",")]
    if not places:
        return text
    at = chance.choice(places)
    end, depth = at, 0
    while end < len(found) and not (depth == 0 and found[end] in (b",", b")")):
        depth += (found[end] == b"(") - (found[end] == b")")
        end += 1
    old = b"".join(found[at:end])
    new = chance.choice([chance.choice(ODD), b"", old + b"," + old, b"(" + old + b")", b"A(" + old + b")", old + b",$"])
    return b"".join(found[:at]) + new + b"".join(found[end:])


def statements_of(chance, text):
    """One change of the statements, each up to a `;`: one is taken out, doubled, or two are exchanged."""
    found = text.split(b";")
    at, other = chance.randrange(len(found)), chance.randrange(len(found))
    match chance.randrange(4):
        case 0:
            del found[at]
        case 1:
            found.insert(other, found[at])
        case 2:
            found[at], found[other] = found[other], found[at]
        case 3:
            found[at] = found[other]
    return b";".join(found)


def inside(chance, text):
    """One change that mostly leaves the statements of a file as they are: of a parameter, or of a name."""
    if chance.random() < 0.6:
        return parameters_of(chance, text)
    names = list(re.finditer(rb"#[0-9]+", text))
    if not names:
        return text
    at, other = chance.choice(names), chance.choice(names)
    new = chance.choice([other[0], other[0], b"#%d" % chance.randrange(1, 2**20)])
    return text[: at.start()] + new + text[at.end() :]


def file(chance, text):
    """A file with one to three changes."""
    for _ in range(chance.choice([1, 1, 1, 2, 3])):
        match chance.randrange(8):
            case 0 | 1:
                text = bytes_of(chance, text)
            case 2 | 3:
                text = tokens_of(chance, text, WORDS)
            case 4 | 5 | 6:
                text = parameters_of(chance, text)
            case 7:
                text = statements_of(chance, text)
    return text
