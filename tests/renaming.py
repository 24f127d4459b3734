"""Files whose instances have other names and another order, made by a seed, as the tests of tools want them."""

import random
import re

WORD = re.compile(rb"'(?:[^']|'')*'|/\*.*?\*/|#\s*(\d+)", re.S)
STATEMENT = re.compile(rb"(?:'[^']*'|/\*.*?\*/|[^';/]|/(?!\*))*;", re.S)


def renumbered(text, names):
    """A text with other names of instances, by their numbers."""
    return WORD.sub(lambda word: b"#%d" % names[int(word[1])] if word[1] else word[0], text)


def names_in(text):
    """The names that a text declares or refers to."""
    return sorted({int(word[1]) for word in WORD.finditer(text) if word[1]})


def shuffled(text, seed):
    """A file of one data section with other names and another order of its instances, and the new names."""
    chance = random.Random(seed)
    old = names_in(text)
    new = chance.sample(range(1, 3 * len(old) + 2), len(old))
    names = dict(zip(old, new))
    begin = re.search(rb"\bDATA\s*;", text).end()
    end = text.rindex(b"ENDSEC", begin)
    statements = [found[0] for found in STATEMENT.finditer(text, begin, end)]
    chance.shuffle(statements)
    return text[:begin] + renumbered(b"".join(statements), names) + b"\n" + text[end:], names
