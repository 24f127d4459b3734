"""Schema texts that several benchmarks read: lists of declarations, and the text of them."""

# As many bytes as a text may have, but for its first and last line.
LARGE = (16 << 20) - 100


def bare(count):
    """Entities without attributes."""
    return [f"ENTITY bare_{number};\nEND_ENTITY;\n\n" for number in range(count)]


def chained(count):
    """Entities of ten attributes, each ten a chain of subtypes."""
    lines = []
    for number in range(count):
        above = f"\n  SUBTYPE OF (thing_{number - 1})" if number % 10 else ""
        attributes = "".join(f"  attribute_{place} : OPTIONAL LIST [1:?] OF REAL;\n" for place in range(10))
        lines.append(f"ENTITY thing_{number}{above};\n{attributes}END_ENTITY;\n\n")
    return lines


def ruled():
    """Rules and remarks, some 1,300 bytes for each entity."""
    rule = "  (* of (* each *) *) SIZEOF (QUERY (t <* things | t.name <> 'END_ENTITY')) >= 0 AND -- more\n"
    return [f"ENTITY ruled_{number};\nWHERE\n  wr1 :\n{rule * 14}  TRUE;\nEND_ENTITY;\n\n" for number in range(20_000)]


def ladder(levels):
    """Levels of two entities, each a subtype of both of the level above: twice as many ways up at each level."""
    lines = []
    for level in range(levels):
        above = f" SUBTYPE OF (a{level - 1}, b{level - 1})" if level else ""
        lines += [f"ENTITY {side}{level}{above}; x : INTEGER; END_ENTITY;\n" for side in "ab"]
    return lines


def as_many(lines, size):
    """As many of them as a text of this size holds."""
    kept, length = [], 0
    for line in lines:
        length += len(line)
        if length > size:
            break
        kept.append(line)
    return kept


def write(path, lines):
    """A text of these declarations."""
    with open(path, "w") as file:
        file.write("SCHEMA large;\n\n")
        file.writelines(lines)
        file.write("END_SCHEMA;\n")
