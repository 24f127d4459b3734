"""The canonical file: one text for each meaning."""

from . import scalars

END = "END-ISO-10303-21;"


def joined(texts):
    """Texts in parentheses with commas between."""
    return "(" + ",".join(texts) + ")"


def spelled_key(key):
    """A keyword; a user keyword has `!` in front."""
    return ("!" if key[0] == "user keyword" else "") + key[1]


def header_parameter(parameter):
    """A parameter of a header record: the same spellings, lists in order."""
    match parameter:
        case ("list", parameters):
            return joined(map(header_parameter, parameters))
        case ("typed", key, within):
            return spelled_key(key) + joined([header_parameter(within)])
    return scalars.spelled(parameter)


def header_record(part):
    """The line of a header record."""
    return spelled_key(part.key) + joined(map(header_parameter, part.parameters)) + ";"


def section_line(section):
    """The line of a data section: without a name where it is None."""
    if section is None:
        return "DATA;"
    return "DATA" + joined([section_name(section), joined([scalars.spelled(("text", section.schema_text))])]) + ";"


def section_name(section):
    """The spelling of the name of a section."""
    return scalars.spelled(("text", section.name))


def value(meant, names=None):
    """The text of a value: the elements of a set and of a bag rise byte by byte, one in front of what it begins. Where names are
    given, the text has those in place of the ones that it refers to."""
    match meant:
        case ("number", ratio):
            return scalars.spelled_ratio(ratio)
        case ("name", target) if names is not None:
            return scalars.spelled(("name", names[target]))
        case ("typed", name, within):
            return name + joined([value(within, names)])
        case ("list" | "array", elements):
            return joined(value(x, names) for x in elements)
        case ("set", elements):
            return joined(sorted(value(x, names) for x in elements))
        case ("bag", counted):
            return joined(sorted(text for x, often in counted for text in [value(x, names)] * often))
    return scalars.spelled(meant)


def own_parts(schema, meaning, names=None):
    """The parts of a record in external mapping: keywords rise, and each has the values that its entity declares itself."""
    values = dict(meaning.values)
    return "".join(
        e + joined(value(values[e, attribute], names) for attribute in schema.entities[e].own)
        for e in sorted(meaning.entities)
    )


def instance(schema, name, meaning):
    """The line of an instance: in internal mapping where its set has one leaf, else the parts with rising keywords."""
    leaves = schema.leaves(meaning.entities)
    if len(leaves) == 1:
        values = dict(meaning.values)
        return f"#{name}={leaves[0]}{joined(value(values[place]) for place in schema.places(leaves[0]))};"
    return f"#{name}=({own_parts(schema, meaning)});"


def lines(schema, meaning):
    """The lines of the canonical file: sections rise by the spellings of their names, instances rise by their names."""
    yield from ("ISO-10303-21;", "HEADER;")
    yield from map(header_record, meaning.header)
    yield "ENDSEC;"
    for section in sorted(meaning.sections, key=lambda x: "" if x is None else section_name(x)):
        yield section_line(section)
        for name in sorted(n for n, (of_section, _) in meaning.instances.items() if of_section == section):
            yield instance(schema, name, meaning.instances[name][1])
        yield "ENDSEC;"
    yield END


def file(schema, meaning):
    """The canonical file: each line with one LF behind it."""
    return "".join(line + "\n" for line in lines(schema, meaning))
