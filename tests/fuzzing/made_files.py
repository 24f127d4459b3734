"""Files of a schema, made by chance: values that fit its types, mostly, and spellings of them."""

from . import rows, spellings
from .spellings import blank

# How deep lists are made that can't be empty.
DEEPEST = 8

ODD_VALUES = [
    ("$",), ("*",), ("whole", "7"), ("real", (False, "15", 0)), ("text", "t"), ("item", "T"), ("item", "RED"), ("name", 1), ("list", []),
    ("list", [("real", (False, "1", 0))]), ("typed", "LEN", ("real", (False, "1", 0))), ("bits", ""), ("typed", "TALLY", ("whole", "1")),
]  # fmt: skip


class Maker:
    """Makes values for instances of a schema, as the plain reading has it, whose sets are chosen beforehand."""

    def __init__(self, chance, schema, odd):
        self.chance = chance
        self.schema = schema
        self.odd = odd
        self.sets = {}

    def choose_sets(self):
        """Names of instances, each with its leaves and its set."""
        chance, schema = self.chance, self.schema
        names = list(schema.entities)
        if not names:
            return
        concrete = [x for x in names if not schema.entities[x].abstract] or names
        step, first = chance.choice([(1, 1), (1, 1), (1, 0), (10, 7), (10**9, 3), (2**60, 15)])
        for i in range(chance.choice([0, 1, 2, 3, 5, 8])):
            leaves = [chance.choice(concrete if chance.random() < 0.97 else names)]
            if chance.random() < 0.2:
                leaves.append(chance.choice(concrete))
            self.sets[first + i * step] = schema.closure(leaves)

    def serving(self, wanted):
        """The names of instances that serve one of these entities; mostly."""
        found = [name for name, entities in self.sets.items() if not entities.isdisjoint(wanted)]
        if not found or self.chance.random() < self.odd:
            found = [*self.sets, 99, 1]
        return found

    def at_place(self, found):
        """A value at a place: `found` as the schema's type_at answers it."""
        chance = self.chance
        if chance.random() < self.odd:
            return chance.choice(ODD_VALUES)
        if found == "derived":
            return ("*",)
        if found == "two redeclarations":
            return ("$",)
        optional, written = found
        if optional and chance.random() < 0.4:
            return ("$",)
        return self.of_type(written, 0)

    def of_type(self, written, depth):
        """A value of a type."""
        chance = self.chance
        if chance.random() < self.odd / 3:
            return chance.choice(ODD_VALUES)
        match written:
            case ("INTEGER",):
                return ("whole", spellings.whole_value(chance))
            case ("REAL",):
                return ("real", spellings.real_value(chance))
            case ("NUMBER",):
                return ("number", spellings.real_value(chance))
            case ("BOOLEAN",):
                return ("item", chance.choice("TF"))
            case ("LOGICAL",):
                return ("item", chance.choice("TFU"))
            case ("STRING", width):
                return ("text", self.of_width(width, spellings.text_value(chance), "x"))
            case ("BINARY", width):
                return ("bits", self.of_width(width, spellings.bits_value(chance), "1"))
            case ("name", name):
                return self.of_name(name, depth)
        return self.aggregate(written, depth)

    def of_width(self, width, found, filler):
        """Characters or bits within a width."""
        if width is None:
            return found
        most, fixed = min(width[0], 40), width[1]
        found = found[:most]
        return found + filler * (most - len(found)) if fixed else found

    def of_name(self, name, depth):
        """A value of an entity or a TYPE."""
        chance, schema = self.chance, self.schema
        if name in schema.entities:
            return ("name", chance.choice(self.serving([name])))
        body = schema.types[name]
        if body[0] == "ENUMERATION":
            return ("item", chance.choice(body[1]))
        if body[0] != "SELECT":
            return self.of_type(body, depth)
        return self.choice(sorted(schema.offers(name)), depth)

    def choice(self, offered, depth):
        """A value of a select that offers these."""
        chance = self.chance
        entities = [x for x in offered if x in self.schema.entities]
        types = [x for x in offered if x not in self.schema.entities]
        if entities and (not types or depth > 4 or chance.random() < 0.4):
            return ("name", chance.choice(self.serving(entities)))
        if not types:
            return ("$",)
        key = chance.choice(types)
        return ("typed", key, self.of_name(key, depth + 1))

    def aggregate(self, written, depth):
        """A list within its bounds; elements that have to differ are made until they do, mostly."""
        chance = self.chance
        word, low, high, optional, unique, element = written
        if word == "ARRAY":
            count = high - low + 1
        else:
            count = low + chance.choice([0, 1, 2, 3] if depth < 4 else [0])
            count = count if high is None else min(count, high)
        # A type whose values are lists of its own values has none, unless one may be empty.
        if depth > DEEPEST and count > 0:
            return chance.choice(ODD_VALUES)
        if chance.random() < self.odd:
            count += chance.choice([-1, 1])
        values, tries = [], 0
        while len(values) < min(count, 40):
            empty = optional and chance.random() < 0.3
            value = ("$",) if empty else self.of_type(element, depth + 1)
            tries += 1
            if (unique or word == "SET") and not empty and value in values and tries < 60:
                continue
            values.append(value)
        return ({"SET": "set", "BAG": "bag"}.get(word, "list"), values)

    def instances(self):
        """For each name the leaves, and the values at the places of its set."""
        schema = self.schema
        found = {}
        for name, entities in self.sets.items():
            places = [(e, attribute) for e in schema.entities if e in entities for attribute in schema.entities[e].own]
            found[name] = {place: self.at_place(schema.type_at(entities, place)) for place in places}
        return found


class File:
    """A file as values: `write` spells it, each time in another way."""

    def __init__(self, chance, schema, odd, maker=Maker):
        maker = maker(chance, schema, odd)
        maker.choose_sets()
        self.schema = schema
        self.sets = maker.sets
        self.values = maker.instances()
        self.header = header(chance, schema, odd)
        self.sections = sections(chance, schema, odd)
        self.section_of = {name: chance.randrange(len(self.sections)) for name in self.sets}

    def one_part(self, name, leaf):
        """The record of an instance with this leaf alone, in internal mapping."""
        return leaf, [self.values[name][place] for place in self.schema.places(leaf)]

    def parts(self, name):
        """The records of an instance in external mapping."""
        schema, values = self.schema, self.values[name]
        return [(e, [values[e, attribute] for attribute in schema.entities[e].own]) for e in sorted(self.sets[name])]

    def instance(self, chance, name):
        """An instance, in internal mapping where it may be, or in external mapping with its parts in any order."""
        leaves = self.schema.leaves(self.sets[name])
        if len(leaves) == 1 and chance.random() < 0.8:
            record = part(chance, *self.one_part(name, leaves[0]))
        else:
            parts = self.parts(name)
            chance.shuffle(parts)
            record = "(" + blank(chance) + blank(chance).join(part(chance, *x) for x in parts) + blank(chance) + ")"
        spelled = spellings.parameter(chance, ("name", name))
        return f"{spelled}{blank(chance)}={blank(chance)}{record}{blank(chance)};"

    def write(self, chance):
        """The file's text."""
        between = chance.choice(["", "\n", "\r\n", " \n"])
        lines = ["ISO-10303-21;", "HEADER;"]
        for key, values in self.header:
            lines.append(part(chance, key, values) + ";")
        lines.append("ENDSEC;")
        order = list(range(len(self.sections)))
        chance.shuffle(order)
        # Now and then one stands once more, in its section or in another one.
        again = [chance.choice(list(self.sets))] if self.sets and chance.random() < 0.02 else []
        for number in order:
            name = self.sections[number]
            lines.append("DATA;" if name is None else part(chance, "DATA", name) + ";")
            names = [x for x in self.sets if self.section_of[x] == number]
            if number == order[-1]:
                names += again
            if chance.random() < 0.5:
                chance.shuffle(names)
            lines += [self.instance(chance, x) for x in names]
            lines.append("ENDSEC;")
        return between.join([*lines, "END-ISO-10303-21;", ""]).encode("utf-8")


def part(chance, key, values):
    """A keyword and its parameters."""
    return key + blank(chance) + spellings.spelled_list(chance, values)


def texts(chance):
    """A list of texts, or `$`."""
    if chance.random() < 0.1:
        return ("$",)
    return ("list", [("$",) if chance.random() < 0.1 else ("text", spellings.text_value(chance)) for _ in range(chance.randint(0, 2))])


def one_text(chance):
    """A text, or `$`."""
    return ("$",) if chance.random() < 0.1 else ("text", spellings.text_value(chance))


def header(chance, schema, odd):
    """The records of a header."""
    name = chance.choice([schema.name, schema.name.lower(), schema.name + " { 1 0 10303 }", schema.name + "\u00e9"])
    found = [
        ("FILE_DESCRIPTION", [texts(chance), one_text(chance)]),
        ("FILE_NAME", [one_text(chance), one_text(chance), texts(chance), texts(chance), *(one_text(chance) for _ in range(3))]),
        ("FILE_SCHEMA", [("list", [("text", name)])]),
    ]
    while chance.random() < 0.15:
        values = [chance.choice([x for x in ODD_VALUES if x[0] != "name"]) for _ in range(chance.randint(0, 3))]
        found.append((chance.choice(["FURTHER", "!OWN", "ENDSEC", "DATA", "ANCHOR", "F_9"]), values))
    if chance.random() < odd:
        found[chance.randrange(3)][1].append(chance.choice(ODD_VALUES))
    return found


def sections(chance, schema, odd):
    """The data sections: one without a name, which is None, or some by their name and schema."""
    if chance.random() < 0.75:
        return [None]
    names = chance.sample(["a", "b", "a!", "a'b", "", "ab", "\u00e9", "B", "a "], chance.randint(1, 3))
    if chance.random() < odd:
        names.append(names[0])
    schema_texts = [schema.name, schema.name.lower(), schema.name + " x"]
    return [[("text", name), ("list", [("text", chance.choice(schema_texts))])] for name in names]


def frame(chance, name):
    """A file of rows: its instances, and header records and section lines that are mostly right."""
    records = ["FILE_DESCRIPTION((''),'2;1');", "FILE_NAME('','',(''),(''),'','','');", f"FILE_SCHEMA(('{name}'));"]
    if chance.random() < 0.25:
        records[chance.randrange(3)] = chance.choice(rows.HEADER_RECORDS)
    if chance.random() < 0.15:
        records.insert(chance.choice([3, 3, 3, 0, 1, 2]), chance.choice(rows.HEADER_RECORDS))
    lines = ["ISO-10303-21;", "HEADER;", *records, "ENDSEC;"]
    texts_of_rows = rows.INSTANCES[name]
    for _ in range(chance.choice([1, 1, 1, 1, 2, 3])):
        lines.append("DATA;" if chance.random() < 0.7 else chance.choice(rows.SECTION_LINES))
        lines += [chance.choice(texts_of_rows) for _ in range(chance.choice([0, 1, 1, 1, 2]))]
        lines.append("ENDSEC;")
    lines.append("END-ISO-10303-21;")
    return ("\n".join(lines) + (chance.choice(rows.BEHIND) if chance.random() < 0.15 else "\n")).encode("utf-8")
