"""What a record means under a schema: its set of entities, and a value for each place.

A value is a tuple with its kind in front, and two values at one place mean the same exactly if they are equal:

    a scalar but "real", as in scalars.py; ("name", 7) is a reference
    ("real", Ratio), ("number", Ratio)
    ("list", values), ("array", values)     with their order
    ("set", frozenset of values)
    ("bag", frozenset of (value, how often))
    ("typed", type, value)                   the value of a select with the type that it names
"""

from collections import Counter
from typing import NamedTuple

from . import scalars
from .grammar import Part
from .refusal import Refused
from .schema import DERIVED, TWO

BOOLEANS = ("T", "F")
LOGICALS = ("T", "F", "U")


class Meaning(NamedTuple):
    """The meaning of a record: its set, and its value at each place."""

    entities: frozenset
    values: frozenset


class Need(NamedTuple):
    """A reference: the name of an instance, and the entities of which its set has to hold one."""

    target: int
    wanted: frozenset


class Check:
    """The check of one record. `needs` are its references in the order in which they stand."""

    def __init__(self, schema):
        self.schema = schema
        self.needs = []

    def record(self, record):
        """The meaning of a record; which refusal comes first is in the order of these lines."""
        schema = self.schema
        internal = isinstance(record, Part)
        parts = [record] if internal else record
        keys = [part.key[1] for part in parts]
        if any(key not in schema.entities for key in keys):
            raise Refused(41)
        if len(set(keys)) < len(keys):
            raise Refused(44)
        entities = schema.closure(keys)
        if not internal and entities != set(keys):
            raise Refused(43)
        if any(schema.entities[e].abstract for e in schema.leaves(entities)):
            raise Refused(42)
        if schema.clashes(entities):
            raise Refused(58)
        types = {place: schema.type_at(entities, place) for e in entities for place in own_places(schema, e)}
        if TWO in types.values():
            raise Refused(55)
        rows = [schema.places(key) if internal else own_places(schema, key) for key in keys]
        if any(len(part.parameters) != len(places) for part, places in zip(parts, rows)):
            raise Refused(45)
        values = set()
        for part, places in zip(parts, rows):
            for parameter, place in zip(part.parameters, places):
                values.add((place, self.at_place(types[place], parameter)))
        return Meaning(frozenset(entities), frozenset(values))

    def at_place(self, found, parameter):
        """The value of a parameter at a place: `*` where it is derived, `$` where it is OPTIONAL, else what fits the type."""
        if found == DERIVED:
            if parameter != ("*",):
                raise Refused(48)
            return parameter
        optional, written = found
        if optional and parameter == ("$",):
            return parameter
        return self.of_type(written, parameter)

    def of_type(self, written, parameter):
        """The value of a parameter at a type. No type takes `$` or `*`."""
        if parameter == ("$",):
            raise Refused(46)
        if parameter == ("*",):
            raise Refused(47)
        match written:
            case ("name", name):
                return self.of_name(name, parameter)
            case ("ARRAY" | "LIST" | "SET" | "BAG", *_):
                return self.aggregate(written, parameter)
            case ("INTEGER",):
                return of_kind("whole", parameter)
            case ("REAL",):
                return of_kind("real", parameter)
            case ("NUMBER",):
                return number(parameter)
            case ("BOOLEAN",):
                return item(BOOLEANS, parameter)
            case ("LOGICAL",):
                return item(LOGICALS, parameter)
            case ("STRING", width):
                of_kind("text", parameter)
                return within(width, len(parameter[1]), parameter)
            case ("BINARY", width):
                of_kind("bits", parameter)
                return within(width, length_of_bits(parameter[1]), parameter)
        raise ValueError(written)

    def of_name(self, name, parameter):
        """The value of a parameter at an entity, a renamed type, an enumeration or a select."""
        if name in self.schema.entities:
            of_kind("name", parameter)
            self.needs.append(Need(parameter[1], frozenset([name])))
            return parameter
        body = self.schema.types[name]
        if body[0] == "ENUMERATION":
            return item(body[1], parameter)
        if body[0] == "SELECT":
            return self.choice(self.schema.offers(name), parameter)
        return self.of_type(body, parameter)

    def choice(self, offered, parameter):
        """The value of a parameter at a select: the name of an instance, or a value with the type that it names."""
        wanted = frozenset(offered & self.schema.entities.keys())
        match parameter:
            case ("name", target) if wanted:
                self.needs.append(Need(target, wanted))
                return parameter
            case ("typed", (_, key), within_it) if key in offered - wanted:
                return ("typed", key, self.of_type(("name", key), within_it))
        raise Refused(54)

    def aggregate(self, written, parameter):
        """The value of a list: first how many elements there are, then each element, then whether they differ."""
        word, low, high, optional, unique, element = written
        elements = of_kind("list", parameter)[1]
        least, most = (high - low + 1, high - low + 1) if word == "ARRAY" else (low, high)
        if len(elements) < least or (most is not None and len(elements) > most):
            raise Refused(51)
        values = [x if optional and x == ("$",) else self.of_type(element, x) for x in elements]
        stored = [x for x in values if x != ("$",)]
        if (unique or word == "SET") and len(set(stored)) < len(stored):
            raise Refused(52)
        if word == "SET":
            return ("set", frozenset(values))
        if word == "BAG":
            return ("bag", frozenset(Counter(values).items()))
        return (word.lower(), tuple(values))


def own_places(schema, entity):
    """The places that an entity declares itself."""
    return [(entity, attribute) for attribute in schema.entities[entity].own]


def of_kind(kind, parameter):
    """The parameter, which is of this kind."""
    if parameter[0] != kind:
        raise Refused(49)
    return parameter


def number(parameter):
    """An integer or a real at a NUMBER: its ratio, whose exponent is in range."""
    match parameter:
        case ("real", ratio):
            return ("number", ratio)
        case ("whole", digits):
            return ("number", scalars.ratio_of_whole(digits))
    raise Refused(49)


def item(items, parameter):
    """An item, which is one of these."""
    of_kind("item", parameter)
    if parameter[1] not in items:
        raise Refused(53)
    return parameter


def within(width, length, parameter):
    """A string or a binary of this length: it has at most as many characters or bits as its width, with FIXED exactly."""
    if width is not None:
        most, fixed = width
        if length > most or (fixed and length != most):
            raise Refused(50)
    return parameter


def length_of_bits(spelled):
    """How many bits a binary has: four for each hex digit, less those put at the left."""
    return 4 * (len(spelled) - 1) - int(spelled[0])


def is_served(need, entities):
    """May an instance with this set stand where the need wants one?"""
    return not need.wanted.isdisjoint(entities)
