"""Which values of a file are lengths, by its schema, and in which unit the file has them."""

# A length is what a type says that leads to LENGTH_MEASURE, or in IFC to IFCLENGTHMEASURE. Of lists those of three have a
# unit: a point of two coordinates may lie in the plane of the parameters of a surface. The unit is that of all contexts of
# a file; where these have several units of length, no value has one.

import re
from typing import Dict, List, Optional

from p21_plainly import unescaped
from p21_reading import Text
from p21_schemas import AGGREGATES, Outline

MEASURES = ("LENGTH_MEASURE", "IFCLENGTHMEASURE")
STRING = re.compile(r"'[^']*'")
ASSIGNED = re.compile(r"\b(?:GLOBAL_UNIT_ASSIGNED_CONTEXT|IFCUNITASSIGNMENT)\(\(([#\d,]*)\)\)")
OF_LENGTH = re.compile(r"\bLENGTH_UNIT\(|,\.LENGTHUNIT\.,")
METRE = re.compile(r"\b(?:SI_UNIT\(|IFCSIUNIT\(\*,\.LENGTHUNIT\.,)(?:\$|\.(\w+)\.),\.METRE\.\)")
CONVERTED = re.compile(r"\b(?:CONVERSION_BASED_UNIT\(|IFCCONVERSIONBASEDUNIT\(#\d+,\.LENGTHUNIT\.,)'((?:[^']|'')*)'")
PREFIXES = {
    "EXA": "E", "PETA": "P", "TERA": "T", "GIGA": "G", "MEGA": "M", "KILO": "k", "HECTO": "h", "DECA": "da", "DECI": "d",
    "CENTI": "c", "MILLI": "m", "MICRO": "µ", "NANO": "n", "PICO": "p", "FEMTO": "f", "ATTO": "a",
}  # fmt: skip
THREE = re.compile(r"\([^(),]+,[^(),]+,[^(),]+\)")


class Lengths:
    """Answers for the places of a schema."""

    def __init__(self, outline: Outline) -> None:
        self.outline = outline
        self.types: Dict[str, bool] = {}

    def at(self, entity: str, attribute: str) -> bool:
        """Are the values of an attribute lengths, which this entity declares?"""
        is_known = entity in self.outline.entities
        return is_known and self.leads_to_length(self.outline.type_of((), (entity, attribute)).split())

    def leads_to_length(self, words: List[str]) -> bool:
        """Does a type lead to a length whose words these are?"""
        at = 0
        while at < len(words) and words[at] in (*AGGREGATES, "OPTIONAL", "UNIQUE"):
            at = words.index("OF", at) + 1 if words[at] in AGGREGATES else at + 1
        return at < len(words) and self.is_length(words[at])

    def is_length(self, name: str) -> bool:
        """Is a named type one of lengths?"""
        if name not in self.types:
            self.types[name] = name in MEASURES
            if name in self.outline.types and not self.types[name]:
                self.types[name] = self.leads_to_length(self.outline.definition(name))
        return self.types[name]


class Units:
    """The units of length of a file, by the lines of its instances."""

    def __init__(self) -> None:
        self.lengths: Dict[str, str] = {}
        self.assigned: List[str] = []

    def hear(self, line: str) -> None:
        """The line of an instance, in which the word UNIT stands."""
        bare = STRING.sub("''", line)
        for names in ASSIGNED.findall(bare):
            self.assigned += names.split(",")
        if OF_LENGTH.search(bare):
            metre, converted = METRE.search(bare), CONVERTED.search(line)
            if metre:
                self.lengths[line.partition("=")[0]] = f"{PREFIXES.get(metre[1] or '', '')}m"
            elif converted:
                self.lengths[line.partition("=")[0]] = unescaped(converted[1]).lower()

    def length(self) -> Optional[str]:
        """The unit of lengths, where there is one alone."""
        found = {self.lengths[name] for name in self.assigned if name in self.lengths}
        return found.pop() if len(found) == 1 else None


def unit_of(data: Text) -> Optional[str]:
    """The unit of lengths of a canonical file."""
    found = Units()
    at = data.find(b"UNIT")
    while at >= 0:
        start, end = data.rfind(b"\n", 0, at) + 1, data.find(b"\n", at)
        found.hear(bytes(data[start:end]).decode("latin-1"))
        at = data.find(b"UNIT", end)
    return found.length()


def with_unit(value: str, plain: str, unit: Optional[str]) -> str:
    """A length as people write it, with its unit where it has one: a number, or three of them."""
    has_unit = unit and (THREE.fullmatch(value) if value.startswith("(") else value[:1] in "-0123456789")
    return f"{plain} {unit}" if has_unit else plain
