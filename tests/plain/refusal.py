"""Refusals: docs/FAULTS.md has a section for each."""

# Made from docs/FAULTS.md by making/make-refusals, up to the mark of the end: edit the document.
NAMES = {
    1: "BadByte",
    2: "OpenString",
    3: "OpenComment",
    4: "BadDirective",
    5: "BadCodePoint",
    6: "NotUtf8",
    7: "BadNumber",
    8: "NumberRange",
    9: "BadBinary",
    10: "NameRange",
    11: "BadName",
    12: "NotOneParameter",
    20: "Unexpected",
    21: "TooDeep",
    22: "RecordTooLong",
    23: "FileTooLong",
    24: "EndsEarly",
    25: "AfterEnd",
    26: "LeftOut",
    27: "CanonicalTooLong",
    30: "HeaderShape",
    31: "SchemaName",
    32: "SectionShape",
    33: "SectionTwice",
    40: "DuplicateName",
    41: "UnknownEntity",
    42: "Abstract",
    43: "PartMissing",
    44: "PartTwice",
    45: "Count",
    46: "Missing",
    47: "StarNotDerived",
    48: "DerivedNotStar",
    49: "WrongKind",
    50: "Width",
    51: "Bounds",
    52: "NotDistinct",
    53: "UnknownItem",
    54: "SelectType",
    55: "TwoRedeclarations",
    56: "Dangling",
    57: "WrongTarget",
    58: "OneOf",
    59: "Alike",
}

SCHEMA_NAMES = {
    1: "Token",
    2: "Syntax",
    3: "Duplicate",
    4: "UnknownName",
    5: "Circular",
    6: "LeftOut",
    7: "Bounds",
    8: "RedeclaredPlace",
    9: "TooLarge",
}
# The end of what making/make-refusals makes.


class Refused(Exception):
    """A text is refused, by a number; 26 says too what is left out."""

    def __init__(self, number, left_out=None):
        super().__init__(number)
        self.number = number
        self.left_out = left_out

    def __str__(self):
        named = f"({self.left_out})" if self.left_out else ""
        return f"refused {self.number} {NAMES[self.number]}{named}"


class RefusedFile(Exception):
    """A file is refused, at a statement or in an instance."""

    def __init__(self, refused, place):
        super().__init__(f"{refused} {place}")


class ReadFault(Exception):
    """A read fails behind the bytes of a file that it gave."""

    def __init__(self):
        super().__init__("read fault")


class RefusedSchema(Exception):
    """The text of a schema is refused, by the number behind its S."""

    def __init__(self, number):
        super().__init__(f"schema refused S{number} {SCHEMA_NAMES[number]}")
        self.number = number
