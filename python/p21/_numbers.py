"""The numbers of the refusals: making/make-refusals makes this file of docs/FAULTS.md. Edit the document, and not this file."""

import enum


class RefusalNumber(enum.IntEnum):
    """The numbers of the refusals of files, which docs/FAULTS.md explains.

    >>> RefusalNumber.NOT_DISTINCT
    <RefusalNumber.NOT_DISTINCT: 52>
    >>> print(RefusalNumber.NOT_DISTINCT)
    52
    """

    BAD_BYTE = 1
    OPEN_STRING = 2
    OPEN_COMMENT = 3
    BAD_DIRECTIVE = 4
    BAD_CODE_POINT = 5
    NOT_UTF8 = 6
    BAD_NUMBER = 7
    NUMBER_RANGE = 8
    BAD_BINARY = 9
    NAME_RANGE = 10
    BAD_NAME = 11
    UNEXPECTED = 20
    TOO_DEEP = 21
    RECORD_TOO_LONG = 22
    FILE_TOO_LONG = 23
    ENDS_EARLY = 24
    AFTER_END = 25
    LEFT_OUT = 26
    CANONICAL_TOO_LONG = 27
    HEADER_SHAPE = 30
    SCHEMA_NAME = 31
    SECTION_SHAPE = 32
    SECTION_TWICE = 33
    DUPLICATE_NAME = 40
    UNKNOWN_ENTITY = 41
    ABSTRACT = 42
    PART_MISSING = 43
    PART_TWICE = 44
    COUNT = 45
    MISSING = 46
    STAR_NOT_DERIVED = 47
    DERIVED_NOT_STAR = 48
    WRONG_KIND = 49
    WIDTH = 50
    BOUNDS = 51
    NOT_DISTINCT = 52
    UNKNOWN_ITEM = 53
    SELECT_TYPE = 54
    TWO_REDECLARATIONS = 55
    DANGLING = 56
    WRONG_TARGET = 57
    ONE_OF = 58
    ALIKE = 59
    NO_MEMORY = 90

    __str__ = int.__repr__


class SchemaRefusalNumber(enum.IntEnum):
    """The numbers of the refusals of schemas, S1 to S9.

    >>> SchemaRefusalNumber(5).name
    'CIRCULAR'
    """

    TOKEN = 1
    SYNTAX = 2
    DUPLICATE = 3
    UNKNOWN_NAME = 4
    CIRCULAR = 5
    LEFT_OUT = 6
    BOUNDS = 7
    REDECLARED_PLACE = 8
    TOO_LARGE = 9

    __str__ = int.__repr__


# What is left out, where the number is that of LeftOut.
ABSENT = {
    1: "UserKeyword",
    2: "Scope",
    3: "ConstantName",
    4: "ValueName",
    5: "Anchor",
    6: "Reference",
    7: "Signature",
    8: "SecondSection",
    9: "NoDataSection",
}
