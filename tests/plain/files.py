"""What a file means under a schema, or the first refusal of it."""

import re
from dataclasses import dataclass, field

from . import canonical
from .grammar import Instance, Line, Parser, Part, Section
from .limits import USUAL
from .records import Check, is_served
from .refusal import Refused, RefusedFile
from .tokens import tokens


@dataclass
class FileMeaning:
    """The header's records; the data sections (None for one without a name); each instance's section and meaning.

    Two files mean the same exactly if these are equal.
    """

    header: list = field(default_factory=list)
    sections: set = field(default_factory=set)
    instances: dict = field(default_factory=dict)


def names_schema(text, schema):
    """Is the longest prefix of ASCII letters, digits and `_` the schema's name, without case?"""
    return re.match(r"[A-Za-z0-9_]*", text)[0].upper() == schema.name


class Reading:
    """The reading of one file. `needs` are its references in their order, each with the instance that holds it; `length` is
    how long the canonical lines of the statements are, each with its LF."""

    def __init__(self, schema, limits=USUAL):
        self.schema = schema
        self.limits = limits
        self.meaning = FileMeaning()
        self.section = None
        self.needs = []
        self.length = 0

    def read(self, data):
        """The meaning of a file. A refusal names the statement that is open, or the instance that breaks a rule."""
        parser = Parser(tokens(data, self.limits))
        try:
            for statement in parser.statements():
                self.statement(statement)
        except Refused as refused:
            raise RefusedFile(refused, f"at statement {parser.number}") from None
        for holder, need in self.needs:
            if need.target not in self.meaning.instances:
                raise RefusedFile(Refused(56), f"in #{holder}")
            if not is_served(need, self.meaning.instances[need.target][1].entities):
                raise RefusedFile(Refused(57), f"in #{holder}")
        return self.meaning

    def statement(self, statement):
        """What a statement adds to the meaning."""
        match statement:
            case Part():
                self.header_record(statement)
            case Section():
                self.named_section(statement)
            case Instance():
                self.instance(statement)
            case Line():
                self.line(statement)

    def line(self, line):
        """A line that begins or ends a section or the file; with one of them a section without a name begins."""
        if line.text == canonical.section_line(None):
            self.section = None
            self.meaning.sections.add(None)
        self.within(line.text)

    def within(self, text):
        """A canonical line is within the limit on lines, and all of them with their LFs within that on canonical files."""
        self.length += len(text) + 1
        if len(text) > self.limits.canonical_record or self.length > self.limits.canonical_file:
            raise Refused(27)

    def header_record(self, part):
        """A header record is kept as it is; FILE_SCHEMA names the schema."""
        if part.key == ("keyword", "FILE_SCHEMA"):
            ((_, ((_, text),)),) = part.parameters
            if not names_schema(text, self.schema):
                raise Refused(31)
        self.meaning.header.append(part)
        self.within(canonical.header_record(part))

    def named_section(self, section):
        """A data section with a name: its text names the schema, and its name is another one than those before."""
        if not names_schema(section.schema_text, self.schema):
            raise Refused(31)
        if any(section.name == other.name for other in self.meaning.sections):
            raise Refused(33)
        self.section = section
        self.meaning.sections.add(section)
        self.within(canonical.section_line(section))

    def instance(self, statement):
        """An instance: its name is another one than those before in the whole file, and its record has a meaning."""
        check = Check(self.schema)
        try:
            if statement.name in self.meaning.instances:
                raise Refused(40)
            meaning = check.record(statement.record)
        except Refused as refused:
            raise RefusedFile(refused, f"in #{statement.name}") from None
        self.meaning.instances[statement.name] = (self.section, meaning)
        self.needs += [(statement.name, need) for need in check.needs]
        self.within(canonical.instance(self.schema, statement.name, meaning))


def read_file(schema, data, limits=USUAL):
    """The meaning of a file under a schema, within limits."""
    return Reading(schema, limits).read(data)
