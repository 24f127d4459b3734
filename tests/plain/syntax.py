"""What the standard says of a file by itself, without a schema: whether it is well formed, and what it says of itself."""

import collections
import re
import unicodedata

from .grammar import Instance, Parser, Part, Section
from .limits import USUAL
from .refusal import Refused, RefusedFile
from .tokens import tokens

# What the values of the first three records of a header say, in their order.
HEADER = {
    "FILE_DESCRIPTION": ("description", "implementation level"),
    "FILE_NAME": ("file name", "time stamp", "author", "organization", "preprocessor version", "originating system", "authorization"),
    "FILE_SCHEMA": ("schema",),
}
# Characters that turn the direction of others, by their classes and by themselves.
DIRECTIONS = {"LRE", "RLE", "LRO", "RLO", "PDF", "LRI", "RLI", "FSI", "PDI"}
MARKS = "\u061c\u200e\u200f"


class Alone:
    """The reading of one file by itself: the records of its header, the name of its schema, the names of its data sections, the
    names of its instances, their keywords with how often each stands, and its references, each with the instance that holds it."""

    def __init__(self):
        self.header = []
        self.keywords = collections.Counter()
        self.schema = None
        self.sections = set()
        self.names = set()
        self.references = []

    def read(self, data, limits):
        """Reads a file. A refusal names the statement that is open, or the instance that breaks a rule."""
        parser = Parser(tokens(data, limits))
        try:
            for statement in parser.statements():
                self.statement(statement)
        except Refused as refused:
            raise RefusedFile(refused, f"at statement {parser.number}") from None
        for holder, target in self.references:
            if target not in self.names:
                raise RefusedFile(Refused(56), f"in #{holder}")

    def statement(self, statement):
        """What a statement adds."""
        match statement:
            case Part():
                self.header_record(statement)
            case Section():
                self.section(statement)
            case Instance():
                self.instance(statement)

    def header_record(self, part):
        """FILE_SCHEMA begins with the name of the schema."""
        self.header.append(part)
        if part.key == ("keyword", "FILE_SCHEMA"):
            ((_, ((_, text),)),) = part.parameters
            if not re.match("[A-Za-z]", text):
                raise Refused(31)
            self.schema = schema_name(text)

    def section(self, section):
        """A data section with a name: its text names the schema, and its name is another one than those before."""
        if schema_name(section.schema_text) != self.schema:
            raise Refused(31)
        if section.name in self.sections:
            raise Refused(33)
        self.sections.add(section.name)

    def instance(self, statement):
        """An instance: its name is another one than those before in the whole file."""
        if statement.name in self.names:
            raise RefusedFile(Refused(40), f"in #{statement.name}")
        self.names.add(statement.name)
        parts = [statement.record] if isinstance(statement.record, Part) else statement.record
        self.keywords.update(word for _, word in (part.key for part in parts))
        self.references += [(statement.name, target) for part in parts for target in references(part.parameters)]


def schema_name(text):
    """The longest prefix of ASCII letters, digits and `_`, in upper case."""
    return re.match(r"[A-Za-z0-9_]*", text)[0].upper()


def references(parameters):
    """The names of instances in parameters, as they stand."""
    for parameter in parameters:
        match parameter:
            case ("name", target):
                yield target
            case ("list", within):
                yield from references(within)
            case ("typed", _, within):
                yield from references([within])


def texts(value):
    """The texts that a value of a header is: itself, or those of a list."""
    match value:
        case ("text", text):
            yield text
        case ("list", within):
            yield from (element[1] for element in within if element[0] == "text")


def shown(text):
    """A text on one line: what would break the line, or have a terminal do something, stands as its directive."""
    return "".join(shown_letter(letter) for letter in text)


def shown_letter(letter):
    """A letter as it stands, or as its directive."""
    if unicodedata.category(letter) in ("Cc", "Zl", "Zp") or unicodedata.bidirectional(letter) in DIRECTIONS or letter in MARKS:
        return f"\\X2\\{ord(letter):04X}\\X0\\"
    return letter


def header_lines(records):
    """A line for each text of the first three records of a header, and for each further one its keyword."""
    for (kind, word), values in records:
        if kind == "user keyword" or word not in HEADER:
            yield f"further record: {'!' if kind == 'user keyword' else ''}{word}"
        else:
            for said, value in zip(HEADER[word], values, strict=True):
                yield from (f"{said}: {shown(text)}" if text else f"{said}:" for text in texts(value))


def keyword_lines(keywords):
    """A line for each keyword, with how often it stands."""
    return (f"{word} {count}" for word, count in sorted(keywords.items()))


def read_alone(data, limits=USUAL):
    """A file by itself, within limits."""
    alone = Alone()
    alone.read(data, limits)
    return alone
