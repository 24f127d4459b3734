"""Statements: which tokens are the statements of a file, and at which token they are refused.

A parameter is a scalar, as in scalars.py, or one of

    ("list", parameters)
    ("typed", key, parameter)

and a key is ("keyword", word) or ("user keyword", word).
"""

from typing import NamedTuple

from .refusal import Refused
from .tokens import SCALARS

DEEPEST = 64
LEFT_OUT_SECTIONS = {"ANCHOR": "Anchor", "REFERENCE": "Reference", "SIGNATURE": "Signature"}


class Part(NamedTuple):
    """A keyword and its parameters: a header record, or one entity of an instance."""

    key: tuple
    parameters: tuple


class Line(NamedTuple):
    """A statement that begins or ends a section or the file: its spelling."""

    text: str


class Section(NamedTuple):
    """A data section with a name begins: its name and the text that names its schema."""

    name: str
    schema_text: str


class Instance(NamedTuple):
    """An instance by its name, in internal mapping (one part) or external mapping (a tuple of parts)."""

    name: int
    record: object


class Parser:
    """Gives the statements of a file, each when its `;` is taken. `number` is that of the statement that is open."""

    def __init__(self, tokens):
        self.tokens = tokens
        self.number = 1
        self.in_data = False

    def take(self, *kinds):
        """The next token, which is of one of these kinds. No user keyword stands in data."""
        token = next(self.tokens, None)
        if token is None or token.last:
            raise Refused(24)
        if self.in_data and token.kind == "user keyword":
            raise Refused(26, "UserKeyword")
        if token.kind not in kinds:
            raise Refused(20)
        return token

    def line(self, text):
        """The `;` of a statement that has no parameters."""
        self.take(";")
        return Line(text)

    def statements(self):
        """The statements of a file, in their order."""
        return self.numbered(self.file())

    def statements_in_data(self, named):
        """The statements of a file from within a data section on, which has a name or none."""
        self.in_data = True
        return self.numbered(self.behind_heading(named))

    def numbered(self, statements):
        """Statements, each with its number, and behind the last one nothing."""
        for statement in statements:
            yield statement
            self.number += 1
        for token in self.tokens:
            if (token.kind, token.value) == ("keyword", "SIGNATURE"):
                raise Refused(26, "Signature")
            raise Refused(25)

    def file(self):
        """ISO-10303-21; the header; the data sections; END-ISO-10303-21;"""
        self.take("Begin")
        yield self.line("ISO-10303-21;")
        self.section_word("HEADER")
        yield self.line("HEADER;")
        yield from self.header()
        yield from self.sections()
        yield self.line("END-ISO-10303-21;")

    def behind_heading(self, named):
        """The instances of a data section, and what stands behind it up to the end of the file."""
        yield from self.instances()
        if named:
            yield from self.sections(named)
        else:
            self.after_unnamed()
        yield self.line("END-ISO-10303-21;")

    def section_word(self, *words, finish=False):
        """A word that begins a section, or the end of the file where it may stand; sections that are left out are told."""
        token = self.take("keyword", "Finish")
        if token.kind == "keyword" and token.value in LEFT_OUT_SECTIONS:
            raise Refused(26, LEFT_OUT_SECTIONS[token.value])
        if token.kind == "Finish":
            if not finish:
                raise Refused(20)
            return None
        if token.value not in words:
            raise Refused(20)
        return token.value

    # The header

    def header(self):
        """Header records up to ENDSEC; FILE_DESCRIPTION, FILE_NAME and FILE_SCHEMA are the first three."""
        place = 0
        while True:
            token = self.take("keyword", "user keyword")
            ends = token == ("keyword", "ENDSEC", False)
            if self.take(*(["(", ";"] if ends else ["("])).kind == ";":
                if place < 3:
                    raise Refused(30)
                yield Line("ENDSEC;")
                return
            part = Part((token.kind, token.value), self.parameters(in_header=True))
            self.take(";")
            if not is_header_record(place, part):
                raise Refused(30)
            yield part
            place += 1

    # Data

    def sections(self, named=False):
        """One section without a name, or one or more with a name each; or the others behind one with a name."""
        while self.first_of_section(named) is not None:
            heading = yield from self.heading(named)
            named = heading is not None
            yield from self.instances()
            if not named:
                self.after_unnamed()
                return

    def first_of_section(self, named):
        """DATA; behind a section with a name the end of the file too. There is one data section at least."""
        word = self.section_word("DATA", finish=True)
        if word is None and not named:
            raise Refused(26, "NoDataSection")
        return word

    def after_unnamed(self):
        """Behind a section without a name no other one stands."""
        if self.section_word("DATA", finish=True) is not None:
            raise Refused(26, "SecondSection")

    def heading(self, named):
        """What stands behind DATA: `;`, or a name and the text of its schema."""
        if self.take("(", ";").kind == ";":
            if named:
                raise Refused(26, "SecondSection")
            self.in_data = True
            yield Line("DATA;")
            return None
        parameters = self.section_parameters()
        self.take(";")
        match parameters:
            case (("text", name), ("list", (("text", schema_text),))):
                self.in_data = True
                yield Section(name, schema_text)
                return name
        raise Refused(32)

    def section_parameters(self):
        """The parameters of a section with a name, among which no user keyword stands, though it has not begun yet."""
        self.in_data = True
        parameters = self.parameters()
        self.in_data = False
        return parameters

    def instances(self):
        """Instances up to ENDSEC."""
        while True:
            token = self.take("name", "keyword")
            if token.kind == "keyword":
                if token.value != "ENDSEC":
                    raise Refused(20)
                line = self.line("ENDSEC;")
                self.in_data = False
                yield line
                return
            self.take("=")
            record = self.record()
            self.take(";")
            yield Instance(token.value[1], record)

    def record(self):
        """One part; or parts in parentheses, one at least."""
        token = self.take("keyword", "(")
        if token.kind == "keyword":
            return self.part(token)
        parts = [self.part(self.take("keyword"))]
        while (token := self.take("keyword", ")")).kind == "keyword":
            parts.append(self.part(token))
        return tuple(parts)

    def part(self, token):
        """What stands behind the keyword of a part."""
        self.take("(")
        return Part((token.kind, token.value), self.parameters())

    # Parameters

    def parameters(self, depth=0, in_header=False):
        """Parameters with commas between, possibly none, up to the `)` of a `(` that is read."""
        begins = self.beginnings(in_header)
        token = self.take(*begins, ")")
        if token.kind == ")":
            return ()
        found = [self.parameter(token, depth, in_header)]
        while self.take(",", ")").kind == ",":
            found.append(self.parameter(self.take(*begins), depth, in_header))
        return tuple(found)

    @staticmethod
    def beginnings(in_header):
        """The kinds of tokens with which a parameter begins: in the header no name of an instance is among them."""
        kinds = [*SCALARS, "(", "keyword", "user keyword"]
        if in_header:
            kinds.remove("name")
        return kinds

    def parameter(self, token, depth, in_header):
        """A parameter that begins with this token. Lists and typed parameters stand in one another 64 deep at most."""
        if token.kind in SCALARS:
            return token.value
        if token.kind != "(":
            self.take("(")
        if depth == DEEPEST:
            raise Refused(21)
        if token.kind == "(":
            return ("list", self.parameters(depth + 1, in_header))
        within = self.parameter(self.take(*self.beginnings(in_header)), depth + 1, in_header)
        self.take(")")
        return ("typed", (token.kind, token.value), within)


def is_text(parameter):
    """A text or `$`."""
    return parameter[0] in ("text", "$")


def is_texts(parameter):
    """A list of texts or `$`, possibly of none."""
    return parameter == ("$",) or (parameter[0] == "list" and all(map(is_text, parameter[1])))


FIRST_KEYS = [("keyword", "FILE_DESCRIPTION"), ("keyword", "FILE_NAME"), ("keyword", "FILE_SCHEMA")]
FIRST_SHAPES = [[is_texts, is_text], [is_text, is_text, is_texts, is_texts, is_text, is_text, is_text]]


def is_header_record(place, part):
    """Is it the record of this place in a header? From the fourth on any record is, whose key is none of the first three."""
    if place >= 3:
        return part.key not in FIRST_KEYS
    if part.key != FIRST_KEYS[place]:
        return False
    if place == 2:
        match part.parameters:
            case (("list", (("text", _),)),):
                return True
        return False
    shape = FIRST_SHAPES[place]
    return len(part.parameters) == len(shape) and all(is_of(x) for is_of, x in zip(shape, part.parameters))
