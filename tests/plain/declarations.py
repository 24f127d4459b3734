"""Declarations of EXPRESS: which lexemes are a schema, as it is written, and at which lexeme they are refused."""

from dataclasses import dataclass, field

from .lexemes import Lexeme, lexemes
from .refusal import RefusedSchema

LEFT_OUT = set("USE REFERENCE EXTENSIBLE BASED_ON GENERIC GENERIC_ENTITY AGGREGATE RENAMED".split())

RESERVED = LEFT_OUT | set(
    """ABSTRACT ARRAY BAG BINARY BOOLEAN CONSTANT DERIVE ENTITY ENUMERATION FIXED FUNCTION INTEGER INVERSE LIST LOGICAL
    NUMBER OF ONEOF OPTIONAL PROCEDURE REAL RULE SCHEMA SELECT SELF SET STRING SUBTYPE SUBTYPE_CONSTRAINT SUPERTYPE TYPE
    UNIQUE WHERE END_SCHEMA END_ENTITY END_TYPE END_FUNCTION END_PROCEDURE END_RULE END_CONSTANT
    END_SUBTYPE_CONSTRAINT""".split()
)

TEXT_LIMIT = 16_777_216
MOST_DECLARATIONS = 65_535
DEEPEST = 32
GREATEST = 4_294_967_295
OPERATORS = "+-*/.<>=|\\"
RULES = ("INVERSE", "UNIQUE", "WHERE")


@dataclass
class WrittenAttribute:
    """The name of an attribute, with the entity behind SELF where one stands."""

    name: str
    entity: str | None = None


@dataclass
class WrittenEntity:
    """An ENTITY as it is written. `explicit` has for each attribute whether it is OPTIONAL, and its type."""

    name: str
    abstract: bool = False
    one_of: list | None = None
    supertypes: list = field(default_factory=list)
    explicit: list = field(default_factory=list)
    derived: list = field(default_factory=list)


@dataclass
class WrittenType:
    """A TYPE as it is written; its body is ("ENUMERATION", items), ("SELECT", members) or a type."""

    name: str
    body: tuple


def is_name(lexeme):
    """An identifier that is none of the reserved words."""
    return lexeme.kind == "name" and lexeme.text not in RESERVED


class Reader:
    """Reads the lexemes of a schema, each when it is asked for: the first thing that is wrong in the text is refused."""

    def __init__(self, data):
        self.rest = lexemes(data)
        self.ahead = None

    def any(self):
        """The next lexeme, without taking it, wherever it stands; None at the end of the text."""
        if self.ahead is None:
            self.ahead = next(self.rest, None)
        return self.ahead

    def next(self):
        """The next lexeme outside of what is read over: a word that is left out is refused there."""
        found = self.any()
        if found is not None and found.kind == "name" and found.text in LEFT_OUT:
            raise RefusedSchema(6)
        return found

    def take(self):
        """The next lexeme, which is there."""
        found = self.next()
        if found is None:
            raise RefusedSchema(2)
        self.ahead = None
        return found

    def is_word(self, *words):
        """Is one of these words next?"""
        found = self.next()
        return found is not None and found.kind == "name" and found.text in words

    def is_sign(self, sign):
        """Is this sign next?"""
        return self.next() == Lexeme("sign", sign)

    def took(self, word):
        """Takes this word where it is next, and says whether it was."""
        if not self.is_word(word):
            return False
        self.take()
        return True

    def words(self, *words):
        """These words, one after another."""
        for word in words:
            if self.take() != Lexeme("name", word):
                raise RefusedSchema(2)

    def sign(self, sign):
        """This sign."""
        if self.take() != Lexeme("sign", sign):
            raise RefusedSchema(2)

    def name(self):
        """An identifier that may be a name."""
        found = self.take()
        if not is_name(found):
            raise RefusedSchema(2)
        return found.text

    def names(self):
        """Names with commas between, one at least, in parentheses."""
        self.sign("(")
        found = [self.name()]
        while self.is_sign(","):
            self.take()
            found.append(self.name())
        self.sign(")")
        return found

    def run(self, closing, opening=None):
        """What is read over: up to the lexeme with which the closing ones are one more than the opening ones, which stays."""
        open_ones = 0
        found = []
        while True:
            lexeme = self.any()
            if lexeme is None:
                raise RefusedSchema(2)
            if lexeme == closing:
                if open_ones == 0:
                    return found
                open_ones -= 1
            elif lexeme == opening:
                open_ones += 1
            found.append(lexeme)
            self.ahead = None

    # Types

    def number(self, least):
        """The digits of a bound or a width. Anything else where it begins is an expression."""
        found = self.next()
        if found is None:
            raise RefusedSchema(2)
        if found.kind != "digits":
            raise RefusedSchema(6)
        digits = self.take().text.lstrip("0") or "0"
        if len(digits) > 10 or not least <= int(digits) <= GREATEST:
            raise RefusedSchema(7)
        return int(digits)

    def behind_number(self):
        """Behind the digits an operator, or a word that may be a name, shows an expression."""
        found = self.next()
        if found is not None and (is_name(found) or (found.kind == "sign" and found.text in OPERATORS)):
            raise RefusedSchema(6)

    def width(self):
        """A width in parentheses, FIXED or not, or none."""
        if not self.is_sign("("):
            return None
        self.take()
        if self.is_sign("?"):
            raise RefusedSchema(2)
        most = self.number(1)
        self.behind_number()
        self.sign(")")
        return most, self.took("FIXED")

    def bounds(self, of_array):
        """Bounds in brackets. An upper bound may be `?`, but not that of an ARRAY."""
        self.sign("[")
        if self.is_sign("?"):
            raise RefusedSchema(7)
        low = self.number(0)
        self.behind_number()
        self.sign(":")
        if self.is_sign("?"):
            if of_array:
                raise RefusedSchema(7)
            self.take()
            high = None
        else:
            high = self.number(low)
        self.behind_number()
        self.sign("]")
        return low, high

    def precision(self):
        """The precision of a REAL, which does not count, or none."""
        if self.is_sign("("):
            self.take()
            if self.take().kind != "digits":
                raise RefusedSchema(2)
            self.sign(")")

    def type(self, depth=0):
        """A type: a tuple with its word in front, or ("name", name). Aggregates stand in one another 32 deep at most."""
        found = self.take()
        if is_name(found):
            return ("name", found.text)
        if found.kind != "name":
            raise RefusedSchema(2)
        match found.text:
            case "INTEGER" | "NUMBER" | "BOOLEAN" | "LOGICAL":
                return (found.text,)
            case "REAL":
                self.precision()
                return ("REAL",)
            case "STRING" | "BINARY":
                return (found.text, self.width())
            case "ARRAY" | "LIST" | "SET" | "BAG":
                if depth == DEEPEST:
                    raise RefusedSchema(9)
                return self.aggregate(found.text, depth + 1)
        raise RefusedSchema(2)

    def aggregate(self, word, depth):
        """What stands behind ARRAY, LIST, SET or BAG: (word, low, high, optional, unique, element)."""
        low, high = self.bounds(word == "ARRAY") if word == "ARRAY" or self.is_sign("[") else (0, None)
        self.words("OF")
        optional = word == "ARRAY" and self.took("OPTIONAL")
        unique = word in ("ARRAY", "LIST") and self.took("UNIQUE")
        return (word, low, high, optional, unique, self.type(depth))

    def type_declaration(self):
        """TYPE, of which the word is read, up to END_TYPE."""
        name = self.name()
        self.sign("=")
        if self.took("ENUMERATION"):
            self.words("OF")
            body = ("ENUMERATION", self.names())
        elif self.took("SELECT"):
            if self.next() is not None and not self.is_sign("("):
                raise RefusedSchema(6)
            body = ("SELECT", self.names())
        else:
            body = self.type()
        self.sign(";")
        if self.took("WHERE"):
            self.run(Lexeme("name", "END_TYPE"))
        self.words("END_TYPE")
        self.sign(";")
        return WrittenType(name, body)

    # Entities

    def entity_declaration(self):
        """ENTITY, of which the word is read, up to END_ENTITY."""
        entity = WrittenEntity(self.name())
        self.supertype_words(entity)
        if self.took("SUBTYPE"):
            self.words("OF")
            entity.supertypes = self.names()
        self.sign(";")
        while not self.is_word("DERIVE", "END_ENTITY", *RULES):
            entity.explicit += self.explicit()
        if self.took("DERIVE"):
            while not self.is_word("END_ENTITY", *RULES):
                entity.derived.append(self.derived())
        if self.is_word(*RULES):
            self.take()
            self.run(Lexeme("name", "END_ENTITY"))
        self.words("END_ENTITY")
        self.sign(";")
        return entity

    def supertype_words(self, entity):
        """ABSTRACT; ABSTRACT SUPERTYPE; SUPERTYPE OF and what stands in parentheses, with ABSTRACT or without; or nothing."""
        entity.abstract = self.took("ABSTRACT")
        if not self.took("SUPERTYPE"):
            return
        if entity.abstract and not self.is_word("OF"):
            return
        self.words("OF")
        self.sign("(")
        entity.one_of = one_of(self.run(Lexeme("sign", ")"), Lexeme("sign", "(")))
        self.sign(")")

    def attribute(self):
        """The name of an attribute, or SELF, an entity and a name."""
        if not self.took("SELF"):
            return WrittenAttribute(self.name())
        self.sign("\\")
        entity = self.name()
        self.sign(".")
        return WrittenAttribute(self.name(), entity)

    def explicit(self):
        """Explicit attributes of one type: each with whether it is OPTIONAL, and the type."""
        attributes = [self.attribute()]
        while self.is_sign(","):
            self.take()
            attributes.append(self.attribute())
        self.sign(":")
        optional = self.took("OPTIONAL")
        written = self.type()
        self.sign(";")
        return [(attribute, optional, written) for attribute in attributes]

    def derived(self):
        """A derived attribute; what stands behind its colon is read over up to the next `;`."""
        attribute = self.attribute()
        self.sign(":")
        self.run(Lexeme("sign", ";"))
        self.sign(";")
        return attribute

    # The schema

    def read_over(self, word):
        """A declaration that is read over: FUNCTION and PROCEDURE may stand in themselves, the others may not."""
        nests = word in ("FUNCTION", "PROCEDURE")
        self.run(Lexeme("name", "END_" + word), Lexeme("name", word) if nests else None)
        self.words("END_" + word)
        self.sign(";")

    def schema(self):
        """SCHEMA, its name and version, the declarations, END_SCHEMA, and nothing behind."""
        self.words("SCHEMA")
        name = self.name()
        found = self.next()
        if found is not None and found.kind == "text":
            self.take()
        self.sign(";")
        declarations = []
        while not self.took("END_SCHEMA"):
            word = self.take()
            match word:
                case ("name", "ENTITY" | "TYPE"):
                    if len(declarations) == MOST_DECLARATIONS:
                        raise RefusedSchema(9)
                    is_entity = word.text == "ENTITY"
                    declarations.append(self.entity_declaration() if is_entity else self.type_declaration())
                case ("name", "FUNCTION" | "PROCEDURE" | "RULE" | "CONSTANT" | "SUBTYPE_CONSTRAINT"):
                    self.read_over(word.text)
                case _:
                    raise RefusedSchema(2)
        self.sign(";")
        if self.next() is not None:
            raise RefusedSchema(2)
        return name, declarations


def one_of(run):
    """The names of a run that is ONEOF and names with commas between in parentheses, and nothing else; None of another."""
    if len(run) < 4 or run[0] != ("name", "ONEOF") or run[1] != ("sign", "(") or run[-1] != ("sign", ")"):
        return None
    within = run[2:-1]
    names, commas = within[::2], within[1::2]
    if len(names) != len(commas) + 1 or not all(map(is_name, names)) or any(x != ("sign", ",") for x in commas):
        return None
    return [x.text for x in names]


def read_declarations(data):
    """The name and the declarations of a schema text."""
    if len(data) > TEXT_LIMIT:
        raise RefusedSchema(9)
    return Reader(data).schema()
