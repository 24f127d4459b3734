"""Schema texts, made by chance as lists of lexemes, and changes of them."""

from . import mutate, rows

ENTITIES = ["a", "b", "c", "d", "e", "END", "andor"]
TYPES = ["t", "u", "v", "w", "lf", "t_1"]
ATTRIBUTES = ["x", "y", "z", "k", "x1"]
SEPARATORS = [" "] * 20 + ["\n", "\r\n", "\t", " (* r (* n *) *) ", " -- r\n", "\x7f", "\x00", "(*'*)", "\n--\n"]
WORDS = """ABSTRACT AGGREGATE ARRAY BAG BASED_ON BINARY BOOLEAN CONSTANT DERIVE ENTITY ENUMERATION EXTENSIBLE FIXED FUNCTION
GENERIC GENERIC_ENTITY INTEGER INVERSE LIST LOGICAL NUMBER OF ONEOF OPTIONAL PROCEDURE REAL REFERENCE RENAMED RULE SCHEMA
SELECT SELF SET STRING SUBTYPE SUBTYPE_CONSTRAINT SUPERTYPE TYPE UNIQUE USE WHERE END_SCHEMA END_ENTITY END_TYPE END_FUNCTION
END_PROCEDURE END_RULE END_CONSTANT END_SUBTYPE_CONSTRAINT END END_USE FOR""".split()
SIGNS = list("()[]:;,=\\.?+-*/<>|_%{}") + ["'v'", "'it''s'", '"00000041"', "0", "1", "2", "4294967295", "4294967296", "00012", "(*", "*)", "--", "'", '"']


class Maker:
    """Makes the declarations of one schema, mostly right."""

    def __init__(self, chance):
        self.chance = chance
        self.entities = chance.sample(ENTITIES, chance.choice([0, 1, 2, 3, 4, 5]))
        self.types = chance.sample(TYPES, chance.choice([0, 0, 1, 2, 3]))
        self.selects = []
        self.own = {}
        self.supertypes = {}
        self.derived = {}
        if chance.random() < 0.04 and self.entities:
            self.entities.append(chance.choice([*self.entities, *self.types]))
        self.odd = chance.choice([0, 0, 0.03, 0.1])

    def is_odd(self):
        """Is something wrong here?"""
        return self.chance.random() < self.odd

    def name_of(self, names):
        """One of these names, in upper case or lower case; another one where something is wrong."""
        chance = self.chance
        if self.is_odd() or not names:
            names = [*ENTITIES, *TYPES, "nowhere"]
        found = chance.choice(names)
        return found.upper() if chance.random() < 0.1 else found

    def names(self, names, count):
        """Names in parentheses, which differ unless something is wrong."""
        chance = self.chance
        found = chance.sample(names, min(len(names), count)) or [self.name_of(names)]
        if self.is_odd():
            found.append(self.name_of(found))
        return ["(", *separated(found), ")"]

    def digits(self, least):
        """Digits of a bound or a width."""
        chance = self.chance
        if self.is_odd():
            return chance.choice(["0", "4294967295", "4294967296", "?", "n", "1+1", "-", "99999999999999999999", "1.5"])
        return chance.choice(["", "", "0", "00"]) + str(least + chance.choice([0, 1, 2, 3]))

    def bounds(self, of_array):
        """Bounds in brackets."""
        low = self.digits(0)
        high = "?" if not of_array and self.chance.random() < 0.5 else self.digits(int(low) if low.isdigit() else 1)
        return ["[", low, ":", high, "]"]

    def type(self, depth=0):
        """A type."""
        chance = self.chance
        kind = chance.randrange(12)
        if kind == 0 and depth < 3:
            return ["ARRAY", *self.bounds(True), "OF", *self.maybe("OPTIONAL"), *self.maybe("UNIQUE"), *self.type(depth + 1)]
        if kind == 1 and depth < 3:
            return ["LIST", *self.maybe(*self.bounds(False)), "OF", *self.maybe("UNIQUE"), *self.type(depth + 1)]
        if kind in (2, 3) and depth < 3:
            return [chance.choice(["SET", "BAG"]), *self.maybe(*self.bounds(False)), "OF", *self.type(depth + 1)]
        if kind in (4, 5, 6):
            return [self.name_of([*self.types, *self.entities])]
        if kind == 7:
            width = ["(", self.digits(1), ")", *self.maybe("FIXED")]
            return [chance.choice(["STRING", "BINARY"]), *self.maybe(*width)]
        if kind == 8:
            return ["REAL", *self.maybe("(", self.digits(0), ")")]
        return [chance.choice(["INTEGER", "REAL", "NUMBER", "BOOLEAN", "LOGICAL", "STRING", "BINARY"])]

    def maybe(self, *lexemes):
        """These lexemes or none."""
        return lexemes if self.chance.random() < 0.4 else ()

    def type_declaration(self, name):
        """A TYPE."""
        chance = self.chance
        match chance.randrange(4):
            case 0:
                body = ["ENUMERATION", "OF", *self.names(["red", "green", "blue", "r_2"], chance.randint(1, 3))]
            case 1 | 2:
                # A select in a select comes back unless the other one stands behind it.
                later = self.types[self.types.index(name) + 1 :] if name in self.types else self.types
                body = ["SELECT", *self.names([*later, *self.entities] or TYPES, chance.randint(1, 3))]
                self.selects.append(name)
            case 3:
                body = self.type()
        rules = ["WHERE", "w", ":", "TRUE", ";"] if chance.random() < 0.1 else []
        return ["TYPE", name, "=", *body, ";", *rules, "END_TYPE", ";"]

    def order(self, name, met):
        """The names of an entity and its supertypes."""
        if name not in met:
            met.append(name)
            for x in self.supertypes.get(name, []):
                self.order(x, met)
        return met

    def redeclared(self, name):
        """SELF, an entity and one of its attributes."""
        above = self.order(name, [])[1:]
        entity = self.name_of(above)
        attributes = [x for e in self.order(entity, []) for x in self.own.get(e, []) + self.derived.get(e, [])]
        return ["SELF", "\\", entity, ".", self.name_of(attributes) if attributes else "x"]

    def entity_declaration(self, name):
        """An ENTITY, whose supertypes are mostly among those in front of it."""
        chance = self.chance
        above = self.entities[: self.entities.index(name)] if name in self.entities else self.entities
        self.supertypes[name] = chance.sample(above, min(len(above), chance.choice([0, 1, 1, 2])))
        found = ["ENTITY", name, *self.supertype_words()]
        if self.supertypes[name]:
            listed = self.supertypes[name] + ([self.name_of(self.entities)] if self.is_odd() else [])
            found += ["SUBTYPE", "OF", "(", *separated(listed), ")"]
        found.append(";")
        self.own[name] = chance.sample(ATTRIBUTES, chance.choice([0, 1, 1, 2]))
        attributes = [[x] for x in self.own[name]]
        if self.is_odd() and attributes:
            attributes.append(chance.choice(attributes))
        while chance.random() < 0.3 and (self.supertypes[name] or self.is_odd()):
            attributes.insert(chance.randint(0, len(attributes)), self.redeclared(name))
        while attributes:
            some = [attributes.pop() for _ in range(min(len(attributes), chance.choice([1, 1, 2])))]
            found += [*separated(some), ":", *self.maybe("OPTIONAL"), *self.type(), ";"]
        found += self.derive(name) + self.rules()
        return [*found, "END_ENTITY", ";"]

    def supertype_words(self):
        """ABSTRACT and SUPERTYPE, mostly none."""
        match self.chance.randrange(10):
            case 0:
                return ["ABSTRACT"]
            case 1:
                return ["ABSTRACT", "SUPERTYPE"]
            case 2 | 3:
                listed = ["ONEOF", *self.names(self.entities, self.chance.randint(1, 3))]
                run = self.chance.choice([listed, listed, listed, [*listed, "ANDOR", "a"], ["(", *listed, ")"], [], ["USE", "1"]])
                return [*self.maybe("ABSTRACT"), "SUPERTYPE", "OF", "(", *run, ")"]
        return []

    def derive(self, name):
        """DERIVE, mostly none."""
        chance = self.chance
        if chance.random() > 0.25:
            return []
        found = ["DERIVE"]
        self.derived[name] = []
        for _ in range(chance.choice([0, 1, 1, 2])):
            if self.supertypes[name] and chance.random() < 0.7:
                attribute = self.redeclared(name)
            else:
                attribute = [chance.choice(["d", "d2", *ATTRIBUTES])]
                self.derived[name] += attribute
            found += [*attribute, ":", *self.type(), ":=", chance.choice(["1", "(a * b)", "'x'", "USE"]), ";"]
        return found

    def rules(self):
        """INVERSE, UNIQUE or WHERE, mostly none."""
        if self.chance.random() > 0.15:
            return []
        return [self.chance.choice(["INVERSE", "UNIQUE", "WHERE"]), "i", ":", "SET", "OF", "b", "FOR", "x", ";", "USE", "END_TYPE", ";"]

    def read_over(self):
        """A declaration that is read over."""
        word = self.chance.choice(["FUNCTION", "PROCEDURE", "RULE", "CONSTANT", "SUBTYPE_CONSTRAINT"])
        within = self.chance.choice([[], ["f", ":", "REAL", ";"], ["USE", "ENTITY", "a"], [word, "g", ";", "END_" + word, ";"], ["END_ENTITY"]])
        return [word, *within, "END_" + word, ";"]

    def schema(self):
        """The lexemes of the schema."""
        chance = self.chance
        declarations = [self.entity_declaration(x) for x in self.entities] + [self.type_declaration(x) for x in self.types]
        if chance.random() < 0.1:
            declarations.append(self.read_over())
        if chance.random() < 0.5:
            chance.shuffle(declarations)
        version = chance.choice([[]] * 9 + [["'v1'"]])
        return ["SCHEMA", "made", *version, ";", *(x for declaration in declarations for x in declaration), "END_SCHEMA", ";"]


def separated(names):
    """Names, or lists of lexemes, with commas between."""
    found = []
    for x in names:
        found += [",", x] if isinstance(x, str) else [",", *x]
    return found[1:]


def change(chance, lexemes):
    """One change of the lexemes."""
    found = list(lexemes)
    at, other = chance.randrange(len(found)), chance.randrange(len(found))
    match chance.randrange(7):
        case 0:
            del found[at]
        case 1:
            found.insert(at, found[other])
        case 2:
            found[at], found[other] = found[other], found[at]
        case 3:
            found[at] = found[other]
        case 4:
            found[at] = chance.choice(WORDS + SIGNS)
        case 5:
            found.insert(at, chance.choice(WORDS + SIGNS))
        case 6:
            found = found[: at + 1] if chance.random() < 0.3 else found[:at] + [chance.choice(SIGNS)] + found[at + 1 :]
    return found


def written(chance, lexemes):
    """The text of lexemes: separators stand between, and none where none is needed."""
    found = []
    plain = chance.random() < 0.3
    for lexeme in lexemes:
        if chance.random() < 0.1:
            lexeme = lexeme.lower() if chance.random() < 0.5 else lexeme.upper()
        wordlike = found and (found[-1][-1:].isalnum() or found[-1][-1:] == "_") and (lexeme[:1].isalnum() or lexeme[:1] == "_")
        if wordlike or (not plain and chance.random() < 0.7) or (found and found[-1][-1:] + lexeme[:1] in ("(*", "--", "''", '""')):
            found.append(" " if plain else chance.choice(SEPARATORS))
        found.append(lexeme)
    return "".join(found)


def schema_text(chance):
    """A schema text: one of the rows or a made one, changed or not."""
    if chance.random() < 0.35:
        text = chance.choice(rows.SCHEMA_TEXTS).encode("utf-8")
        changed = chance.random() < 0.8
        if changed and chance.random() < 0.6:
            return mutate.tokens_of(chance, text, [x.encode() for x in WORDS + SIGNS])
    else:
        lexemes = Maker(chance).schema()
        while chance.random() < 0.35:
            lexemes = change(chance, lexemes)
        text = written(chance, lexemes or ["x"]).encode("utf-8")
        changed = chance.random() < 0.15
    return mutate.bytes_of(chance, text) if changed else text


def sound_schema_text(chance):
    """A made schema text in which nothing is meant to be wrong; whether it is read is for a reader to say."""
    maker = Maker(chance)
    maker.odd = 0
    return written(chance, maker.schema()).encode("utf-8")
