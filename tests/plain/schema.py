"""The schema that a text declares: its names resolved, its order, places and types.

A place is (entity, attribute): an explicit attribute by its name and the entity that declares it. A type is as it is
written: ("name", name) is an entity or a TYPE.
"""

from dataclasses import dataclass, field

from .declarations import WrittenEntity, read_declarations
from .refusal import RefusedSchema

DERIVED = "derived"
TWO = "two redeclarations"


@dataclass
class Entity:
    """An entity: its own attributes and those that it redeclares have for each whether it is OPTIONAL, and its type."""

    name: str
    abstract: bool
    supertypes: list
    own: dict = field(default_factory=dict)
    redeclared: dict = field(default_factory=dict)
    derived: set = field(default_factory=set)


def is_distinct(names):
    """Is no name twice among these?"""
    return len(set(names)) == len(names)


def names_in(written):
    """The names in a type."""
    if written[0] == "name":
        return [written[1]]
    return names_in(written[5]) if written[0] in ("ARRAY", "LIST", "SET", "BAG") else []


class Schema:
    """A schema, made from its declarations. The checks come one after another, each over the whole schema."""

    def __init__(self, name, declarations):
        self.name = name
        self.written = [x for x in declarations if isinstance(x, WrittenEntity)]
        written_types = [x for x in declarations if not isinstance(x, WrittenEntity)]
        self.types = {x.name: x.body for x in written_types}
        self.entities = {x.name: Entity(x.name, x.abstract, x.supertypes) for x in self.written}
        self.one_of = [x.one_of for x in self.written if x.one_of is not None]
        for x in self.written:
            own = [(a.name, (optional, type)) for a, optional, type in x.explicit if a.entity is None]
            self.entities[x.name].own = dict(own)
        self.no_duplicates([x.name for x in declarations], written_types)
        self.known_names()
        self.no_circles()
        self.no_renamed_selects()
        self.redeclare()

    # The checks of declarations

    def no_duplicates(self, names, written_types):
        """S3: a name is twice where it can be once, or a place is redeclared twice in an entity."""
        lists = [names, *self.one_of]
        lists += [body[1] for body in (x.body for x in written_types) if body[0] in ("ENUMERATION", "SELECT")]
        for x in self.written:
            attributes = [a for a, _, _ in x.explicit] + x.derived
            lists += [x.supertypes, [a.name for a in attributes if a.entity is None]]
            redeclared = [self.place(a) for a in attributes if a.entity is not None]
            lists.append([place for place in redeclared if place is not None])
        if not all(map(is_distinct, lists)):
            raise RefusedSchema(3)

    def known_names(self):
        """S4: a name is not declared, a supertype or a name of a ONEOF is no entity, or a TYPE is just that of an entity."""
        for x in self.written:
            attributes = [a for a, _, _ in x.explicit] + x.derived
            self.are_known(a.entity for a in attributes if a.entity is not None)
            for _, _, written in x.explicit:
                self.are_known(names_in(written))
            self.are_entities(x.supertypes)
        for names in self.one_of:
            self.are_entities(names)
        for body in self.types.values():
            if body[0] == "SELECT":
                self.are_known(body[1])
            elif body[0] != "ENUMERATION":
                self.are_known(names_in(body))
            if body[0] == "name" and body[1] in self.entities:
                raise RefusedSchema(4)

    def are_known(self, names):
        """Each is an entity or a TYPE."""
        if any(x not in self.entities and x not in self.types for x in names):
            raise RefusedSchema(4)

    def are_entities(self, names):
        """Each is an entity."""
        if any(x not in self.entities for x in names):
            raise RefusedSchema(4)

    def no_circles(self):
        """S5: supertypes, names that a TYPE just is, or selects in selects come back; the three are apart."""
        supertypes = {x.name: x.supertypes for x in self.written}
        renamed = {name: [body[1]] for name, body in self.types.items() if body[0] == "name"}
        selects = {name: body[1] for name, body in self.types.items() if body[0] == "SELECT"}
        if any(map(comes_back, (supertypes, renamed, selects))):
            raise RefusedSchema(5)

    def no_renamed_selects(self):
        """S6: a TYPE is just the name of a SELECT."""
        for body in self.types.values():
            if body[0] == "name" and self.types[body[1]][0] == "SELECT":
                raise RefusedSchema(6)

    def redeclare(self):
        """S8: each redeclared attribute stands for a place of a proper supertype; or it derives none, where one derives it."""
        for x in self.written:
            entity = self.entities[x.name]
            for a, optional, written in x.explicit:
                if a.entity is not None:
                    entity.redeclared[self.redeclared_place(x.name, a)] = (optional, written)
            for a in x.derived:
                if a.entity is not None and not self.derives_nothing(x.name, a):
                    entity.derived.add(self.redeclared_place(x.name, a))

    def redeclared_place(self, name, attribute):
        """The place that a redeclaration of this entity stands for."""
        place = self.place(attribute)
        if place is None or not self.is_proper_supertype(name, attribute.entity):
            raise RefusedSchema(8)
        return place

    def derives_nothing(self, name, attribute):
        """Has the supertype no place of this name, while it or a supertype of it derives an attribute of this name?"""
        if not self.is_proper_supertype(name, attribute.entity) or self.places_named(attribute.entity, attribute.name):
            return False
        order = self.order(attribute.entity)
        return any(
            a.entity is None and a.name == attribute.name for x in self.written if x.name in order for a in x.derived
        )

    def is_proper_supertype(self, name, supertype):
        """Is this a supertype of the entity, and another entity than it?"""
        return supertype != name and supertype in self.order(name)

    def places_named(self, entity, name):
        """The places of this name in the order of an entity."""
        return [(e, name) for e in self.order(entity) if name in self.entities[e].own]

    def place(self, attribute):
        """The place behind SELF: the one that the entity declares itself, else the only one in its order, else none."""
        if attribute.entity not in self.entities:
            return None
        if attribute.name in self.entities[attribute.entity].own:
            return (attribute.entity, attribute.name)
        found = self.places_named(attribute.entity, attribute.name)
        return found[0] if len(found) == 1 else None

    # What the schema says of entities and sets

    def order(self, name):
        """The orders of the supertypes as listed, then the entity: each entity at its first occurrence."""
        found = []
        self.walk(name, set(), found)
        return found

    def walk(self, name, met, found):
        """Appends the order of an entity; one that is met already, or is not declared, is passed by."""
        if name in met or name not in self.entities:
            return
        met.add(name)
        for supertype in self.entities[name].supertypes:
            self.walk(supertype, met, found)
        found.append(name)

    def is_a(self, name, supertype):
        """Is the second entity the first, or a supertype of it?"""
        return supertype in self.order(name)

    def places(self, name):
        """The places of an entity: the explicit attributes of its order, redeclarations apart."""
        return [(e, attribute) for e in self.order(name) for attribute in self.entities[e].own]

    def closure(self, names):
        """The entities and all supertypes of them."""
        return {e for name in names for e in self.order(name)}

    def leaves(self, entities):
        """The members of a set that are no supertype of another member."""
        return [e for e in entities if not any(self.is_a(other, e) for other in entities if other != e)]

    def type_at(self, entities, place):
        """What stands at a place of an instance with this set: DERIVED, TWO, or whether it is OPTIONAL, and its type."""
        if any(place in self.entities[e].derived for e in entities):
            return DERIVED
        redeclaring = [e for e in entities if place in self.entities[e].redeclared]
        if not redeclaring:
            return self.entities[place[0]].own[place[1]]
        deciding = [e for e in redeclaring if all(self.is_a(e, other) for other in redeclaring)]
        return self.entities[deciding[0]].redeclared[place] if deciding else TWO

    def clashes(self, entities):
        """Does the set hold two entities of one ONEOF list?"""
        return any(sum(e in entities for e in names) > 1 for names in self.one_of)

    def offers(self, select):
        """The entities and the types that a SELECT offers, with those of selects in it, which are none themselves."""
        found = set()
        for name in self.types[select][1]:
            if name in self.types and self.types[name][0] == "SELECT":
                found |= self.offers(name)
            else:
                found.add(name)
        return found

    def listing(self):
        """The name of the schema; then each entity with its attributes, `*` for one that it derives."""
        lines = [f"SCHEMA {self.name}"]
        for name, entity in self.entities.items():
            own_set = self.order(name)
            names = ["*" if self.type_at(own_set, x) == DERIVED else x[1] for x in self.places(name)]
            lines.append(f"{'ABSTRACT ' if entity.abstract else ''}{name}({','.join(names)})")
        return lines


def comes_back(steps):
    """Does some chain of these steps come back? Where none does, taking away what leads nowhere takes away all."""
    left = {name: set(names) for name, names in steps.items()}
    while True:
        ends = [name for name, names in left.items() if not names & left.keys()]
        if not ends:
            return bool(left)
        for name in ends:
            del left[name]


def read_schema(data):
    """The schema that a text declares."""
    return Schema(*read_declarations(data))
