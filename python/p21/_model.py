"""The instances of a file with their values, and what a schema declares, as objects."""

import ctypes
import importlib
import re
import sqlite3
import threading
from typing import Any, Callable, Dict, Iterator, List, NamedTuple, Optional, Sequence, Tuple, Union

from p21._library import DONE, LIBRARY, REFUSED, AttributeStruct, Handle, LineStruct, ReportStruct, SpanStruct, TypeStruct, UseStruct, judge
from p21._schema import Schema, SchemaOrPath, schema_of
from p21._session import Accepted, accept
from p21._source import Path, Source

# The kinds of aggregates by the numbers of their types.
AGGREGATES = {9: "ARRAY", 10: "LIST", 11: "SET", 12: "BAG"}
DIRECTIVE = re.compile(r"''|\\\\|\\X2\\([0-9A-F]{4})\\X0\\|\\X4\\([0-9A-F]{8})\\X0\\")
# A value up to where it ends: a text, an item, bits, a number, a name, `$`, `*`; or a keyword or nothing in front of a parenthesis, or
# one that closes. Commas are passed over.
TOKEN = re.compile(r"'(?:[^']|'')*'|\.[A-Z0-9_]+\.|\"[0-9A-F]*\"|#[0-9]+|-?[0-9]+(?:\.[0-9]*(?:E-?[0-9]+)?)?|[$*)]|[A-Z0-9_!-]*\(")


class Enum(str):
    """The item of an enumeration, of a BOOLEAN or of a LOGICAL, without its points.

    >>> p21.Enum("RED")
    .RED.
    """

    __slots__ = ()

    def __repr__(self) -> str:
        return f".{self}."


class Bits(str):
    """A binary, as it is spelled: the number of bits left out of the first digit, and the digits."""

    __slots__ = ()

    def __repr__(self) -> str:
        return f'"{self}"'


class _Derived:
    """The value of a derived attribute."""

    __slots__ = ()

    def __repr__(self) -> str:
        return "*"


DERIVED = _Derived()
"""What stands at a derived attribute: `*`."""


class Aggregate(Tuple[Any, ...]):
    """The elements of an aggregate, in the order of the canonical file.

    Attributes:
        kind: ``ARRAY``, ``LIST``, ``SET`` or ``BAG``; None where the schema doesn't say it of the attribute, as in a SELECT.
    """

    kind: Optional[str]


class Typed(NamedTuple):
    """A value that stands with the keyword of its type."""

    type: str
    value: Any


class Attribute(NamedTuple):
    """An attribute of an instance."""

    name: str
    entity: str
    value: Any


class Use(NamedTuple):
    """An instance that refers to another one, and the attribute whose value has the name of that."""

    instance: "Instance"
    entity: str
    attribute: str


class EntityAttribute(NamedTuple):
    """An attribute that an entity has."""

    name: str
    entity: str
    optional: bool
    derived: bool


class Entity(NamedTuple):
    """An entity of a schema. The attributes are those of a record: of its supertypes first."""

    name: str
    is_abstract: bool
    supertypes: Tuple[str, ...]
    attributes: Tuple[EntityAttribute, ...]


class Placed(NamedTuple):
    """An attribute where it stands in a record, with the kinds of its aggregates from the outermost one on."""

    name: str
    entity: str
    kinds: Tuple[str, ...]


def _text(span: SpanStruct) -> str:
    return ctypes.string_at(span.bytes, span.length).decode("ascii")


class _Names:
    """What a schema declares, by its numbers. Each name is asked for once."""

    def __init__(self, schema: Schema) -> None:
        self._handle = Handle()
        schema._share(self._handle)
        span, entities, types = SpanStruct(), ctypes.c_uint32(), ctypes.c_uint32()
        judge(LIBRARY.p21_schema_declares(self._handle, span, entities, types), ReportStruct())
        self.name = _text(span)
        self.names: List[str] = []
        self.own: List[List[str]] = []
        for number in range(entities.value):
            abstract, attributes = ctypes.c_uint8(), ctypes.c_uint32()
            judge(LIBRARY.p21_entity_declares(self._handle, number, span, abstract, attributes), ReportStruct())
            self.names.append(_text(span))
            self.own.append([self._attribute(number, index) for index in range(attributes.value)])
        self.numbers = {name: number for number, name in enumerate(self.names)}
        self._placed: Dict[Tuple[int, int], Placed] = {}
        self._of_records: Dict[str, List[Placed]] = {}
        self._orders: Dict[int, Tuple[int, ...]] = {}

    def __del__(self) -> None:
        if hasattr(self, "_handle"):
            LIBRARY.p21_schema_free(self._handle)

    def _attribute(self, entity: int, index: int) -> str:
        span = SpanStruct()
        judge(LIBRARY.p21_attribute_name(self._handle, entity, index, span), ReportStruct())
        return _text(span)

    def _listed(self, call: Any, entity: int) -> Tuple[int, ...]:
        room, count = (ctypes.c_uint32 * (len(self.names) + 1))(), ctypes.c_size_t()
        judge(call(self._handle, entity, room, len(room), count), ReportStruct())
        return tuple(room[: count.value])

    def number(self, name: str) -> int:
        """The number of the entity of this name, in whatever case it is."""
        found = self.numbers.get(name.upper())
        if found is None:
            raise KeyError(f"p21: the schema {self.name} has no entity {name}")
        return found

    def order(self, entity: int) -> Tuple[int, ...]:
        """An entity and all above it, in the order of a record."""
        if entity not in self._orders:
            self._orders[entity] = self._listed(LIBRARY.p21_entity_order, entity)
        return self._orders[entity]

    def place(self, entity: int, index: int) -> "Placed":
        """The attribute of this number of an entity."""
        key = (entity, index)
        if key not in self._placed:
            kinds: List[str] = []
            told = TypeStruct()
            while LIBRARY.p21_attribute_type(self._handle, entity, entity, index, len(kinds), told) == DONE and told.kind in AGGREGATES:
                kinds.append(AGGREGATES[told.kind])
            self._placed[key] = Placed(self.own[entity][index], self.names[entity], tuple(kinds))
        return self._placed[key]

    def places(self, keyword: str) -> "List[Placed]":
        """The attributes of a record of an entity, in their order."""
        if keyword not in self._of_records:
            order = self.order(self.numbers[keyword])
            self._of_records[keyword] = [self.place(owner, index) for owner in order for index in range(len(self.own[owner]))]
        return self._of_records[keyword]

    def entity(self, name: str) -> Entity:
        """An entity by its name."""
        number = self.number(name)
        span, abstract, own, told = SpanStruct(), ctypes.c_uint8(), ctypes.c_uint32(), TypeStruct()
        judge(LIBRARY.p21_entity_declares(self._handle, number, span, abstract, own), ReportStruct())
        attributes = []
        for owner in self.order(number):
            for index, of in enumerate(self.own[owner]):
                is_told = LIBRARY.p21_attribute_type(self._handle, number, owner, index, 0, told) == DONE
                attributes.append(EntityAttribute(of, self.names[owner], is_told and told.optional == 1, is_told and told.kind == 13))
        supertypes = self._listed(LIBRARY.p21_entity_supertypes, number)
        return Entity(self.names[number], abstract.value == 1, tuple(self.names[x] for x in supertypes), tuple(attributes))


def entity_of(schema: Schema, name: str) -> Entity:
    """What a schema declares of an entity, in whatever case its name is."""
    return _Names(schema).entity(name)


def entities_of(schema: Schema) -> Tuple[str, ...]:
    """The names of the entities that a schema declares, in their order."""
    return tuple(_Names(schema).names)


def _characters(spelled: str) -> str:
    """The characters of a text, by what stands between its apostrophes."""
    if "'" not in spelled and "\\" not in spelled:
        return spelled
    return DIRECTIVE.sub(lambda it: chr(int(it[1] or it[2], 16)) if it[1] or it[2] else it[0][0], spelled)


class Instance:
    """An instance of a file: its attributes are those of the object, in upper case, and ``repr`` is its statement.

    Two of them are equal where both have the same name and mean the same under the same schema.

    >>> first = p21.read(schema, point)[1]
    >>> first.type, first.X, first
    ('POINT', 0.5, #1=POINT(5.E-1,1.);)
    """

    __slots__ = ("_model", "_told", "name")

    def __init__(self, model: "Model", name: int, told: Optional[bytes] = None) -> None:
        self._model = model
        self.name = name
        self._told = told

    @property
    def _line(self) -> bytes:
        # A reference has no line until it is asked for.
        if self._told is None:
            self._told = self._model[self.name]._line
        return self._told

    @property
    def line(self) -> str:
        """Its canonical statement."""
        return self._line.decode("ascii")

    @property
    def entities(self) -> Tuple[str, ...]:
        """The names of the entities of its set."""
        names = self._model._names
        return tuple(names.names[number] for number in self._model._set(self.name))

    @property
    def type(self) -> str:
        """The keyword of its record; of one with several keywords all of them, with `+` between."""
        behind = self._line.partition(b"=")[2].decode("ascii")
        return "+".join(self.entities) if behind.startswith("(") else behind.partition("(")[0]

    @property
    def section(self) -> str:
        """The line with which its data section begins."""
        return self._model._section(self.name)

    def attributes(self) -> List[Attribute]:
        """Its attributes with their values, in the order of its record."""
        return self._model._attributes(self.name, self._line.decode("ascii"))

    def is_a(self, entity: str) -> bool:
        """Whether the set of its entities has this one."""
        return entity.upper() in self.entities

    def references(self) -> List["Instance"]:
        """The instances that it refers to, in the order of its record, each as often as it has its name."""
        return [target for attribute in self.attributes() for target in _targets(attribute.value)]

    def users(self) -> List[Use]:
        """The instances that refer to it, with the attribute."""
        return self._model.users(self.name)

    def __getattr__(self, name: str) -> Any:
        if name.startswith("_"):
            raise AttributeError(name)
        found = [attribute for attribute in self.attributes() if attribute.name == name.upper()]
        if len(found) == 1:
            return found[0].value
        said = "has no attribute" if not found else "has more than one attribute"
        raise AttributeError(f"p21: #{self.name} {said} {name}: see attributes()")

    def __dir__(self) -> List[str]:
        return [*super().__dir__(), *(attribute.name for attribute in self.attributes())]

    def __eq__(self, other: object) -> bool:
        if not isinstance(other, Instance):
            return NotImplemented
        return self._line == other._line and self._model.schema.text == other._model.schema.text

    def __hash__(self) -> int:
        return hash(self._line)

    def __repr__(self) -> str:
        return self.line


def _number(name: int) -> int:
    """The name of an instance, which is a number."""
    if not isinstance(name, int):
        raise TypeError(f"p21: the name of an instance is a number, as 12 for #12, and not {name!r}")
    return name


class Model:
    """The instances of an accepted file. ``model[12]`` is the one of a name, and an iteration gives all by rising names.

    >>> model = p21.read(schema, point)
    >>> len(model), model[1].Y, [instance.type for instance in model]
    (1, 1.0, ['POINT'])
    >>> 2 in model, model.users(1)
    (False, [])
    """

    def __init__(self, schema: Schema, accepted: Accepted, real: Callable[[str], Any]) -> None:
        self.schema = schema
        """The schema under which it was accepted."""
        self.accepted = accepted
        """The accepted file, which lives as long as the model."""
        self._names = _Names(schema)
        self._real = real
        self._users = Handle()
        self._lock = threading.Lock()

    def __del__(self) -> None:
        if hasattr(self, "_users"):
            LIBRARY.p21_users_free(self._users)

    def __len__(self) -> int:
        return self.accepted.report.instances

    def get(self, name: int) -> Optional[Instance]:
        """The instance of this name, or None."""
        if not isinstance(name, int) or not 0 <= name < 2**64:
            return None
        return self._found(LIBRARY.p21_instance, name)

    def __getitem__(self, name: int) -> Instance:
        found = self.get(_number(name))
        if found is None:
            raise KeyError(f"p21: the file has no #{name}")
        return found

    def __contains__(self, name: object) -> bool:
        return isinstance(name, int) and self.get(name) is not None

    def __iter__(self) -> Iterator[Instance]:
        with self.accepted.open() as file:
            line = file.readline()
            while not line.startswith(b"DATA"):
                line = file.readline()
            # Only where there is a single data section are all lines by rising names.
            if line == b"DATA;\n":
                for line in iter(file.readline, b"ENDSEC;\n"):
                    yield Instance(self, int(line[1 : line.index(b"=")]), line[:-1])
                return
        least = 0
        while least < 2**64:
            instance = self._found(LIBRARY.p21_instance_from, least)
            if instance is None:
                return
            least = instance.name + 1
            yield instance

    def by_type(self, entity: str, subtypes: bool = True) -> Iterator[Instance]:
        """The instances whose set has an entity: as a subtype of it too, unless ``subtypes`` is False.

        Raises:
            KeyError: the schema has no entity of this name.
        """
        names = self._names
        number = names.number(entity)
        below = {at for at in range(len(names.names)) if number in names.order(at)} if subtypes else {number}
        keywords = {names.names[at].encode() for at in below}
        for instance in self:
            keyword = instance._line[instance._line.index(b"=") + 1 : instance._line.index(b"(")]
            if keyword in keywords or (not keyword and number in self._set(instance.name)):
                yield instance

    def users(self, name: int) -> List[Use]:
        """The instances that refer to the one of this name, by rising names, each as often as it has an attribute that does."""
        if not 0 <= _number(name) < 2**64:
            return []
        with self._lock:
            if not self._users.inside:
                with self.accepted._lock:
                    judge(LIBRARY.p21_users_new(self.accepted._open(), self._users), ReportStruct())
        count = ctypes.c_size_t()
        room = (UseStruct * 1)()
        judge(LIBRARY.p21_users_of(self._users, name, room, 0, count), ReportStruct())
        room = (UseStruct * max(count.value, 1))()
        judge(LIBRARY.p21_users_of(self._users, name, room, count.value, count), ReportStruct())
        names = self._names
        return [Use(self[use.user], names.names[use.entity], names.own[use.entity][use.index]) for use in room[: count.value]]

    @property
    def header(self) -> List[Tuple[str, Any]]:
        """The records of the header: for each its keyword, and its parameters."""
        found = []
        with self.accepted.open() as file:
            file.readline()
            file.readline()
            for line in iter(file.readline, b"ENDSEC;\n"):
                keyword, _, rest = line.decode("ascii").partition("(")
                values = Aggregate(self._values("(" + rest, []))
                values.kind = None
                found.append((keyword, values))
        return found

    def to_sqlite(self, path: Path) -> None:
        """Writes a database: for each type of which there are instances a table with their names, in the column ``#``, and their values,
        and the table ``_references`` of who refers to whom. A name or a whole number of more than 63 bits is a text there.

        Raises:
            OSError: there is a file already.
        """
        open(path, "xb").close()
        with sqlite3.connect(path) as database:
            # No column has a type: one of integers would make a real of a name of 64 bits.
            database.execute("create table _references (user, entity, attribute, target)")
            made = set()
            for instance in self:
                table = instance.type
                attributes = instance.attributes()
                if table not in made:
                    made.add(table)
                    names = [attribute.name for attribute in attributes]
                    columns = [x.name if names.count(x.name) == 1 else f"{x.entity}.{x.name}" for x in attributes]
                    database.execute(f'create table "{table}" ("#" primary key{"".join(f", {_quoted(c)}" for c in columns)})')
                cells = [_cell(instance.name), *(_cell(x.value) for x in attributes)]
                database.execute(f'insert into "{table}" values ({", ".join("?" * len(cells))})', cells)
                rows = {(instance.name, x.entity, x.name, target.name) for x in attributes for target in _targets(x.value)}
                database.executemany("insert into _references values (?, ?, ?, ?)", [tuple(map(_cell, row)) for row in sorted(rows)])
        database.close()

    def __repr__(self) -> str:
        return f"<p21.Model under {self._names.name}, {len(self)} instances>"

    # What a call hands out is copied before another thread may close the file.

    def _found(self, call: Any, name: int) -> Optional[Instance]:
        """The instance that a call finds, if it finds one."""
        found, accepted = LineStruct(), self.accepted
        with accepted._lock:
            status = call(accepted._open(), name, found)
            if status == DONE:
                return Instance(self, found.name, ctypes.string_at(found.line.bytes, found.line.length))
        if status != REFUSED:
            judge(status, ReportStruct())
        return None

    def _set(self, name: int) -> Tuple[int, ...]:
        room, count = (ctypes.c_uint32 * (len(self._names.names) + 1))(), ctypes.c_size_t()
        with self.accepted._lock:
            judge(LIBRARY.p21_instance_entities(self.accepted._open(), name, room, len(room), count), ReportStruct())
        return tuple(room[: count.value])

    def _section(self, name: int) -> str:
        span = SpanStruct()
        with self.accepted._lock:
            judge(LIBRARY.p21_instance_section(self.accepted._open(), name, span), ReportStruct())
            return _text(span)

    def _attributes(self, name: int, line: str) -> List[Attribute]:
        """The attributes of an instance. Of a record with one keyword they stand as the schema lists those of its entity."""
        keyword, parenthesis, rest = line.partition("=")[2].partition("(")
        if not keyword:
            return [Attribute(*place[:2], self._values(f"({text})", [place])[0]) for place, text in self._complex(name)]
        places = self._names.places(keyword)
        return [Attribute(of, entity, value) for (of, entity, _), value in zip(places, self._values(parenthesis + rest, places))]

    def _complex(self, name: int) -> List[Tuple[Placed, str]]:
        """The places of an instance with several keywords, and the texts of its values."""
        room, count = (AttributeStruct * 64)(), ctypes.c_size_t(64)
        with self.accepted._lock:
            while True:
                judge(LIBRARY.p21_instance_values(self.accepted._open(), name, room, len(room), count), ReportStruct())
                if count.value < len(room):
                    break
                room = (AttributeStruct * (2 * len(room)))()
            found = [(it.entity, it.index, _text(it.value)) for it in room[: count.value]]
        return [(self._names.place(owner, index), text) for owner, index, text in found]

    def _values(self, text: str, places: Sequence[Placed]) -> List[Any]:
        """The values of a record by its text, which begins at its parenthesis. Nothing is called by itself, however deep they are."""
        # For each parenthesis that is open: what stands in it so far, and its keyword.
        open_: List[Tuple[List[Any], str]] = [([], "")]
        for token in TOKEN.findall(text):
            first = token[0]
            if first == "#":
                made: Any = Instance(self, int(token[1:]))
            elif first == "'":
                made = _characters(token[1:-1])
            elif token[-1] == "(":
                open_.append(([], token[:-1]))
                continue
            elif first == ")":
                inside, keyword = open_.pop()
                if len(open_) == 1:
                    return inside
                made = Typed(keyword, inside[0]) if keyword else self._aggregate(inside, open_, places)
            elif first == "$":
                made = None
            elif first == "*":
                made = DERIVED
            elif first == ".":
                made = Enum(token[1:-1])
            elif first == '"':
                made = Bits(token[1:-1])
            else:
                made = self._real(token) if "." in token else int(token)
            open_[-1][0].append(made)
        return []

    @staticmethod
    def _aggregate(elements: List[Any], around: List[Tuple[List[Any], str]], places: Sequence[Placed]) -> Aggregate:
        """An aggregate, with its kind where the schema says it: so deep inside the others of its attribute, and in no typed value."""
        made = Aggregate(elements)
        at, depth = len(around[1][0]), len(around) - 2
        kinds = places[at].kinds if at < len(places) else ()
        made.kind = kinds[depth] if depth < len(kinds) and not any(keyword for _, keyword in around) else None
        return made


def _quoted(name: str) -> str:
    return '"' + name.replace('"', '""') + '"'


def _cell(value: Any) -> Union[None, int, float, str]:
    """A value as the database keeps it."""
    if value is None or isinstance(value, (float, str)):
        return str(value) if isinstance(value, str) else value
    if isinstance(value, int):
        return value if -(2**63) <= value < 2**63 else str(value)
    if isinstance(value, Instance):
        return f"#{value.name}"
    if isinstance(value, Typed):
        return f"{value.type}({_cell(value.value)})"
    if isinstance(value, Aggregate):
        return "(" + ",".join("$" if x is None else str(_cell(x)) for x in value) + ")"
    return str(value)


def _targets(value: Any) -> Iterator[Instance]:
    """The instances in a value, in its order."""
    waiting = [value]
    while waiting:
        at = waiting.pop()
        if isinstance(at, Instance):
            yield at
        elif isinstance(at, Typed):
            waiting.append(at.value)
        elif isinstance(at, Aggregate):
            waiting.extend(reversed(at))


def read(schema: SchemaOrPath, file: Source, real: Callable[[str], Any] = float) -> Model:
    """The model that a file holds.

    Args:
        schema: the schema, or the path of its text.
        file: a path, its bytes, or a file that is open for reading bytes.
        real: what is made of a real's digits: ``float``, or ``decimal.Decimal`` for all of them.

    Raises:
        SchemaRefused: the text declares no schema that is read.
        Refused: the file isn't accepted.
        MemoryError: there is no memory.

    >>> p21.read(schema, point)
    <p21.Model under S, 1 instances>
    """
    of = schema_of(schema)
    return Model(of, accept(of, file), real)


def frame(model: Model, entity: str, subtypes: bool = True) -> Any:
    """The instances of an entity as a table of pandas: a row for each by its name, and a column for each attribute of the entity.

    Raises:
        ImportError: pandas isn't here.
        KeyError: the schema has no entity of this name.
    """
    pandas = importlib.import_module("pandas")
    columns = [attribute.name for attribute in model._names.entity(entity).attributes]
    rows, names = [], []
    for instance in model.by_type(entity, subtypes):
        values = {attribute.name: attribute.value for attribute in instance.attributes()}
        rows.append([values.get(column) for column in columns])
        names.append(instance.name)
    return pandas.DataFrame(rows, columns=columns, index=pandas.Index(names, name="#"))
