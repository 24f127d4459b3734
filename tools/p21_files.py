"""What there is to say of a place where a STEP file is refused.

The program says by which number a file is refused, at which statement or in which instance, and where: the byte, the line and the
column, and of a value of a record the attribute. What is shown beside it is read from the file and the schema text: how far goes what
stands there, what is wrong with it, and what would be right.
"""

# A missing value is named by what the values look like: where they can stand for the attributes in one way alone, by
# their kinds and those of the types, the attribute that is left has none, and the place is that where it would stand.
# At most 100 ways are tried. Where several fit, the last attributes are named, as the values are read from the front,
# and the place is the one of the program.

# The tools copy what can be read only once, because they read a text more than once. A pipe, or what
# only the tool has open, such as `/dev/stdin`, is first copied into a file without a name, and the program reads the
# same each time.
#
# `p21-where` keeps the bytes of a file, which take no more memory than the file where it lies, of which all is looked
# at: a file that is mapped and cut short meanwhile ends the tool by a signal. What is said of a place is read
# in these bytes; a file that was changed while the program read it is said to be, and nothing else.
#
# Behind a broken statement the program goes on where the next one seems to begin, and tells where that is. So statements are told
# apart from there on, whatever stands open in front.

import bisect
import collections
import difflib
import functools
import hashlib
import itertools
import json
import math
import os
import re
from typing import Any, Callable, Dict, Iterable, Iterator, List, NamedTuple, Optional, Sequence, Set, Tuple, Union

import p21_reading as reading
from p21_reading import Part, Text, Value
from p21_schemas import Attribute, Outline, Place, brief, items_in, name_of

# What ends a statement, and what hides an end.
STATEMENT_MARK = re.compile(rb"[;']|/\*")
NAME = re.compile(rb"#(?=\d)0*(\d{0,21})")
# So many names are sought by a pattern of their own.
FEW = 8
NUMBER = re.compile(rb"([+-]?)(\d+)(?:\.(\d*))?(?:E([+-]?)0*(\d{1,9}))?")
FIRST_WORD = re.compile(rb"[!#]?[\w-]*")
# The keyword of an instance of one entity, from behind the statement in front of it on.
ONE_KEYWORD = re.compile(rb"[\0- \x7f]*#\d+[\0- \x7f]*=[\0- \x7f]*([A-Z]\w*)[\0- \x7f]*\(")
# In an instance without a backslash or a remark, what parts its values, and a string.
PLAIN_SIGN = re.compile(rb"[(),\\/\"]|'[^']*'")
OPENS, CLOSES, QUOTES = b"()'"
HIDES = b'\\/"'
AROUND = bytes([*range(0x21), 0x7F])
NAMES_WORD = re.compile(rb"[A-Za-z0-9_]*")
LINE_END = re.compile(rb"\r\n|\n|\r")
OF_BYTES = (1, 4, 5, 6, 7, 9, 10, 11)
OF_END = (2, 3, 24)
OF_WHOLE = (22, 23, 25, 27, 32)
# These are of references.
OF_TARGETS = (56, 57)
WANTED = {
    25: "nothing but blanks and remarks behind END-ISO-10303-21;",
    32: "DATA; or DATA('name',('SCHEMA'));",
}
# The records that a header begins with, with the names of their parameters, and the words for their shapes.
PARAMETERS = {
    "FILE_DESCRIPTION": ["description", "implementation_level"],
    "FILE_NAME": ["name", "time_stamp", "author", "organization", "preprocessor_version", "originating_system", "authorization"],
    "FILE_SCHEMA": ["schema_identifiers"],
}
SHAPES = {"string": "a text or $", "strings": "a list of texts, or $", "(string)": "a list of one text"}
# The words for what the program says that could stand in a statement. For a user-defined keyword none is said beside a keyword.
VALUES = {
    "instance name": "the name of an instance",
    "integer": "a number",
    "real": "a number",
    "string": "a text",
    "enumeration": "an item",
    "binary": "a binary",
    "$": '"$"',
    "*": '"*"',
    "keyword": "a keyword",
}
VALUE = "a value"
WORDS = ("ISO-10303-21", "HEADER", "DATA", "ENDSEC", "END-ISO-10303-21")
SIGNS = {sign: f'"{sign}"' for sign in "(),=;"}
# Of a text of a file so many characters are said of a place, and so many names are listed.
LONGEST, MOST = 60, 8
# So many ways in which values may stand for attributes are tried.
MOST_WAYS = 100
# Of the instance that was looked at last so many parts are kept, and so many values of each.
MOST_KEPT = 1000


class Refusal(NamedTuple):
    """A refusal as the program tells it: by its number, which of a schema text is a word as S4, and its name; what it names; and where
    that is known the byte, the line and the column in characters, with the attribute by the entity that declares it."""

    number: Union[int, str]
    name: str
    statement: Optional[int]
    instance: Optional[int]
    byte: Optional[int]
    line: Optional[int]
    column: Optional[int]
    entity: Optional[str]
    attribute: Optional[str]
    # What the program says that could stand there.
    expected: Sequence[str] = ()
    # Where its statement begins, if it was passed over.
    begins: Optional[int] = None

    @property
    def answer(self) -> str:
        """The line that the program prints of it for people."""
        if isinstance(self.number, str):
            return f"schema refused {self.number} {self.name}"
        where = f"at statement {self.statement}" if self.instance is None else f"in #{self.instance}"
        return f"refused {self.number} {self.name} {where}"


# What an object has behind the name of its file where a value of an instance is refused: so most objects are read by one pattern.
OF_VALUE = re.compile(
    r',"number":(\d+),"name":"(\w+)","instance":(\d+),"byte":(\d+),"line":(\d+),"column":(\d+)'
    r'(?:,"column_in_characters":(\d+))?(?:,"entity":"(\w+)"(?:,"attribute":"(\w+)"(?:,"indices":[][\d,]+)?)?)?}'
)

# The same of one of whose value nothing more is said than which attribute has it, and what the schema says of that.
OF_PLAIN_VALUE = re.compile(
    r',"number":(46|47|49|50|51|53|54),"name":"(\w+)","instance":(\d+),"byte":(\d+),"line":(\d+),"column":(\d+)'
    r'(?:,"column_in_characters":(\d+))?,"entity":"(\w+)","attribute":"(\w+)"(?:,"indices":[][\d,]+)?}'
)
# Of a value so many bytes are said.
MOST_OF_VALUE = 240


def refusal_of(line: str, front: int = 0) -> Refusal:
    """The refusal that a line of the program's tells, which is an object. So many signs have the name of its file."""
    found = OF_VALUE.fullmatch(line, front) if front else None
    if found:
        number, name, instance, byte, row, column, in_characters, entity, attribute = found.groups()
        return Refusal(int(number), name, None, int(instance), int(byte), int(row), int(in_characters or column), entity, attribute)
    told: Dict[str, Any] = json.loads(line)
    get = told.get
    column = get("column_in_characters") or get("column")
    where = (get("statement"), get("instance"), get("byte"), get("line"), column, get("entity"), get("attribute"))
    return Refusal(told["number"], told["name"], *where, get("expected", ()), get("passed", (None,))[0])


# Where a statement begins that the program passed over, and where it went on.
Passed = Tuple[int, int]
PASSED = re.compile(r',"passed":\[(\d+),(\d+)\]')


def passed_over(lines: Iterable[str], front: int) -> List[Passed]:
    """The statements that the program passed over, by the objects of their refusals. So many signs have the name of its file."""
    found = (PASSED.search(line, front) for line in lines)
    return [(int(passed[1]), int(passed[2])) for passed in found if passed]


def end_of_name(line: str) -> int:
    """How many signs of an object have the name of its file, which stands first."""
    _, end = json.JSONDecoder().raw_decode(line, len('{"file":'))
    return end


class Statement(NamedTuple):
    """A statement from its first word up to its `;`, or up to the end of the text, and where a string or remark is open."""

    start: int
    end: int
    open: Optional[int]


def statements(data: Text, start: int = 0) -> Iterator[Statement]:
    """The statements of a file, or those from the place behind one on."""
    at = start
    while True:
        found = STATEMENT_MARK.search(data, at)
        if not found:
            yield Statement(reading.behind_blanks(data, start), len(data), None)
            return
        at = found.end()
        if found[0] == b";":
            yield Statement(reading.behind_blanks(data, start), at, None)
            start = at
            continue
        hidden = reading.HIDING[found[0]](data, found.start())
        if hidden is None:
            yield Statement(reading.behind_blanks(data, start), len(data), found.start())
            return
        at = hidden


def name_at(text: Text, start: int) -> Optional[int]:
    """The name of an instance that stands here, or None. No instance has a name of more than 20 digits, zeros apart."""
    found = NAME.match(text, start)
    return int(found[1] or b"0") if found and len(found[1]) <= 20 else None


class Ahead:
    """Where a mark stands next, which is sought again only when its place is passed."""

    def __init__(self, data: Text, mark: bytes) -> None:
        self.data = data
        self.mark = mark
        self.place = -1

    def behind(self, at: int) -> int:
        """The first place of the mark from a place on, or the end of the text."""
        if self.place < at:
            found = self.data.find(self.mark, at)
            self.place = len(self.data) if found < 0 else found
        return self.place


class Ends:
    """Where statements end in front of places, which are asked for from the front to the back: what stands between two places is
    passed over by searches for single bytes. Up to a place the program has read the file, so that strings and remarks end."""

    def __init__(self, data: bytes, resumed: Sequence[int] = ()) -> None:
        self.data = data
        # Where the program went on behind statements that it passed over, in the order of the file.
        self.resumed = resumed
        self.look_ahead()
        self.begin(0)

    def look_ahead(self) -> None:
        """Forgets where marks stand."""
        self.remark, self.paged = Ahead(self.data, b"/*"), Ahead(self.data, reading.PAGED)

    def begin(self, start: int) -> None:
        """Goes to where a statement begins."""
        # So far the text was passed over, where the last statement before ends, and whether a string is open.
        self.at, self.end, self.inside = start, start, False

    def last_resumed(self, place: int) -> int:
        """Where the program went on last in front of a place; 0 where it did so nowhere."""
        number = bisect.bisect_right(self.resumed, place)
        return self.resumed[number - 1] if number else 0

    def next_resumed(self, place: int) -> int:
        """Where the program goes on first behind a place, or the end of the text."""
        number = bisect.bisect_right(self.resumed, place)
        return self.resumed[number] if number < len(self.resumed) else len(self.data)

    def before(self, place: int) -> int:
        """The place behind the last statement that ends in front of a place, or was passed over; 0 where there is none."""
        resumed = self.last_resumed(place) if self.resumed else 0
        if resumed <= self.at <= place <= self.remark.place and place <= self.paged.place:
            self.pass_over(place)
            return self.end
        if place < self.at:
            self.look_ahead()
            self.begin(resumed)
        elif self.at < resumed:
            self.begin(resumed)
        while self.at < place:
            stop = min(place, self.remark.behind(self.at), self.paged.behind(self.at))
            self.pass_over(stop)
            if stop < place:
                self.pass_mark()
        return self.end

    def pass_over(self, stop: int) -> None:
        """Passes over a text without remarks in which each apostrophe begins or ends a string."""
        data, at = self.data, self.at
        end = data.rfind(b";", at, stop)
        while end >= 0 and self.inside ^ (data.count(b"'", at, end) % 2 == 1):
            # It stands in a string, in front of which the end is sought.
            end = data.rfind(b";", at, max(data.rfind(b"'", at, end), at))
        self.end = self.end if end < 0 else end + 1
        self.inside ^= data.count(b"'", at, stop) % 2 == 1
        self.at = stop

    def pass_mark(self) -> None:
        """Passes over a remark, or over what in a string looks like one, or like the end of the string."""
        if self.inside:
            self.at += len(reading.PAGED) if self.at == self.paged.place else 1
        elif self.at == self.remark.place:
            self.at = reading.end_of_remark(self.data, self.at) or len(self.data)
        else:
            self.at += 1


class Checked:
    """A file and the schema by which it is checked, which the command line names so: what the refusals of a file share."""

    def __init__(self, schema: str, named: str, data: bytes, passed: Sequence[Passed] = ()) -> None:
        self.schema = schema
        self.named = named
        self.data = data
        self.name = name_of(reading.text_of(schema))
        self.lines = reading.Lines(data)
        self.ends = Ends(data, [ends for _, ends in passed])
        self.last = Statement(0, 0, None)
        # Where the first instances of these names stand, of those that were looked for.
        self.known: Dict[int, int] = {}
        # Where the statements begin that the program passed over.
        self.passed = {begins for begins, _ in passed}
        self.alone = functools.lru_cache(maxsize=1024)(alone)
        self.keys_of = functools.lru_cache(maxsize=1024)(self.keys_of_instance)
        self.parts = functools.lru_cache(maxsize=1)(self.parts_of)
        self.places = self.outline.places_in
        self.width = functools.lru_cache(maxsize=None)(self.width_of)
        self.missing_in = functools.lru_cache(maxsize=None)(self.missing_by_kinds)
        self.declared = functools.lru_cache(maxsize=None)(self.declared_of)

    @functools.cached_property
    def outline(self) -> Outline:
        """The declarations of the schema."""
        return Outline(reading.text_of(self.schema))

    # The file

    def text(self, statement: Statement) -> bytes:
        """The text of a statement."""
        return bytes(self.data[statement.start : statement.end])

    def statement_at(self, place: int) -> Statement:
        """The statement at a place."""
        if not self.last.start <= place < self.last.end:
            found = next(statements(self.data, self.ends.before(place)))
            self.last = found._replace(end=min(found.end, self.ends.next_resumed(found.start)))
        return self.last

    def parts_of(self, statement: Statement) -> Sequence[Part]:
        """The parts of an instance, with their values as they are read once, where they are few."""
        plain = plain_part(self.data, statement)
        if plain:
            return [plain]
        parts = reading.read_parts(self.data, statement.start)
        if len(parts) > MOST_KEPT:
            return parts
        return [part._replace(values=list(part.values)) if len(part.values) <= MOST_KEPT else part for part in parts]

    def keys_at(self, place: int) -> Tuple[str, ...]:
        """The keywords of the instance at a place."""
        found = ONE_KEYWORD.match(self.data, self.ends.before(place))
        return self.alone(found[1]) if found else tuple(part.key for part in self.parts(self.statement_at(place)))

    def keys_of_instance(self, start: int) -> Tuple[str, ...]:
        """The keywords of the instance that begins at a place."""
        return tuple(part.key for part in reading.read_parts(self.data, start))

    def plain_line(self, line: str, front: int, said_of: Callable[[Tuple[str, ...]], str]) -> Optional[str]:
        """What is said of a refusal on one line behind the name of the file, where it is one of a short word in an instance of one entity,
        and nothing more is said than which attribute has it and what the schema says of that; None of any other. It is what is said
        by way of `Refused` too, in less time. `said_of` puts declarations on a line."""
        told = OF_PLAIN_VALUE.fullmatch(line, front)
        if not told:
            return None
        number, name, instance, byte, row, column, in_characters, entity, attribute = told.groups()
        at = int(byte)
        value = reading.WORD_IN_LIST.match(self.data, at, at + MOST_OF_VALUE)
        found = ONE_KEYWORD.match(self.data, self.ends.before(at))
        if not value or not found or not value[0].isascii():
            return None
        declared = said_of(self.declared(self.alone(found[1]), (entity, attribute)))
        wanted = f", wanted: {declared}" if declared else ""
        said = f"{entity}.{attribute} is {value[0].decode('ascii')}{wanted}"
        return f":{row}:{in_characters or column}: {number} {name} in #{instance}: {said}"

    def look_for(self, names: Set[int]) -> None:
        """Looks where the first instances of these names stand. The file is passed over once for all of them."""
        wanted = names - self.known.keys()
        if not wanted:
            return
        digits = b"|".join(b"%d" % name for name in wanted) if len(wanted) <= FEW else rb"\d{1,20}"
        for found in re.finditer(rb"#0*(%s)(?=[\0- \x7f=/])" % digits, self.data):
            name = int(found[1])
            if name in wanted and is_defined(self.data, found.end()) and self.is_read_at(found.start()):
                self.known[name] = found.start()
                wanted.discard(name)
                if not wanted:
                    return

    def is_read_at(self, start: int) -> bool:
        """Does a statement begin at a place that wasn't passed over?"""
        return self.statement_at(start).start == start and start not in self.passed

    # The schema

    def width_of(self, key: str, alone: bool) -> int:
        """How many signs the longest name of an attribute has that a value of a part may stand for."""
        return max((len(name) for _, name in self.places(key, alone)), default=0)

    def declared_of(self, keys: Sequence[str], attribute: Attribute) -> Tuple[str, ...]:
        """What the schema says of an attribute in an instance of these entities."""
        return tuple(self.outline.explained(keys, attribute)) if attribute[0] in self.outline.entities else ()

    def missing_by_kinds(self, key: str, kinds: Sequence[str]) -> Optional[Sequence[int]]:
        """Which attributes of an entity have no value where values of these kinds stand, if these can stand for the others in one
        way alone, and None else."""
        places = self.places(key, True)
        if math.comb(len(places), len(kinds)) > MOST_WAYS:
            return None
        above = self.outline.derived(key)
        types = [None if place in above else self.outline.type_of([key], place).split() for place in places]
        found = []
        for missing in itertools.combinations(range(len(places)), len(places) - len(kinds)):
            given = (words for at, words in enumerate(types) if at not in missing)
            if all((kind == "*") if words is None else self.outline.takes(words, kind) for kind, words in zip(kinds, given)):
                found.append(missing)
        return found[0] if len(found) == 1 else None


class Refused:
    """A refusal of a file, with what there is to say of its place."""

    def __init__(self, checked: Checked, refusal: Refusal) -> None:
        self.checked = checked
        self.data = checked.data
        self.told = refusal
        self.number = refusal.number
        # Which attributes of the part with too few values have none, and which is the first of them.
        self.missing: Sequence[int] = ()
        self.lacking: Optional[Attribute] = None

    @property
    def outline(self) -> Outline:
        """The declarations of the schema."""
        return self.checked.outline

    def names(self) -> Iterator[int]:
        """The names of the instances that are spoken of beside the place."""
        if self.number == 40 and self.told.instance is not None:
            yield self.told.instance
        if self.number == 57 and self.told.byte is not None:
            target = name_at(self.data, self.told.byte)
            if target is not None:
                yield target

    @property
    def statement(self) -> Statement:
        """The statement at the place, where the program tells one."""
        assert self.told.byte is not None
        found = self.checked.statement_at(self.told.byte)
        return found if self.told.begins is None else found._replace(start=self.told.begins)

    def place(self) -> Optional[Place]:
        """The place with what there is to say of it, or None where the program tells none."""
        if self.told.byte is None:
            return None
        return self.place_in_statement(self.told.byte) if self.told.instance is None else self.place_in_instance(self.told.byte)

    def position(self, start: int) -> Tuple[Optional[int], Optional[int]]:
        """The line and the column of a place near the one that the program tells."""
        at, line, column = self.told.byte, self.told.line, self.told.column
        if at is None or line is None or start == at:
            return line, column
        between = LINE_END.findall(self.data[min(at, start) : max(at, start)])
        return line + len(between) * (1 if start > at else -1), self.checked.lines.place(start)[1]

    def attribute(self) -> Optional[Attribute]:
        """The attribute at the place, or None where the program tells none."""
        if self.lacking is not None:
            return self.lacking
        entity, attribute = self.told.entity, self.told.attribute
        if entity is not None and attribute is not None:
            return entity, attribute
        return self.attribute_of_reference() if self.number in OF_TARGETS else None

    def attribute_of_reference(self) -> Optional[Attribute]:
        """The attribute in whose value the reference at the place stands, which the program doesn't tell."""
        assert self.told.byte is not None
        at = self.told.byte
        parts = self.checked.parts(self.statement)
        part = next((part for part in parts if part.start <= at < part.end), None)
        if part is None or part.key not in self.outline.entities:
            return None
        beside = zip(self.checked.places(part.key, len(parts) == 1), part.values)
        return next((attribute for attribute, value in beside if value.start <= at < value.end), None)

    def declared(self, attribute: Attribute) -> Tuple[str, ...]:
        """What the schema says of an attribute of the instance."""
        assert self.told.byte is not None
        if self.told.begins is not None:
            return self.checked.declared(tuple(part.key for part in self.checked.parts(self.statement)), attribute)
        return self.checked.declared(self.checked.keys_at(self.told.byte), attribute)

    # At a statement

    def place_in_statement(self, at: int) -> Place:
        """The place in a statement."""
        if self.number in OF_END:
            return self.place_of_end(at)
        if self.number in OF_BYTES:
            return self.place_of_byte(at)
        if self.number == 30:
            return self.place_in_header(at)
        if self.number == 31:
            return self.place_of_schema(at)
        if self.number in OF_WHOLE:
            wanted = WANTED.get(self.told.number) if isinstance(self.told.number, int) else None
            return Place(at, reading.matched(FIRST_WORD, self.data, at).end(), [f"wanted here: {wanted}"] if wanted else [], wanted)
        wanted = could_stand(self.told.expected)
        return Place(at, end_of_word(self.data, at), [f"wanted here: {wanted}"] if wanted else [], wanted)

    def place_of_end(self, at: int) -> Place:
        """The end of the file, or where the string or the remark begins that is open there."""
        if self.number != 24:
            return Place(at, at + 1, ["it begins here and ends nowhere"])
        start = self.statement.start
        notes = [f"the statement begins in line {self.checked.lines.number(start)}"]
        return Place(at, at, ["the file ends here"] + (notes if start < at else []))

    def place_of_byte(self, at: int) -> Place:
        """The first byte with which the file is refused, or in a string the bytes that should be a character."""
        byte, end = self.data[at], at + 1
        while self.number == 6 and byte >= 0xC0 and 0x80 <= self.data[end] < 0xC0:
            end += 1
        return Place(at, end, [about_byte(byte, self.number == 6), *what_helps(byte, self.number)])

    def place_in_header(self, at: int) -> Place:
        """The record of the header, or the parameter in it, that has another form than it must have."""
        start = self.statement.start
        key = first_word(self.data, self.statement).decode("latin-1")
        if not self.told.expected:
            return Place(start, start + len(key), [f"{brief(key)} stands a second time"], "a record of another keyword")
        name, _, shapes = self.told.expected[0][:-1].partition("(")
        parameters = [*zip(PARAMETERS[name], (SHAPES[shape] for shape in shapes.split(", ")))]
        shape = f"{name}({', '.join(shape for _, shape in parameters)})"
        if key != name:
            return Place(start, start + max(len(key), 1), [f"wanted here: {shape}"], shape)
        values = reading.read_parts(self.data, start)[0].values
        count = f"{name} has {counted(len(parameters), 'parameter')}, and here {'is' if len(values) == 1 else 'are'} {len(values)}"
        if len(values) < len(parameters):
            missing = listed(parameter for parameter, _ in parameters[len(values) :])
            return Place(at, at + 1, [f"{count}; without one: {missing}", f"wanted here: {shape}"], shape)
        if len(values) > len(parameters):
            return Place(at, reading.value_at(self.data, at).end, [count, f"wanted here: {shape}"], shape)
        found = next((found for found in enumerate(zip(values, parameters), 1) if found[1][0].start <= at < found[1][0].end), None)
        if found is None:
            return Place(start, start + len(key), [f"wanted here: {shape}"], shape)
        place, (value, (parameter, wanted)) = found
        return Place(value.start, value.end, [f"parameter {place} of {name}, {parameter}", f"wanted here: {wanted}"], wanted)

    def place_of_schema(self, at: int) -> Place:
        """The text that names the schema, and how schema and file are made to agree."""
        named = reading.matched(NAMES_WORD, self.data, at + 1)[0].decode("ascii")
        notes = [f"the file is of {brief(named) or '(no name)'}, the schema text of {self.checked.name}"]
        if re.fullmatch(r"[A-Za-z]\w*", named):
            notes += ["where both are one schema by two names, this makes a schema text of the file's name:"]
            notes += [f"  {self.renaming(named)}"]
        return Place(at, end_of_word(self.data, at), notes, self.checked.name)

    def renaming(self, named: str) -> str:
        """The command that makes a schema text of another name."""
        word, name = itertools.islice(self.outline.words, 2)
        text = self.outline.text
        old = text[word.start : name.end].decode("latin-1")
        if not re.fullmatch(r"\w+ \w+", old):
            old = text[name.start : name.end].decode("ascii")
        new = re.sub(r"\w+$", named, old)
        line = reading.line_number(text, name.start)
        made = "renamed.exp" if os.path.basename(self.checked.named) != "renamed.exp" else "renamed-again.exp"
        return f"sed '{line}s/{old}/{new}/' {reading.quoted(self.checked.named)} > {made}"

    # In an instance

    def place_in_instance(self, at: int) -> Place:
        """The place in an instance."""
        if self.number == 40:
            first = self.checked.known.get(self.told.instance or 0)
            notes = [f"#{self.told.instance} stands in line {self.checked.lines.number(first)} too"] if first is not None else []
            return Place(at, reading.matched(NAME, self.data, at).end(), notes)
        if self.data[at : at + 1] == b"#" and at == self.statement.start:
            # A very long instance, in which the program tells no place.
            return Place(at, reading.matched(NAME, self.data, at).end(), [])
        if self.number in OF_PARTS:
            parts = self.checked.parts(self.statement)
            part = next((part for part in parts if part.start <= at <= part.end), parts[0])
            return OF_PARTS[self.number](self, part, parts)
        value = reading.value_at(self.data, at)
        of_value = OF_VALUES.get(self.number)
        return of_value(self, value) if of_value else Place(value.start, value.end, [])

    # Parts of an instance

    def unknown_entity(self, part: Part, _: Sequence[Part]) -> Place:
        """A keyword that the schema doesn't have."""
        near = difflib.get_close_matches(brief(part.key), self.outline.entities, 3)
        notes = [f"the schema {self.checked.name} has no entity {brief(part.key)}"]
        notes += [f"entities with a like name: {', '.join(near)}"] if near else []
        return of_key(part, notes)._replace(expected=f"an entity of {self.checked.name}")

    def abstract(self, part: Part, _: Sequence[Part]) -> Place:
        """The keyword of an abstract entity of which no subtype is there."""
        subtypes = [name for name in self.outline.entities if part.key in self.outline.supertypes(name)]
        return of_key(part, [f"{brief(part.key)} is abstract; its subtypes: {listed(subtypes)}"])

    def part_missing(self, part: Part, parts: Sequence[Part]) -> Place:
        """A part of which a supertype has no part."""
        missing = sorted(self.outline.closure([part.key]) - {part.key for part in parts})
        return of_key(part, [f"a supertype without a part: {listed(missing)}"])

    def part_twice(self, part: Part, _: Sequence[Part]) -> Place:
        """The second part of an entity."""
        return of_key(part, [f"{brief(part.key)} has a part already"])

    def redeclared_twice(self, part: Part, parts: Sequence[Part]) -> Place:
        """Which attributes are declared anew by several entities of the instance."""
        entities = self.outline.closure(part.key for part in parts)
        by = collections.defaultdict(set)
        for entity, statement in self.outline.redeclarations():
            if entity.name in entities:
                for item in items_in(statement):
                    if len(item) > 1:
                        by[item[-1].text].add(entity.name)
        twice = itertools.islice(((name, sorted(found)) for name, found in by.items() if len(found) > 1), MOST)
        return of_key(part, [f"{name} is declared anew by {listed(found, ' and ')}" for name, found in twice])

    def one_of(self, part: Part, parts: Sequence[Part]) -> Place:
        """The second of two entities of which an instance is one alone."""
        entities = self.outline.closure(part.key for part in parts)
        found = ((name, [entity for entity in self.outline.oneof(name) if entity in entities]) for name in self.outline.entities)
        return of_key(part, [f"{name} says ONEOF of {' and '.join(both[:2])}" for name, both in found if len(both) > 1][:1])

    def count(self, part: Part, parts: Sequence[Part]) -> Place:
        """The first value too many, or where one is missing: where the kinds of the values leave one place alone, this is it, and else
        the `)` behind the values."""
        assert self.told.byte is not None
        alone = len(parts) == 1
        places = self.checked.places(part.key, alone)
        wanted, count = len(places), len(part.values)
        said = {"expected": counted(wanted, "value"), "found": counted(count, "value")}
        counts = f"{part.key} has {counted(wanted, 'attribute')}, and here {'is' if count == 1 else 'are'} {said['found']}"
        if count >= wanted:
            value = reading.value_at(self.data, self.told.byte)
            return Place(value.start, value.end, [counts], **said)
        kinds = tuple(map(kind_of, part.values)) if alone and part.end - part.start <= reading.PIECE else None
        self.missing = (kinds and self.checked.missing_in(part.key, kinds)) or range(count, wanted)
        first = self.missing[0]
        self.lacking = places[first]
        start = part.values[first].start if first < count else self.told.byte
        return Place(start, start + 1, [f"{counts}; without one: {listed(places[at][1] for at in self.missing)}"], **said)

    # Values

    def not_derived(self, value: Value) -> Place:
        """A value where the schema derives one."""
        return Place(value.start, value.end, ["the schema derives this value: only * may stand here"], expected='"*"')

    def dangling(self, value: Value) -> Place:
        """A reference to an instance that isn't in the file."""
        return Place(value.start, value.end, [f"the file has no #{name_at(self.data, value.start)}"])

    def wrong_target(self, value: Value) -> Place:
        """A reference to an instance of another entity than is wanted."""
        target = name_at(self.data, value.start)
        start = None if target is None else self.checked.known.get(target)
        keys = () if start is None else self.checked.keys_of(start)
        notes = [f"#{target} is of the {'entity' if len(keys) == 1 else 'entities'} {listed(keys, ' and ')}"]
        return Place(value.start, value.end, notes if keys else [])

    def not_distinct(self, value: Value) -> Place:
        """The second of two elements that mean the same, with the first one where both look alike."""
        meant = meaning(self.data, value)
        for element in self.elements_before(value.start):
            if meaning(self.data, element) == meant:
                like = self.data[element.start : min(element.end, element.start + 4 * LONGEST)].decode("latin-1")
                return Place(value.start, value.end, [f"the same as {brief(like)}"])
        return Place(value.start, value.end, [])

    def elements_before(self, at: int) -> Iterator[Value]:
        """The elements in front of a place of the list that it stands in."""
        parts = self.checked.parts(self.statement)
        values: Sequence[Value] = reading.values_of_all(self.data, parts)
        holding = next((value for value in values if value.start <= at < value.end), None)
        while holding is not None and holding.start != at:
            values = holding.inner
            holding = next((value for value in values if value.start <= at < value.end), None)
        return itertools.takewhile(lambda value: value.start < at, values)


# What there is to say of a part of an instance, and of a value, by the number of the refusal.
OF_PARTS: Dict[Union[int, str], Callable[[Refused, Part, Sequence[Part]], Place]] = {
    41: Refused.unknown_entity,
    42: Refused.abstract,
    43: Refused.part_missing,
    44: Refused.part_twice,
    45: Refused.count,
    55: Refused.redeclared_twice,
    58: Refused.one_of,
}
OF_VALUES: Dict[Union[int, str], Callable[[Refused, Value], Place]] = {
    48: Refused.not_derived,
    52: Refused.not_distinct,
    56: Refused.dangling,
    57: Refused.wrong_target,
}


def plain_part(data: bytes, statement: Statement) -> Optional[Part]:
    """The part of an instance of one entity that has few values, no remark, binary or backslash, and no blank around a value; None of
    any other. It is what `reading.read_parts` reads too, in less time."""
    start, end = statement.start, statement.end
    found = ONE_KEYWORD.match(data, start, end)
    if not found or statement.open is not None:
        return None
    values: List[Value] = []
    first, depth = found.end(), 0
    for sign in PLAIN_SIGN.finditer(data, first - 1, end):
        at = sign.start()
        mark = data[at]
        if mark == OPENS:
            depth += 1
        elif mark in HIDES:
            return None
        elif mark == QUOTES:
            if b"\\" in sign[0]:
                return None
        elif depth == 1:
            if first < at:
                if data[first] in AROUND or data[at - 1] in AROUND or len(values) == MOST_KEPT:
                    return None
                values.append(Value(data, first, at))
            first = at + 1
            if mark == CLOSES:
                return Part(found[1].decode("ascii"), found.start(1), values, at)
        elif mark == CLOSES:
            depth -= 1
    return None


def alone(keyword: bytes) -> Tuple[str, ...]:
    """The keywords of an instance of one entity."""
    return (keyword.decode("ascii"),)


def is_defined(data: Text, end: int) -> bool:
    """Does a `=` stand behind a name?"""
    at = reading.behind_blanks(data, end)
    return data[at : at + 1] == b"="


def first_word(data: Text, statement: Statement) -> bytes:
    """The word that a statement begins with."""
    return reading.matched(FIRST_WORD, data, statement.start)[0]


def end_of_word(data: Text, at: int) -> int:
    """The place behind the word or sign at a place."""
    return next(reading.lexemes(data, at, len(data)), (at, at))[1]


def could_stand(expected: Sequence[str]) -> Optional[str]:
    """The words for what the program says that could stand at a place, or None where it says nothing."""
    values = dict.fromkeys(said for word, said in VALUES.items() if word in expected)
    are_all = len(values) == len(set(VALUES.values()))
    found = [*(word for word in WORDS if word in expected), *([VALUE] if are_all else values), *(SIGNS[sign] for sign in SIGNS if sign in expected)]
    return " or ".join(filter(None, [", ".join(found[:-1]), *found[-1:]])) or None


# What a value of each kind begins with.
KINDS = {"'": "text", '"': "binary", ".": "item", "#": "reference", "(": "(", "$": "$", "*": "*"}


def kind_of(value: Value) -> str:
    """What kind of value stands somewhere: of a list the kind of its first element behind a parenthesis."""
    first = chr(value.text[value.start])
    if first == "(":
        return first + "".join(map(kind_of, itertools.islice(value.inner, 1)))
    if first in "+-0123456789":
        return "real" if b"." in value.text[value.start : value.end] else "integer"
    return KINDS.get(first, "typed")


def counted(number: int, word: str) -> str:
    """So many of what a word says."""
    return f"{number} {word}{'s' * (number != 1)}"


def of_key(part: Part, notes: List[str]) -> Place:
    """The place of a keyword."""
    return Place(part.start, part.start + len(part.key), notes)


def listed(names: Iterable[str], between: str = ", ") -> str:
    """Some names, of which those behind the first are left out."""
    first = [brief(name) for name in itertools.islice(names, MOST + 1)]
    return between.join(first[:MOST]) + (" .." if len(first) > MOST else "")


def meaning(text: Text, value: Value) -> bytes:
    """What a value means as far as its text tells: lists in their order, numbers by their ratio, strings as they stand."""
    lexemes = (scalar(text[start:end]) for start, end in reading.lexemes(text, value.start, value.end))
    if text[value.end - 1 : value.end] != b")":
        return next(lexemes)
    meant = hashlib.blake2b(digest_size=16)
    for lexeme in lexemes:
        meant.update(b"%d " % len(lexeme) + lexeme)
    return meant.digest()


def scalar(written: bytes) -> bytes:
    """A number or a reference in one spelling; each other word as it stands."""
    if written[:1] == b"#":
        return b"#" + written[1:].lstrip(b"0")
    found = NUMBER.fullmatch(written)
    if not found:
        return written
    sign, whole, behind, of_exponent, exponent = (group or b"" for group in found.groups())
    digits = (whole + behind).lstrip(b"0")
    kept = digits.rstrip(b"0")
    power = int(of_exponent + (exponent or b"0")) - len(behind) + len(digits) - len(kept)
    return b"%s%sE%d" % (sign.replace(b"+", b""), kept, power) if kept else b"0"


def about_byte(byte: int, is_of_character: bool) -> str:
    """A byte by its number, and the sign that it is."""
    if is_of_character:
        return f"the byte {byte:02X}, which is {chr(byte)} in ISO 8859-1" if byte >= 0xA0 else f"the byte {byte:02X}"
    return f"the byte {byte:02X}, {chr(byte)}" if 0x20 < byte < 0x7F else f"the byte {byte:02X}"


def what_helps(byte: int, number: Union[int, str]) -> Iterator[str]:
    """What to do about a byte that is refused by a number, where that is mostly the same."""
    if number == 1 and chr(byte).islower() and byte < 0x80:
        yield "keywords are written in upper case"
    if number == 4:
        yield "a backslash that is meant as a character is written twice"
    if number == 6:
        yield "where the file is in ISO 8859-1, iconv -f ISO-8859-1 -t UTF-8 makes UTF-8 of it"
