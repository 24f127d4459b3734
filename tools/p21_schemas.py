"""Where a schema text is refused, and what its declarations are.

The program says whether a text is refused, by which number, and at which byte. How far goes what stands there, and in which declaration,
is read from the text.
"""

# `P21_SCHEMAS` counts only where the first name of the command line is no schema. So a command line that names a schema
# means the same on each machine.

import collections
import dataclasses
import functools
import itertools
import json
import os
import re
from typing import Callable, Deque, Iterable, Iterator, List, NamedTuple, Optional, Sequence, Set, Tuple

import p21_reading as reading
from p21_reading import Text

LEXEME = re.compile(
    rb"[\0- \x7f]+|--[^\n]*|(?P<remark>\(\*)|(?P<string>')"
    rb"|(?P<word>[A-Za-z][A-Za-z0-9_]*|[0-9]+|\"[^\"]*\"|[!#-&(-~])|(?P<other>.)",
    re.S,
)
REMARK_MARK = re.compile(rb"\(\*|\*\)")
TEXT_LIMIT = 16_777_216
MOST_DECLARATIONS = 65_535
DECLARATIONS = ("ENTITY", "TYPE", "FUNCTION", "PROCEDURE", "RULE", "CONSTANT", "SUBTYPE_CONSTRAINT")
# What stands in a heading before and behind the names of supertypes, and those of a ONEOF with nothing beside it.
OF_SUBTYPE = ["SUBTYPE", "OF", "("], [")"]
OF_ONEOF = ["SUPERTYPE", "OF", "(", "ONEOF", "("], [")", ")"]
# How the program tells a place.
LINES = ["--where", "--format", "jsonl"]
# Of these the place may be a statement that declares an attribute anew.
OF_REDECLARATIONS = (3, 8)
# So many texts are said of an attribute, and of each so many bytes.
MOST_TEXTS, LONGEST_TEXT = 8, 4096
GROUPS = ("DERIVE", "INVERSE", "UNIQUE", "WHERE", "END_ENTITY", "END_TYPE")
# The kinds of values that simple types and enumerations have, and what a list of values is of.
KINDS = {
    "INTEGER": ("integer",),
    "REAL": ("real",),
    "NUMBER": ("integer", "real"),
    "STRING": ("text",),
    "BINARY": ("binary",),
    "BOOLEAN": ("item",),
    "LOGICAL": ("item",),
    "ENUMERATION": ("item",),
}
AGGREGATES = ("ARRAY", "BAG", "LIST", "SET")


# An attribute: the entity that declares it, and its name.
Attribute = Tuple[str, str]
# What stands in a heading before and behind some names.
Around = Tuple[Sequence[str], Sequence[str]]


class Word(NamedTuple):
    """A word, a number, a string or a sign, in upper case, with its place."""

    text: str
    start: int
    end: int


@dataclasses.dataclass(frozen=True)
class Stretch:
    """A stretch of a text from a word to another: a declaration, or a statement of one. It gives its words."""

    text: Text
    start: int
    end: int

    def __iter__(self) -> Iterator[Word]:
        return words_of(self.text, self.start, self.end)


class Declaration(NamedTuple):
    """A declaration: its kind and its name, as a word and as a text, and the stretch up to the `;` behind its end."""

    kind: str
    name: str
    named: Word
    whole: Stretch

    @property
    def words(self) -> Iterator[Word]:
        """Its words, one after the other."""
        return iter(self.whole)

    @property
    def start(self) -> int:
        """Where it begins."""
        return self.whole.start

    @property
    def end(self) -> int:
        """Where it ends."""
        return self.whole.end


class Place(NamedTuple):
    """The place in a text where it is refused, what there is to say of it, and where that is known what was wanted
    there, and what is there instead of the text at the place."""

    start: int
    end: int
    notes: List[str]
    expected: Optional[str] = None
    found: Optional[str] = None


def words_of(text: Text, start: Optional[int] = 0, end: Optional[int] = None) -> Iterator[Word]:
    """The words of a text, or of a part of it that begins and ends with a word, up to the first byte, string or remark that
    makes none."""
    end = len(text) if end is None else end
    while start is not None and start < end:
        found = reading.matched(LEXEME, text, start)
        start = found.end()
        if found["word"]:
            yield Word(found["word"].decode("latin-1").upper(), found.start(), start)
        elif found["string"]:
            start = end_of_string(text, found.start())
            if start:
                yield Word(text[found.start() : start].decode("latin-1").upper(), found.start(), start)
        elif found["remark"]:
            start = end_of_remark(text, found.start())
        elif found["other"]:
            return


def end_of_string(text: Text, start: int) -> Optional[int]:
    """The place behind a string, in which two apostrophes are one, or None where it doesn't end."""
    end = text.find(b"'", start + 1)
    while end >= 0 and text[end + 1 : end + 2] == b"'":
        end = text.find(b"'", end + 2)
    return None if end < 0 else end + 1


def end_of_remark(text: Text, start: int) -> Optional[int]:
    """The place behind a remark, in which others may stand, or None where it doesn't end."""
    depth = 0
    for mark in REMARK_MARK.finditer(text, start):
        depth += 1 if mark[0] == b"(*" else -1
        if depth == 0:
            return mark.end()
    return None


# What gives some words, as often as it is asked.
Words = Callable[[], Iterable[Word]]


class Outline:
    """The declarations of a schema text. No schema has more of them than a text may have, and one that is refused for the
    number has one more."""

    def __init__(self, text: Text) -> None:
        self.text = text
        self.declarations = list(itertools.islice(self.declared(), MOST_DECLARATIONS + 1))
        self.entities = {found.name: found for found in self.declarations if found.kind == "ENTITY"}
        self.types = {found.name: found for found in self.declarations if found.kind == "TYPE"}

    @property
    def words(self) -> Iterator[Word]:
        """All words of the text, one after the other."""
        return words_of(self.text)

    def is_abstract(self, name: str) -> bool:
        """Does an entity want a subtype?"""
        return any(word.text == "ABSTRACT" for word in itertools.islice(heading_of(self.entities[name]), 2, 3))

    def declared(self) -> Iterator[Declaration]:
        """Each declaration. It ends one word behind its `END_`.., and one of a function or procedure may hold others."""
        words = self.words
        for word in words:
            kind = word.text
            if kind not in DECLARATIONS:
                continue
            nested = kind in ("FUNCTION", "PROCEDURE")
            named: Optional[Word] = None
            last, depth, count = word, 1, 1
            for count, last in enumerate(words, 2):
                named = named or last
                if depth == 0:
                    break
                depth += (nested and last.text == kind) - (last.text == f"END_{kind}")
            if named and count > 2:
                yield Declaration(kind, named.text, named, Stretch(self.text, word.start, last.end))

    def listed(self, name: str, around: Around) -> List[str]:
        """The entities that stand in a list of the heading of an entity, each once."""
        words = names_between(self.entities[name], around)
        found = (self.entities[word.text].name for word in words() if word.text in self.entities) if words else ()
        return list(dict.fromkeys(found))

    @functools.lru_cache(maxsize=None)
    def supertypes(self, name: str) -> List[str]:
        """The entities of which an entity says that it is a subtype."""
        return self.listed(name, OF_SUBTYPE)

    def closure(self, names: Iterable[str]) -> Set[str]:
        """These entities with all of their supertypes."""
        found = set()
        waiting = [name for name in names if name in self.entities]
        while waiting:
            name = waiting.pop()
            if name not in found:
                found.add(name)
                waiting += self.supertypes(name)
        return found

    def oneof(self, name: str) -> List[str]:
        """The entities of the ONEOF that an entity states and nothing beside it."""
        return self.listed(name, OF_ONEOF)

    def statements(self, declaration: Declaration) -> Iterator[Tuple[str, Stretch]]:
        """Each statement between the heading and the end of a declaration, with the word of its group in front of it."""
        words = declaration.words
        for word in words:
            if word.text == ";":
                break
        group, first = "", None
        for word in words:
            if first is None and word.text in GROUPS:
                group = word.text
                continue
            first = first or word
            if word.text == ";":
                yield group, Stretch(self.text, first.start, word.end)
                first = None

    def redeclarations(self) -> Iterator[Tuple[Declaration, Stretch]]:
        """Each statement that declares inherited attributes anew, or derives one."""
        for entity in self.entities.values():
            for group, statement in self.statements(entity):
                if group in ("", "DERIVE") and is_anew(statement):
                    yield entity, statement

    def own_attributes(self, name: str) -> Iterator[str]:
        """The names of the explicit attributes that an entity declares itself, redeclarations apart."""
        for group, statement in self.statements(self.entities[name]):
            if group == "":
                yield from (item[0].text for item in items_in(statement) if len(item) == 1)

    def order(self, name: str) -> List[str]:
        """An entity behind its supertypes, each with those of its own in front of it, and each once."""
        found = {}
        seen = set()
        waiting = [name]
        while waiting:
            top = waiting[-1]
            if top in seen:
                found[waiting.pop()] = True
            else:
                seen.add(top)
                waiting += [above for above in reversed(self.supertypes(top)) if above not in seen]
        return list(found)

    def places(self, name: str) -> Iterator[Attribute]:
        """The attributes for which an instance of an entity has values, each with the entity that declares it."""
        return ((entity, attribute) for entity in self.order(name) for attribute in self.own_attributes(entity))

    @functools.lru_cache(maxsize=None)
    def places_in(self, key: str, is_alone: bool) -> Sequence[Attribute]:
        """What the values of a part stand for: all attributes of the entity, or among other parts those of its own."""
        return tuple(self.places(key) if is_alone else ((key, attribute) for attribute in self.own_attributes(key)))

    def values_in(self, line: bytes) -> Iterator[Tuple[Attribute, int, int]]:
        """The attributes of an instance of a canonical file, each with the places in its line between which its value stands."""
        parts = reading.read_parts(line)
        for part in parts:
            for place, value in zip(self.places_in(part.key, len(parts) == 1), part.values):
                yield place, value.start, value.end

    def derived(self, name: str) -> Set[Attribute]:
        """The attributes of an entity that it or a supertype derives, each with the entity that declares it."""
        found: Set[Attribute] = set()
        for entity in self.order(name):
            for group, statement in self.statements(self.entities[entity]):
                for item in items_in(statement) if group == "DERIVE" else ():
                    if len(item) == 5 and item[0].text == "SELF":
                        found.update(self.meant(item[2].text, item[4].text))
        return found

    def meant(self, name: str, attribute: str) -> Iterator[Attribute]:
        """The attribute of this name that an entity declares, or else those that its supertypes do."""
        waiting = [name] if name in self.entities else []
        seen = set(waiting)
        while waiting:
            entity = waiting.pop()
            if attribute in self.own_attributes(entity):
                yield entity, attribute
                continue
            above = [each for each in self.supertypes(entity) if each not in seen]
            seen.update(above)
            waiting += above

    def explained(self, entities: Iterable[str], place: Attribute) -> List[str]:
        """The texts that say what stands at a place in an instance of these entities: where it is declared, where it is
        declared anew or derived, and the types that are named there, one behind the other."""
        declaring, attribute = place
        found = []
        for entity in [declaring, *sorted(self.closure(entities) - {declaring})]:
            for group, statement in self.statements(self.entities[entity]):
                named = [len(item) > 1 for item in items_in(statement) if item[-1].text == attribute]
                is_own = group == "" and entity == declaring and False in named
                if is_own or (group in ("", "DERIVE") and True in named):
                    text = self.plain(statement.start, statement.end)
                    found += [text if entity == declaring else f"{text} (in {entity.lower()})"]
            if len(found) >= MOST_TEXTS:
                break
        for text in found:
            behind = re.split("[:=]", text, 1)[-1]
            if len(found) < MOST_TEXTS and not re.match(r" (?:SELECT|ENUMERATION)\b", behind, re.I):
                types = [self.types[word] for word in re.findall(r"\w+", behind.upper()) if word in self.types]
                found += [body for body in map(self.body, types) if body not in found]
        return found

    def type_of(self, entities: Iterable[str], place: Attribute) -> str:
        """The type of an attribute in an instance of these entities, as its text: where several declare it anew, that of the
        one that is furthest below."""
        declaring, attribute = place
        found = "REAL"
        order = [name for entity in entities for name in self.order(entity)]
        for entity in [declaring, *(name for name in order if name != declaring)]:
            for _, statement in self.statements(self.entities[entity]):
                for item in items_in(statement):
                    is_own = len(item) == 1 and entity == declaring
                    if item[-1].text == attribute and (is_own or (len(item) > 1 and item[0].text == "SELF")):
                        words = [word.text for word in type_in(statement)][1:]
                        words = words[words[:1] == ["OPTIONAL"] : -1]
                        found = " ".join(words).partition(" : = ")[0]
        return found

    def takes(self, words: Sequence[str], kind: str) -> bool:
        """Could a value of a kind, as `p21_files.kind_of` tells it, be of a type, of which these are the words?"""
        first = words[0]
        if kind == "$" or first in KINDS:
            return kind == "$" or kind in KINDS[first]
        if first in AGGREGATES:
            return kind == "(" or (kind[0] == "(" and self.takes(words[words.index("OF") + 1 :], kind[1:]))
        if first in ("OPTIONAL", "UNIQUE"):
            return self.takes(words[1:], kind)
        if first in self.entities:
            return kind == "reference"
        if first == "SELECT":
            members = (word for word in words[2:-1] if word != ",")
            return any(self.takes([word], kind) if self.is_select(word) else kind == "typed" for word in members)
        return first in self.types and self.takes(self.definition(first), kind)

    def is_select(self, name: str) -> bool:
        """Is a member of a SELECT an entity or another SELECT, so that no name of a type stands in front of its values?"""
        return name in self.entities or self.definition(name)[0] == "SELECT"

    def definition(self, name: str) -> List[str]:
        """The words that say what a type is."""
        words = (word.text for word in itertools.islice(self.types[name].words, 3, None))
        return list(itertools.takewhile(lambda text: text != ";", words))

    def body(self, declaration: Declaration) -> str:
        """The text of a type without its words around."""
        return self.plain(declaration.named.start, next(word.end for word in declaration.words if word.text == ";"))

    def plain(self, start: int, end: int) -> str:
        """A part of the text on one line, of which only the beginning is said where it is long."""
        return " ".join(self.text[start : min(end, start + LONGEST_TEXT)].decode("latin-1").split())


def heading_of(declaration: Declaration) -> Iterator[Word]:
    """The words of a declaration up to its first `;`."""
    return itertools.takewhile(lambda word: word.text != ";", declaration.words)


def names_between(declaration: Declaration, around: Around) -> Optional[Words]:
    """The words in the heading of a declaration between some words and others: what gives them, or None."""
    front, back = around
    heading = heading_of(declaration)
    last: Deque[str] = collections.deque(maxlen=len(front))
    start = 0
    while list(last) != front:
        word = next(heading, None)
        if word is None:
            return None
        last.append(word.text)
        start += 1
    end = next((word.text for word in heading if word.text in ("(", ")")), None)
    if [end, *(word.text for word in itertools.islice(heading, len(back) - 1))] != back:
        return None
    return lambda: itertools.takewhile(lambda word: word.text != ")", itertools.islice(declaration.words, start, None))


def names_in(statement: Stretch) -> Iterator[Word]:
    """What stands in front of the `:` of a statement; nothing where it has none."""
    return itertools.takewhile(lambda word: word.text != ":", statement) if has_colon(statement) else iter(())


def type_in(statement: Stretch) -> Iterator[Word]:
    """What stands behind the `:` of a statement; all of it where it has none."""
    if not has_colon(statement):
        return iter(statement)
    return itertools.dropwhile(lambda word: word.text != ":", statement)


def has_colon(statement: Stretch) -> bool:
    """Is there a `:` in a statement?"""
    return any(word.text == ":" for word in statement)


def items_in(statement: Stretch) -> Iterator[List[Word]]:
    """What stands between the commas in front of the `:` of a statement: a word, or the words that name an inherited
    attribute. Of more words the first ones."""
    for is_comma, words in itertools.groupby(names_in(statement), lambda word: word.text == ","):
        if not is_comma:
            yield list(itertools.islice(words, 5))


def is_anew(statement: Stretch) -> bool:
    """Does a statement declare inherited attributes anew?"""
    return any(word.text == "SELF" for word in names_in(statement))


# --- Refusals ---


class Refused:
    """A schema text that the program refuses by a number."""

    def __init__(self, program: str, text: Text, number: int) -> None:
        self.program = program
        self.number = number
        self.text = text

    @functools.cached_property
    def outline(self) -> Outline:
        """The declarations of the text."""
        return Outline(self.text)

    def byte(self) -> Optional[int]:
        """How many bytes stand in front of the place, or None where the program tells none."""
        answer = reading.run(self.program, "check", "/dev/stdin", os.devnull, options=LINES, text=[memoryview(self.text)])
        told = reading.answered(answer).error
        found = json.loads(told).get("byte") if told.startswith("{") else None
        return found if isinstance(found, int) else None

    def place(self) -> Optional[Place]:
        """The place where the text is refused, or None where it can't be told."""
        if len(self.text) > TEXT_LIMIT:
            return Place(TEXT_LIMIT, TEXT_LIMIT, [f"a schema text has at most {TEXT_LIMIT} bytes"])
        at = self.byte()
        if at is None:
            return None
        if self.number == 1:
            return self.place_of_byte(at)
        word = next(words_of(self.text, at), None)
        if word is None:
            return Place(at, at, ["the text ends too early"] if self.number == 2 else [])
        anew = (statement for _, statement in self.outline.redeclarations()) if self.number in OF_REDECLARATIONS else iter(())
        end = next((statement.end for statement in anew if statement.start == word.start), word.end)
        return Place(word.start, end, self.notes_on(word))

    def around(self, place: Place) -> Tuple[int, int]:
        """The declaration that a place stands in, or the line, by its start and end."""
        for found in self.outline.declarations if len(self.text) <= TEXT_LIMIT else ():
            if found.start <= place.start <= found.end:
                return found.start, found.end
        start = self.text.rfind(b"\n", 0, place.start) + 1
        end = self.text.find(b"\n", place.start)
        return start, end if end >= 0 else len(self.text)

    def place_of_byte(self, start: int) -> Place:
        """The byte, the string or the remark that makes no word."""
        end = start + 1
        while end < len(self.text) and 0x80 <= self.text[end] < 0xC0:
            end += 1
        return Place(start, end, [])

    def notes_on(self, word: Word) -> List[str]:
        """In which declaration a word stands, and where of a name that is declared twice the others are."""
        found = next((found for found in reversed(self.outline.declarations) if found.start <= word.start <= found.end), None)
        if found is None:
            return []
        notes = [f"in {found.kind} {brief(found.name)}, {self.line(found.start)}"]
        if self.number == 3:
            alike = (other for other in self.outline.declarations if other.name == found.name and other is not found and is_kept(other))
            first = itertools.islice(alike, MOST_TEXTS)
            notes += [f"{other.kind} {brief(other.name)} stands in {self.line(other.start)} too" for other in first]
        return notes

    def line(self, start: int) -> str:
        """The line in which a place stands."""
        return f"line {reading.line_number(self.text, start)}"


def name_of(text: Text) -> str:
    """The name of a schema, which is the second word of its text."""
    return "".join(word.text for word in itertools.islice(words_of(text), 1, 2))


def number_of(line: str) -> int:
    """The number behind the S of a schema's refusal; 0 where the line is none."""
    found = re.match(r"schema refused S(\d)", line)
    return int(found[1]) if found else 0


def brief(text: str) -> str:
    """A word of a text on one line, of which the end may be left out."""
    return reading.shown(reading.shortened(text, 0, 60)[0])


def is_kept(declaration: Declaration) -> bool:
    """Is it a declaration of an entity or a type?"""
    return declaration.kind in ("ENTITY", "TYPE")
