"""What differs in two files, as the program lists it: by the names of instances, or by pairs of instances whatever their names are."""

import array
import concurrent.futures
import contextlib
import functools
import io
import json
import mmap
import os
import re
import tempfile
from typing import Any, Dict, Iterable, Iterator, List, Mapping, NamedTuple, Optional, Sequence, Set, Tuple

import p21_canon
import p21_lines as lines
import p21_reading as reading
import p21_system as system
from p21_schemas import Outline

CHANGED, CAME, WENT = "changed", "came", "went"
SAME, DIFFERENT, UNDECIDED = "same", "different", "undecided"
# What is said of a program that lists something and doesn't say how much.
NOT_WHOLE = "the list of what differs isn't whole"


class Difference(NamedTuple):
    """A difference: what happened, to what, its names in both files, the entity that declares an attribute and the attribute, or the
    entity of an instance or header record alone; of a value the keywords of its instance, and the indices of the element that differs;
    and the texts of the first and of the second file, where there are any."""

    kind: str
    what: str
    first: Optional[int] = None
    second: Optional[int] = None
    entity: Optional[str] = None
    attribute: Optional[str] = None
    keywords: Optional[str] = None
    indices: Optional[Sequence[int]] = None
    before: Optional[str] = None
    after: Optional[str] = None

    def object(self) -> Dict[str, Any]:
        """What is written as JSON: the fields that there are."""
        return {name: field for name, field in zip(FIELDS, self) if field is not None}

    def keywords_of_instance(self) -> Optional[str]:
        """The keywords of an instance: those of the first file, where it has others in the second."""
        return self.keywords or self.entity or (self.before if self.what == "instance" else None)


FIELDS = ("kind", "what", "a", "b", "entity", "attribute", "keywords", "indices", "before", "after")


def difference_of(row: Mapping[str, Any]) -> Difference:
    """A row of the program."""
    fields: Dict[str, Any] = {field: row.get(name) for field, name in zip(Difference._fields, FIELDS)}
    return Difference(**fields)


# --- What is left out ---


class LeftOut:
    """What the program leaves out where its command line says so: the header, some attributes, each as ENTITY.ATTRIBUTE, and values
    within a tolerance. `said` is the object in front of the differences, which says so, and `end` the one behind them, which says how
    many were left out; of files that are the same it doesn't, since none was."""

    # What an option leaves out, and how the number of these is told.
    NUMBERS = {"header": ("in_header",), "ignore": ("ignored", "ignored_in_header"), "tolerance": ("near",)}

    def __init__(self) -> None:
        self.said: Mapping[str, Any] = {}
        self.end: Mapping[str, Any] = {}

    def words(self) -> str:
        """What is left out, in words; nothing where all is listed."""
        parts = ["the header"] if "header" in self.said else []
        parts += self.said.get("ignore", [])
        parts += [f"reals within the tolerance {self.said['tolerance']}"] if "tolerance" in self.said else []
        return f"left out: {', '.join(parts)}" if parts else ""

    def number(self, name: str) -> int:
        """How many differences were left out of those with this name in the last object."""
        return self.end.get(name, 0)

    def is_told(self) -> bool:
        """Does the last object say of all that is left out how much that was?"""
        return all(name in self.end for option, names in self.NUMBERS.items() if option in self.said for name in names)

    def counts(self) -> Dict[str, Any]:
        """How many differences were left out, as it is written as JSON."""
        header = {"in_header": self.number("in_header")} if "header" in self.said else {}
        ignored = {"ignored": self.number("ignored")} if "ignore" in self.said else {}
        near = {"tolerance": self.said["tolerance"], "near": self.number("near")} if "tolerance" in self.said else {}
        return {**header, **ignored, **near}

    def counts_in_words(self) -> List[str]:
        """How many differences were left out, in words."""
        places = ("in_header", "in the header"), ("ignored", "at ignored attributes")
        words = [f"{many(self.number(name), 'difference')} {place} not listed" for name, place in places if self.number(name)]
        if "tolerance" in self.said:
            words.append(f"{many(self.number('near'), 'value')} within the tolerance {self.said['tolerance']} not listed")
        return words


def many(count: int, word: str) -> str:
    """So many of something, in words."""
    return f"{count} {word}{'' if count == 1 else 's'}"


# --- What the program lists ---


class Asked(NamedTuple):
    """What `p21 diff` is asked for: a list by pairs of instances in place of their names, and what it is to leave out, as its command line
    has it."""

    is_by_pairs: bool = False
    data: bool = False
    ignore: Sequence[str] = ()
    tolerance: Optional[str] = None

    def words(self) -> List[str]:
        """The options."""
        flags = [option for option, is_given in (("--pairs", self.is_by_pairs), ("--data", self.data)) if is_given]
        tolerance = [] if self.tolerance is None else [f"--tolerance={self.tolerance}"]
        return ["--format", "jsonl", *flags, *(f"--ignore={name}" for name in self.ignore), *tolerance]

    def left_out(self) -> Set[str]:
        """By which names the program tells what is left out."""
        given = {"header": self.data, "ignore": bool(self.ignore), "tolerance": self.tolerance is not None}
        return {name for name, is_given in given.items() if is_given}


class Listing:
    """What `p21 diff` lists of two files that it reads: behind the last row, whether they are the same, and the pairs. `named` are the
    names under which the schema and both files are shown."""

    BESIDE = ("schema ", "first: ", "second: ")

    def __init__(self, program: str, paths: Tuple[str, str, str], named: Tuple[str, str, str], asked: Asked) -> None:
        self.program = program
        self.paths = paths
        self.named = named
        self.asked = asked
        # The names of paired instances in the first file, and beside them those in the second.
        self.pairs = array.array("Q"), array.array("Q")
        self.left_out = LeftOut()
        self.listed = 0
        self.word = UNDECIDED

    def __iter__(self) -> Iterator[Difference]:
        last: Dict[str, Any] = {}
        with tempfile.TemporaryFile() as errors:
            with reading.started(self.program, "diff", *self.paths, options=self.asked.words(), errors=errors) as listed:
                assert isinstance(listed.stdout, io.RawIOBase)
                for line in io.TextIOWrapper(io.BufferedReader(listed.stdout, reading.PIECE), encoding="ascii"):
                    last = json.loads(line)
                    if last["kind"] == "pair":
                        self.pairs[0].append(last["a"])
                        self.pairs[1].append(last["b"])
                    elif last["kind"] == "left out":
                        self.left_out.said = last
                    elif last["kind"] != "verdict":
                        self.listed += 1
                        yield difference_of(last)
            errors.seek(0)
            status = system.status_of(listed.returncode)
            error = reading.line_of(errors.read(), status)
        self.word = last.get("verdict", "")
        self.left_out.end = last
        if last.get("kind") != "verdict" or not self.is_answer(status):
            raise reading.Trouble(self.told(error) if error else NOT_WHOLE)

    def is_answer(self, status: int) -> bool:
        """Is this the status of such a list, which says that all is left out that is to be, and how much that was?"""
        if self.word == UNDECIDED:
            return status == reading.Status.REFUSED
        wanted = self.asked.left_out()
        is_told = wanted == {*self.left_out.said} - {"kind"} and (self.word == SAME or self.left_out.is_told())
        is_done = self.word == SAME or (bool(wanted) and self.listed == 0)
        return is_told and status == (reading.Status.DONE if is_done else reading.Status.REFUSED)

    @property
    def is_renumbered(self) -> bool:
        """Has a pair two names?"""
        return self.pairs[0] != self.pairs[1]

    def told(self, error: str) -> str:
        """Why there is no list, behind the name of what the program couldn't read."""
        is_unread = error.startswith(("cannot open ", "read fault"))
        for word, name in zip(self.BESIDE, self.named):
            if error.startswith(word) or (is_unread and reading.why_not(name)):
                answer = error[len(word) :] if error.startswith(self.BESIDE[1:]) else error
                return f"{reading.shown(name)}: {reading.shown(reading.with_reason(answer, name))}"
        return reading.shown(error)


# --- Both files ---

NUMBERING, HEADER = "numbering", "the header"
# Two files of so many bytes together, which are told apart by names, are compared up to names besides: what is the same but for its
# numbering is said to be.
SMALL_ENOUGH = 1 << 21
# What the program says of two files whose models don't tell their instances apart; and what is said where it says something else.
ALIKE = re.compile(r"first: refused 59 Alike in #\d+")
NO_ANSWER = "the program doesn't say whether the files are the same but for names"


class Given:
    """A schema and two files, by their paths and the names under which they are shown, with the program that reads them."""

    def __init__(self, program: str, paths: Tuple[str, str, str], named: Tuple[str, str, str]) -> None:
        self.program = program
        self.paths = paths
        self.named = named

    def listing(self, asked: Asked) -> Listing:
        """What differs in both files."""
        return Listing(self.program, self.paths, self.named, asked)

    @functools.cached_property
    def data(self) -> Tuple[mmap.mmap, mmap.mmap]:
        """Both canonical files."""
        schema = self.paths[0]
        with concurrent.futures.ThreadPoolExecutor() as pool:
            first, second = pool.map(lambda at: p21_canon.canonical(self.program, schema, self.paths[at], self.named[at]), (1, 2))
        return first, second

    @functools.cached_property
    def outline(self) -> Outline:
        """The declarations of the schema."""
        reading.read_schema(self.program, self.paths[0], reading.shown(self.named[0]))
        return Outline(reading.text_of(self.paths[0]))

    def are_small(self) -> bool:
        """Are both files so small that they are compared up to names unasked?"""
        return sum(map(os.path.getsize, self.paths[1:])) <= SMALL_ENOUGH

    def have_equal_data(self) -> bool:
        """Does the program say that both files, under the header of the second one, are the same but for the names of their instances?"""
        with as_files(under_front(data, lines.front_of(self.data[1])) for data in self.data) as paths:
            answer = reading.answered(reading.run(self.program, "same", self.paths[0], *paths, options=("--names",)))
        words = {(b"same\n", reading.Status.DONE): True, (b"different\n", reading.Status.REFUSED): False}
        is_same = words.get((answer.output, reading.Status(answer.status)))
        if is_same is None and not ALIKE.fullmatch(answer.error):
            raise reading.Trouble(answer.error or NO_ANSWER)
        return bool(is_same)


def under_front(data: mmap.mmap, front: bytes) -> Iterator[bytes]:
    """A canonical file with another front up to its first data section, in pieces."""
    yield front
    for start in range(len(lines.front_of(data)), len(data), reading.PIECE):
        yield data[start : start + reading.PIECE]


@contextlib.contextmanager
def as_files(texts: Iterable[Iterable[bytes]]) -> Iterator[Tuple[str, str]]:
    """The paths of two files with these texts, for as long as a `with` block runs."""
    with tempfile.TemporaryDirectory() as folder:
        first, second = (os.path.join(folder, name) for name in ("first.step", "second.step"))
        for path, pieces in zip((first, second), texts):
            with open(path, "wb") as file:
                file.writelines(pieces)
        yield first, second


class Files:
    """Two files that are compared."""

    def __init__(self, given: Given, asked: Asked) -> None:
        self.given = given
        self.counts = Counts()
        self.listing = given.listing(asked)
        # How many differences of those that are listed stand in the header.
        self.in_header = 0

    @property
    def left_out(self) -> LeftOut:
        """What is left out, known with the first difference, and how much that is, known behind the last one."""
        return self.listing.left_out

    def counted(self) -> Iterator[Difference]:
        """What differs and isn't left out, counted on the way."""
        for found in self.listing:
            self.in_header += found.what == "header"
            self.counts.add(found)
            yield found

    @property
    def is_decided(self) -> bool:
        """Behind the last difference: does the program say whether the files are the same?"""
        return self.listing.word != UNDECIDED

    @functools.cached_property
    def but_for(self) -> Tuple[str, ...]:
        """Behind the last difference: in what alone two files differ, where that is their numbering or their header, listed or not."""
        if self.listing.word != DIFFERENT:
            return ()
        number = self.left_out.number
        in_header = self.in_header + number("in_header") + number("ignored_in_header")
        is_of_header = self.listing.listed == self.in_header and number("ignored") == number("ignored_in_header") and not number("near")
        header = (HEADER,) if in_header else ()
        if is_of_header:
            return (NUMBERING, *header) if self.listing.is_renumbered else header
        is_renumbered = not self.listing.asked.is_by_pairs and self.given.are_small() and self.given.have_equal_data()
        return (NUMBERING, *header) if is_renumbered else ()

    def object(self) -> Dict[str, Any]:
        """What is known behind the last difference, as it is written as JSON."""
        found: Dict[str, Any] = {"kind": "verdict", "verdict": self.listing.word}
        if not self.is_decided:
            return found
        found.update((kind, self.counts.total(kind)) for kind in (CHANGED, CAME, WENT))
        if self.but_for:
            found.update(but_for=[word.split()[-1] for word in self.but_for])
        if self.listing.asked.is_by_pairs:
            found.update(pairs=len(self.listing.pairs[0]))
        found.update(self.left_out.counts())
        return found


class Counts:
    """How many instances changed, came and went, by entity; what isn't an instance is told by what it is."""

    def __init__(self) -> None:
        self.rows: Dict[str, Dict[str, int]] = {}
        self.listed = 0
        self.last: Any = None

    def add(self, found: Difference) -> None:
        """The next difference. Those of one instance stand one behind the other, and count once."""
        self.listed += 1
        this = (found.kind, found.first, found.second)
        if this == self.last and found.what in ("instance", "section of"):
            return
        self.last = this if found.what in ("instance", "section of") else None
        name = found.keywords_of_instance() if found.what == "instance" else None
        name = name or f"({found.what.split()[0]})"
        self.rows.setdefault(name, {CHANGED: 0, CAME: 0, WENT: 0})[found.kind] += 1

    def total(self, kind: str) -> int:
        """How many there are of a kind."""
        return sum(row[kind] for row in self.rows.values())

    def table(self) -> List[Tuple[str, int, int, int]]:
        """A row for each entity, with what changed, came and went; those with most first."""
        rows = [(name, row[CHANGED], row[CAME], row[WENT]) for name, row in self.rows.items()]
        return sorted(rows, key=lambda row: (-sum(row[1:]), row[0]))
