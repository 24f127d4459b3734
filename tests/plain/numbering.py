"""The numbers that a model gives to its instances itself, and files with these numbers for names: docs/CANONICAL.md, "The numbered
file". Instances are told apart by ranks; those that share a rank are copies, or else the file isn't decided."""

from collections import Counter, defaultdict
from typing import NamedTuple

from . import canonical
from .files import FileMeaning
from .limits import USUAL
from .records import Meaning
from .refusal import Refused, RefusedFile

# Each reference in a label is written #0.
NO_NAMES: dict = defaultdict(int)


class Alike(Exception):
    """A file isn't decided: this instance has the rank of another one, and they may not be exchanged."""

    def __init__(self, name):
        super().__init__(f"refused 59 Alike in #{name}")


class Use(NamedTuple):
    """At a place of its values an instance refers to another one."""

    user: int
    place: tuple
    used: int


# Values, and the references in them


def references(value):
    """The references in a value, each with its way: positions from 1 on in a LIST and an ARRAY, 0 in a SET and a BAG."""
    match value:
        case ("name", target):
            yield (), target
        case ("typed", _, within):
            yield from references(within)
        case ("list" | "array", elements):
            for position, element in enumerate(elements, 1):
                yield from (((position, *way), target) for way, target in references(element))
        case ("set", elements):
            for element in elements:
                yield from (((0, *way), target) for way, target in references(element))
        case ("bag", counted):
            for element, _ in counted:
                yield from (((0, *way), target) for way, target in references(element))


def rows(schema, meaning):
    """The values of each entity of an instance for the attributes that it declares itself; keywords rise."""
    values = dict(meaning.values)
    return [[values[e, attribute] for attribute in schema.entities[e].own] for e in sorted(meaning.entities)]


def uses_of(schema, name, meaning):
    """The uses of others by an instance, each place once: it begins with the numbers of the entity and of the attribute."""
    return {
        Use(name, (entity, attribute, *way), target)
        for entity, row in enumerate(rows(schema, meaning))
        for attribute, value in enumerate(row)
        for way, target in references(value)
    }


def renamed(value, names):
    """A value whose references lead to other names. Elements of a set that become one are one."""
    match value:
        case ("name", target):
            return ("name", names[target])
        case ("typed", name, within):
            return ("typed", name, renamed(within, names))
        case ("list" | "array", elements):
            return (value[0], tuple(renamed(x, names) for x in elements))
        case ("set", elements):
            return ("set", frozenset(renamed(x, names) for x in elements))
        case ("bag", counted):
            again: Counter = Counter()
            for element, often in counted:
                again[renamed(element, names)] += often
            return ("bag", frozenset(again.items()))
    return value


def renamed_record(meaning, names):
    """What an instance means where its references lead to other names."""
    return Meaning(meaning.entities, frozenset((place, renamed(value, names)) for place, value in meaning.values))


def renamed_file(meaning, names):
    """What a file means whose instances have other names."""
    instances = {names[n]: (section, renamed_record(record, names)) for n, (section, record) in meaning.instances.items()}
    return FileMeaning(meaning.header, meaning.sections, instances)


# Ranks


def label(schema, section, meaning):
    """The name and the schema text of the section, where it has a name, and the values with each reference written `#0`."""
    heading = [] if section is None else [section.name, section.schema_text]
    return [*heading, canonical.own_parts(schema, meaning, NO_NAMES)]


def rank_by(keys):
    """For each instance how many have a lower key."""
    below = {}
    for position, name in enumerate(sorted(keys, key=keys.__getitem__)):
        below.setdefault(key_of(keys[name]), position)
    return {name: below[key_of(keys[name])] for name in keys}


def key_of(key):
    """A key that can be looked up."""
    return tuple(map(key_of, key)) if isinstance(key, list) else key


def entry(side, place, rank):
    """A use as a key has it: the side (0: of another, 1: by another), the place, each number one higher, a 0, and the rank of the
    other."""
    return [side, *(step + 1 for step in place), 0, rank]


def next_ranks(uses, rank, fresh):
    """A round: the ranks by the uses of fresh instances and those by fresh instances."""
    entries = {name: [] for name in rank}
    for use in uses:
        if use.used in fresh:
            entries[use.user].append(entry(0, use.place, rank[use.used]))
        if use.user in fresh:
            entries[use.used].append(entry(1, use.place, rank[use.user]))
    return rank_by({name: [[rank[name]], *sorted(entries[name])] for name in rank})


def fresh_ones(before, rank):
    """Of the parts of each old rank the largest is left out, the lowest of those where there are several."""
    sizes = Counter(rank.values())
    parts = defaultdict(set)
    for name, old in before.items():
        parts[old].add(rank[name])
    left_out = {min(found, key=lambda part: (-sizes[part], part)) for found in parts.values()}
    return {name for name in rank if rank[name] not in left_out}


def rounds(labels, uses):
    """The ranks by the labels, and behind them those of each round, as long as an instance is fresh, and no more rounds than
    instances; each time with those that are fresh then."""
    rank = rank_by(labels)
    fresh = set(labels)
    yield rank, fresh
    for _ in labels:
        if not fresh:
            return
        before, rank = rank, next_ranks(uses, rank, fresh)
        fresh = fresh_ones(before, rank)
        yield rank, fresh


# What is decided, and the order


class Numbering:
    """The ranks of the instances of a file, and whether the file is decided."""

    def __init__(self, schema, meaning):
        self.instances = meaning.instances
        self.uses = {use for n, (_, record) in self.instances.items() for use in uses_of(schema, n, record)}
        labels = {n: label(schema, section, record) for n, (section, record) in self.instances.items()}
        *_, (self.rank, _) = rounds(labels, self.uses)
        self.of_rank = defaultdict(set)
        for name, rank in self.rank.items():
            self.of_rank[rank].add(name)
        # The references between instances that share their ranks.
        self.joints = [(use.user, use.used) for use in self.uses if self.shares(use.user) and self.shares(use.used)]

    def shares(self, name):
        """Has another instance this rank?"""
        return self.many(name) > 1

    def many(self, name):
        """How many instances have this rank."""
        return len(self.of_rank[self.rank[name]])

    def check(self):
        """Refuses a file that isn't decided."""
        for names in self.of_rank.values():
            self.say_the_same(sorted(names))
        for name, (_, record) in self.instances.items():
            if not self.shares(name):
                for _, value in record.values:
                    self.spreads(value)
        for user, used in self.joints:
            if self.many(user) != self.many(used):
                raise Alike(user)
        for part in self.parts():
            ranks = Counter(self.rank[name] for name in part)
            for name in part:
                if ranks[self.rank[name]] > 1:
                    raise Alike(name)

    def say_the_same(self, names):
        """Instances of one rank stand in sections of one heading, and mean the same where references lead to ranks."""
        first, *others = ((n, self.instances[n][0], renamed_record(self.instances[n][1], self.rank)) for n in names)
        for other in others:
            if first[1:] != other[1:]:
                raise Alike(first[0])

    def spreads(self, value):
        """No reference leads to an instance that shares its rank, but for plain elements of a set that holds all of that rank."""
        match value:
            case ("name", target):
                if self.shares(target):
                    raise Alike(target)
            case ("typed", _, within):
                self.spreads(within)
            case ("list" | "array", elements):
                for element in elements:
                    self.spreads(element)
            case ("set", elements):
                plain = {element[1] for element in elements if element[0] == "name"}
                for element in elements:
                    if not (element[0] == "name" and self.of_rank[self.rank[element[1]]] <= plain):
                        self.spreads(element)
            case ("bag", counted):
                for element, _ in counted:
                    self.spreads(element)

    def parts(self):
        """What hangs together: instances that share their ranks, joined where one refers to the other."""
        beside = defaultdict(set)
        for user, used in self.joints:
            beside[user].add(used)
            beside[used].add(user)
        left = dict.fromkeys(self.instances)
        while left:
            part, reached = set(), [next(iter(left))]
            while reached:
                name = reached.pop()
                if name not in part:
                    part.add(name)
                    reached += beside[name]
            yield part
            for name in part:
                del left[name]

    def numbers(self):
        """The number of each instance: by rank, and in each rank by the parts, which stand in one sequence for all ranks."""
        self.check()
        copy = {name: number for number, part in enumerate(self.parts()) for name in part}
        order = sorted(self.instances, key=lambda name: (self.rank[name], copy[name]))
        return {name: number for number, name in enumerate(order, 1)}


def numbered(schema, meaning, limits=USUAL):
    """The numbered file of what a file means."""
    text = canonical.file(schema, renamed_file(meaning, Numbering(schema, meaning).numbers()))
    lines = text.split("\n")
    if len(text) > limits.canonical_file or any(len(line) > limits.canonical_record for line in lines):
        raise RefusedFile(Refused(27), f"at statement {len(lines)}")
    return text
