"""Small files as graphs, made by chance: instances of one schema that refer to one another in lists, sets, bags, sets of lists, sets
of sets and selects; cycles, regular and circulant graphs, loops, trees, and parts that stand there several times.

A file is a dictionary of its instances by their names, each with its section and its attributes. An attribute is a tuple with its kind
in front: ("list", values), ("array", values), ("set", values), ("bag", values), ("chain", values) and ("pool", values) for a
typed list and a typed set, ("name", name), ("mark", number) and ("none",).
"""

import itertools
from typing import NamedTuple

import exchange

SCHEMA = b"""SCHEMA graphs;
TYPE mark = INTEGER; END_TYPE;
TYPE chain = LIST OF node; END_TYPE;
TYPE pool = SET OF node; END_TYPE;
TYPE thing = SELECT (node, mark, chain, pool); END_TYPE;
ENTITY node; label : thing; one : OPTIONAL thing; row : LIST OF node; some : SET OF node; pile : BAG OF node; END_ENTITY;
ENTITY wide SUBTYPE OF (node);
rows : SET OF LIST OF node; sets : SET OF SET OF node; either : SET OF thing; shelf : ARRAY [1:2] OF OPTIONAL node;
END_ENTITY;
END_SCHEMA;
"""
ENTITIES = ("NODE", "WIDE")
HEADINGS = ("DATA('a',('GRAPHS'));\n", "DATA('b',('graphs'));\n")


class Instance(NamedTuple):
    """An instance: the number of its section, and its attributes; those of a node, or of a wide one."""

    section: int
    attributes: tuple


# Edges, by the numbers of nodes from 0 on


def circles(chance, count):
    """Circles of nodes; where there are several, often equally long ones."""
    length = chance.choice([x for x in range(1, count + 1) if count % x == 0])
    lengths = [length] * (count // length) if chance.random() < 0.7 else split(chance, count)
    edges, first = [], 0
    for length in lengths:
        edges += [(first + k, first + (k + 1) % length) for k in range(length)]
        first += length
    return edges


def split(chance, count):
    """Numbers above 0 with this sum."""
    found = []
    while count:
        found.append(chance.randint(1, count))
        count -= found[-1]
    return found


def circulant(chance, count):
    """Each node with those that stand these steps behind it."""
    steps = chance.sample(range(1, count), min(count - 1, chance.choice((1, 2, 2)))) if count > 1 else [0]
    return [(k, (k + step) % count) for k in range(count) for step in steps]


def regular(chance, count):
    """Permutations of all nodes, one upon the other: each has as many uses as users."""
    edges = []
    for _ in range(chance.choice((1, 2, 2))):
        others = chance.sample(range(count), count)
        edges += list(zip(range(count), others))
    return edges


def loops(chance, count):
    """Nodes that refer to themselves, and a few to others."""
    edges = [(k, k) for k in range(count) if chance.random() < 0.7]
    return edges + [(chance.randrange(count), chance.randrange(count)) for _ in range(chance.choice((0, 1, 2)))]


def tree(chance, count):
    """Each node but the first with one in front of it, upwards or downwards."""
    edges = [(k, chance.randrange(k)) for k in range(1, count)]
    return edges if chance.random() < 0.5 else [(other, k) for k, other in edges]


def parts(chance, count):
    """A few nodes as they hang together, several times."""
    size = chance.choice((1, 2, 2, 3))
    shape = [(chance.randrange(size), chance.randrange(size)) for _ in range(chance.choice((1, 2, 3)))]
    return [(size * k + one, size * k + other) for k in range(count // size) for one, other in shape]


def any_edges(chance, count):
    """Some edges."""
    return [(chance.randrange(count), chance.randrange(count)) for _ in range(chance.randint(0, 2 * count))]


SHAPES = (circles, circulant, regular, loops, tree, parts, any_edges)

# Edges as attributes

NODE = ("one", "row", "some", "pile")
WIDE = ("rows", "sets", "either", "shelf")


def reference(target):
    """A reference."""
    return ("name", target)


def attribute(chance, way, targets):
    """The value of an attribute that refers to these; in some ways not to all of them."""
    names = [reference(t) for t in targets]
    distinct = [reference(t) for t in dict.fromkeys(targets)]
    match way:
        case "one" if len(names) > 1 or (names and chance.random() < 0.2):
            return ("chain", tuple(names)) if chance.random() < 0.5 else ("pool", tuple(distinct))
        case "one":
            return names[0] if names else ("none",)
        case "row":
            return ("list", tuple(names))
        case "some":
            return ("set", tuple(distinct))
        case "pile":
            return ("bag", tuple(names))
        case "rows" if chance.random() < 0.5:
            return ("set", (("list", tuple(names)),) if names else ())
        case "rows":
            return ("set", tuple(("list", (x,)) for x in distinct))
        case "sets" if chance.random() < 0.5:
            return ("set", (("set", tuple(distinct)),))
        case "sets":
            return ("set", tuple(("set", (x,)) for x in distinct))
        case "either":
            return ("set", (*distinct, *((("mark", 7),) if chance.random() < 0.3 else ())))
    return ("array", tuple([*names, ("none",), ("none",)][:2]))


def empty(way):
    """The attribute that refers to nothing."""
    return {"one": ("none",), "row": ("list", ()), "pile": ("bag", ()), "shelf": ("array", (("none",), ("none",)))}.get(way, ("set", ()))


def graph(chance, most):
    """A file of up to so many instances."""
    count = chance.randint(1, most)
    ways = chance.sample(NODE + WIDE, chance.choice((1, 1, 1, 2)))
    every = chance.choice((NODE, NODE + WIDE)) if all(way in NODE for way in ways) else NODE + WIDE
    targets: dict = {(k, way): [] for k in range(count) for way in ways}
    for k, other in chance.choice(SHAPES)(chance, count):
        targets[k, chance.choice(ways)].append(other)
    marks, of_section = chance.choice((1, 1, 1, 2)), chance.choice((1, 1, 1, 2))
    # The same choices for all keep what is alike alike.
    alike = chance.random() < 0.8
    seed = chance.randrange(2**30)
    found = {}
    for k in range(count):
        own = type(chance)(seed) if alike else chance
        found[k] = Instance(
            chance.randrange(of_section),
            (("mark", chance.randrange(marks)), *(attribute(own, way, targets[k, way]) if way in ways else empty(way) for way in every)),
        )
    if chance.random() < 0.3:
        found[count] = hub(chance, every, list(found))
    if chance.random() < 0.1:
        name = chance.choice(list(found))
        found[name] = found[name]._replace(attributes=(reference(chance.choice(list(found))), *found[name].attributes[1:]))
    return found


def hub(chance, every, names):
    """An instance of its own that refers to all of some others."""
    way = chance.choice(every)
    chosen = names if chance.random() < 0.6 else chance.sample(names, len(names) // 2)
    return Instance(0, (("mark", 9), *(attribute(chance, x, chosen) if x == way else empty(x) for x in every)))


# Changes


def renamed_value(value, names):
    """A value with other names."""
    match value:
        case ("name", target):
            return ("name", names[target])
        case ("list" | "array" | "chain" | "set" | "pool" | "bag", values):
            return (value[0], tuple(renamed_value(x, names) for x in values))
    return value


def renamed_instance(instance, names):
    """An instance whose references lead to other names."""
    return Instance(instance.section, tuple(renamed_value(x, names) for x in instance.attributes))


def renamed(found, names):
    """A file with other names."""
    return {names[n]: renamed_instance(instance, names) for n, instance in found.items()}


def shuffled(chance, found):
    """The same file with other names, by chance."""
    new = chance.sample(range(1, 100), len(found))
    names = dict(zip(found, new))
    return renamed({name: found[name] for name in chance.sample(list(found), len(found))}, names)


def targets_of(value):
    """The names in a value."""
    match value:
        case ("name", target):
            return [target]
        case ("list" | "array" | "chain" | "set" | "pool" | "bag", values):
            return [t for x in values for t in targets_of(x)]
    return []


def changed(chance, found):
    """The same file with one value changed: a mark, a section, or all references to one instance in one attribute."""
    name = chance.choice(list(found))
    section, attributes = found[name]
    if chance.random() < 0.2:
        return {**found, name: Instance(1 - section, attributes)}
    if chance.random() < 0.3 and attributes[0][0] == "mark":
        return {**found, name: Instance(section, (("mark", 1 - min(attributes[0][1], 1)), *attributes[1:]))}
    at = chance.randrange(len(attributes))
    names = {n: n for n in found}
    if targets_of(attributes[at]):
        names[chance.choice(targets_of(attributes[at]))] = chance.choice(list(found))
    value = sound(renamed_value(attributes[at], names))
    return {**found, name: Instance(section, (*attributes[:at], value, *attributes[at + 1 :]))}


def sound(value):
    """A value whose sets have no element twice."""
    match value:
        case ("set" | "pool", values):
            kept = {meaning(x): x for x in map(sound, values)}
            return (value[0], tuple(kept.values()))
        case ("list" | "array" | "chain" | "bag", values):
            return (value[0], tuple(map(sound, values)))
    return value


def rewired(chance, found):
    """The same file with two references exchanged: those of two instances at one attribute."""
    one, other = chance.choice(list(found)), chance.choice(list(found))
    if len(found[one].attributes) != len(found[other].attributes):
        return changed(chance, found)
    at = chance.randrange(len(found[one].attributes))
    first, second = targets_of(found[one].attributes[at]), targets_of(found[other].attributes[at])
    if not first or not second:
        return changed(chance, found)
    a, b = chance.choice(first), chance.choice(second)
    same = {n: n for n in found}
    again = dict(found)
    for name, names in ((one, {**same, a: b}), (other, {**same, b: a})):
        value = sound(renamed_value(again[name].attributes[at], names))
        again[name] = Instance(again[name].section, (*again[name].attributes[:at], value, *again[name].attributes[at + 1 :]))
    return again


# Whether a renaming exists


def meaning(value):
    """What a value means: sets without order, bags with how often each element is there."""
    match value:
        case ("list" | "array" | "chain", values):
            return (value[0], *map(meaning, values))
        case ("set" | "pool", values):
            return (value[0], frozenset(map(meaning, values)))
        case ("bag", values):
            return ("bag", frozenset((x, [*map(meaning, values)].count(x)) for x in map(meaning, values)))
    return value


def what(instance):
    """What an instance means."""
    return instance.section, tuple(map(meaning, instance.attributes))


def are_same(first, second):
    """Whether some renaming makes one file the other: each is tried."""
    if len(first) != len(second):
        return False
    wanted = {name: what(instance) for name, instance in second.items()}
    for names in itertools.permutations(second):
        new = dict(zip(first, names))
        if all(what(renamed_instance(first[name], new)) == wanted[new[name]] for name in first):
            return True
    return False


# Texts


def spelled(chance, value):
    """A value as text; the elements of sets and bags stand in any order."""
    match value:
        case ("none",):
            return "$"
        case ("mark", number):
            return f"MARK({number})"
        case ("name", target):
            return f"#{target}"
        case ("set" | "bag", values):
            return spelled(chance, ("list", chance.sample(values, len(values))))
        case ("chain", values):
            return f"CHAIN({spelled(chance, ('list', values))})"
        case ("pool", values):
            return f"POOL({spelled(chance, ('set', values))})"
        case (_, values):
            return f"({','.join(spelled(chance, x) for x in values)})"
    raise ValueError(value)


def text(chance, found):
    """The file as text: its instances stand in any order, and so do its sections."""
    lines: list = [[], []]
    for name in chance.sample(list(found), len(found)):
        section, attributes = found[name]
        entity = ENTITIES[len(attributes) > 1 + len(NODE)]
        lines[section].append(f"#{name}={entity}({','.join(spelled(chance, x) for x in attributes)});\n")
    sections = [heading + "".join(of_one) + "ENDSEC;\n" for heading, of_one in zip(HEADINGS, lines)]
    chance.shuffle(sections)
    return (exchange.header("GRAPHS") + "".join(sections) + exchange.END).encode()
