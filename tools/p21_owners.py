"""What owns the instances of canonical files: the product that references lead to, and within it the face or the set of
properties."""

# An instance belongs to the products that it refers to, through others or not, else to those of what refers to it; of all
# these to the nearest. What nothing refers to relates what it refers to, so that the search goes on from there, as from a
# relationship of two representations. The nearest faces or sets of properties on the way up are told too, and the way goes
# on from these alone; those on the way down are told where there were none.
#
# Products are told by the entities of AP203, AP214, AP242 and IFC. A schema without such entities has none.

import array
import bisect
from typing import Callable, Dict, Iterable, Iterator, List, NamedTuple, Optional, Sequence, Tuple

import p21_lines as lines
from p21_plainly import plainly
from p21_reading import Text
from p21_schemas import Outline

PRODUCTS = {"PRODUCT", "IFCOBJECTDEFINITION"}
PARTS = {"FACE", "ADVANCED_FACE", "IFCFACE", "IFCPROPERTYSETDEFINITION"}
# This one alone: its subtypes are the shapes of products.
PROPERTY = "PROPERTY_DEFINITION"
# The attributes by which people know an instance.
TEXTS = ("ID", "NAME")
# A product is so many references away at most, and so many instances are looked through on the way up.
MOST_STEPS = 7
MOST_SEEN = 5_000
FAR = MOST_STEPS + 1
MOST_TOLD = 3
MANY = "In many places"
NOWHERE = "In no product"


class Owner(NamedTuple):
    """What owns an instance, as it is told: the products, and within them the faces or sets of properties."""

    products: str
    parts: str


class Graph:
    """The instances of two canonical files as nodes, those of the first file in front: their names and kinds, and which refers to
    which."""

    def __init__(self, first: Text, second: Text) -> None:
        self.files = (first, second)
        self.names = array.array("Q")
        # The nodes of each data section, in which names rise.
        self.sections: Tuple[List[range], List[range]] = ([], [])
        self.places = array.array("Q")
        self.kinds: Dict[bytes, int] = {}
        self.kind = array.array("l")
        self.starts = array.array("l", [0])
        self.targets = array.array("l")
        self.add(0)
        self.end_of_first = len(self.names)
        self.add(1)
        self.back_starts, self.sources = self.turned()

    def add(self, at: int) -> None:
        """The instances of a file."""
        data, begin = self.files[at], len(self.names)
        targets = array.array("Q")
        for _, place in lines.sections_of(data):
            first = len(self.names)
            for start, end in lines.lines_of(data, place):
                line = bytes(data[start:end])
                behind = line.index(b"=")
                self.names.append(int(line[1:behind]))
                self.places.append(start)
                self.kind.append(self.kinds.setdefault(lines.keywords_of(line), len(self.kinds)))
                targets.extend(lines.references_in(line[behind:]))
                self.starts.append(len(self.targets) + len(targets))
            self.sections[at].append(range(first, len(self.names)))
        nodes = dict(zip(self.names[begin:], range(begin, len(self.names))))
        self.targets.extend(map(nodes.__getitem__, targets))

    def turned(self) -> Tuple["array.array[int]", "array.array[int]"]:
        """The nodes that refer to each node, one behind the other, and where those to each begin."""
        begins = array.array("l", bytes((len(self) + 1) * self.targets.itemsize))
        for target in self.targets:
            begins[target + 1] += 1
        for node in range(len(self)):
            begins[node + 1] += begins[node]
        places = begins[:]
        sources = array.array("l", bytes(len(self.targets) * self.targets.itemsize))
        for node in range(len(self)):
            for target in self.refs(node):
                sources[places[target]] = node
                places[target] += 1
        return begins, sources

    def __len__(self) -> int:
        return len(self.names)

    def is_first(self, node: int) -> bool:
        """Is a node an instance of the first file?"""
        return node < self.end_of_first

    def node(self, at: int, name: int) -> Optional[int]:
        """The instance of a name in a file."""
        for nodes in self.sections[at]:
            found = bisect.bisect_left(self.names, name, nodes.start, nodes.stop)
            if found < nodes.stop and self.names[found] == name:
                return found
        return None

    def refs(self, node: int) -> Sequence[int]:
        """The nodes that a node refers to."""
        return self.targets[self.starts[node] : self.starts[node + 1]]

    def referrers(self, node: int) -> Sequence[int]:
        """The nodes that refer to a node."""
        return self.sources[self.back_starts[node] : self.back_starts[node + 1]]

    def line(self, node: int) -> bytes:
        """The line of an instance."""
        data = self.files[0 if self.is_first(node) else 1]
        start = self.places[node]
        return bytes(data[start : data.find(b"\n", start)])


class Owners:
    """Answers for two files of one graph. `partner` gives for the name of an instance of the first file that of the second which is
    the same instance, where there is one."""

    def __init__(self, graph: Graph, outline: Outline, partner: Callable[[int], Optional[int]]) -> None:
        self.graph = graph
        self.outline = outline
        self.partner = partner
        self.are_products: List[bool] = []
        self.are_parts: List[bool] = []
        for kind in graph.kinds:
            keys = kind.decode("latin-1").split("+")
            above = outline.closure(keys)
            self.are_products.append(not PRODUCTS.isdisjoint(above))
            self.are_parts.append(not PARTS.isdisjoint(above) or PROPERTY in keys)
        self.steps = self.steps_to_products()
        self.told: Dict[int, str] = {}

    def of(self, at: int, name: int) -> Owner:
        """What owns the instance of a name in a file, which has one."""
        node = self.graph.node(at, name)
        assert node is not None
        return self.owner(node)

    def has_products(self) -> bool:
        """Is there a product in the files?"""
        return 0 in self.steps

    def is_product(self, node: int) -> bool:
        """Is a node a product?"""
        return self.are_products[self.graph.kind[node]]

    def is_part(self, node: int) -> bool:
        """Is a node a face or a set of properties?"""
        return self.are_parts[self.graph.kind[node]]

    def steps_to_products(self) -> "array.array[int]":
        """By how many references each node leads to a product."""
        steps = array.array("b", [FAR]) * len(self.graph)
        level = [node for node in range(len(self.graph)) if self.is_product(node)]
        for step in range(FAR):
            for node in level:
                steps[node] = step
            level = [node for node in self.above(level) if steps[node] == FAR]
        return steps

    def above(self, nodes: Iterable[int]) -> List[int]:
        """What refers to some nodes, each once."""
        return list(dict.fromkeys(source for node in nodes for source in self.graph.referrers(node)))

    def owner(self, node: int) -> Owner:
        """What owns an instance."""
        level, seen = [node], {node}
        parts: List[int] = []
        while level:
            if len(seen) > MOST_SEEN:
                return Owner(MANY, "")
            if not parts:
                parts = [each for each in level if self.is_part(each)]
                level, seen = (parts, set(parts)) if parts else (level, seen)
            nearest = min(self.steps[each] for each in level)
            if nearest < FAR:
                products, below = self.down([each for each in level if self.steps[each] == nearest], nearest)
                return Owner(self.list(products), self.list(part for part in parts or below if part not in products))
            level = [each for each in self.around(level) if each not in seen]
            seen.update(level)
        return Owner(NOWHERE, self.list(parts))

    def around(self, level: List[int]) -> Iterator[int]:
        """What refers to some nodes; of what nothing refers to what it refers to. Each once."""
        found: Dict[int, None] = {}
        for node in level:
            found.update(dict.fromkeys(self.graph.referrers(node) or self.graph.refs(node)))
        return iter(found)

    def down(self, level: List[int], steps: int) -> Tuple[List[int], List[int]]:
        """The products to which so many references lead, and the nearest parts on the way."""
        parts: List[int] = []
        for left in range(steps, 0, -1):
            level = list(dict.fromkeys(ref for node in level for ref in self.graph.refs(node) if self.steps[ref] == left - 1))
            parts = parts or [node for node in level if self.is_part(node)]
        return level, parts

    # --- How they are told ---

    def list(self, nodes: Iterable[int]) -> str:
        """Some nodes in the order of their file, of which the first ones are told."""
        order = sorted(set(nodes))
        told = [self.text(node) for node in order[:MOST_TOLD]]
        return ", ".join([*told, f"and {len(order) - MOST_TOLD} more"] if len(order) > MOST_TOLD else told)

    def text(self, node: int) -> str:
        """A node: its entity, its name, and the texts by which people know it. One of the first file stands as its partner."""
        other = self.partner(self.graph.names[node]) if self.graph.is_first(node) else None
        found = None if other is None else self.graph.node(1, other)
        node = node if found is None else found
        if node not in self.told:
            line = self.graph.line(node)
            keys = lines.keywords_of(line).decode("latin-1")
            side = "A" if self.graph.is_first(node) else ""
            self.told[node] = " ".join([f"{keys} {side}#{self.graph.names[node]}", *filter(None, [", ".join(self.texts(line))])])
        return self.told[node]

    def texts(self, line: bytes) -> Iterator[str]:
        """The texts by which people know an instance."""
        for (_, name), start, end in self.outline.values_in(line):
            value = line[start:end].decode("latin-1")
            if name in TEXTS and value.startswith("'") and value != "''":
                yield plainly(value)
