"""Files of the schema `examples/product.exp` that several benchmarks read."""

import pathlib
import random
import re

EXAMPLES = pathlib.Path(__file__).resolve().parent.parent / "examples"
SCHEMA = str(EXAMPLES / "product.exp")
HEAD = (
    "ISO-10303-21;\nHEADER;\nFILE_DESCRIPTION((''),'2;1');\nFILE_NAME('','',(''),(''),'','','');\n"
    "FILE_SCHEMA(('PRODUCT_MODEL'));\nENDSEC;\nDATA;\n"
)
END = "ENDSEC;\nEND-ISO-10303-21;\n"


def points(count):
    """Points, each with coordinates of its own."""
    return [f"#{n}=CARTESIAN_POINT('',({n % 977}.,{n % 89}.5,-{n % 31}.125));\n" for n in range(1, count + 1)]


def edges(count):
    """A point, a vertex, a line and an edge; then oriented edges of it."""
    lines = [
        "#1=CARTESIAN_POINT('',(0.,0.,0.));\n",
        "#2=VERTEX_POINT('',#1);\n",
        "#3=DIRECTION('',(1.,0.,0.));\n",
        "#4=VECTOR('',#3,1.);\n",
        "#5=LINE('',#1,#4);\n",
        "#6=EDGE_CURVE('',#2,#2,#5,.T.);\n",
    ]
    return lines + [f"#{n}=ORIENTED_EDGE('',*,*,#6,.{'TF'[n % 2]}.);\n" for n in range(7, count + 1)]


def one_set(count):
    """Points, and one shape that holds them all."""
    names = ",".join(f"#{n}" for n in range(2, count + 2))
    return [
        "#1=REPRESENTATION_CONTEXT('','');\n",
        *(f"#{n}=CARTESIAN_POINT('',(0.));\n" for n in range(2, count + 2)),
        f"#{count + 2}=SHAPE_REPRESENTATION('',({names}),#1);\n",
    ]


def complexes(count):
    """Instances of five parts each."""
    return ["#1=SI_UNIT(*,$,.METRE.);\n", "#2=DIMENSIONAL_EXPONENTS(1.,0.,0.);\n"] + [
        f"#{n}=(GEOMETRIC_REPRESENTATION_CONTEXT(3)GLOBAL_UNIT_ASSIGNED_CONTEXT((#1))LENGTH_UNIT()NAMED_UNIT(#2)"
        f"REPRESENTATION_CONTEXT('{n}','3D'));\n"
        for n in range(3, count + 3)
    ]


def boundary(count):
    """Blocks as the one of the examples, one after the other: in every second one each instance stands in front of those
    that it refers to."""
    text = (EXAMPLES / "product.step").read_text()
    block = [line for line in re.findall(r"^#.*;\n", text, re.M) if "REPRESENTATION(" not in line]
    size = len(block) + 3
    lines = []
    for copy in range(count // len(block) + 1):
        of_copy = [
            re.sub(r"#(\d+)", lambda name: f"#{int(name[1]) + copy * size}", line).replace("80.", f"{copy % 997 + 1}.25")
            for line in block
        ]
        lines += reversed(of_copy) if copy % 2 else of_copy
    # A copy that is cut off could refer to what is left out.
    return lines[: len(lines) // len(block) * len(block)]


def shuffled(lines):
    """The same instances in an order without order."""
    mixed = list(lines)
    random.Random(7).shuffle(mixed)
    return mixed


def spaced(lines):
    """The same instances with blanks, as some converters write them: around `=`, behind the keyword and inside parentheses."""
    return [re.sub(r"^(#\d+)=(\w+)\((.*)\);", r"\1 = \2 ( \3 ) ;", line).replace(",", ", ") for line in lines]


def instances_of(text, first):
    """The instances of a file with one data section, each name raised by as much, and the largest name then."""
    data = re.search(r"\bDATA\s*;(.*?)\bENDSEC\s*;", text, re.S)[1]
    names = [first]

    def raised(token):
        if not token[1]:
            return token[0]
        names.append(int(token[1]) + first)
        return f"#{names[-1]}"

    return re.sub(r"'[^']*'|#(\d+)", raised, data), max(names)


def merged(paths):
    """The head of the first of these files, and the instances of all, one file behind the other."""
    largest, parts, head = 0, [], None
    for path in paths:
        text = pathlib.Path(path).read_text(encoding="latin-1")
        head = head or text[: re.search(r"\bDATA\s*;", text).end()] + "\n"
        part, largest = instances_of(text, largest)
        parts.append(part)
    return head, parts


def commented(lines):
    """The same instances with a comment in front of each delimiter, and a line feed behind it."""
    return [re.sub(r"([=(),])", r"/* \1 */\1\n", line) for line in lines]


def padded(lines):
    """The same instances with zeros in front of each name."""
    return [re.sub(r"#(\d+)", lambda name: f"#{name[1]:0>12}", line) for line in lines]


def leaves(count):
    """Instances with one leaf in external mapping, which go token by token."""
    return [
        f"#{n}=(CARTESIAN_POINT((1.,2.,3.))GEOMETRIC_REPRESENTATION_ITEM()REPRESENTATION_ITEM(''));\n" for n in range(1, count + 1)
    ]


def write(path, lines, head=HEAD):
    """A file of these instances. Answers how many bytes it has."""
    with open(path, "w", encoding="latin-1") as file:
        return sum(file.write(part) for part in [head, *lines, END])
