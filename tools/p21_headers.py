"""What the header of a STEP file says of it: the schema that it names, and the programs that it comes from.

What a text of a header says is asked of the program: of the header alone, so that a file that is refused behind it has it too. Of a
header that is refused each of these texts is asked by itself, and what isn't accepted there isn't known. It is shown as
`p21 syntax --header` shows it, and as the file says it: whether that is right nothing here judges.
"""

# The header is handed to the program with no data behind it, which takes a moment for a file of any size. What is read here is
# where the header ends: the program reads from the front, so that another reading than its own could only end in a refusal. In
# a header that is refused it is also read here where the parameters stand, since the program says nothing of them.
#
# A file that is no STEP file may be of any size and hold anything, so a header is looked for in its first bytes and
# statements alone.

import itertools
from typing import Dict, List, NamedTuple, Optional, Tuple

import p21_files
import p21_reading as reading
from p21_reading import Part, Status, Value

# The header is looked for in so many bytes first, in so many at most, and in so many statements.
FIRST, MOST, MOST_STATEMENTS = 1 << 16, 1 << 20, 256
# What stands behind a header in a file without data.
REST = b"DATA;ENDSEC;END-ISO-10303-21;"
# A header that has one value of a file.
FRAME = b"ISO-10303-21;HEADER;FILE_DESCRIPTION((''),'2;1');FILE_NAME('','',(''),(''),%s,%s,'');FILE_SCHEMA(%s);ENDSEC;"
# What stands in it in place of each other value.
OTHERS = {"preprocessor_version": b"''", "originating_system": b"''", "file_schema": b"('A')"}
# The word that the program has in front of each text.
WORDS = {"schema": "file_schema", "preprocessor version": "preprocessor_version", "originating system": "originating_system"}


class Header(NamedTuple):
    """What a header says: the name in its FILE_SCHEMA, the program that wrote the file, and the system that its data come from.
    What isn't there, or isn't known, is None."""

    file_schema: Optional[str] = None
    preprocessor_version: Optional[str] = None
    originating_system: Optional[str] = None


class Head(NamedTuple):
    """The first bytes of a file as far as its header goes, the records in them, and whether the header ends there."""

    text: bytes
    records: List[Part]
    is_whole: bool


def head_of(data: bytes) -> Tuple[bool, Head]:
    """The header in the first bytes of a file; and whether more of the file says nothing else."""
    records: List[Part] = []
    for statement in itertools.islice(p21_files.statements(data), MOST_STATEMENTS):
        text = data[statement.start : statement.end]
        if statement.open is not None or not text.endswith(b";"):
            return False, Head(data, records, False)
        if text.startswith((b"ENDSEC", b"DATA", b"#")):
            return True, Head(data[: statement.end], records, text.startswith(b"ENDSEC"))
        try:
            records.append(reading.read_parts(text)[0])
        except (ValueError, IndexError, AssertionError):
            # It is no record, or one of another form than it must have.
            continue
    return True, Head(data, records, False)


def head_in(path: str) -> Head:
    """The header of a file, which can be read again and again."""
    size = FIRST
    with open(path, "rb") as file:
        while True:
            file.seek(0)
            data = file.read(size)
            is_read, head = head_of(data)
            if is_read or len(data) < size or size >= MOST:
                return head
            size *= 16


def told(program: str, text: bytes) -> Optional[Header]:
    """What the program tells of a header without data, or None where it is refused."""
    answer = reading.run(program, "syntax", "-", options=["--header"], text=[text, REST])
    line, status = reading.judged(answer.error, answer.status)
    if status == Status.FAILED:
        raise reading.Trouble(line)
    if status == Status.REFUSED:
        return None
    texts: Dict[str, str] = {}
    for line in answer.output.decode("utf-8").split("\n"):
        word, colon, behind = line.partition(":")
        if colon and word in WORDS:
            texts.setdefault(WORDS[word], behind[1:])
    return Header(**texts)


def values_in(records: List[Part]) -> Dict[str, Value]:
    """The values of a header that are told, as far as they are there."""
    values: Dict[str, Value] = {}
    for record in records:
        for name, value in zip(p21_files.PARAMETERS.get(record.key, ()), record.values):
            values["file_schema" if name == "schema_identifiers" else name] = value
    return {name: value for name, value in values.items() if name in OTHERS}


def told_one_by_one(program: str, records: List[Part]) -> Header:
    """What the program tells of each value of a header by itself."""
    found = Header()
    for name, value in values_in(records).items():
        parts = {**OTHERS, name: bytes(value.text[value.start : value.end])}
        one = told(program, FRAME % (parts["preprocessor_version"], parts["originating_system"], parts["file_schema"]))
        found = found._replace(**{name: getattr(one, name) if one else None})
    return found


def header_in(program: str, path: str) -> Header:
    """What the header of a file says, which can be read again and again."""
    head = head_in(path)
    header = told(program, head.text) if head.is_whole else None
    return told_one_by_one(program, head.records) if header is None else header
