"""A shelf of schemas: a folder of listings, in which the one that a file names is found.

Each listing, a file that ends in .exp, is known by the name behind its SCHEMA. The text `aliases` in the folder, where there
is one, says what else a listing serves, in a line each: `AUTOMOTIVE_DESIGN_CC2 = automotive_design.exp`. The program then reads
a copy with that name behind SCHEMA. Blank lines and those that begin with # say nothing.
"""

# A schema that isn't on the shelf, or a listing there that is refused, is an answer about one file, with status 1 as a
# refusal: of a folder with many schemas the others have theirs. A schema that the command line names is wanted for all
# files, and ends the run with 2.
#
# An alias makes a copy with the other name, which is shown. The program compares names itself, and nothing in the tools
# says that a file is accepted by a schema that it doesn't name.

import hashlib
import os
import pathlib
import re
import stat
import tempfile
import threading
from typing import Dict, List, Match, NamedTuple, Optional, Sequence, Set, Tuple

import p21_files
import p21_reading as reading
import p21_schemas

ALIASES = "aliases"
VARIABLE = "P21_SCHEMAS"
OPTION = f"a folder of schemas, each found by what a file names; in place of S. {VARIABLE} names one too"
ALIAS = re.compile(r"(\w+)\s*=\s*(\S.*)", re.A)
# What may stand in a string in front of the end of a name: characters, as themselves or by their numbers, and what stands for none.
UNIT = re.compile(
    rb"[\0-\x1f\x7f]|\\PA\\|([ -&(-\[\]-~])|\\X\\([0-9A-F]{2})|\\X2\\((?:[0-9A-F]{4})+)\\X0\\|\\X4\\((?:[0-9A-F]{8})+)\\X0\\"
)
# How many digits a number has, by the group of the pattern that has it; a character of its own has none.
DIGITS = {1: 0, 2: 2, 3: 4, 4: 8}
NAME = re.compile(r"[A-Za-z0-9_]*")
# The header is looked for in so many bytes first, and in so many at most.
FIRST_OF_HEADER, MOST_HEADER = 1 << 18, 1 << 28
# What is answered of a file that names a schema which no listing serves.
NO_SCHEMA = "no schema"


class Served(NamedTuple):
    """A listing that serves a name: the text that the program reads, the listing in the folder, its hash, for another name the
    change that is made, and the state of the listing in which it was read."""

    path: str
    listing: str
    sha256: str
    change: str
    state: Tuple[int, ...]

    def check_state(self) -> None:
        """Says where the listing isn't the text any more of which the hash is."""
        if reading.state_of(self.path) != self.state:
            raise reading.Trouble(f"{self.listing} changed while it was in use: begin again")


def named(path: str, listing: str) -> Served:
    """A listing that is named, by the path at which it lasts."""
    state = reading.state_of(path)
    with reading.plain(path) as file:
        return Served(path, listing, hashlib.sha256(file.read()).hexdigest(), "", state)


def name_at(text: bytes, start: int) -> Optional[str]:
    """The name with which the string begins whose first character stands here, in capitals, or None."""
    found: List[str] = []
    while unit := UNIT.match(text, start):
        found.append(characters_of(unit))
        start = unit.end()
        if not NAME.fullmatch(found[-1]):
            break
    name = NAME.match("".join(found))
    return name[0].upper() or None if name else None


def characters_of(unit: Match[bytes]) -> str:
    """The characters that a part of a string stands for."""
    if unit.lastindex is None:
        return ""
    part, size = unit[unit.lastindex], DIGITS[unit.lastindex]
    if not size:
        return part.decode("ascii")
    return "".join(chr(int(part[at : at + size], 16)) for at in range(0, len(part), size))


class Given:
    """The schemas that a command line names, of which each file is checked by the first one that it names."""

    def __init__(self, names: Sequence[str]) -> None:
        self.schemas = [named(reading.lasting(name), name) for name in names]

    def schemas_for(self, _: str) -> Sequence[Served]:
        """All of them."""
        return self.schemas


def folder_of(option: Optional[str], first: Optional[str]) -> Optional[str]:
    """The folder that the option names, or else P21_SCHEMAS where the first name of the command line is no schema; or None."""
    if option is not None:
        return option
    folder = os.environ.get(VARIABLE) or None
    return folder if folder and (first is None or not is_schema(first)) else None


def is_schema(path: str) -> bool:
    """Does a file begin as a schema does?"""
    try:
        is_file = stat.S_ISREG(os.stat(path).st_mode)
    except (FileNotFoundError, NotADirectoryError):
        return False
    if not is_file:
        return False
    with open(path, "rb") as file:
        first = next(p21_schemas.words_of(file.read(1 << 16)), None)
    return first is not None and first.text == "SCHEMA"


def name_in(path: str) -> Optional[str]:
    """The name of the schema that a STEP file names, in capitals; None where no such name is found."""
    if not os.path.isfile(path) and not path.startswith("/dev/fd/"):
        return None
    size = FIRST_OF_HEADER
    try:
        with open(path, "rb") as file:
            while True:
                file.seek(0)
                data = file.read(size)
                is_read, name = name_of(data)
                if is_read or len(data) < size or size >= MOST_HEADER:
                    return name
                size *= 16
    except OSError:
        return None


def name_of(data: bytes) -> Tuple[bool, Optional[str]]:
    """The name in the beginning of a STEP file, or None; and whether more of the file says nothing else."""
    try:
        for statement in p21_files.statements(data):
            text = data[statement.start : statement.end]
            if not text.endswith(b";"):
                return False, None
            if text.startswith(b"FILE_SCHEMA"):
                value = reading.read_parts(text)[0].values[0].inner[0]
                return True, name_at(text, value.start + 1)
            if text.startswith((b"ENDSEC", b"#")):
                break
    except (ValueError, IndexError, StopIteration, AssertionError):
        pass
    return True, None


def text_of(path: pathlib.Path) -> bytes:
    """The text of a listing, which is a plain file."""
    with reading.plain(str(path)) as file:
        return file.read()


def heading_of(path: pathlib.Path, text: bytes) -> Tuple[p21_schemas.Word, p21_schemas.Word]:
    """The word SCHEMA of a listing, and the name behind it."""
    words = p21_schemas.words_of(text)
    first, name = next(words, None), next(words, None)
    if first is None or name is None or first.text != "SCHEMA":
        raise reading.Trouble(f"{path} is no schema: its first word isn't SCHEMA")
    return first, name


class Shelf:
    """The listings of a folder, by the names that they serve."""

    def __init__(self, folder: str) -> None:
        self.folder = pathlib.Path(folder)
        self.copies = tempfile.TemporaryDirectory()
        self.lock = threading.Lock()
        self.found: Dict[Optional[str], Served] = {}
        self.lacking: Set[str] = set()
        self.listings: Dict[str, pathlib.Path] = {}
        reading.check_folder(folder, "folder of schemas")
        for path in sorted(path for path in self.folder.iterdir() if path.suffix.lower() == ".exp"):
            self.keep(heading_of(path, text_of(path))[1].text, path)
        self.own = set(self.listings)
        self.read_aliases()
        if not self.listings:
            raise reading.Trouble(f"{folder} has no listing whose name ends in .exp")

    def keep(self, name: str, path: pathlib.Path) -> None:
        """Keeps by which listing a name is served. Two can't serve one name."""
        if name in self.listings and self.listings[name] != path:
            raise reading.Trouble(f"{self.listings[name]} and {path} both serve {name}")
        self.listings[name] = path

    def read_aliases(self) -> None:
        """What else the listings serve."""
        path = self.folder / ALIASES
        if not os.path.lexists(path):
            return
        for number, line in enumerate(text_of(path).decode("utf-8", "surrogateescape").split("\n"), 1):
            line = line.strip()
            if not line or line.startswith("#"):
                continue
            found = ALIAS.fullmatch(line)
            listing = self.folder / found[2] if found else None
            if found is None or listing is None or listing not in self.listings.values():
                raise reading.Trouble(f"{path}:{number}: no NAME = LISTING of this folder: {line}")
            self.keep(found[1].upper(), listing)

    def serving(self, name: Optional[str]) -> Optional[Served]:
        """The listing that serves a name, or None; where a file has no name that is found, the first one of all, by which the
        program says what is wrong with the file."""
        path = self.listings[min(self.listings)] if name is None else self.listings.get(name)
        with self.lock:
            if path is None:
                self.lacking.add(str(name))
                return None
            if name not in self.found:
                self.found[name] = self.served(name, path)
            return self.found[name]

    def schemas_for(self, path: str) -> Sequence[Served]:
        """The one that serves the name in a file, or none."""
        served = self.serving(name_in(path))
        return [served] if served else []

    def served(self, name: Optional[str], path: pathlib.Path) -> Served:
        """A listing by a name, and where it isn't its own, a copy with that name."""
        found = named(str(path), str(path))
        if name is None or name in self.own:
            return found
        text = text_of(path)
        first, old = heading_of(path, text)
        copy = pathlib.Path(self.copies.name) / f"{name}.exp"
        copy.write_bytes(text[: old.start] + name.encode("ascii") + text[old.end :])
        found.check_state()
        heading = " ".join(text[first.start : old.end].decode("latin-1").split())
        line = reading.line_number(text, old.start)
        change = f"{path}:{line}: {heading} -> {first.text} {name}"
        return found._replace(path=str(copy), change=change, state=reading.state_of(str(copy)))

    def changes(self) -> List[str]:
        """The changes that were made in copies, in the order of the names."""
        return [served.change for _, served in sorted(self.found.items(), key=lambda item: item[0] or "") if served.change]
