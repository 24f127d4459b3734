"""Manifests of many files: what each one was when it was looked at, and what it is now.

A manifest is a text of JSON objects, one in a line. The first says which form the hashes are of; each other one is the entry of
a file: its path, its size, the SHA-256 of its bytes, the schema with the SHA-256 of its listing, and either the SHA-256 of its
canonical file, with and without the header, and how many instances it has, or why it isn't accepted. A file of which nothing
is known, since it couldn't be read or the program didn't answer, has no entry.

A manifest may come from a stranger. Whatever it holds, nothing but plain files is opened for it.
"""

# A manifest is never written over. `--resume` goes on with one, and trusts the entries that stand in it; `--verify`
# finds what changed since. A last line that was cut is written again. A lock of the system, which goes with its
# process, keeps a second run away; where a disk has none, no manifest is written there.
#
# `--resume` looks by which listing each file would be checked now, by the name in its header, so that another alias or
# a listing that came is found too. Where it is another one than the entry has, a new manifest is begun; one entry isn't
# made anew, since a file has one line.
#
# Verifying runs the program only where the bytes of a file are others, or with `--full`. Equal bytes mean the same
# under the same listing, so the listing is held too. Of several schemas that are named, one has to be that of the
# entry.
#
# A file that changes while its entry is made has none, and neither has one whose listing changes: what the system says
# of a file (its number, size and times) is looked at before and behind.
#
# A path that leads out of the base, or to no plain file, is a mistake in the manifest (2), and the other files are
# still looked at. Without a base, paths are taken as they are written, since the tool writes absolute ones where they
# are given so.
#
# Other bytes of the same meaning have status 0. A manifest is there for the meaning; who wants the bytes looks at the
# table, or verifies a manifest of BagIt.

import contextlib
import enum
import hashlib
import json
import os
import re
import stat
from typing import Any, Callable, Dict, Iterable, Iterator, List, NamedTuple, Optional, Sequence, Tuple, Union

import p21_reading as reading
import p21_shelf
import p21_system as system
from p21_reading import Status

MANIFEST = 1
ACCEPTED = "accepted"
HASH = re.compile(r"[0-9a-f]{64}")
# A line of BagIt. The two signs of sha256sum in front of the path come first, so that a path may begin with a blank.
BAGIT = re.compile(rb"([0-9A-Fa-f]{64})(?:  | \*|[ \t]+\*?)(.+)", re.S)
# No size and no number of instances has more digits.
MOST_DIGITS = 20


class Entry(NamedTuple):
    """What is said of a file."""

    path: str
    bytes: int
    sha256: str
    schema: Optional[str]
    schema_sha256: Optional[str]
    form: int
    canonical_sha256: Optional[str]
    data_sha256: Optional[str]
    instances: Optional[int]
    answer: str


class NoAnswer(NamedTuple):
    """Why nothing is known of a file."""

    why: str


# What makes the entry of a file.
EntryFor = Callable[[str], Union[Entry, NoAnswer]]


class Found(enum.Enum):
    """What verifying says of a file, from the best to the worst, with the status that it leads to."""

    AS_IT_WAS = "as it was", Status.DONE
    SAME_MEANING = "other bytes of the same meaning", Status.DONE
    MOVED = "moved", Status.REFUSED
    NEW = "new", Status.REFUSED
    CHANGED = "changed", Status.REFUSED
    MISSING = "missing", Status.REFUSED
    MISTAKE = "a mistake in the manifest", Status.MISUSED
    NOT_KNOWN = "not known", Status.FAILED

    @property
    def word(self) -> str:
        """The word for it."""
        return self.value[0]

    @property
    def status(self) -> Status:
        """The status that it leads to."""
        return self.value[1]


class Line(NamedTuple):
    """What is said of a file, and why."""

    file: str
    found: Found
    why: str

    def fields(self) -> Tuple[str, str, str]:
        """What is printed of it."""
        return self.file, self.found.word, self.why


def hash_of(path: str) -> Tuple[int, str]:
    """The size and the SHA-256 of a plain file's bytes, which are read in pieces."""
    found, size = hashlib.sha256(), 0
    with reading.plain(path) as file:
        while piece := file.read(reading.PIECE):
            found.update(piece)
            size += len(piece)
    return size, found.hexdigest()


# --- The text of a manifest ---


def head_line(form: int) -> str:
    """The first line of a manifest whose hashes are of this form."""
    return json.dumps({"p21_manifest": MANIFEST, "canonical_form": form})


def line_of(entry: Entry) -> str:
    """The line of an entry. Bytes of a path that are no UTF-8 are kept."""
    return json.dumps(entry._asdict())


def text_of(path: str) -> bytes:
    """The text of a manifest."""
    with reading.opened(path) as lasting, open(lasting, "rb") as file:
        return file.read()


def entries_of(path: str, text: bytes, form: int, unfinished: bool = False) -> Dict[str, Entry]:
    """The entries of a manifest by their paths, of which the hashes must be of this form. The last line of an unfinished one may
    be cut, and is left out then."""
    *lines, cut = text.decode("utf-8", "surrogateescape").split("\n")
    if cut and not unfinished:
        raise reading.Trouble(f"{path}:{len(lines) + 1}: the last line is cut; --resume goes on with it")
    if cut and not (head_line(form) if not lines else '{"path": ').startswith(cut[: 9 if lines else None]):
        raise reading.Trouble(f"{path}:{len(lines) + 1}: no manifest of p21-table")
    found: Dict[str, Entry] = {}
    for number, line in enumerate(lines, 1):
        value = parsed(line)
        if number == 1:
            check_head(path, value, form)
            continue
        entry = entry_of(value, form)
        if entry is None:
            raise reading.Trouble(f"{path}:{number}: no entry of a manifest")
        if entry.path in found:
            raise reading.Trouble(f"{path}:{number}: {entry.path} has an entry already")
        found[entry.path] = entry
    if not found and not unfinished:
        raise reading.Trouble(f"{path} has no entries" if lines else f"{path} is empty")
    return found


def parsed(line: str) -> Any:
    """The object of a line, or None."""
    try:
        return json.loads(line, parse_int=number_of)
    except (ValueError, RecursionError):
        return None


def number_of(digits: str) -> int:
    """The number that stands in a manifest, of which none is long."""
    if len(digits) > MOST_DIGITS:
        raise ValueError(digits)
    return int(digits)


def check_head(path: str, value: Any, form: int) -> None:
    """Is it the first line of a manifest whose hashes are of this form?"""
    if not isinstance(value, dict) or value.get("p21_manifest") != MANIFEST:
        raise reading.Trouble(f"{path}:1: no manifest of p21-table")
    if value.get("canonical_form") != form:
        raise reading.Trouble(f"{path}:1: its hashes are of form {value.get('canonical_form')}, those of this program of {form}")


def entry_of(value: Any, form: int) -> Optional[Entry]:
    """The entry that an object is, or None. It has an answer: what is said of an accepted file, or why it isn't one."""
    if not isinstance(value, dict) or set(value) != set(Entry._fields):
        return None
    entry = Entry(**value)
    meaning = (entry.canonical_sha256, entry.data_sha256)
    listing = (entry.schema, entry.schema_sha256)
    has_listing = isinstance(entry.schema, str) and is_hash(entry.schema_sha256)
    if not (is_path(entry.path) and is_count(entry.bytes) and is_hash(entry.sha256) and entry.form == form):
        return None
    if entry.answer == ACCEPTED:
        is_right = has_listing and all(map(is_hash, meaning)) and is_count(entry.instances)
    else:
        is_refusal = isinstance(entry.answer, str) and bool(reading.REFUSAL.fullmatch(entry.answer))
        is_answer = has_listing and is_refusal or listing == (None, None) and entry.answer == p21_shelf.NO_SCHEMA
        is_right = is_answer and (*meaning, entry.instances) == (None, None, None)
    return entry if is_right else None


def is_path(value: Any) -> bool:
    """Is it a path of this system?"""
    try:
        return isinstance(value, str) and value != "" and b"\0" not in os.fsencode(value)
    except UnicodeEncodeError:
        return False


def is_count(value: Any) -> bool:
    """Is it a number of things?"""
    return isinstance(value, int) and not isinstance(value, bool) and value >= 0


def is_hash(value: Any) -> bool:
    """Is it a SHA-256?"""
    return isinstance(value, str) and bool(HASH.fullmatch(value))


# --- BagIt ---


def bagit_line(entry: Entry) -> bytes:
    """The line of a file in a manifest of BagIt, in which line ends and % in paths are numbers."""
    path = re.sub(b"[%\r\n]", lambda found: b"%%%02X" % ord(found[0]), os.fsencode(system.with_slashes(entry.path)))
    return entry.sha256.encode("ascii") + b"  " + path + b"\n"


def bagit_of(path: str, text: bytes) -> Optional[Dict[str, str]]:
    """The SHA-256 of each path of a manifest of BagIt, or None where the text is none."""
    lines = text.replace(b"\r\n", b"\n").rstrip(b"\n").split(b"\n")
    if not BAGIT.fullmatch(lines[0]):
        return None
    found: Dict[str, str] = {}
    for number, line in enumerate(lines, 1):
        match = BAGIT.fullmatch(line)
        if not match:
            raise reading.Trouble(f"{path}:{number}: no line of a manifest of BagIt")
        name = os.fsdecode(re.sub(b"%(25|0[AaDd])", lambda sign: bytes([int(sign[1], 16)]), match[2]))
        if not is_path(name):
            raise reading.Trouble(f"{path}:{number}: no path of a file")
        if name in found:
            raise reading.Trouble(f"{path}:{number}: {name} has a line already")
        found[name] = match[1].decode("ascii").lower()
    return found


# --- Where the paths lead ---


class Base:
    """Where the paths of a manifest lead: as they are written, or below a folder and nowhere else."""

    def __init__(self, folder: Optional[str]) -> None:
        self.folder = folder
        self.top = "" if folder is None else os.path.realpath(folder)

    def file_of(self, path: str) -> str:
        """The file that a path of the manifest names."""
        return path if self.folder is None else os.path.join(self.folder, path)

    def has(self, file: str) -> bool:
        """Does a file stand below the folder, where there is one, links resolved?"""
        if self.folder is None:
            return True
        try:
            return os.path.commonpath([self.top, os.path.realpath(file)]) == self.top
        except ValueError:
            # It stands on another drive of Windows.
            return False

    def path_of(self, file: str) -> str:
        """The path by which a manifest names a file."""
        if self.folder is None:
            return file
        if not self.has(file):
            raise reading.Trouble(f"{file} doesn't stand below {self.folder}")
        folder, name = os.path.split(os.path.abspath(file))
        return system.with_slashes(os.path.relpath(os.path.join(os.path.realpath(folder), name), self.top))


# --- Verifying ---


class Manifest(NamedTuple):
    """What a manifest says of each file, by its path; in one of BagIt that is the SHA-256 of its bytes alone. A base is where its
    paths lead."""

    entries: Dict[str, Entry]
    hashes: Dict[str, str]
    base: Base

    @property
    def has_meaning(self) -> bool:
        """Does it say more than the SHA-256 of the bytes?"""
        return bool(self.entries)


def read(path: str, form: Callable[[], int], folder: Optional[str]) -> Manifest:
    """Reads a manifest of p21-table or of BagIt, whose paths lead below a folder, where one is named. Those of BagIt else stand
    beside the manifest."""
    text = text_of(path)
    hashes = bagit_of(path, text)
    if hashes is None:
        entries = entries_of(path, text, form())
        return Manifest(entries, {name: entry.sha256 for name, entry in entries.items()}, Base(folder))
    if folder is None:
        hashes = {os.path.join(os.path.dirname(path), name): digest for name, digest in hashes.items()}
    return Manifest({}, hashes, Base(folder))


Said = Tuple[Found, str]


class Present(NamedTuple):
    """How it is said what files are now: what makes the entry of one; why the listing isn't the one that it was, or None; and
    whether each entry is made anew, or only that of a file with other bytes."""

    entry_for: EntryFor
    other_listing: Callable[[str, Entry], Optional[str]]
    is_full: bool


class Verifying:
    """A manifest that is held against what there is now."""

    def __init__(self, manifest: Manifest, files: Sequence[str], present: Present) -> None:
        self.manifest = manifest
        self.present = present
        self.known = {os.path.abspath(manifest.base.file_of(path)) for path in manifest.hashes}
        # The files that the manifest doesn't have; and by its bytes each of them that may be one that it has at another place.
        self.new = dict.fromkeys(file for file in files if not self.has(file))
        self.by_hash: Optional[Dict[str, List[Tuple[str, int]]]] = None

    def has(self, file: str) -> bool:
        """Does the manifest have this file?"""
        return os.path.abspath(file) in self.known

    def lines(self, each: Callable[[Callable[[str], Said], Iterable[str]], Iterable[Said]]) -> Iterator[Line]:
        """What is said of each file of the manifest, and of each given one that isn't in it. `each` does a work for many files."""
        for path, (found, why) in zip(self.manifest.hashes, each(self.said_of, self.manifest.hashes)):
            moved = self.moved(path) if found == Found.MISSING else None
            yield Line(path, *(moved or (found, why)))
        for file in self.new:
            reason = reading.why_not_plain(file)
            yield Line(file, Found.NOT_KNOWN, reason) if reason else Line(file, Found.NEW, "")

    def said_of(self, path: str) -> Said:
        """What is said of a file of the manifest, and why."""
        file = self.manifest.base.file_of(path)
        if not self.manifest.base.has(file):
            return Found.MISTAKE, f"it leads out of {self.manifest.base.folder}"
        try:
            return self.held(path, file, *hash_of(file))
        except reading.NotPlain as trouble:
            return Found.MISTAKE, trouble.reason
        except (FileNotFoundError, NotADirectoryError) as error:
            return Found.MISSING, error.strerror
        except reading.TROUBLES as trouble:
            return Found.NOT_KNOWN, reading.told(trouble)

    def held(self, path: str, file: str, size: int, digest: str) -> Said:
        """What is said of a file that has so many bytes, of this SHA-256."""
        is_same = digest == self.manifest.hashes[path]
        if not self.manifest.has_meaning:
            return (Found.AS_IT_WAS, "") if is_same else (Found.CHANGED, "the bytes, and a manifest of BagIt doesn't have the meaning")
        was = self.manifest.entries[path]
        if is_same and not self.present.is_full:
            whys = [other_field("size", was.bytes, size), self.present.other_listing(file, was)]
            return said(Found.AS_IT_WAS, whys)
        now = self.present.entry_for(file)
        if isinstance(now, NoAnswer):
            return Found.NOT_KNOWN, now.why if is_same else f"other bytes, and {now.why}"
        return said(Found.AS_IT_WAS if is_same else Found.SAME_MEANING, changes(was, now))

    def moved(self, path: str) -> Optional[Said]:
        """Where a file is now that isn't at its place, or None where that isn't known."""
        if self.by_hash is None:
            self.by_hash = self.known_by_hash()
        there = self.by_hash.get(self.manifest.hashes[path])
        if not there:
            return None
        file, size = there.pop(0)
        del self.new[file]
        try:
            found, why = self.held(path, file, size, self.manifest.hashes[path])
        except reading.TROUBLES as trouble:
            return Found.NOT_KNOWN, reading.told(trouble)
        if found not in (Found.AS_IT_WAS, Found.CHANGED):
            return found, why
        return Found.MOVED, f"to {file}; {why}" if why else f"to {file}"

    def known_by_hash(self) -> Dict[str, List[Tuple[str, int]]]:
        """The files that the manifest doesn't have, with their sizes, by the SHA-256 of their bytes. One of another size than any
        file of the manifest isn't read, and of one that can't be read nothing is known but that it is new."""
        sizes = {entry.bytes for entry in self.manifest.entries.values()}
        found: Dict[str, List[Tuple[str, int]]] = {}
        for file in self.new:
            with contextlib.suppress(*reading.TROUBLES):
                if not sizes or os.path.getsize(file) in sizes:
                    size, digest = hash_of(file)
                    found.setdefault(digest, []).append((file, size))
        return found


def said(unchanged: Found, whys: Iterable[Optional[str]]) -> Said:
    """What is said of a file for all that changed of it, or where nothing did."""
    why = "; ".join(filter(None, whys))
    return (Found.CHANGED, why) if why else (unchanged, "")


def changes(was: Entry, now: Entry) -> Iterator[Optional[str]]:
    """What an entry says otherwise than one before, in words: nothing where the bytes alone are others."""
    is_same = was.sha256 == now.sha256
    if was.schema_sha256 != now.schema_sha256:
        yield listing_now(now.schema, now.schema_sha256)
    if is_same:
        yield other_field("size", was.bytes, now.bytes)
    if now.answer != was.answer:
        yield now.answer if was.answer == ACCEPTED else f"{now.answer}, where it was {was.answer}"
    elif now.answer != ACCEPTED:
        yield None if is_same else now.answer
    elif now.canonical_sha256 != was.canonical_sha256 and not is_same:
        yield "the header alone" if was.data_sha256 == now.data_sha256 else "the data"
    else:
        yield other_field("number of instances", was.instances, now.instances)
        yield other_field("canonical SHA-256", was.canonical_sha256, now.canonical_sha256)
        yield other_field("SHA-256 of the data", was.data_sha256, now.data_sha256)


def other_field(what: str, was: Union[int, str, None], now: Union[int, str, None]) -> Optional[str]:
    """That the manifest has something else of a file than what is found, or None."""
    return None if was == now else f"the {what}, which is {now}, where the manifest has {was}"


def listing_now(listing: Optional[str], sha256: Optional[str]) -> str:
    """That a file is checked by another listing than it was."""
    return f"the listing of its schema, which is {listing} with SHA-256 {sha256} now" if listing else "the listing of its schema, which isn't there now"


# --- Writing ---


class Written:
    """A manifest that is being written: each entry stands in it as soon as it is there. As long as this process has it, no other
    one writes it."""

    def __init__(self, path: str, form: int, resume: bool) -> None:
        self.path = path
        self.file = self.opened(0 if resume else os.O_EXCL)
        self.lock()
        text = self.text()
        if text and not resume:
            raise reading.Trouble(f"{path} is being written by another run")
        self.kept = entries_of(path, text, form, unfinished=True) if text else {}
        whole = text.rfind(b"\n") + 1
        os.ftruncate(self.file, whole)
        if not whole:
            self.write(head_line(form))

    def opened(self, flag: int) -> int:
        """The descriptor of the manifest, which is a plain file."""
        try:
            descriptor = os.open(self.path, os.O_RDWR | os.O_APPEND | os.O_CREAT | system.AS_IT_IS | flag, 0o666)
        except FileExistsError:
            raise reading.Trouble(f"{self.path} is there already: --resume goes on with it") from None
        except OSError as error:
            raise reading.Trouble(f"cannot write {self.path}: {error.strerror}") from None
        if not stat.S_ISREG(os.fstat(descriptor).st_mode):
            raise reading.Trouble(f"cannot write {self.path}: {reading.NOT_PLAIN}")
        return descriptor

    def lock(self) -> None:
        """Takes the manifest for this process, at whose end it is free again, however it ends."""
        try:
            system.lock(self.file)
        except BlockingIOError:
            raise reading.Trouble(f"{self.path} is being written by another run") from None
        except OSError as error:
            raise reading.Trouble(f"{self.path} can't be kept from other runs: {error.strerror}") from None

    def text(self) -> bytes:
        """What stands in the manifest."""
        with open(self.file, "rb", closefd=False) as file:
            return file.read()

    def write(self, line: str) -> None:
        """A line, which is there even where the next moment ends this process."""
        left = f"{line}\n".encode("ascii")
        while left:
            try:
                left = left[os.write(self.file, left) :]
            except OSError as error:
                raise reading.Trouble(f"cannot write {self.path}: {error.strerror}") from None

    def add(self, entry: Entry) -> None:
        """The entry of a further file."""
        self.write(line_of(entry))
