"""What the tools beside the program share: how they run it, how they read the text of a statement, and how they print what
files hold.

The tools judge nothing themselves. Which files are accepted, what is refused and what a file means, the program says. A text
may be of any size and hold anything: it is read where it lies, and what is found in it is read again where it is asked for.
"""

# `p21-where` and `p21-table` make no copy of the parts of a text. A list, the parts of a record or the words of a
# schema are read again where they are asked for, and only the place of each 64th is kept, so that a text costs at most
# four times its bytes; what is found twice is found by a bit for each byte. Patterns have no repetition within a
# repetition, and digits become a number only where they are at most 20.
#
# Of a pipe or a device 1 GiB is copied (1,073,741,824 bytes), since the tools read a text several times; more is
# refused by the tool, and has to be saved as a file first.

import argparse
import array
import codecs
import contextlib
import enum
import errno
import itertools
import mmap
import os
import pathlib
import re
import shlex
import shutil
import stat
import subprocess
import sys
import tempfile
import traceback
from typing import (
    IO,
    Any,
    BinaryIO,
    Callable,
    Dict,
    Generator,
    Iterable,
    Iterator,
    List,
    Match,
    NamedTuple,
    NoReturn,
    Optional,
    Pattern,
    Sequence,
    Tuple,
    TypeVar,
    Union,
    overload,
)

import p21_system as system

HERE = pathlib.Path(__file__).resolve().parent
# A text as it lies in memory or in a file.
Text = Union[bytes, bytearray, mmap.mmap]
Piece = Union[bytes, bytearray, memoryview]
PIECE = 1 << 20
FURTHER = "a further schema, for files that name another one; may be given several times"
# So many bytes are copied of what is no plain file, as a pipe or a device.
MOST_COPIED = 1 << 30


Found = TypeVar("Found")


class Trouble(Exception):
    """What keeps a tool from its answer, as a line."""


class Unfinished(Trouble, ValueError):
    """A statement is taken apart that has no end."""

    def __init__(self) -> None:
        super().__init__("the text ends inside a statement")


class NotPlain(Trouble):
    """A path that leads to something else than a plain file, where nothing else is read, with the reason."""

    def __init__(self, path: str, reason: str) -> None:
        super().__init__(f"cannot open {path}: {reason}")
        self.reason = reason


class Status(enum.IntEnum):
    """What a check comes to, and the exit statuses of the program and the tools: it is done; something is refused, different or
    not found; nothing is done, as by a wrong command line; or there is no answer, as where memory or a file fails."""

    DONE = 0
    REFUSED = 1
    MISUSED = 2
    FAILED = 3


class Answer(NamedTuple):
    """What a run of the program wrote to each stream, without the last line end of the second, and its status."""

    output: bytes
    error: str
    status: int


# --- What is printed ---

ESCAPES = {"\n": "\\n", "\r": "\\r", "\t": "\\t"}


def shown(text: str) -> str:
    """A text on one line, with characters that a terminal doesn't show, and bytes that are none, by their numbers."""
    return text if text.isprintable() else "".join(map(shown_character, text))


def shown_character(character: str) -> str:
    """A character, or its number where it isn't shown."""
    code = ord(character)
    if character.isprintable():
        return character
    if 0xDC80 <= code <= 0xDCFF:
        return f"\\x{code - 0xDC00:02x}"
    form = f"\\x{code:02x}" if code < 0x100 else f"\\u{code:04x}" if code < 0x10000 else f"\\U{code:08x}"
    return ESCAPES.get(character, form)


def escaped(text: str) -> str:
    """A text on one line from which it can be read back, whatever it is: a backslash is doubled, what isn't shown stands by its
    number, and a byte that belongs to no character by a number from `\\x80` to `\\xff`, which no character has."""
    if text.isprintable() and "\\" not in text:
        return text
    return "".join(map(escaped_character, text))


def escaped_character(character: str) -> str:
    """A character as it stands in such a text."""
    code = ord(character)
    if character == "\\":
        return "\\\\"
    return f"\\u{code:04x}" if 0x80 <= code < 0x100 and not character.isprintable() else shown_character(character)


def quoted(name: str) -> str:
    """A name of a file as a word of a shell."""
    if name.isprintable():
        return shlex.quote(name)
    signs = (chr(byte) if 0x20 <= byte < 0x7F and byte not in b"'\\" else f"\\x{byte:02x}" for byte in os.fsencode(name))
    return f"$'{''.join(signs)}'"


class Arguments(argparse.ArgumentParser):
    """A command line, whose words are shown where one is wrong, and whose help fails where it can't be written."""

    def print_help(self, file: Optional[IO[str]] = None) -> None:
        print(self.format_help(), end="", file=file)

    def error(self, message: str) -> NoReturn:
        super().error(shown(message))

    def parse(self) -> argparse.Namespace:
        """The command line. Options may stand among the names of files."""
        return self.parse_intermixed_args(system.expanded(sys.argv[1:]))


def ended(tool: str, status: int, work: Callable[[], int]) -> int:
    """The status of a tool's work. Where it can't be done, or its output can't be written, a line says why, and this is the
    status."""
    # A stream that is closed is None, and what is printed to it would go elsewhere.
    sys.stderr = sys.stderr or open(os.devnull, "w", encoding="utf-8")
    if not sys.stdout:
        print(f"{tool}: standard output is closed", file=sys.stderr)
        return status
    system.begin()
    try:
        try:
            return work()
        finally:
            sys.stdout.flush()
    except Exception as trouble:
        with contextlib.suppress(OSError):
            if not isinstance(trouble, TROUBLES):
                # A fault of the tool itself is no answer either.
                traceback.print_exc()
            elif not system.is_closed_pipe(trouble):
                print(f"{tool}: {shown(told(trouble))}", file=sys.stderr, flush=True)
        # What waits to be written would fail again at the end.
        for stream in (sys.stdout, sys.stderr):
            os.dup2(os.open(os.devnull, os.O_WRONLY), stream.fileno())
        return status


# What keeps a tool from an answer without being a fault of its own.
TROUBLES = (Trouble, OSError, MemoryError)
OUT_OF_MEMORY = "out of memory"


def told(trouble: BaseException) -> str:
    """What keeps a tool from its answer, as a line."""
    if isinstance(trouble, MemoryError) or (isinstance(trouble, OSError) and trouble.errno == errno.ENOMEM):
        return OUT_OF_MEMORY
    if isinstance(trouble, OSError) and isinstance(trouble.filename, str):
        # What may not be written may be read, or isn't there.
        is_written = isinstance(trouble, PermissionError) and why_not(trouble.filename) != FORBIDDEN
        return f"cannot open {trouble.filename}: {NOT_WRITTEN if is_written else why_not(trouble.filename) or reason_of(trouble)}"
    return str(trouble) or type(trouble).__name__


# --- The program ---


def find_program() -> str:
    """The program: $P21, or the one of this repository, or the one that is installed with the tools, or the one in the path.

    That of the repository is built first, where it is missing or old. What is installed stands in the folder of programs above
    this file, or beside the tool as it was called.
    """
    if os.environ.get("P21"):
        return os.environ["P21"]
    repository = HERE.parent
    if (repository / "crates.txt").exists() and not system.IS_WINDOWS:
        built = subprocess.run([repository / "p21", "--version"], stdout=subprocess.DEVNULL, check=False)
        if built.returncode != Status.DONE:
            raise Trouble(f"the program of {repository} could not be built")
        return str(repository / "crates" / "p21" / "out" / "p21")
    installed = (HERE.parent.parent / "bin" / system.PROGRAM, pathlib.Path(sys.argv[0]).parent / system.PROGRAM)
    return next((str(path) for path in installed if path.is_file()), shutil.which("p21") or "p21")


# How a line of the program begins that stands behind its answer, and says why a file can't be read or what it is.
NOTE = "note: "


def line_of(error: bytes, status: int) -> str:
    """What the program wrote to its second stream, without its notes and the last line end, and what ended it, such as a signal, or the
    status where it isn't one of its own, or where nothing else is said."""
    lines = error.decode("utf-8", "surrogateescape").split("\n")
    line = "\n".join(line for line in lines if not line.startswith(NOTE))
    line = line[:-1] if line.endswith("\n") else line
    if status < 0:
        return f"{line} ended by {system.ended_by(status)}".lstrip()
    return f"{line} ended with status {status}".lstrip() if status > Status.FAILED or (status and not line) else line


def judged(line: str, status: int) -> Tuple[str, Status]:
    """What a check of the program came to, by what it wrote to its second stream and its status: it is done, or something is
    refused, or else there is no answer, as where a signal ended it. The line that says so never looks like an answer."""
    if status == Status.DONE:
        return line, Status.DONE
    if status == Status.REFUSED and REFUSAL.fullmatch(line):
        return line, Status.REFUSED
    return f"no answer: {line}" if REFUSAL.match(line) else line, Status.FAILED


def status_of(status: int) -> Status:
    """The status of a run of the program. One that a signal ended, or that isn't one of its own, is no answer."""
    return Status(status) if 0 <= status <= Status.FAILED else Status.FAILED


FOLDER = "it is a folder"
FORBIDDEN = "it may not be read"
NOT_WRITTEN = "it may not be written"
NOT_PLAIN = "it is no plain file"
# How the names of STEP files end.
ENDINGS = (".step", ".stp", ".p21", ".ifc", ".spf")


class Below(NamedTuple):
    """What a path of the command line stands for: its STEP files in the order of their names, the endings of the others, what
    can't be read of it with the reason, and the links to other folders, which aren't followed."""

    files: List[str]
    others: List[str]
    unread: Dict[str, str]
    links: List[str]


def below(path: str) -> Below:
    """The path itself, which may be `-` for standard input, or all that stands below a folder."""
    if not os.path.isdir(path):
        return Below([path], [], {}, [])
    found, waiting = Below([], [], {}, []), [pathlib.Path(path)]
    while waiting:
        waiting.extend(look_into(waiting.pop(), found))
    found.files.sort()
    return found


def look_into(folder: pathlib.Path, found: Below) -> List[pathlib.Path]:
    """Puts all that stands in a folder where it belongs, but for the folders in it, which are answered."""
    try:
        with os.scandir(folder) as entries:
            listed = [(folder / entry.name, os.path.isdir(entry.path), entry.is_symlink()) for entry in entries]
    except OSError as error:
        found.unread[str(folder)] = reason_of(error)
        return []
    found.links.extend(str(path) for path, is_folder, is_link in listed if is_folder and is_link)
    for path in (path for path, is_folder, _ in listed if not is_folder):
        sort_in(found, path)
    return [path for path, is_folder, is_link in listed if is_folder and not is_link]


def sort_in(found: Below, path: pathlib.Path) -> None:
    """Puts what stands in a folder where it belongs. A dangling link, or a pipe with the name of a STEP file, isn't read."""
    ending = path.suffix.lower()
    reason = why_not_plain(str(path))
    if ending not in ENDINGS:
        found.others.extend([] if reason else [ending])
    elif reason:
        found.unread[str(path)] = reason
    else:
        found.files.append(str(path))


nothing = contextlib.nullcontext


def why_not_plain(path: str) -> Optional[str]:
    """Why a path leads to no plain file, or None where it does."""
    try:
        mode = os.stat(path).st_mode
    except OSError as error:
        return reason_of(error)
    return FOLDER if stat.S_ISDIR(mode) else None if stat.S_ISREG(mode) else NOT_PLAIN


def check_folder(path: str, what: str) -> None:
    """Says where a path leads to no folder, or to one that may not be entered."""
    reason = why_not_plain(path)
    if reason != FOLDER:
        raise Trouble(f"{path} is no {what}" + (f": {reason}" if reason == FORBIDDEN else ""))


def plain(path: str) -> BinaryIO:
    """A plain file, open for reading. Whatever else a path leads to isn't opened, and isn't waited for."""
    descriptor = -1
    reason = why_not_plain(path)
    if reason not in (FOLDER, NOT_PLAIN):
        descriptor = os.open(path, os.O_RDONLY | system.AS_IT_IS)
        if stat.S_ISREG(os.fstat(descriptor).st_mode):
            return open(descriptor, "rb", buffering=0)
        os.close(descriptor)
    raise NotPlain(path, reason or NOT_PLAIN)


def state_of(path: str) -> Tuple[int, ...]:
    """What becomes another one where a file is written, or where another file takes its place."""
    found = os.stat(path)
    return found.st_dev, found.st_ino, found.st_size, found.st_mtime_ns, found.st_ctime_ns


def why_not(path: str) -> Optional[str]:
    """Why a file can't be read, or None where that isn't known."""
    if path == "-":
        return None
    if os.path.isdir(path):
        return FOLDER if os.access(path, os.R_OK | os.X_OK) else FORBIDDEN
    try:
        # A pipe isn't waited for.
        os.close(os.open(path, os.O_RDONLY | system.AS_IT_IS))
    except OSError as error:
        return reason_of(error)
    return None


def reason_of(error: OSError) -> str:
    """Why a file can't be read, by what the system says."""
    if isinstance(error, FileNotFoundError):
        return "it is a link to what isn't there" if os.path.islink(error.filename) else "there is no such file"
    return FORBIDDEN if isinstance(error, PermissionError) else error.strerror or "it can't be read"


def with_reason(line: str, *paths: str) -> str:
    """The answer of the program, and where it could not open or read one of these files the reason."""
    if not line.startswith(("cannot open ", "read fault")):
        return line
    reason = next(filter(None, map(why_not, paths)), None)
    return f"{line}: {reason}" if reason else line


def lasting(path: str) -> str:
    """The path, or that of a descriptor which the program inherits: of the file, where its name isn't UTF-8, or else of a
    copy, where the program could not read it again and again. That is so of a pipe, and of what this process has open, as
    /dev/stdin, which `-` stands for. A copy is gone when this process ends."""
    path = system.STANDARD_INPUT if path == "-" else path
    is_own_input = system.IS_WINDOWS and path == system.STANDARD_INPUT
    is_plain = os.path.isfile(path) and not path.startswith(system.OPEN_HERE)
    if not is_own_input and (not os.path.exists(path) or os.path.isdir(path) or not os.access(path, os.R_OK)):
        return path
    if is_plain:
        return path if is_text(path) else system.held(path)
    with system.standard_input() if is_own_input else open(path, "rb", buffering=0) as file:
        return system.lasting_copy(lambda copy: copy_of(file, copy, path))


def is_text(path: str) -> bool:
    """Is a name UTF-8, as the program wants it?"""
    try:
        path.encode("utf-8")
    except UnicodeEncodeError:
        return False
    return True


def copy_of(file: IO[bytes], copy: IO[bytes], path: str) -> None:
    """Copies what has no size that is known, and maybe no end."""
    left = MOST_COPIED
    while piece := file.read(min(PIECE, left + 1)):
        left -= len(piece)
        if left < 0:
            raise Trouble(f"{path} has more than {MOST_COPIED} bytes and is no plain file: save it as one first")
        copy.write(piece)


@contextlib.contextmanager
def opened(path: str) -> Iterator[str]:
    """What `lasting` answers, for as long as a `with` block runs."""
    found = lasting(path)
    try:
        yield found
    finally:
        if found != path and system.is_own(found):
            system.let_go(found)


def text_of(path: str) -> bytes:
    """The bytes of a file. They are kept, since a file that is looked at where it lies may be cut short meanwhile."""
    with open(path, "rb") as file:
        return file.read()


def words_of(program: str, command: str, *paths: str, options: Sequence[str] = ()) -> List[str]:
    """The command line of a command with some options over these paths, of which one may begin with a dash."""
    return [program, command, *options, "--", *paths]


def run(
    program: str,
    command: str,
    *paths: str,
    options: Sequence[str] = (),
    text: Optional[Iterable[Piece]] = None,
    output: Union[int, IO[bytes]] = subprocess.PIPE,
) -> Answer:
    """The answer of a command of the program over these paths. A text, in pieces, is given to it as /dev/stdin."""
    with contextlib.ExitStack() as stack:
        given: Union[int, IO[bytes]] = subprocess.DEVNULL
        if text is not None:
            given = stack.enter_context(tempfile.TemporaryFile())
            given.writelines(text)
            given.seek(0)
        try:
            done = subprocess.run(
                words_of(program, command, *paths, options=options),
                check=False,
                stdin=given,
                stdout=output,
                stderr=subprocess.PIPE,
                close_fds=False,
            )
        except OSError as error:
            raise cannot_run(program, error) from None
    status = system.status_of(done.returncode)
    return Answer(done.stdout or b"", line_of(done.stderr, status), status_of(status))


def answered(answer: Answer) -> Answer:
    """An answer of the program where it has one. Where it has none its sentence says what keeps the tool from its own."""
    if answer.status == Status.FAILED:
        raise Trouble(answer.error)
    return answer


def started(
    program: str, command: str, *paths: str, errors: IO[bytes], options: Sequence[str] = ()
) -> "subprocess.Popen[bytes]":
    """A command of the program over these paths, whose output is read as it comes."""
    try:
        return subprocess.Popen(
            words_of(program, command, *paths, options=options),
            stdin=subprocess.DEVNULL,
            stdout=subprocess.PIPE,
            stderr=errors,
            bufsize=0,
            close_fds=False,
        )
    except OSError as error:
        raise cannot_run(program, error) from None


def cannot_run(program: str, error: OSError) -> Trouble:
    """Why the program isn't run."""
    return Trouble(OUT_OF_MEMORY if error.errno == errno.ENOMEM else f"cannot run {program}: {error.strerror}")


REFUSAL = re.compile(r"(?:schema )?refused (S?\d+) (\w+(?:\(\w+\))?)(?: at statement (\d+)| in (#\d+))?")


def refusal(line: str) -> Dict[str, Any]:
    """The parts of a refusal: its number, which of a schema text is a word as S4, its name, and the statement or the name of
    the instance. All are None where nothing is refused."""
    found = REFUSAL.match(line)
    number, name, statement, instance = found.groups() if found else (None,) * 4
    return {
        "number": int(number) if number and number.isdigit() else number,
        "name": name,
        "statement": statement and int(statement),
        "instance": instance,
    }


def first_that_names(answers: Iterable[Found], line_of_answer: Callable[[Found], str]) -> Optional[Found]:
    """Of the answers about a file by one schema after the other: the first one by a schema that the file names, or else the
    first of all."""
    first = None
    for answer in answers:
        first = first or answer
        if not line_of_answer(answer).startswith("refused 31 "):
            return answer
    return first


def answer_of_schema(program: str, schema: str, text: Optional[Iterable[Piece]] = None) -> Answer:
    """What the program says of a schema: its refusal, or nothing. It is asked to check a file without a byte, since `p21 schema`
    would print the attributes of each supertype once for each subtype."""
    answer = run(program, "check", schema, os.devnull, text=text)
    is_read = answer.status == Status.REFUSED and answer.error.startswith("refused")
    return Answer(b"", "", Status.DONE) if is_read else answer


def read_schema(program: str, schema: str, named: str) -> None:
    """Nothing where the program reads a schema, which the command line names so."""
    answer = answer_of_schema(program, schema)
    if answer.status != Status.DONE:
        raise Trouble(f"{named}: {with_reason(answer.error, named)}")


# --- Rows of things in a text ---


class Row(Sequence[Found]):
    """Things that stand one behind the other in a text, each read again where it is asked for: of so many only the place of
    each 64th is kept."""

    STEP = 64

    def __init__(self, places: Callable[[int], Iterable[int]], thing: Callable[[int], Found], first: int) -> None:
        """`places` has the places of all things from a given one on, and `thing` is that at a place."""
        self.places = places
        self.thing = thing
        self.first = first
        self.marks = array.array("Q")
        self.length = 0
        for self.length, place in enumerate(places(first), 1):
            if self.length % self.STEP == 1:
                self.marks.append(place)

    def __len__(self) -> int:
        return self.length

    @overload
    def __getitem__(self, at: int) -> Found:
        ...

    @overload
    def __getitem__(self, at: slice) -> List[Found]:
        ...

    def __getitem__(self, at: Union[int, slice]) -> Union[Found, List[Found]]:
        if isinstance(at, slice):
            return [self[number] for number in range(*at.indices(self.length))]
        at += self.length if at < 0 else 0
        if not 0 <= at < self.length:
            raise IndexError(at)
        return self.thing(next(itertools.islice(self.places(self.marks[at // self.STEP]), at % self.STEP, None)))

    def __iter__(self) -> Iterator[Found]:
        return map(self.thing, self.places(self.first))


def matched(pattern: Pattern[bytes], text: Union[Text, Piece], at: int, end: int = sys.maxsize) -> Match[bytes]:
    """What a pattern finds at a place, where it finds something."""
    found = pattern.match(text, at, end)
    assert found
    return found


# --- Statements ---

BLANKS = re.compile(rb"[\0- \x7f]*")
# What ends a string, and what in it may hold a sign that looks like its end: two apostrophes, and what begins with a backslash as
# the reader takes it: two of them, `\S\` with any character, and `\PA\`, `\X\`, `\X2\`, `\X4\` and `\X0\`, whose last sign begins
# nothing.
IN_STRING = re.compile(rb"''|\\(?:\\|S\\[ -~]|PA\\|X[024]?\\)|'")
# An apostrophe behind `\S\` is a character. No other `\S\'` stands in a string that is read: a backslash in front of it would leave
# `\'`, which is refused.
PAGED = b"\\S\\'"
LEXEME = re.compile(rb"[\0- \x7f]+|'|/\*|([^\0- \x7f(),;='\"/]+|\"[^\"]*\"|.)", re.S)
# What stands around the values of a list, and what hides it.
SIGN = re.compile(rb"[(),]")
PARENTHESIS = re.compile(rb"[()]")
REFERENCE = re.compile(rb"#\d+")
# A value that is one word, and the sign behind it.
WORD_IN_LIST = re.compile(rb"[^\0- \x7f(),;='\"/]+(?=[,)])")
HIDDEN = re.compile(rb"['\"]|/\*")


def end_of_string(text: Text, start: int) -> Optional[int]:
    """The place behind the string that begins here, or None where it is open."""
    found = IN_STRING.search(text, start + 1)
    while found and found[0] != b"'":
        found = IN_STRING.search(text, found.end())
    return found.end() if found else None


def end_of_remark(text: Text, start: int) -> Optional[int]:
    """The place behind the remark that begins here, or None where it is open."""
    end = text.find(b"*/", start + 2)
    return None if end < 0 else end + 2


def end_of_binary(text: Text, start: int) -> Optional[int]:
    """The place behind the binary that begins here, or None where it is open."""
    end = text.find(b'"', start + 1)
    return None if end < 0 else end + 1


HIDING = {b"'": end_of_string, b"/*": end_of_remark, b'"': end_of_binary}


def outside(pattern: Pattern[bytes], text: Text, start: Optional[int]) -> Iterator[Match[bytes]]:
    """What a pattern finds from a place on that stands in no string, binary or remark.

    The text is looked at in pieces, so that no more of it is passed over than is asked for. Each ends behind a sign, since
    nothing that a pattern finds goes on there.
    """
    size = 64
    while start is not None and start < len(text):
        end = min(start + size, len(text))
        hidden = HIDDEN.search(text, start, end)
        if hidden:
            end = hidden.start()
        elif end < len(text):
            end = 1 + max(text.rfind(sign, start, end) for sign in (b",", b"(", b")"))
        if end > start:
            yield from pattern.finditer(text, start, end)
            start = end
        if hidden:
            start = HIDING[hidden[0]](text, end)
        size *= 2


def behind_blanks(text: Text, at: int) -> int:
    """The place behind blanks and remarks."""
    at = matched(BLANKS, text, at).end()
    while text[at : at + 2] == b"/*":
        end = end_of_remark(text, at)
        if end is None:
            return at
        at = matched(BLANKS, text, end).end()
    return at


def lexemes(text: Text, start: int, end: int) -> Iterator[Tuple[int, int]]:
    """The places of the words and signs of a part of a text."""
    while start < end:
        found = matched(LEXEME, text, start, end)
        start = found.end()
        if found[1] is not None:
            yield found.span()
        elif found[0] == b"/*":
            start = end_of_remark(text, found.start()) or end
        elif found[0] == b"'":
            start = end_of_string(text, found.start()) or end
            yield found.start(), start


class Value(NamedTuple):
    """A parameter by its place in a text."""

    text: Text
    start: int
    end: int

    @property
    def inner(self) -> Sequence["Value"]:
        """The elements of a list, or the one value of a typed parameter; none of any other."""
        if self.text[self.end - 1 : self.end] != b")":
            return ()
        return values_of(self.text, sign_behind(self.text, self.start).start())


class Part(NamedTuple):
    """A keyword by its place in a text, with its parameters and the place of the `)` behind them."""

    key: str
    start: int
    values: Sequence[Value]
    end: int


def closing(text: Text, opening: int) -> int:
    """The place of the `)` that ends what a `(` begins."""
    depth = 0
    for found in outside(PARENTHESIS, text, opening):
        depth += 1 if found[0] == b"(" else -1
        if depth == 0:
            return found.start()
    raise Unfinished()


def sign_behind(text: Text, at: int) -> Match[bytes]:
    """The first sign of a list from a place on."""
    found = next(outside(SIGN, text, at), None)
    if found is None:
        raise Unfinished()
    return found


def signs_in_list(text: Text, sign: int) -> Generator[int, None, int]:
    """The place of the sign before each value of a list, from a `(` or a `,` on. It answers that of the `)` behind the list."""
    behind = behind_blanks(text, sign + 1)
    if text[sign : sign + 1] == b"(" and text[behind : behind + 1] == b")":
        return closing(text, sign)
    yield sign
    at = sign + 1
    while True:
        for found in outside(SIGN, text, at):
            if found[0] == b")":
                return found.start()
            if found[0] == b"(":
                at = closing(text, found.start()) + 1
                break
            yield found.start()
        else:
            raise Unfinished()


def signs_in_parts(text: Text, at: int) -> Iterator[int]:
    """The same of all parts, from the keyword of one on, or from a sign."""
    if text[at : at + 1] not in (b"(", b","):
        at = sign_behind(text, at).start()
    while True:
        end = yield from signs_in_list(text, at)
        found = next(outside(SIGN, text, end + 1), None)
        if not found or found[0] != b"(":
            return
        at = found.start()


def value_behind(text: Text, sign: int) -> Value:
    """The value behind a `(` or a `,`."""
    return value_at(text, behind_blanks(text, sign + 1))


def value_at(text: Text, start: int) -> Value:
    """The value that begins here."""
    word = WORD_IN_LIST.match(text, start)
    if word:
        return Value(text, start, word.end())
    found, end = sign_behind(text, start), start
    if found[0] == b"(":
        return Value(text, start, closing(text, found.start()) + 1)
    for _, end in lexemes(text, start, found.start()):
        pass
    return Value(text, start, end)


def values_of(text: Text, opening: int) -> Row[Value]:
    """The values in the parentheses that a `(` begins."""
    return Row(lambda sign: signs_in_list(text, sign), lambda sign: value_behind(text, sign), opening)


def values_of_all(text: Text, parts: Sequence[Part]) -> Row[Value]:
    """The values of all parts, one behind the other."""
    start = parts[0].start
    return Row(lambda sign: signs_in_parts(text, sign), lambda sign: value_behind(text, sign), start)


def read_parts(text: Text, start: int = 0) -> Sequence[Part]:
    """The parts of the instance or header record that begins here, of which the text has its right parentheses."""
    start = behind_blanks(text, start)
    if text[start : start + 1] == b"#":
        start = behind_blanks(text, behind_blanks(text, matched(REFERENCE, text, start).end()) + 1)
    if text[start : start + 1] != b"(":
        return [part_at(text, start)]

    def places(place: int) -> Iterator[int]:
        while text[place : place + 1] != b")":
            if place == len(text):
                raise Unfinished()
            yield place
            place = behind_blanks(text, closing(text, sign_behind(text, place).start()) + 1)

    return Row(places, lambda place: part_at(text, place), behind_blanks(text, start + 1))


def part_at(text: Text, start: int) -> Part:
    """A keyword and the values in parentheses behind it."""
    _, end = next(lexemes(text, start, len(text)), (start, start))
    opening = behind_blanks(text, end)
    return Part(text[start:end].decode("latin-1"), start, values_of(text, opening), closing(text, opening))


# --- Texts for people ---


def line_number(text: Text, at: int) -> int:
    """The number of the line in which a place stands."""
    return 1 + line_ends(text, 0, at)


def line_ends(text: Text, start: int, end: int) -> int:
    """How many lines end in a part of a text."""
    return sum(text[at : min(at + PIECE, end)].count(b"\n") for at in range(start, end, PIECE))


class Lines:
    """The lines and columns of places in a text, of which no part is counted again for each place."""

    def __init__(self, text: Text) -> None:
        self.text = text
        # How many lines end in front of each piece of the text.
        self.ends = array.array("Q", [0])
        self.last, self.column = 0, 1

    def number(self, at: int) -> int:
        """The number of the line in which a place stands."""
        while len(self.ends) <= at // PIECE:
            start = PIECE * (len(self.ends) - 1)
            self.ends.append(self.ends[-1] + line_ends(self.text, start, start + PIECE))
        piece = at // PIECE
        return 1 + self.ends[piece] + line_ends(self.text, PIECE * piece, at)

    def place(self, at: int) -> Tuple[int, int]:
        """The line of a place, and its column in characters; each byte that belongs to none is one."""
        start = self.text.rfind(b"\n", self.last if self.last <= at else 0, at) + 1
        if start or self.last > at:
            self.last, self.column = start, 1
        self.column += characters(self.text, self.last, at)
        self.last = at
        return self.number(at), self.column


def characters(text: Text, start: int, end: int) -> int:
    """How many characters a part of a text has. Each byte that belongs to none is one."""
    decode = codecs.getincrementaldecoder("utf-8")("surrogateescape").decode
    pieces = (text[at : min(at + PIECE, end)] for at in range(start, end, PIECE))
    return sum(len(decode(piece)) for piece in pieces) + len(decode(b"", True))


def shortened(text: str, at: int, width: int = 100) -> Tuple[str, int]:
    """The text around a place, and where the place then is; `..` stands for what is left out."""
    if len(text) <= width:
        return text, at
    start = min(max(at - width // 2, 0), len(text) - width)
    front = ".. " if start > 0 else ""
    back = " .." if start + width < len(text) else ""
    return front + text[start : start + width] + back, at - start + len(front)

