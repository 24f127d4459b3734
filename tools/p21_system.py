"""What the tools ask of the operating system, where Windows has it otherwise: no signal for a pipe that nobody reads, no path for a
descriptor or for standard input, no process that begins as a copy of this one, and streams that change texts."""

# The tools ask `tools/p21_system.py` for what Windows has otherwise, and are otherwise the same files. What can be read
# only once is copied there to a file with a name, since a descriptor has no path. `p21-table --names` runs threads
# there, since a process can't begin as a copy of another. A manifest is locked there by a byte behind its end, since
# nobody can read a locked one; and its paths below a base, those of BagIt and references in SARIF have slashes, as
# other systems read them. Texts go out in UTF-8 with line feeds, as on Linux. On Windows the tools are started by
# `.cmd` files, all with one text (`platforms/starter.cmd`): a wheel's own starters want functions to import, and the
# tools are scripts.

import atexit
import contextlib
import errno
import glob
import importlib
import os
import shutil
import signal
import sys
import tempfile
from typing import IO, Any, Callable, Iterator, List, Sequence, Set

IS_WINDOWS = os.name == "nt"
# The program as a file.
PROGRAM = "p21.exe" if IS_WINDOWS else "p21"
# The program's name for standard input, on each system.
STANDARD_INPUT = "/dev/stdin"
# How the paths begin of what this process alone has open.
OPEN_HERE = ("/dev/", "/proc/")
# A status from here on is no program's own: Windows ended it.
FIRST_OF_WINDOWS = 1 << 31
# How a descriptor is opened: a pipe isn't waited for, where a path can lead to one, and no byte of a text becomes another.
AS_IT_IS = getattr(os, "O_NONBLOCK", 0) | getattr(os, "O_BINARY", 0)
# The byte of a file that is locked on Windows, where others can't read it meanwhile: one behind the end of any usual file.
LOCKED = (1 << 31) - 2
# The copies that were made on Windows, by their paths.
COPIES: Set[str] = set()


def begin() -> None:
    """Readies the process: a reader that goes away and an interrupt end it at once, and texts go out as they are."""
    if not IS_WINDOWS:
        signal.signal(signal.SIGPIPE, signal.SIG_DFL)
    signal.signal(signal.SIGINT, signal.SIG_DFL)
    if IS_WINDOWS:
        sys.stdin.reconfigure(encoding="utf-8", errors="surrogateescape")  # type: ignore[attr-defined]
    for stream in (sys.stdout, sys.stderr):
        if IS_WINDOWS:
            stream.reconfigure(encoding="utf-8", newline="\n")  # type: ignore[attr-defined]
        stream.reconfigure(errors="backslashreplace")  # type: ignore[attr-defined]


@contextlib.contextmanager
def pipes_held_back() -> Iterator[None]:
    """Threads and processes that begin in a `with` block have an error, and no signal that ends all, where they write to a process
    that isn't there any more."""
    if IS_WINDOWS:
        yield
        return
    before = signal.pthread_sigmask(signal.SIG_BLOCK, {signal.SIGPIPE})
    try:
        yield
    finally:
        signal.pthread_sigmask(signal.SIG_SETMASK, before)


def let_pipes_go() -> None:
    """Has a process that began so the signal again."""
    signal.pthread_sigmask(signal.SIG_UNBLOCK, {signal.SIGPIPE})


def expanded(words: Sequence[str]) -> List[str]:
    """The words of a command line, with the names of files in place of a pattern, which no shell of Windows puts there."""
    return [name for word in words for name in (names_of(word) if IS_WINDOWS else [word])]


def names_of(word: str) -> List[str]:
    """The names that a pattern has, or the word itself where it is none or there are none."""
    is_pattern = glob.has_magic(word) and not os.path.exists(word)
    return (sorted(glob.glob(word)) if is_pattern else []) or [word]


def is_closed_pipe(trouble: BaseException) -> bool:
    """Did a write fail since nobody reads any more? Windows has no signal for that, which ends the process elsewhere."""
    return IS_WINDOWS and isinstance(trouble, OSError) and trouble.filename is None and trouble.errno in (errno.EPIPE, errno.EINVAL)


def ended_by(status: int) -> str:
    """What ended a program that has no status of its own."""
    return f"0x{status + 2 * FIRST_OF_WINDOWS:08X}" if IS_WINDOWS else f"signal {-status}"


def status_of(returned: int) -> int:
    """The status of a program, below 0 where it didn't end by itself."""
    return returned - 2 * FIRST_OF_WINDOWS if returned >= FIRST_OF_WINDOWS else returned


def processors() -> int:
    """How many processors this process may use."""
    return (os.cpu_count() or 1) if IS_WINDOWS else len(os.sched_getaffinity(0))


def lock(file: int) -> None:
    """Takes an open file for this process, at whose end it is free again, however it ends. Where another one has it, that is a
    BlockingIOError."""
    if not IS_WINDOWS:
        fcntl: Any = importlib.import_module("fcntl")
        fcntl.flock(file, fcntl.LOCK_EX | fcntl.LOCK_NB)
        return
    msvcrt: Any = importlib.import_module("msvcrt")
    os.lseek(file, LOCKED, os.SEEK_SET)
    try:
        msvcrt.locking(file, msvcrt.LK_NBLCK, 1)
    except PermissionError as error:
        raise BlockingIOError(errno.EAGAIN, error.strerror) from None
    finally:
        os.lseek(file, 0, os.SEEK_SET)


def with_slashes(path: str) -> str:
    """A path as a manifest or a reference has it, which other systems read too."""
    return path.replace("\\", "/") if IS_WINDOWS else path


def is_own(path: str) -> bool:
    """Is this a path that `held` or `lasting_copy` answered?"""
    return path in COPIES if IS_WINDOWS else path.startswith("/dev/fd/")


def held(path: str) -> str:
    """A path that the program can take, and by which a file is read until this process ends, whatever becomes of its own name."""
    if IS_WINDOWS:
        with open(path, "rb") as file:
            return lasting_copy(lambda copy: shutil.copyfileobj(file, copy))
    return inherited(os.open(path, os.O_RDONLY))


def inherited(descriptor: int) -> str:
    """The path of a descriptor in a program that inherits it."""
    os.set_inheritable(descriptor, True)
    return f"/dev/fd/{descriptor}"


def lasting_copy(write: Callable[[IO[bytes]], None]) -> str:
    """The path of a copy that this writes. It is gone when this process ends."""
    if IS_WINDOWS:
        with tempfile.NamedTemporaryFile(prefix="p21-", delete=False) as named:
            COPIES.add(named.name)
            atexit.register(let_go, named.name)
            write(named)
        return named.name
    with tempfile.TemporaryFile() as copy:
        write(copy)
        copy.flush()
        return inherited(os.dup(copy.fileno()))


def let_go(path: str) -> None:
    """Closes or removes what `held` or `lasting_copy` answered. A copy that is still read is removed when this process ends."""
    if IS_WINDOWS:
        with contextlib.suppress(OSError):
            os.remove(path)
    else:
        os.close(int(path.rpartition("/")[2]))


def standard_input() -> IO[bytes]:
    """Standard input as bytes."""
    return open(sys.stdin.fileno(), "rb", buffering=0, closefd=False)
