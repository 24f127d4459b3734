"""The program and the tools beside it, which a wheel installs with the package, and which a clone has."""

import contextlib
import errno
import os
import pathlib
import shutil
import subprocess
import sys
import sysconfig
import tempfile
from typing import Iterator, List, Optional, Sequence, Tuple, cast

from p21._schema import SchemaOrPath, schema_of
from p21._source import Path, Source, is_path, pieces

_PROGRAM = "p21.exe" if os.name == "nt" else "p21"
_CLONE = pathlib.Path(__file__).resolve().parents[2]
_TOOLS = _CLONE / "tools"
OUT_OF_MEMORY = "p21: out of memory"
TOOLS = ("where", "diff", "table", "adapt")


def _is_clone() -> bool:
    return (_CLONE / "crates.txt").is_file()


def _folders() -> Iterator[pathlib.Path]:
    """Where a wheel may have put its programs."""
    yield pathlib.Path(sysconfig.get_path("scripts"))
    yield pathlib.Path(sys.executable).parent
    user = sysconfig.get_path("scripts", f"{os.name}_user")
    yield pathlib.Path(user)
    # Below the folder of pip install --target.
    yield pathlib.Path(__file__).resolve().parents[1] / "bin"


def _found(name: str, in_clone: pathlib.Path) -> Optional[str]:
    """A program of this name: in a clone its own, else the one that was installed with this package, or one in the path."""
    if _is_clone():
        return str(in_clone) if in_clone.is_file() else None
    installed = (folder / name for folder in _folders())
    return next((str(path) for path in installed if path.is_file()), None) or shutil.which(name)


def program() -> str:
    """The program: ``$P21``, or that of the clone, or the one that is installed with this package."""
    found = os.environ.get("P21") or _found(_PROGRAM, _CLONE / "crates/p21/out" / _PROGRAM)
    if found is None:
        raise FileNotFoundError("p21: the program is not here: the wheel has it, and ./p21 builds it in a clone; P21 names another one")
    return found


def tool(name: str) -> List[str]:
    """The words that run a tool, as ``where``."""
    found = _found(f"p21-{name}", _TOOLS / f"p21-{name}")
    if found is None:
        raise FileNotFoundError(f"p21: p21-{name} is not here: the wheel has it")
    return [sys.executable, found]


def run(words: Sequence[str]) -> "subprocess.CompletedProcess[bytes]":
    """What a program or a tool answers."""
    environment = dict(os.environ, P21=program(), PYTHONIOENCODING="utf-8")
    try:
        return subprocess.run(words, env=environment, stdin=subprocess.DEVNULL, stdout=subprocess.PIPE, stderr=subprocess.PIPE, check=False)
    except OSError as error:
        if error.errno == errno.ENOMEM:
            raise MemoryError(OUT_OF_MEMORY) from None
        raise


def no_answer(said: str, status: int) -> Exception:
    """What is raised where a program or a tool doesn't answer, by what it said and its status."""
    if said.strip().splitlines()[-1:] and said.strip().splitlines()[-1].endswith("out of memory"):
        return MemoryError(OUT_OF_MEMORY)
    ended = f"ended by signal {-status}" if status < 0 else f"ended with status {status}"
    return OSError(f"p21: the program gave no answer: {'; '.join(filter(None, (said.strip(), ended)))}")


def _path_of(source: Source, folder: str) -> str:
    """A file as a path. What is no path is written to a file in this folder."""
    if is_path(source):
        # A path that can't be read is an OSError, as in every other call.
        with open(cast(Path, source), "rb"):
            pass
        return os.fspath(cast(Path, source))
    path = os.path.join(folder, "file.step")
    with open(path, "wb") as file:
        for piece in pieces(source):
            file.write(memoryview(piece))  # type: ignore[arg-type]
    return path


@contextlib.contextmanager
def as_path(source: Source) -> Iterator[str]:
    """A file as a path. What is no path is written to a file for the time of a ``with``."""
    with tempfile.TemporaryDirectory(prefix="p21-") as folder:
        yield _path_of(source, folder)


@contextlib.contextmanager
def as_paths(schema: SchemaOrPath, source: Source) -> Iterator[Tuple[str, str]]:
    """The text of a schema and a file as paths. What is no path is written to a file for the time of a ``with``."""
    with tempfile.TemporaryDirectory(prefix="p21-") as folder:
        schema_path = os.path.join(folder, "schema.exp")
        with open(schema_path, "wb") as file:
            file.write(schema_of(schema).text)
        yield schema_path, _path_of(source, folder)
