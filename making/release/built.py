"""What is built of a crate, and whether it is known to be what the gate proved of the sources: by the record that the build
leaves in `out/record` (making/building.sh)."""

# What was proved is said by a record that the build leaves, in `out/record` of the crate: the toolchain, a checksum of
# the sources that the gate read, each crate that it proved, how it ended, and the checksums of what was built. A
# release is made only where all of it fits the files and the committed sources. `--trial` takes what there is, and
# names it so.
#
# Where a toolchain's gate proves all from nothing each time, a build over what its checks kept proves what has changed
# alone, crate by crate. Its record says so in place of how the gate ended, and counts only where the environment has
# P21_OVER_KEPT=1; a release then says of what it has that checks proved it, and not the gate.

import hashlib
import os
import pathlib
import re
from typing import Dict, List, NamedTuple, Optional, Tuple, Union

ROOT = pathlib.Path(__file__).resolve().parent.parent.parent
BUILT: Dict[str, Tuple[pathlib.Path, ...]] = {
    "p21": (ROOT / "crates/p21/out/p21", ROOT / "crates/p21/out/p21.o"),
    "p21_c": (ROOT / "crates/p21_c/out/libp21_c.a",),
}


class Record(NamedTuple):
    """What is known of a build: the toolchain, a checksum of the sources, the crates that were proved, how the gate ended or over
    what checks ran in its place, and the checksums of the files that were built."""

    toolchain: Optional[str]
    sources: Optional[str]
    proved: List[str]
    gate: Optional[str]
    checks: Optional[str]
    files: Dict[str, str]


def sum_of(content: Union[bytes, pathlib.Path]) -> str:
    """The checksum of bytes, or of a file."""
    return hashlib.sha256(content if isinstance(content, bytes) else content.read_bytes()).hexdigest()


def shown(path: pathlib.Path) -> str:
    """The path as it is called below the top of the repository."""
    return str(path.relative_to(ROOT))


def record_of(crate: str) -> Optional[Record]:
    """What was noted when a crate was built, or None."""
    path = ROOT / "crates" / crate / "out" / "record"
    if not path.is_file():
        return None
    rows = [line.split(" ", 1) for line in path.read_text().splitlines()]
    only = {word: text for word, text in rows if word in ("toolchain", "sources", "gate", "checks")}
    files = {name: digest for digest, name in (text.split() for word, text in rows if word == "file")}
    proved = [text for word, text in rows if word == "proved"]
    return Record(only.get("toolchain"), only.get("sources"), proved, only.get("gate"), only.get("checks"), files)


def why_unproved(crate: str, needed: List[str], sources: str, toolchain: str) -> Optional[str]:
    """Why what is built of a crate isn't known to be what the gate proved of these sources, as a phrase, or None."""
    record = record_of(crate)
    if not record:
        return f"there is no crates/{crate}/out/record"
    for path in BUILT[crate]:
        if not path.is_file() or record.files.get(path.name) != sum_of(path):
            return f"{shown(path)} isn't the one that was built"
    if record.sources != sources:
        return f"the sources below {crate} aren't those that were proved"
    if record.toolchain != toolchain:
        return f"{crate} was built by {record.toolchain}"
    if record.checks:
        if not takes_checks():
            return f"{crate} was proved by checks {record.checks}, and not by the gate"
    elif not re.fullmatch(r"\d+ passed, 0 failed", record.gate or ""):
        return f"the gate ended with `{record.gate}`"
    unproved = [name for name in needed if name not in record.proved]
    return f"nothing of {unproved[0]} was proved" if unproved else None


def takes_checks() -> bool:
    """Does a build count that was proved by checks over kept work?"""
    return os.environ.get("P21_OVER_KEPT") == "1"


def proved_by(crate: str) -> str:
    """By what a crate was proved, as the beginning of a sentence."""
    record = record_of(crate)
    return f"`rt check`, {record.checks}, and not the gate," if record and record.checks else "The gate, `rt ci`,"
