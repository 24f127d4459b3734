"""Limits on the bytes of files and of their statements."""

from typing import NamedTuple


class Limits(NamedTuple):
    """How many bytes the tokens of a statement may have, a canonical line without its LF, a file, and a canonical file."""

    record: int
    canonical_record: int
    file: int
    canonical_file: int


# Those of the program.
USUAL = Limits(536_870_912, 268_435_456, 68_719_476_736, 4_294_967_296)


def are_limits(limits):
    """A limit on what is canonical is no wider than the same on a source."""
    return limits.canonical_record <= limits.record and limits.canonical_file <= limits.file
