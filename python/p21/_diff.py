"""What differs in two files."""

import decimal
import json
import os
import tempfile
from typing import Any, Dict, List, Optional, Sequence, Union

from p21._files import texts
from p21._html import table
from p21._schema import SchemaOrPath, schema_of
from p21._source import Source
from p21._tools import no_answer, run, tool


class Differences(List[Dict[str, Any]]):
    """What differs in two files: the objects that ``p21-diff --format json`` prints, the verdict last."""

    @property
    def verdict(self) -> Dict[str, Any]:
        """The last object: whether the files are the same, and how much differs."""
        return self[-1]

    @property
    def listed(self) -> List[Dict[str, Any]]:
        """What differs and isn't left out."""
        return [found for found in self[:-1] if found["kind"] != "left out"]

    def __repr__(self) -> str:
        return f"<p21.Differences: {self.verdict['verdict']}, {len(self.listed)} listed>"

    def _repr_html_(self) -> str:
        head = ("kind", "instance", "entity", "attribute", "before", "after")
        rows = [(it["kind"], it.get("a") or it.get("b"), it.get("entity"), it.get("attribute"), it.get("before"), it.get("after")) for it in self.listed]
        return table(head, [*rows, (self.verdict["verdict"],)])


def diff(
    schema: SchemaOrPath,
    first: Source,
    second: Source,
    *,
    names: bool = False,
    data: bool = False,
    ignore: Sequence[str] = (),
    tolerance: Optional[Union[str, float, decimal.Decimal]] = None,
) -> Differences:
    """What differs in two files: a list of the objects that ``p21-diff --format json`` prints, the verdict last. The program lists it,
    leaves out what is to be, as values within a tolerance, and says whether two files are the same.

    Args:
        names: compare up to the names of instances.
        data: leave out the header.
        ignore: leave out these attributes, each named as ``ENTITY.ATTRIBUTE``.
        tolerance: leave out values with reals that are within it, or within it times the greater one.

    Where something is left out the first object says what, and the files are never called the same where something was.

    Raises: as ``same``; ``ValueError`` where the tolerance isn't a number of 0 or more, or an attribute isn't there; ``OSError``
    where the program or ``p21-diff`` isn't here, or ends without an answer.

    >>> found = p21.diff(schema, point, moved)
    >>> found
    <p21.Differences: different, 1 listed>
    >>> found[0]["entity"], found[0]["attribute"], found[0]["before"], found[0]["after"]
    ('POINT', 'Y', '1.', '3.')
    """
    near = tolerance if tolerance is None or isinstance(tolerance, str) else decimal.Decimal(str(tolerance))
    words = [*(["--names"] if names else []), *(["--data"] if data else []), *(f"--ignore={each}" for each in ignore)]
    words += [] if near is None else [f"--tolerance={near}"]
    read = schema_of(schema)
    with tempfile.TemporaryDirectory(prefix="p21-") as folder:
        paths = [os.path.join(folder, name) for name in ("schema.exp", "first.step", "second.step")]
        for path, text in zip(paths, (read.text, *texts(read, first, second))):
            with open(path, "wb") as file:
                file.write(text)
        done = run([*tool("diff"), "--format", "json", *words, "--", *paths])
    error = done.stderr.decode("utf-8", "replace")
    if error.startswith(("p21-diff: --ignore ", "p21-diff: --tolerance ")):
        raise ValueError(f"p21: {error.strip()}")
    found = Differences(map(json.loads, done.stdout.decode("utf-8").splitlines()))
    if not found or found.verdict["kind"] != "verdict":
        raise no_answer(error, done.returncode)
    return found
