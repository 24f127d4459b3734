"""Refusals: their numbers, and the exceptions that say why and where."""

from typing import Optional, Union

from p21._html import table
from p21._numbers import ABSENT, RefusalNumber, SchemaRefusalNumber
from p21._places import RefusalPlace
from p21._texts import FILES, SCHEMAS, Words


class Refused(Exception):
    """A file is refused.

    Attributes:
        number: the number of the refusal, a ``RefusalNumber``.
        name: its name, as ``NotDistinct`` or ``LeftOut(Scope)``.
        statement: the number of the statement where it is refused, counted from 1, if a statement is named.
        instance: the name of the instance in which it is refused, if an instance is named.
        which: for ``same``, ``same_but_for_names`` and ``diff``, whether the ``first`` or the ``second`` file is refused.
        place: where in the file it stands, a ``RefusalPlace``: byte, line and column, and of a value of a record the attribute and the
            element. None where nothing of it is known.
        sentence: what that means, in a sentence.
        advice: what it mostly comes from and what to do about it, as docs/FAULTS.md says.

    >>> try:
    ...     p21.check(schema, point.replace(b"0.50,", b""))
    ... except p21.Refused as refusal:
    ...     print(refusal)
    ...     print(refusal.sentence)
    ...     print(refusal.number == p21.RefusalNumber.COUNT, refusal.instance)
    refused 45 Count in #1
    The record has another number of values than the entity.
    True 1
    """

    number: Union[RefusalNumber, SchemaRefusalNumber]

    def __init__(
        self,
        number: int,
        name: str,
        statement: Optional[int] = None,
        instance: Optional[int] = None,
        which: Optional[str] = None,
        place: Optional[RefusalPlace] = None,
    ) -> None:
        super().__init__(number, name, statement, instance, which, place)
        self.number = self._numbered(number)
        self.name = name
        self.statement = statement
        self.instance = instance
        self.which = which
        self.place = place

    def stand_at(self, place: RefusalPlace) -> None:
        """Says where it stands."""
        self.place = place
        self.args = (*self.args[:5], place)

    @staticmethod
    def _numbered(number: int) -> Union[RefusalNumber, SchemaRefusalNumber]:
        return RefusalNumber(number)

    def _words(self) -> Words:
        return FILES[int(self.number)]

    @property
    def sentence(self) -> str:
        """What the refusal means, in a sentence."""
        return self._words().sentence

    @property
    def advice(self) -> str:
        """What it mostly comes from and what to do about it."""
        return self._words().advice

    def _shown(self) -> str:
        return str(int(self.number))

    def __str__(self) -> str:
        front = f"{self.which}: " if self.which else ""
        place = ""
        if self.instance is not None:
            place = f" in #{self.instance}"
        elif self.statement is not None:
            place = f" at statement {self.statement}"
        return f"{front}refused {self._shown()} {self.name}{place}"

    def __repr__(self) -> str:
        return f"<p21.{type(self).__name__}: {self}: {self.sentence}>"

    def _repr_html_(self) -> str:
        rows = [("refused", f"{self._shown()} {self.name}"), ("what it means", self.sentence), ("what to do", self.advice)]
        if self.instance is not None:
            rows.insert(1, ("instance", f"#{self.instance}"))
        if self.statement is not None:
            rows.insert(1, ("statement", str(self.statement)))
        if self.place is not None:
            rows.insert(1, ("place", str(self.place)))
        if self.which is not None:
            rows.insert(1, ("file", self.which))
        return table(None, rows)


class SchemaRefused(Refused):
    """A text declares no schema that is read. The number is a ``SchemaRefusalNumber``: one of S1 to S9.

    >>> try:
    ...     p21.Schema("SCHEMA s; END_SCHEMA")
    ... except p21.SchemaRefused as refusal:
    ...     print(refusal, "-", refusal.sentence)
    schema refused S2 Syntax - No declaration goes on so.
    """

    def __init__(self, number: int, name: str) -> None:
        super().__init__(number, name)
        self.args = (number, name)

    @staticmethod
    def _numbered(number: int) -> Union[RefusalNumber, SchemaRefusalNumber]:
        return SchemaRefusalNumber(number)

    def _words(self) -> Words:
        return SCHEMAS[int(self.number)]

    def _shown(self) -> str:
        return f"S{int(self.number)}"

    def __str__(self) -> str:
        return f"schema refused {self._shown()} {self.name}"


def file_refusal(
    number: int,
    absent: int,
    statement: Optional[int],
    instance: Optional[int],
    which: Optional[str],
    place: Optional[RefusalPlace],
) -> Refused:
    """The refusal of a file."""
    name = FILES[number].name
    if number == RefusalNumber.LEFT_OUT:
        name = f"{name}({ABSENT[absent]})"
    return Refused(number, name, statement, instance, which, place)


def schema_refusal(number: int) -> SchemaRefused:
    """The refusal of a schema."""
    return SchemaRefused(number, SCHEMAS[number].name)
