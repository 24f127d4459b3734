"""Whether two STEP files (ISO 10303-21) hold the same model.

A schema is read from its EXPRESS text. Under it a file is checked, its canonical file is given, and two files are compared; it
is said where a file is refused and what differs in two; a session reads a file that comes in pieces:

>>> import p21
>>> schema = p21.Schema("SCHEMA s; ENTITY point; x, y : REAL; END_ENTITY; END_SCHEMA;")
>>> point = (
...     b"ISO-10303-21;HEADER;FILE_DESCRIPTION((''),'2;1');FILE_NAME('','',(''),(''),'','','');"
...     b"FILE_SCHEMA(('S'));ENDSEC;DATA;#1=POINT(0.50,1.E0);ENDSEC;END-ISO-10303-21;"
... )
>>> moved = point.replace(b"1.E0", b"3.")
>>> p21.check(schema, point).instances
1
>>> p21.same(schema, point, moved)
False

The examples of the other pages go on with these three. With files:

>>> product = p21.Schema.read("examples/product.exp")
>>> p21.same(product, "examples/product.step", "examples/product-other.step")
True

A file is a path; or its bytes, as any object that has a buffer, which isn't copied; or a file that is open for reading bytes.
Where a schema or a file is refused, the exception says why and where; where there is no memory, it is a MemoryError. Threads may
share a schema: the interpreter's lock is let go while a call runs. A schema pickles, so that processes get it.

The work is done by the shared library libp21.so, which the wheel has and making/build-library builds. It is sought where the
environment variable P21_LIBRARY says, and else beside this file. ``python3 -m p21`` runs the program.
"""

from p21._diff import Differences, diff
from p21._faults import Refused, SchemaRefused
from p21._files import Hash, canonical, check, hash, numbered, same, same_but_for_names
from p21._library import version
from p21._model import DERIVED, Aggregate, Attribute, Bits, Entity, EntityAttribute, Enum, Instance, Model, Typed, Use, frame, read
from p21._numbers import RefusalNumber, SchemaRefusalNumber
from p21._places import RefusalPlace
from p21._schema import Schema
from p21._session import Accepted, Report, Session, accept
from p21._source import Buffer, Source
from p21._survey import Survey, survey, syntax_survey
from p21._syntax import Syntax, syntax
from p21._where import Place, where

__all__ = [
    "Accepted",
    "Aggregate",
    "Attribute",
    "Bits",
    "Buffer",
    "DERIVED",
    "Differences",
    "Entity",
    "EntityAttribute",
    "Enum",
    "Hash",
    "Instance",
    "Model",
    "Place",
    "RefusalNumber",
    "RefusalPlace",
    "Refused",
    "Report",
    "Schema",
    "SchemaRefusalNumber",
    "SchemaRefused",
    "Session",
    "Source",
    "Survey",
    "Syntax",
    "Typed",
    "Use",
    "accept",
    "canonical",
    "check",
    "diff",
    "frame",
    "hash",
    "numbered",
    "read",
    "same",
    "same_but_for_names",
    "survey",
    "syntax",
    "syntax_survey",
    "version",
    "where",
]
