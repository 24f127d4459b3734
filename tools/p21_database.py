"""Answers about many files in a database of SQLite, to which each run adds its own.

The table `files` has a row for each answer, by the SHA-256 of the file and that of its canonical file: both are looked up at
once. The same answer about the same bytes at the same path has one row, with the time of the last run; where the bytes, the
listing of the schema or the answer is another one, the row of before stays. A file without an answer has no row there, and never
changes one: it stands in the table `unanswered`, until it has an answer.
"""

# Each row is there as soon as it is added, so that a run that is ended leaves what it had, and several runs may add to one
# database at once: each waits for the others, on a disk that has locks.
#
# SQLite's texts are UTF-8, and Python's may hold bytes of the name of a file that are none: texts have the form of
# `reading.escaped`, as in the tables.

import datetime
import os
import stat
from types import TracebackType
from typing import Any, NamedTuple, Optional, Sequence, Tuple, Type, Union

import p21_reading as reading

# A run waits so many seconds for another one that writes.
MOST_WAITED = 60


class Answer(NamedTuple):
    """What is kept of a file that has an answer."""

    sha256: str
    canonical_sha256: Optional[str]
    data_sha256: Optional[str]
    file: str
    answer: str
    number: Union[int, str, None]
    name: Optional[str]
    statement: Optional[int]
    instance: Optional[str]
    instances: Optional[int]
    schema: Optional[str]
    schema_sha256: Optional[str]
    form: Optional[int]
    bytes: Optional[int]
    file_schema: Optional[str]
    preprocessor_version: Optional[str]
    originating_system: Optional[str]
    seconds: Optional[float]


# The kind of each column that isn't a text's. The number of a refusal of a schema is a word, as S4.
TEXT = "TEXT"
KINDS = {
    "number": "",
    "statement": "INTEGER",
    "instances": "INTEGER",
    "form": "INTEGER",
    "bytes": "INTEGER",
    "seconds": "REAL",
}
FILES = [*Answer._fields, "checked"]
UNANSWERED = ["file", "why", "checked"]
DECLARED = (
    f"CREATE TABLE IF NOT EXISTS files ({', '.join(f'{name} {KINDS.get(name, TEXT)}'.strip() for name in FILES)})",
    "CREATE UNIQUE INDEX IF NOT EXISTS files_by_bytes"
    " ON files (sha256, ifnull(canonical_sha256, ''), file, answer, ifnull(schema_sha256, ''))",
    "CREATE INDEX IF NOT EXISTS files_by_meaning ON files (canonical_sha256)",
    "CREATE INDEX IF NOT EXISTS files_by_name ON files (file)",
    "CREATE TABLE IF NOT EXISTS unanswered (file TEXT PRIMARY KEY, why TEXT, checked TEXT)",
)


class Database:
    """A database that is open, for as long as a `with` block runs."""

    def __init__(self, path: str) -> None:
        try:
            import sqlite3
        except ImportError:
            raise reading.Trouble("this Python has no sqlite3, which --format sqlite wants") from None
        self.path = path
        self.errors = sqlite3.Error
        self.check_plain()
        try:
            # A whole path is never one of those that SQLite keeps in memory.
            self.opened = sqlite3.connect(os.path.abspath(path), timeout=MOST_WAITED, isolation_level=None)
        except sqlite3.Error as error:
            raise self.trouble(error) from None
        self.check_columns()
        self.run(*((statement, ()) for statement in DECLARED))

    def __enter__(self) -> "Database":
        return self

    def __exit__(self, kind: Optional[Type[BaseException]], error: Optional[BaseException], trace: Optional[TracebackType]) -> None:
        self.opened.close()

    def check_plain(self) -> None:
        """Says where the path leads to what is no plain file."""
        try:
            is_plain = stat.S_ISREG(os.stat(self.path).st_mode)
        except FileNotFoundError:
            return
        if not is_plain:
            raise reading.Trouble(f"cannot write {self.path}: {reading.NOT_PLAIN}")

    def check_columns(self) -> None:
        """Says where the database has tables of these names from elsewhere."""
        for table, columns in (("files", FILES), ("unanswered", UNANSWERED)):
            try:
                found = [row[1] for row in self.opened.execute(f"PRAGMA table_info({table})")]
            except self.errors as error:
                raise self.trouble(error) from None
            if found and found != columns:
                raise reading.Trouble(f"{self.path} has another table {table}")

    def trouble(self, error: Exception) -> reading.Trouble:
        """What is said of an error of SQLite."""
        return reading.Trouble(f"cannot write {self.path}: {error}")

    def run(self, *statements: Tuple[str, Sequence[Any]]) -> None:
        """Runs statements over their values, all or none. Texts are kept so that they can be read back."""
        try:
            self.opened.execute("BEGIN IMMEDIATE")
            for statement, values in statements:
                self.opened.execute(statement, [reading.escaped(value) if isinstance(value, str) else value for value in values])
            self.opened.execute("COMMIT")
        except self.errors as error:
            # What isn't ended is undone where the database is closed.
            raise self.trouble(error) from None

    def add(self, answer: Answer) -> None:
        """Adds what is answered about a file."""
        added = f"INSERT OR REPLACE INTO files VALUES ({', '.join('?' * len(FILES))})"
        self.run((added, [*answer, now()]), ("DELETE FROM unanswered WHERE file = ?", [answer.file]))

    def add_unanswered(self, file: str, why: str) -> None:
        """Adds why a file has no answer."""
        self.run(("INSERT OR REPLACE INTO unanswered VALUES (?, ?, ?)", [file, why, now()]))


def now() -> str:
    """The time, in the zone of Greenwich."""
    return datetime.datetime.now(datetime.timezone.utc).strftime("%Y-%m-%dT%H:%M:%S.%fZ")
