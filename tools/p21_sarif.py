"""Refusals in SARIF 2.1.0, the form in which review tools and CI take the findings of a checker."""

# A column counts characters, as SARIF's `unicodeCodePoints`.
#
# The help of a rule is what `p21 faults` prints of the refusal, which is its section of docs/FAULTS.md: as text it has the
# lines of a terminal, and as Markdown each paragraph is one line, since what shows it may keep line ends.

import collections
import os
import re
import urllib.parse
from typing import Any, Callable, Counter, Dict, List, Optional, Sequence, Tuple

import p21_reading as reading
import p21_system as system

Json = Dict[str, Any]
SCHEMA = "https://docs.oasis-open.org/sarif/sarif/v2.1.0/errata01/os/schemas/sarif-schema-2.1.0.json"


def uri_of(file: str) -> str:
    """The name of a file as a reference: relative where the name is, with each byte that has no place there by its number."""
    path = system.with_slashes(file)
    if not os.path.isabs(file):
        return urllib.parse.quote(os.fsencode(path))
    escaped = urllib.parse.quote(os.fsencode(path), safe="/:" if system.IS_WINDOWS else "/")
    # On Windows a path begins with a drive, as C:, or with two slashes and the name of a server.
    front = "/" if not path.startswith("/") else ""
    return f"file:{escaped}" if system.IS_WINDOWS and path.startswith("//") else f"file://{front}{escaped}"


def refusals(program: str) -> Dict[str, Tuple[str, str]]:
    """The name and the sentence of each refusal by its number, as `p21 faults` lists them."""
    listed = reading.answered(reading.run(program, "faults")).output.decode("utf-8")
    return {number: (name, about) for number, name, about in re.findall(r"^ +(S?\d+) (\w+) +(.*)$", listed, re.M)}


class Counts:
    """How many refusals were found, by rule and by file, how many of them are listed, and whether all were looked for."""

    def __init__(self) -> None:
        self.by_rule: Counter[str] = collections.Counter()
        self.by_file: Counter[str] = collections.Counter()
        self.listed = 0
        self.is_whole = True

    def add(self, rule: str, file: str) -> None:
        """One more refusal, by its number with its name."""
        self.by_rule[rule] += 1
        self.by_file[file] += 1

    @property
    def found(self) -> int:
        """How many there are."""
        return sum(self.by_rule.values())

    def grouped(self) -> Json:
        """The counts, the greatest ones first."""
        return {
            "found": self.found,
            "listed": self.listed,
            "allLookedFor": self.is_whole,
            "byRule": dict(self.by_rule.most_common()),
            "byFile": {uri_of(file): count for file, count in self.by_file.most_common()},
        }


def paragraphs_of(program: str, number: str) -> List[str]:
    """The paragraphs of what the program says of a refusal, without the title."""
    told = reading.answered(reading.run(program, "faults", number)).output.decode("utf-8")
    return told.partition("\n")[2].strip("\n").split("\n\n")


def is_prose(paragraph: str) -> bool:
    """Is a paragraph no text of a file, no table and not the answer of the program alone?"""
    return not paragraph.startswith(("    ", "|")) and not re.fullmatch(r"`[^`]*`|[^`]*:", paragraph, re.S)


def in_markdown(paragraph: str) -> str:
    """A paragraph in Markdown, on one line where it is prose."""
    return paragraph if paragraph.startswith(("    ", "|")) else paragraph.replace("\n", " ")


def rule_of(program: str, number: str, about: Tuple[str, str]) -> Json:
    """A refusal as a rule."""
    name, sentence = about
    paragraphs = paragraphs_of(program, number)
    first = next(filter(is_prose, paragraphs), sentence)
    return {
        "id": number,
        "name": name,
        "shortDescription": {"text": sentence},
        "fullDescription": {"text": first.replace("\n", " ").replace("`", "")},
        "help": {"text": "\n\n".join(paragraphs), "markdown": "\n\n".join(map(in_markdown, paragraphs))},
        "defaultConfiguration": {"level": "error"},
    }


def result_of(row: Json, index: int, message: str) -> Json:
    """A refusal as a result, by the row that p21-where makes of it."""
    place: Json = {"artifactLocation": {"uri": uri_of(row["file"])}}
    if row["line"]:
        place["region"] = {"startLine": row["line"], "startColumn": row["column"]}
    location: Json = {"physicalLocation": place}
    if row["instance"]:
        named = {"name": row["instance"], "kind": "object"}
        if row["attribute"]:
            named["fullyQualifiedName"] = f"{row['instance']}.{row['attribute']}"
        location["logicalLocations"] = [named]
    kept = {key: row[key] for key in ("statement", "instance", "attribute", "expected", "found") if row[key] is not None}
    return {
        "ruleId": str(row["number"]),
        "ruleIndex": index,
        "level": "error",
        "message": {"text": f"{row['answer']}: {message}"},
        "locations": [location],
        "properties": kept,
    }


def notification_of(row: Json) -> Json:
    """A file that could not be read."""
    where = {"physicalLocation": {"artifactLocation": {"uri": uri_of(row["file"])}}}
    return {"level": "error", "message": {"text": row["answer"]}, "locations": [where]}


def log_of(
    program: str, rows: Sequence[Json], message_of: Callable[[Json], str], status: int, counts: Counts, sentence: Optional[str]
) -> Json:
    """The log of a run over all files, by the rows of those that aren't accepted, with a sentence where not all refusals are in
    it."""
    known = refusals(program)
    refused = [row for row in rows if row["number"] is not None]
    numbers = list(dict.fromkeys(str(row["number"]) for row in refused))
    version = reading.answered(reading.run(program, "--version")).output.decode("ascii").split()[1]
    invocation: Json = {"executionSuccessful": len(refused) == len(rows), "exitCode": status}
    notifications = [notification_of(row) for row in rows if row["number"] is None]
    if sentence is not None:
        notifications.append({"level": "warning", "message": {"text": sentence}})
    if notifications:
        invocation["toolExecutionNotifications"] = notifications
    run = {
        "tool": {
            "driver": {
                "name": "p21",
                "semanticVersion": version,
                "rules": [rule_of(program, number, known.get(number, (number, number))) for number in numbers],
            }
        },
        "columnKind": "unicodeCodePoints",
        "invocations": [invocation],
        "properties": {"refusals": counts.grouped()},
        "results": [result_of(row, numbers.index(str(row["number"])), message_of(row)) for row in refused],
    }
    return {"$schema": SCHEMA, "version": "2.1.0", "runs": [run]}
