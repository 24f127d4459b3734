#!/usr/bin/env python3
"""Shows that each script beside the gate finds what it is for: that it fails over a copy of the repository with one edit.

    tests/hostile/wrong_programs.py [PART..]     PART is the path of a script below tests, as hostile/devices.sh

Two programs of edited sources are built without a proof, since no prover would pass them: some minutes of a processor for
each. The edits of one turn different things. An edit of what stands beside the program has a copy of the repository for
itself, and the library for C and Python of the sources as they are; so has an edit of the sources that a script builds its
own tests of. A script has to end with a status other than 0 and to name a run that its own edit turns. That it passes
without the edit is shown by tests/all.sh. The environment variable P21 names the program of the sources as they are.
"""

import dataclasses
import os
import pathlib
import shutil
import subprocess
import sys
import tempfile
import time

from rigged import ROOT, built_program


@dataclasses.dataclass
class Edit:
    """A script with its arguments; what is edited, where, and how; and what the script says of it."""

    part: str
    arguments: list
    title: str
    file: str
    old: str
    new: str
    says: str
    # Which of two programs of edited sources the script runs. Others read the sources themselves, or run what stands beside.
    program: int = 0
    # Whether the script looks at what is built in the repository, and at its history.
    has_builds: bool = False


EDITS = [
    Edit(
        "program.sh",
        [],
        "a mistake of the command line ends with status 0",
        "crates/p21/src/main.rt",
        "Ok(()) if error.use_stderr() => USAGE,",
        "Ok(()) if error.use_stderr() => DONE,",
        "an unknown command: status 0, not 2",
        program=1,
    ),
    Edit(
        "going_on.py",
        ["--cases", "0"],
        "a second reading reads what was passed over",
        "crates/p21_commands/src/second_reading.rt",
        "self.taken >= *begins && self.part_byte >= *ends",
        "self.taken >= *ends && self.part_byte >= *ends",
        "one of another kind behind a broken statement of the same name, places: ",
        program=2,
    ),
    Edit(
        "program.sh",
        [],
        "a list of all refusals ends at a hundred",
        "crates/p21/src/commands.rt",
        'None if found.get_flag("all") => Some(u64::MAX),',
        'None if found.get_flag("all") => Some(100),',
        "three hundred refusals: ",
        program=1,
    ),
    Edit(
        "program.sh",
        [],
        "a MiB has a million bytes",
        "crates/p21/src/progress.rt",
        "const MEBIBYTE: u64 = 1_048_576;",
        "const MEBIBYTE: u64 = 1_000_000;",
        "progress of 130,000,000 bytes: ",
        program=1,
    ),
    Edit(
        "program.sh",
        [],
        "what is said of a refusal ends without its last line feed",
        "crates/p21/src/commands.rt",
        'println!(rt; "{section}")?;',
        'print!(rt; "{section}")?;',
        "one refusal: ",
        program=1,
    ),
    Edit(
        "texts.py",
        [],
        "README shows another number",
        "README.md",
        "accepted, instances 1, canonical bytes 303",
        "accepted, instances 1, canonical bytes 304",
        "README.md",
    ),
    Edit(
        "definitions.py",
        [],
        "a test has another name than in the row of its rule",
        "crates/p21_test_tokens/src/tests/runs.rt",
        "fn finds_blanks(",
        "fn sees_blanks(",
        "p21_test_tokens::runs::finds_blanks",
    ),
    Edit(
        "definitions.py",
        [],
        "a call doesn't say what it does",
        "crates/p21_values/src/text.rt",
        "/// How many characters the text has. It takes no memory.",
        "// How many characters the text has. It takes no memory.",
        "no line says what p21_values: Text::len does",
    ),
    Edit(
        "definitions.py",
        [],
        "a function of the plain reading has another name than in the row of its rule",
        "tests/plain/lexemes.py",
        "def behind_text(data, at):",
        "def behind_simple(data, at):",
        "lexemes.behind_text",
    ),
    Edit(
        "definitions.py",
        [],
        "the plain reading refuses something in a function that no rule names",
        "docs/DEFINITIONS.md",
        " | `schema.no_renamed_selects` |",
        " | `schema.known_names` |",
        "no rule of docs/DEFINITIONS.md names schema.no_renamed_selects",
    ),
    Edit(
        "worked_cases.py",
        [],
        "the plain reading counts nothing in a bag",
        "tests/plain/records.py",
        'return ("bag", frozenset(Counter(values).items()))',
        'return ("bag", frozenset((x, 1) for x in values))',
        "same, #1=CLOUD((),((1.,1.,2.)),(TALLY(1))); #1=CLOUD((),((1.,2.,2.)),(TALLY(1)));",
    ),
    Edit(
        "worked_cases.py",
        [],
        "the plain reading counts separators among the bytes of a statement",
        "tests/plain/tokens.py",
        "front.run(SEPARATORS, counts=False)",
        "front.run(SEPARATORS)",
        "statements of 5 and files of 10 bytes, '12 /**/34;'",
    ),
    Edit(
        "edits.py",
        [],
        "the code has no longer the text that a wrong body of the gate turns",
        "crates/p21_mapping_values/src/texts.rt",
        "texts.sort_unstable();",
        "texts.sort();",
        "crates/p21_mapping_values/must-fail/repeated_element_dropped.edit: the old text stands 0 times",
    ),
    Edit(
        "records.py",
        [],
        "what a private function asks for counts in the crates above",
        "tests/wrong_bodies/sources.py",
        'is_public = self.of_traits[-1] or "pub" in before and "(" not in before',
        "is_public = True",
        "the contract of a private function: other is",
    ),
    Edit(
        "records.py",
        [],
        "what a lemma says doesn't count in the crates above",
        "tests/wrong_bodies/sources.py",
        'last, was_shown = kind, kind != "hidden"',
        'last, was_shown = kind, kind == "whole"',
        "a public lemma: other is",
    ),
    Edit(
        "refusals.py",
        [],
        "the header for C has another number than the list",
        "include/p21.h",
        "P21_NOT_DISTINCT = 52,",
        "P21_NOT_DISTINCT = 59,",
        "include/p21.h is not what docs/FAULTS.md says",
    ),
    Edit(
        "copies.py",
        [],
        "a crate of tests has another schema DEMO than the others",
        "crates/p21_test_records/src/tests/schemas.rt",
        "values : LIST [1:3] OF UNIQUE item;",
        "values : LIST [1:4] OF UNIQUE item;",
        "schemas.rt: DEMO is not examples/demo.exp",
    ),
    Edit(
        "library.py",
        [],
        "an example has another line than the page that shows it",
        "crates/p21_examples/src/canonical.rt",
        "//! Answers whether a file is accepted under a schema, and what its canonical file is.",
        "//! Answers whether a file is accepted, and what its canonical file is.",
        "shown otherwise: crates/p21_examples/src/canonical.rt",
    ),
    Edit(
        "install.sh",
        [],
        "the program is copied without the right to run it",
        "making/install",
        'copy 755 "$program"',
        'copy 644 "$program"',
        "the program that was copied: status",
    ),
    Edit(
        "bindings.sh",
        ["LIBRARY"],
        "the header gives a refusal another number",
        "include/p21.h",
        "P21_COUNT = 45,",
        "P21_COUNT = 59,",
        "the refusals of files: wrong",
    ),
    Edit(
        "pages.sh",
        ["PROGRAM"],
        "the manual page says another sentence than the help",
        "man/p21.1",
        "Prints the canonical spelling of one parameter.",
        "Prints the canonical spelling of a parameter.",
        "man/p21.1",
    ),
    Edit(
        "release.py",
        [],
        "a gate that failed counts as one that passed",
        "making/release/built.py",
        r'r"\d+ passed, 0 failed"',
        r'r"\d+ passed, \d+ failed"',
        "no release: a gate that failed:\n",
        has_builds=True,
    ),
    Edit(
        "tools_diff.py",
        [],
        "files of which all that differs is left out are called the same",
        "tools/p21-diff",
        "if listing.word == differences.SAME:",
        "if not counts.listed:",
        "the time stamp, without the header",
    ),
    Edit(
        "tools_names.py",
        [],
        "a list that doesn't say what is left out is an answer",
        "tools/p21_differences.py",
        "return is_told and status ==",
        "return status ==",
        "p21-diff, no answer, left out, nothing of it",
    ),
    Edit(
        "tools_names.py",
        [],
        "a hash counts names",
        "tools/p21-table",
        '["--names"] if setting.names else []',
        "[]",
        "p21-diff, ",
    ),
    Edit(
        "tools_page.py",
        [],
        "the signs of a text are signs of the page",
        "tools/p21_pages.py",
        "return html.escape(str(shown(text)))",
        "return str(shown(text))",
        "p21-diff, ",
    ),
    Edit(
        "tools_table.py",
        [],
        "the files of a folder fall by their names",
        "tools/p21-table",
        "files.names.extend(sorted([*found.files, *found.unread]))",
        "files.names.extend(sorted([*found.files, *found.unread], reverse=True))",
        "p21-table, tabs",
    ),
    Edit(
        "tools_table.py",
        [],
        "a refused file is tried again",
        "tools/p21-table",
        "if made.row.status == Status.FAILED and again < given.retry:",
        "if made.row.status != Status.DONE and again < given.retry:",
        "p21-table, the runs of one that is killed once",
    ),
    Edit(
        "tools_table.py",
        [],
        "a database has what has no answer among the answers",
        "tools/p21-table",
        "    if entry is None:\n        database.add_unanswered(row.file, row.answer)\n        return\n",
        "    entry = entry or Entry(row.file, 0, '', None, None, 1, None, None, None, row.answer)\n",
        "p21-table, no answers",
    ),
    Edit(
        "tools_table.py",
        [],
        "a character and a byte stand alike in a table",
        "tools/p21_reading.py",
        'return f"\\\\u{code:04x}" if 0x80 <= code < 0x100 and not character.isprintable() else shown_character(character)',
        "return shown_character(character)",
        "p21-table, tsv: names of any bytes",
    ),
    Edit(
        "tools_where.py",
        [],
        "the status is 0 for a file that is refused",
        "tools/p21-where",
        "    if log is not None:\n        log.print(program, status)\n    return status\n",
        "    if log is not None:\n        log.print(program, status)\n    return 0\n",
        "p21-where, ",
    ),
    Edit(
        "tools_where.py",
        [],
        "SARIF lists more than it says",
        "tools/p21-where",
        "            if self.room > 0:\n",
        "            if self.room >= 0:\n",
        "p21-where, SARIF --most",
    ),
    Edit(
        "hostile/devices.sh",
        [],
        "a read that fails ends the text",
        "crates/p21_stream_io/src/transfer.rt",
        "return Err(ReadFault);",
        "return Ok(0);",
        "a directory as a file: status 1, not 3",
        program=2,
    ),
    Edit(
        "hostile/changing.py",
        [],
        "a read of few bytes ends the file",
        "crates/p21_stream/src/read.rt",
        "Ok(()) => Ok(count as u64),",
        "Ok(()) => Ok(if count < piece.len() { 0 } else { count as u64 }),",
        "in front of read 2: found",
        program=2,
    ),
    Edit(
        "held.py",
        ["references_that_wait"],
        "all references that wait are looked at again and again",
        "crates/p21_stream_kept/src/waiting.rt",
        "come.saturating_add(PATIENCE.max(left as u64))",
        "come.saturating_add(PATIENCE)",
        "references_that_wait: ",
        program=2,
    ),
    Edit(
        "hostile/transfers.py",
        [],
        "a writer that takes none of some bytes has taken all",
        "crates/p21_stream_io/src/transfer.rt",
        "if count == 0 {\n            return Err(WriteFault);",
        "if count == 0 {\n            return Ok(());",
        "0 bytes are taken, then {'EMPTY': 1}",
        program=2,
    ),
    Edit(
        "hostile/large.py",
        [],
        "one byte less of a parameter is read",
        "crates/p21_commands/src/transfer.rt",
        "const MOST_READ: usize = 16_777_217;",
        "const MOST_READ: usize = 16_777_216;",
        "a parameter of 16777217 bytes",
        program=1,
    ),
    Edit(
        "hostile/stack.py",
        [],
        "what waits to be written takes a megabyte of the stack",
        "crates/p21_stream_io/src/waiting.rt",
        "const MOST_WAITING: usize = 65_536;",
        "const MOST_WAITING: usize = 1_048_576;",
        "KB: found False",
        program=1,
    ),
    Edit(
        "hostile/allocations.py",
        ["schema"],
        "a name is left out where memory runs out",
        "crates/p21_commands/src/print.rt",
        "out.extend_from_slice(schema.place_name(place))?;",
        "let _ = out.extend_from_slice(schema.place_name(place));",
        "'schema demo.exp', allocation",
        program=1,
    ),
    Edit(
        "hostile/allocations.py",
        ["refusals"],
        "a token for which memory runs out is read again byte by byte",
        "crates/p21_tokens/src/lexer.rt",
        "Some(Err(_no_memory)) => return Err(TokenFault::NoMemory),",
        "Some(Err(_no_memory)) => {}",
        "unseen in p21_values::text::Text::push_latin1",
        program=1,
    ),
    Edit(
        "hostile/allocations.py",
        ["every refusal"],
        "an instance for which memory is refused is read again token by token",
        "crates/p21_stream/src/taking.rt",
        "return Err(refused(Fault::NoMemory, None, self.statement));",
        "return Ok(None);",
        "unseen in p21_shorter_instances",
        program=2,
    ),
    Edit(
        "hostile/memory.py",
        [],
        "an instance is left out where memory runs out",
        "crates/p21_stream_store/src/named_memberships.rt",
        "let Ok(done) = note(noted, name, membership, all) else {\n        return Err(NoMemory);",
        "let Ok(done) = note(noted, name, membership, all) else {\n        return Ok(true);",
        "['check', 'demo.exp', 'rising'] within",
        program=1,
    ),
    Edit(
        "hostile/calls.py",
        ["write_record"],
        "what was written of a record stays where memory runs out",
        "crates/p21_canon/src/statement.rt",
        "if written.is_err() {",
        "if out.len() < before {",
        "write_record, allocation",
    ),
    Edit(
        "fail_alloc.sh",
        [],
        "what was written of a scalar value stays where memory runs out",
        "crates/p21_values/src/canonical.rt",
        "if written.is_err() {",
        "if out.len() < before {",
        "test tests::want_of_memory::decimals ... FAILED",
    ),
    Edit(
        "want_of_memory.sh",
        [],
        "a session forgets that it was refused",
        "crates/p21_stream/src/progress.rt",
        "self.refused = Some(refusal);\n                self.answered()",
        "self.refused = None;\n                Err(refusal)",
        "a_session, allocation",
    ),
    Edit(
        "two_ways.py",
        [],
        "a minus is lost where an instance is taken straight from its bytes",
        "crates/p21_shorter_tokens/src/number.rt",
        "if !draft.put(b'-') {",
        'if !draft.append(b"") {',
        "difference in case",
        program=2,
    ),
    Edit(
        "edges.py",
        [],
        "the last digit of a real of 31 is left out where it is found by lanes",
        "crates/p21_shorter_tokens/src/places.rt",
        "& ((1u64 << end) - 1);",
        "& ((1u64 << end.min(30)) - 1);",
        "=SIZE(7.",
        program=2,
    ),
    Edit(
        "room.py",
        [],
        "the end of an instance is left out where the room for its line ends",
        "crates/p21_shorter_instances/src/end.rt",
        "if !draft.append_prefix(bytes, 2) {\n        return None;\n    }",
        "let _ = draft.append_prefix(bytes, 2);",
        "TEXT, as it is",
        program=2,
    ),
    Edit(
        "fuzz.py",
        ["--cases", "10000", "--seed", "1"],
        "one printable character of a string is written as a directive",
        "crates/p21_values/src/text.rt",
        "' '..='~' => out.push(code as u8)?,",
        "' '..='}' => out.push(code as u8)?,",
        "difference in case",
        program=1,
    ),
]


def copy_of_repository(folder):
    """The repository in a folder of its own, without what was built."""
    shutil.copytree(ROOT, folder, ignore=shutil.ignore_patterns(".git", "out"), symlinks=True)


def add_builds(root):
    """Gives a copy of the repository what is built in it, and a history of one commit."""
    for name in ("p21/out/p21", "p21/out/p21.o", "p21_c/out/libp21_c.a"):
        if (ROOT / "crates" / name).is_file():
            (root / "crates" / name).parent.mkdir(exist_ok=True)
            shutil.copy2(ROOT / "crates" / name, root / "crates" / name)
    for words in (["init", "-q"], ["add", "-A"], ["commit", "-q", "-m", "What stands here"]):
        subprocess.run(["git", "-c", "user.name=p21", "-c", "user.email=p21@localhost", *words], cwd=root, check=True)


def apply(edit, root):
    path = root / edit.file
    text = path.read_text()
    if text.count(edit.old) != 1:
        raise SystemExit(f"{edit.file} has the text of an edit {text.count(edit.old)} times: {edit.old!r}")
    path.write_text(text.replace(edit.old, edit.new))


def edited(edits, folder):
    """A copy of the repository with these edits, and the program of its sources where it is built."""
    root = pathlib.Path(folder) / "repository"
    copy_of_repository(root)
    for edit in edits:
        apply(edit, root)
    if edits[0].has_builds:
        add_builds(root)
    if not edits[0].program:
        return root, None
    program = pathlib.Path(folder) / "p21"
    subprocess.run([root / "benchmarks/unproved.py", "p21", program, "--quick"], stdin=subprocess.DEVNULL, check=True)
    return root, str(program)


def built_library(folder):
    """The library for C and Python of the sources as they are, in a folder."""
    subprocess.run([ROOT / "making/build-library", folder], check=True, stdout=subprocess.DEVNULL)
    return str(folder)


def finds(edit, root, program):
    """Whether the script finds its edit in a copy of the repository."""
    named = {"PROGRAM": program}
    if "LIBRARY" in edit.arguments:
        named["LIBRARY"] = built_library(root.parent / "library")
    words = [root / "tests" / edit.part, *(named.get(word, word) for word in edit.arguments)]
    environment = dict(os.environ, P21=program, PYTHONDONTWRITEBYTECODE="1")
    run = subprocess.run(
        words, cwd=root, env=environment, stdin=subprocess.DEVNULL, capture_output=True, text=True, errors="replace", check=False
    )
    said = run.stdout + run.stderr
    if run.returncode != 0 and edit.says in said:
        return True
    print(said[-3000:])
    return False


def missed_in(edits, good):
    """How many edits of one copy their scripts don't find."""
    missed = 0
    with tempfile.TemporaryDirectory(prefix="wrong-") as folder:
        root, program = edited(edits, folder)
        for edit in edits:
            begun = time.monotonic()
            is_found = finds(edit, root, program or good)
            missed += not is_found
            word = "found" if is_found else "NOT FOUND"
            print(f"{edit.part}: {edit.title}: {word}, {time.monotonic() - begun:.0f} s", flush=True)
    return missed


def main():
    good = built_program()
    chosen = [edit for edit in EDITS if edit.part in (sys.argv[1:] or [edit.part])]
    copies = [[edit] for edit in chosen if not edit.program]
    copies += [edits for edits in ([it for it in chosen if it.program == number] for number in (1, 2)) if edits]
    missed = sum(missed_in(edits, good) for edits in copies)
    print(f"{len(chosen) - missed} edits found, {missed} not")
    sys.exit(missed > 0)


if __name__ == "__main__":
    main()
