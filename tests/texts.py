#!/usr/bin/env python3
"""Runs each command line that README, docs and the help show with its answer, and each text of docs/FAULTS.md.

A command line stands in a table beside its answer, in a line above the words "prints `..`", or behind `$` above what it
prints, where `..` stands for lines that are left out. The commands behind `$` of one page are run one behind the other in
one shell, in a folder that has the examples, with the program and the tools in its path. Those of a program that isn't there
are named and left out.

P21 in the environment, or the first argument, names another program than ./p21. The status is 1 where an answer is
another one, and 77 where something was left out.
"""

import os
import pathlib
import re
import shlex
import shutil
import subprocess
import sys
import tempfile

import exchange

ROOT = pathlib.Path(__file__).resolve().parent.parent
PROGRAM = os.path.abspath(sys.argv[1] if len(sys.argv) > 1 else os.environ.get("P21", ROOT / "p21"))
SCHEMA = ROOT / "examples" / "product.exp"

# A file of the schema without instances, line by line.
FRAME = exchange.file_of("PRODUCT_MODEL", "").splitlines()


def answer(arguments):
    """What the program writes, to either stream, and its status."""
    run = subprocess.run([PROGRAM, *arguments], cwd=ROOT, capture_output=True, check=False)
    return (run.stdout + run.stderr).decode().rstrip("\n"), run.returncode


def pages():
    """The pages that show command lines."""
    return [ROOT / "README.md", ROOT / "examples" / "README.md", *sorted((ROOT / "docs").rglob("*.md"))]


def shown():
    """The command lines in tables, and those above what they print, each with its answer."""
    row = r"^\| `\./p21 ([^`]*)` \| `([^`]*)` \|$"
    line = r"^    \./p21 (.*)\n\nprints `([^`]*)`"
    for path in pages():
        for found in re.finditer(f"{row}|{line}", path.read_text(), re.M):
            command, wanted = filter(None, found.groups())
            yield f"{path.name}: {command}", shlex.split(command), wanted


# Programs that some command lines of the pages need and not every system has.
OTHERS = ("git", "gpg", "minisign", "iconv")
MARK = "\x01"


def blocks_of(page):
    """The blocks of command lines of a page: each command with the lines that stand below it."""
    block = []
    for line in page.read_text().splitlines() + [""]:
        if line.startswith("    $ "):
            block.append([line[6:], []])
        elif block and line.startswith("    >") and not block[-1][1]:
            block[-1][0] += "\n" + line[6:]
        elif block and line.startswith("    "):
            block[-1][1].append(line[4:])
        elif block:
            yield block
            block = []


def prepared(folder):
    """A folder with the examples, and the environment in which a page's commands are run there."""
    path = folder / "bin"
    path.mkdir(parents=True)
    for tool in ROOT.glob("tools/p21-*"):
        (path / tool.name).symlink_to(tool)
    (path / "p21").write_text(f'#!/bin/sh\nexec {shlex.quote(PROGRAM)} "$@"\n')
    (path / "p21").chmod(0o755)
    here = folder / "here"
    here.mkdir()
    for name in ("examples", "docs", "tools"):
        (here / name).symlink_to(ROOT / name)
    (here / "p21").symlink_to(path / "p21")
    (folder / "home").mkdir(mode=0o700)
    names = {"GIT_AUTHOR_NAME": "p21", "GIT_AUTHOR_EMAIL": "p21@localhost"}
    names |= {"GIT_COMMITTER_NAME": "p21", "GIT_COMMITTER_EMAIL": "p21@localhost"}
    return here, {
        **os.environ,
        **names,
        "HOME": str(folder / "home"),
        "LC_ALL": "C.UTF-8",
        "P21": PROGRAM,
        "PATH": f"{path}:{os.environ['PATH']}",
    }


def outputs(commands, here, environment):
    """What each of the commands prints, where one shell runs them one behind the other."""
    between = f"mark() {{ local status=$?; printf '{MARK}'; return $status; }}\n"
    script = between + "".join(f"{command}\nmark\n" for command in commands)
    run = subprocess.run(
        ["bash", "-c", script],
        cwd=here,
        env=environment,
        stdin=subprocess.DEVNULL,
        stdout=subprocess.PIPE,
        stderr=subprocess.STDOUT,
        check=False,
    )
    return run.stdout.decode("utf-8", "backslashreplace").split(MARK)


def is_shown(wanted, found):
    """Are the lines of an output those that a page shows?"""
    pattern = "".join("(?:.*\n)*" if line == ".." else re.escape(line + "\n") for line in wanted)
    return re.fullmatch(pattern, found if found.endswith("\n") or not found else found + "\n") is not None


def sessions(folder, left_out):
    """Each command of the pages: what it is, what it should print, what it prints, and whether that is the same. Programs that
    commands need and that aren't there are added to those that are left out."""
    for page in pages():
        blocks = []
        for block in blocks_of(page):
            missing = {name for command, _ in block for name in OTHERS if name in command.split() and not shutil.which(name)}
            if missing:
                print(f"{page.name}: not run, without {' '.join(missing)}: {block[0][0]}")
                left_out |= missing
            else:
                blocks.append(block)
        commands = [command for block in blocks for command in block]
        if not commands:
            continue
        found = outputs([command for command, _ in commands], *prepared(folder / f"{page.parent.name}-{page.stem}"))
        for (command, wanted), output in zip(commands, found + [""] * len(commands)):
            yield f"{page.name}: {command}", "\n".join(wanted), output.rstrip("\n"), is_shown(wanted, output)


def helps(folder):
    """The example in the help of each command, over the examples and the file that the help names: as `sessions` does."""
    here, environment = prepared(folder / "help")
    for example in (ROOT / "examples").iterdir():
        (here / example.name).symlink_to(example)
    # The help has no room for the whole of a long name.
    (here / "changed.step").symlink_to(ROOT / "examples" / "product-changed.step")
    for command in ("param", "schema", "check", "canon", "show", "same"):
        example = answer([command, "--help"])[0].partition("\nExample")[2]
        given = re.search(r"where (\S+) holds\s+(.*?):?\n    \$", example, re.S)
        if given:
            (here / given[1]).unlink(missing_ok=True)
            (here / given[1]).write_text(given[2] + "\n")
        for shown_one in re.split(r"^\$ ", "\n".join(lines("    " + example.partition("\n    ")[2])), flags=re.M)[1:]:
            line, *wanted = shown_one.splitlines()
            output = outputs([line], here, environment)[0]
            yield f"help of {command}: {line}", "\n".join(wanted), output.rstrip("\n"), is_shown(wanted, output)


def lines(block):
    return [line[4:] for line in block.splitlines()]


def without_notes(found):
    """An answer without what is said behind its lines of the files that were given."""
    return "\n".join(line for line in found.split("\n") if not line.startswith("note: "))


def file_with(text, section, frame):
    """The frame with a text at the place that its section names."""
    of_record = re.search(r"In place of the line of (\w+)", section)
    of_line = re.search(r"In place of `([^`]*)`", section)
    if of_record:
        at = next(i for i, line in enumerate(frame) if line.startswith(of_record[1] + "("))
        return frame[:at] + text + frame[at + 1 :]
    if of_line:
        at = frame.index(of_line[1])
        return frame[:at] + text + frame[at + 1 :]
    if "Behind `END-ISO-10303-21;`" in section:
        return frame + text
    return frame[:7] + text + frame[7:]


def faults(folder):
    """Each refusal that has a text, with how the program is run on it and what it answers."""
    for section in re.split(r"^### ", (ROOT / "docs" / "FAULTS.md").read_text(), flags=re.M)[1:]:
        title = section.splitlines()[0]
        found = re.search(r"^(?:.*: )?`((?:schema )?refused [^`]*)`$", section, re.M)
        if not found:
            continue
        front = section[: found.start()]
        blocks = [lines(block) for block in re.findall(r"(?:^    .*\n)+", front, re.M)]
        whole = re.search(r"`(examples/refused/[^`]*)`: `refused", section)
        alone = re.search(r"on the text `([^`]*)`", section)
        name = title.split()[0]
        text = folder / f"{name}.txt"
        if name.startswith("S"):
            text.write_text("\n".join(blocks[-1]) + "\n")
            arguments = ["schema", str(text)]
        elif alone:
            text.write_text(alone[1])
            arguments = ["param", str(text)]
        elif whole:
            arguments = ["check", str(SCHEMA), whole[1]]
        else:
            schema, frame = SCHEMA, FRAME
            if len(blocks) > 1:
                schema = folder / f"{name}.exp"
                schema.write_text("\n".join(blocks[0]) + "\n")
                frame = [line.replace("PRODUCT_MODEL", "TWO") for line in FRAME]
            text.write_text("\n".join(file_with(blocks[-1], section, frame)) + "\n")
            arguments = ["check", *(["--names"] if "With `--names`: " in section else []), str(schema), str(text)]
        yield f"FAULTS.md: {title}", arguments, found[1]


def main():
    failed = count = 0
    left_out = set()

    def judge(title, wanted, found, is_right):
        """Counts an answer, and shows it where it is another one."""
        nonlocal failed, count
        count += 1
        if not is_right:
            failed += 1
            print(f"{title}\n  wanted {wanted}\n  found  {found}")

    with tempfile.TemporaryDirectory() as name:
        folder = pathlib.Path(name)
        for title, arguments, wanted in [*shown(), *faults(folder)]:
            found, status = answer(arguments)
            found = without_notes(found)
            refused = wanted.startswith(("refused", "schema refused", "different", "no #"))
            judge(title, f"{wanted}, status {int(refused)}", f"{found}, status {status}", found == wanted and status == refused)
        for session in [*sessions(folder, left_out), *helps(folder)]:
            judge(*session)
    without = f"; left out what needs {', '.join(sorted(left_out))}" if left_out else ""
    print(f"{count - failed} passed, {failed} failed{without}")
    return 1 if failed else 77 if left_out else 0


if __name__ == "__main__":
    sys.exit(main())
