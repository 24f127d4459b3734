#!/usr/bin/env python3
"""Runs the tools with standard input in place of each of their files, and with files that can't be read. P21 names another
program than ./p21."""

import os
import pathlib
import pwd
import re
import resource
import subprocess

from tooling import ROOT, SCHEMA, Tests

BLOCK, CHANGED, COUNT = "examples/product.step", "examples/product-changed.step", "examples/refused/Count.step"
# Each tool with its files, and the words in front of them.
RUNS = [
    ("p21-where", [], [SCHEMA, COUNT]),
    ("p21-where", ["--format", "json"], [SCHEMA, COUNT]),
    ("p21-diff", [], [SCHEMA, BLOCK, CHANGED]),
    ("p21-diff", ["--names"], [SCHEMA, BLOCK, CHANGED]),
    ("p21-table", ["--format", "tsv"], [SCHEMA, BLOCK]),
    ("p21-table", ["--names", "--format", "tsv"], [SCHEMA, BLOCK]),
    ("p21-table", ["--format", "tsv", SCHEMA, "--files-from"], ["{here}/list"]),
    ("p21-adapt", [], [SCHEMA]),
]
# What is said of a file that isn't there and of a folder, where the program opens it and where the tool does.
NOT_THERE, FOLDER = "cannot open {}: there is no such file", ("read fault: it is a folder", "cannot open {}: it is a folder")


def timeless(text):
    """An output without the seconds that stand last in the lines of a table."""
    return re.sub(r"\t[0-9]+\.[0-9]+$", "", text, flags=re.M)


def inputs(tests):
    """What is read from standard input is read as the file of that text, but for its name."""
    tests.make("list", f"{BLOCK}\n{CHANGED}\n")
    for tool, words, names in RUNS:
        tests.tool = tool
        names = [name.format(here=tests.here) for name in names]
        wanted = tests.run([*words, *names])
        for at, name in enumerate(names):
            given = [*names[:at], "-", *names[at + 1 :]]
            output, error, status = tests.run([*words, *given], pathlib.Path(name).read_bytes())
            # The name stands in front of a place and in a row.
            shown = tuple(timeless(text).replace(name, "-") for text in wanted[:2])
            title = f"{tool} {' '.join(words)} with file {at + 1} from standard input"
            tests.judge(title, (*shown, wanted[2]), (timeless(output), error, status))


def reasons(tests):
    """What can't be read is named, with the reason."""
    for tool, words, names in RUNS:
        tests.tool = tool
        names = [name.format(here=tests.here) for name in names]
        for at in range(len(names)):
            for missing, lines in ((f"{tests.here}/none", [NOT_THERE]), (str(tests.here), FOLDER)):
                if missing == str(tests.here) and at > 0 and (tool == "p21-table" or "json" in words):
                    # The folder stands for the files below it.
                    continue
                output, error, status = tests.run([*words, *names[:at], missing, *names[at + 1 :]])
                said = (output + error).replace("read fault\n  {0} is a folder".format(missing), "read fault: it is a folder")
                said = said.replace(f"cannot open {missing}\n  {missing}: there", f"cannot open {missing}: there")
                is_said = any(line.format(missing) in said for line in lines)
                name = f"{tool} {' '.join(words)}, {missing} as file {at + 1}"
                tests.judge(name, (True, True), (is_said, status in (2, 3)))


def links(tests):
    """Links in a folder that lead nowhere are told, and so are circles of them."""
    folder = tests.here / "links"
    folder.mkdir()
    gone, circle, other = folder / "gone.step", folder / "circle.step", folder / "other.txt"
    gone.symlink_to("nowhere.step")
    circle.symlink_to("circle.step")
    other.symlink_to("nowhere.txt")
    (folder / "one.step").symlink_to(ROOT / BLOCK)
    tests.tool = "p21-where"
    output, error, status = tests.run(["--format", "lines", SCHEMA, str(folder)])
    lines = [f"{circle}: cannot open {circle}: Too many levels of symbolic links"]
    lines += [f"{gone}: cannot open {gone}: it is a link to what isn't there"]
    tests.judge("links that lead nowhere", (lines, "", 3), (output.splitlines(), error, status))
    output, error, status = tests.run(["--all", SCHEMA, str(folder)])
    wanted = [f"{path}: cannot open {path}: {line.rpartition(': ')[2]}" for path, line in zip((circle, gone), lines)]
    tests.judge("links that lead nowhere, in text", (wanted, "", 3), (output.splitlines()[:2], error, status))


def memory(tests):
    """Want of memory is told as that, and not as a file that can't be opened."""
    path = str(tests.here / "large.step")
    with open(path, "wb") as file:
        file.write(b"p")
        file.truncate(2_000_000_000)
    limit = lambda: resource.setrlimit(resource.RLIMIT_AS, (600_000_000, 600_000_000))
    where = "p21-where"
    for tool, words in ((where, [SCHEMA, path]), (where, ["--all", SCHEMA, path]), (where, [path]), ("p21-adapt", [path])):
        done = subprocess.run([f"tools/{tool}", *words], capture_output=True, check=False, text=True, preexec_fn=limit)
        tests.judge(f"{tool} without memory", (f"{tool}: out of memory\n", 3), (done.stderr, done.returncode))
    os.unlink(path)


def forbidden(tests):
    """Files and folders that may not be read or written, by a user who isn't root. What is left out where there is none who can try it."""
    path = tests.make("secret.step", "")
    os.chmod(path, 0)
    os.chmod(tests.here, 0o755)
    closed = tests.here / "folder" / "closed"
    closed.mkdir(parents=True)
    (closed / "one.step").write_text("")
    os.chmod(closed, 0)
    given = {}
    if os.geteuid() == 0:
        nobody = pwd.getpwnam("nobody")
        given = {"user": nobody.pw_uid, "group": nobody.pw_gid}
        if not all(os.access(folder, os.X_OK) and folder.stat().st_mode & 1 for folder in [ROOT, *ROOT.parents]):
            return "what may not be read: the repository stands where nobody else may look"
    done = subprocess.run(["tools/p21-table", SCHEMA, path], capture_output=True, check=False, text=True, **given)
    found = done.stdout.split("  ")[:2], done.returncode
    tests.judge("a file that may not be read", ([path, f"cannot open {path}: it may not be read"], 3), found)
    inside, folder, copy = str(closed / "one.step"), str(closed.parent), str(closed.parent / "copy")
    for tool, words, line in [
        ("p21-where", ["--format", "lines", SCHEMA, path], f"{path}: cannot open {path}: it may not be read"),
        ("p21-where", ["--format", "lines", SCHEMA, inside], f"{inside}: cannot open {inside}: it may not be read"),
        ("p21-where", ["--format", "lines", SCHEMA, folder], f"{closed}: cannot open {closed}: it may not be read"),
        ("p21-where", ["--format", "lines", path], f"{path}: cannot open {path}: it may not be read"),
        ("p21-diff", [SCHEMA, BLOCK, path], f"p21-diff: {path}: cannot open {path}: it may not be read"),
        ("p21-diff", ["--names", SCHEMA, inside, BLOCK], f"p21-diff: {inside}: cannot open {inside}: it may not be read"),
        ("p21-diff", ["--names", "--pairing", copy, SCHEMA, BLOCK, BLOCK], f"p21-diff: cannot open {copy}: it may not be written"),
        ("p21-adapt", [path], f"p21-adapt: cannot open {path}: it may not be read"),
        ("p21-adapt", ["-o", copy, SCHEMA], f"p21-adapt: cannot open {copy}: it may not be written"),
        ("p21-adapt", ["-o", str(closed / "copy"), SCHEMA], f"p21-adapt: cannot open {closed}/copy: it may not be read"),
    ]:
        done = subprocess.run([f"tools/{tool}", *words], capture_output=True, check=False, text=True, **given)
        said = (done.stdout if "lines" in words else done.stderr).splitlines()[-1:]
        tests.judge(f"{tool} {' '.join(words)}", ([line], True), (said, done.returncode in (2, 3)))
    return ""


def main():
    tests = Tests("p21-where")
    os.environ.pop("P21_SCHEMAS", None)
    inputs(tests)
    reasons(tests)
    links(tests)
    memory(tests)
    left_out = forbidden(tests)
    tests.tool = "the tools' inputs"
    tests.end(left_out)


if __name__ == "__main__":
    main()
