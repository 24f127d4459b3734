"""Tries edits of one crate together: many in one check of the crate, each in functions that no other one edits.

A function is proved against the contracts of those that it calls, and not against their bodies. So what the prover says of a
function's own goals is said of the edit of that function, whatever stands in the others. The prover also gives up a function
because one that it calls isn't proved: an edit of which nothing else is said is tried once more by itself, and so is one that seems
to be proved, one that stands outside of functions, and one that the compiler refuses. Edits among which a check finds no end in time
are halved.
"""

import collections
import pathlib
import re
import shutil
import subprocess
import tempfile

# So many edits go into one check at most, and so many seconds may it take.
MOST, SECONDS = 60, 1500
FUNCTION = r"(?:pub(?:\([a-z ]+\))? )?(?:const )?(?:final )?(?:unsafe )?(?:extern \"C\" )?fn ([A-Za-z0-9_]+)"
IMPL = re.compile(r"(\s*)(?:unsafe )?impl(?:<[^{]*?>)?\s+(.*?)\s*\{\s*$")
# A proof that names what an edit took away, and what cites such a proof; and besides a goal that was not looked at.
NAMES_WHAT_IS_GONE = re.compile(r"(note: )?(\./)?proofs/.*(has no field|is not in scope|has no `|was not admitted|\(nearest: )")
SAYS_NOTHING = re.compile(rf"{NAMES_WHAT_IS_GONE.pattern}|.*has not tried")
# A line that says of what a line in front of it named that something isn't there, or which names are like the one looked for.
GOES_ON = re.compile(r"\s+(has no |is not in scope|was not admitted|\(nearest: )")
TOLD = re.compile(r"(?:note: )?(?:\./)?(\S+?):(\d+):\d+: (.*)")

Span = collections.namedtuple("Span", "first last path")
Edit = collections.namedtuple("Edit", "path texts spans")


# ---- the functions of a file


def module_of(file):
    """The path of a file's module below its crate: nothing for the root."""
    name = file.removeprefix("src/").removesuffix(".rt").removesuffix("/mod").replace("/", "::")
    return [] if name in ("lib", "main") else [name]


def last_line(lines, first, indent):
    """The last line of the function that begins at a line."""
    for at in range(first, len(lines)):
        line = lines[at]
        if re.match(rf"{indent}(\}}|\{{.*\}})\s*$", line) or at == first and line.rstrip().endswith(("{}", ";")):
            return at
        if at > first and re.match(rf"{indent}{FUNCTION}", line):
            return at - 1
    return len(lines) - 1


def spans_of(file, text):
    """The functions of a file, each with its lines, counted from 0, those of its attributes and comments among them."""
    lines, owner, found, at = text.split("\n"), None, [], 0
    while at < len(lines):
        head = IMPL.match(lines[at])
        if head:
            of = re.match(r"[A-Za-z_0-9:]+", head[2].split(" where ")[0].split(" for ")[-1].lstrip("&"))
            owner = (head[1], of[0].split("::")[-1] if of else "")
        function = re.match(rf"(\s*){FUNCTION}", lines[at])
        if function:
            first, last = at, last_line(lines, at, function[1])
            while first and re.match(r"\s*(#\[|///)", lines[first - 1]):
                first -= 1
            path = [*module_of(file), *([owner[1]] if owner and function[1] else []), function[2]]
            found.append(Span(first, last, "::".join(path)))
            at = last
        elif owner and re.match(rf"{owner[0]}\}}\s*$", lines[at]):
            owner = None
        at += 1
    return found


# ---- edits


def pairs_of(text):
    """The pairs of an edit: the file, the old text and the new one."""
    file = old = None
    for line in text.split("\n"):
        key, _, value = line.partition(":")
        value = value.removeprefix(" ")
        if key == "file":
            file = value.strip()
        elif key == "old":
            old = value
        elif key == "new":
            yield file, old, value


def edit_of(folder, path):
    """An edit that can be made, with the functions that it edits; none of these where it stands outside of one."""
    pairs, spans = list(pairs_of(path.read_text())), set()
    for file, old, _ in pairs:
        text = pathlib.Path(folder, file).read_text()
        line = text[: text.find(old)].count("\n")
        inside = [span.path for span in spans_of(file, text) if span.first <= line <= span.last] if old in text else []
        if not file.startswith("src/") or not inside:
            return Edit(path, pairs, frozenset())
        spans.add(inside[0])
    return Edit(path, pairs, frozenset(spans))


def texts_with(folder, batch):
    """The texts of the files with these edits, by file; none where one of them can't be made beside the others."""
    texts = {}
    for edit in batch:
        for file, old, new in edit.texts:
            text = texts.get(file) or pathlib.Path(folder, file).read_text()
            if text.count(old) != 1:
                return None
            texts[file] = text.replace(old, new)
    return texts


def batches_of(folder, edits):
    """The edits in batches, no function twice in one of them."""
    left = list(edits)
    while left:
        batch = [left[0]]
        if left[0].spans:
            for edit in left[1:]:
                apart = edit.spans and not any(edit.spans & other.spans for other in batch)
                if apart and len(batch) < MOST and texts_with(folder, [*batch, edit]):
                    batch.append(edit)
        left = [edit for edit in left if edit not in batch]
        yield batch


# ---- what the prover says


def checked(rt, crate, texts, kept):
    """What a check of the crate with these texts says, over kept work, which it adds to, and its status; neither where it takes
    too long."""
    with tempfile.TemporaryDirectory(prefix="together-") as room:
        for part in rt.rtlib.PARTS:
            if pathlib.Path(crate.folder, part).is_dir():
                shutil.copytree(f"{crate.folder}/{part}", f"{room}/{part}")
        for path, text in texts.items():
            pathlib.Path(room, path).write_text(text)
        words = [rt.rtlib.RATTLE, "check", *crate.words(["--jobs", "1"], keeps=False), "--incremental", kept]
        how = {"cwd": room, "stdin": subprocess.DEVNULL, "stdout": subprocess.PIPE, "stderr": subprocess.STDOUT, "errors": "replace"}
        try:
            ran = subprocess.run([*rt.rtlib.guarded(), *words], timeout=SECONDS, check=False, **how)
            return messages(ran.stdout.rstrip("\n").split("\n")), ran.returncode
        except subprocess.TimeoutExpired:
            return None, None


def messages(lines):
    """What the prover says, where a message that goes on about a name in a line of its own has it in its first line."""
    found = []
    for line in lines:
        if GOES_ON.match(line) and found:
            found[-1] += line
        else:
            found.append(line)
    return found


def is_of(path, function):
    """Whether the prover's name of a function is this one."""
    return path == function or path.endswith(f"::{function}")


def told_of(edit, lines, texts):
    """What the prover says of the goals of the functions of an edit: in their own lines, and in the proofs of theirs."""
    spans = [(file, span) for file, text in texts.items() for span in spans_of(file, text) if span.path in edit.spans]
    places = tuple(f"proofs/{path.replace('::', '/')}/" for path in edit.spans)
    for line in lines:
        told = TOLD.match(line)
        if not told:
            continue
        within = any(file == told[1] and span.first < int(told[2]) <= span.last + 1 for file, span in spans)
        if (within or told[1].startswith(places)) and not SAYS_NOTHING.match(line):
            yield line


def said_of(crate, edit, lines, texts):
    """What is to be said of an edit that was refused beside others; none where it has to be tried by itself."""
    found = re.findall(r"^fn (\S+): (?:not proved|no proof)", "\n".join(lines), re.M)
    if not any(is_of(path, function) for path in found for function in edit.spans):
        return None
    told = sorted(told_of(edit, lines, texts), key=lambda line: ": error" not in line)
    return f"must-fail {crate.name}/{edit.path.name}: refused, as it must be: {told[0][:160]}" if told else None


def judged(rt, texts, lines, status):
    """What is to be said of an edit that was tried by itself, as `rt must-fail` says it."""
    places = [line for line in lines if TOLD.match(line)]
    told = [line for line in places if ": error" in line or line.startswith("note: ")] or places
    telling = [line for line in told if not NAMES_WHAT_IS_GONE.match(line)]
    unread = [line for line in lines if rt.unread(line, texts)]
    limits = [line for line in lines if rt.LIMITS.search(line)]
    is_refused = status == 1 and lines[-1].startswith("logic=not-proved")
    if status == 1 and unread:
        return f"BAD EDIT: the prover cannot read the edited text, so no contract was tried: {unread[0][:200]}"
    if any(rt.rtlib.STALE.search(line) for line in lines):
        return "NOT TRIED: the kept work of a library could not be used"
    if is_refused and told and not telling:
        return f"refused, as it must be (only because a proof file names what the edit took away): {told[0][:160]}"
    if is_refused:
        return f"refused, as it must be: {''.join(telling[:1])[:160]}"
    if status == 3 and limits:
        return f"refused, as it must be (only by a limit of the prover, which gave no verdict): {limits[0][:160]}"
    if status == 0:
        return "NOT REFUSED: the crate is still proved with this edit"
    if any(re.search(r"\berror\[[\w-]+\]", line) for line in lines):
        return f"BAD EDIT: it did not reach the prover: {lines[0][:160]}"
    return f"NOT TRIED: its check ended with status {status}: {lines[0][:160]}"


def said_alone(rt, crate, edit, kept):
    """What the prover says of an edit that is tried by itself."""
    texts = texts_with(crate.folder, [edit])
    lines, status = checked(rt, crate, texts, kept)
    said = judged(rt, texts, lines, status) if lines else f"NOT TRIED: its check took longer than {SECONDS} seconds"
    return f"must-fail {crate.name}/{edit.path.name}: {said}"


def said_together(rt, crate, batch, kept):
    """What the prover says of each edit of a batch: its path and a line, as `rt must-fail` has it."""
    texts = texts_with(crate.folder, batch)
    lines, _ = checked(rt, crate, texts, kept) if len(batch) > 1 else (None, None)
    if len(batch) == 1:
        yield batch[0].path, said_alone(rt, crate, batch[0], kept)
    elif lines and lines[-1].startswith("logic="):
        for edit in batch:
            said = said_of(crate, edit, lines, texts)
            if said:
                yield edit.path, said
            else:
                yield from said_together(rt, crate, [edit], kept)
    else:
        middle = len(batch) // 2
        yield from said_together(rt, crate, batch[:middle], kept)
        yield from said_together(rt, crate, batch[middle:], kept)


def tried(rt, crate, paths, kept):
    """Tries edits over a crate whose libraries are built, and over kept work of it, which it adds to: for each its path and what is said."""
    edits = []
    for path in paths:
        _, why = rt.read_edit(str(path), crate.folder)
        if why:
            yield path, f"must-fail {crate.name}/{path.name}: BAD EDIT: {why}"
        else:
            edits.append(edit_of(crate.folder, path))
    for batch in batches_of(crate.folder, edits):
        yield from said_together(rt, crate, batch, kept)
