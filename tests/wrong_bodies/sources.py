"""What a proof of a crate rests on, as checksums by which a record tells whether an edit was tried over the sources as they stand:
the crate's own code, definitions and proofs, and what each crate below shows of itself.

A function is proved against the contracts of those that it calls, and not against their bodies. So a crate shows to those above it
the heads of its functions with their contracts, its types, constants, traits and impls (src), its definitions (specs), and the
statements of its public lemmas with what is defined among them (proofs); of what it imports, what these name. Bodies, private
functions and proofs count in their own crate alone, and comments and layout nowhere.

The toolchain keeps as much of a library that was proved (out/rlib/NAME.rlib), but of none in a fresh clone. Its reader takes the
texts apart: `rattle fmt --tokens` leaves comments out, and says where a clause begins and ends.
"""

# A record says over what a wrong body was refused: by a checksum of the edit, and one of all that a proof of its crate
# rests on, with its parts: the code, definitions and proofs of the crate, and what each crate below shows of itself.
# That is its contracts, types, constants, traits and impls, its definitions whole, and the statements of its public
# lemmas with what unfolds among them. Comments and layout count nowhere; bodies, private functions and proofs count in
# their own crate. The toolchain keeps as much of a library that was proved, but a fresh clone has none, and a record
# has to be read there too: so a reader of our own takes the texts apart by the toolchain's tokens, and a table of
# changes says what it has to see (`tests/records.py`).

import collections
import functools
import hashlib
import pathlib
import re
import shutil
import subprocess
import sys

PARTS = ("src", "specs", "proofs")
# What proofs know by more than its type.
DEFINED = ("abbrev", "unfoldable", "record", "data", "ruleset", "infix", "infixl", "infixr", "open")
DEPTHS = {"(": 1, "[": 1, ")": -1, "]": -1}
CLOSING = (")", "]", "}")

# A token: whether it is code, its text, and how many bytes of its line stand in front of it.
Token = collections.namedtuple("Token", "kind text column")


# ---- the tokens of a file


def tokens_of(paths):
    """The tokens of each of these files, without comments."""
    rattle = pathlib.Path(shutil.which("rt")).resolve().parent / "rattle"
    ran = subprocess.run([rattle, "fmt", "--tokens", *paths], capture_output=True, check=False)
    if ran.returncode:
        sys.exit(ran.stderr.decode().strip())
    found = re.split(r"^file \d+\n", ran.stdout.decode(), flags=re.M)[1:]
    return {path: [*tokens_in(path, lines)] for path, lines in zip(paths, found)}


def tokens_in(path, lines):
    """The tokens of one file, by the lines that the toolchain prints of it."""
    starts = [0, *(found.end() for found in re.finditer(rb"\n", path.read_bytes()))]
    for line in lines.splitlines():
        number, start, _, kind, text = line.split(" ", 4)
        # A comment that a derived impl might read is a literal.
        if not (kind == "Literal" and text.startswith('"//')):
            yield Token(kind, text[1:-1], int(start) - starts[int(number) - 1])


def texts_of(tokens):
    return [token.text for token in tokens]


# ---- imports


def imported(words):
    """Each name that an import brings, with the path that it stands for."""
    outer, path = [[]], []
    for word in [*words, ","]:
        if word == "{":
            outer.append(path)
        elif word == "}":
            outer.pop()
        if word in (",", "}") and path != outer[-1]:
            yield path[-1], " ".join(path)
        path = list(outer[-1]) if word in ("{", "}", ",") else [*path, word]


def is_named(name, words):
    """Whether a name occurs among words: an operator does if each of its parts does."""
    return name == "*" or words.issuperset(part for part in re.split(r"[◌.]", name) if part)


def with_imports(shown, imports):
    """What is shown, behind the imports that it names."""
    words = {part for text in shown for part in text.split(".")}
    return [*sorted(path for name, path in imports if is_named(name, words)), *shown]


# ---- what code shows


def end_of_clause(tokens, at):
    """The place behind a clause, of which the first word stands at a place."""
    return next(end for end in range(at, len(tokens)) if tokens[end].kind == "End") + 1


def end_of_head(tokens, at):
    """The place behind the head of a function, whose `fn` stands at a place: that of the brace or the semicolon."""
    depth = 0
    while depth or tokens[at][:2] not in (("Code", "{"), ("Code", ";")):
        depth += DEPTHS.get(tokens[at].text, 0) if tokens[at].kind == "Code" else 0
        at = end_of_clause(tokens, at) if tokens[at].kind == "Head" else at + 1
    return at


def end_of_body(tokens, at):
    """The place behind the body of a function, whose brace stands at a place, or behind a semicolon."""
    depth = 0
    for place in range(at, len(tokens)):
        depth += {"{": 1, "}": -1}.get(tokens[place].text, 0) if tokens[place].kind == "Code" else 0
        if not depth:
            return place + 1
    raise ValueError("a body without an end")


def without_attributes(words):
    """The words of an item without the attributes in front of it."""
    is_within, depth = False, 0
    for at, word in enumerate(words):
        if not is_within and word != "#":
            return words[at:]
        depth += DEPTHS.get(word, 0)
        is_within = depth > 0 or word != "]"
    return []


class ShownCode:
    """What a file of code shows, item by item."""

    def __init__(self, tokens):
        self.tokens, self.at = tokens, 0
        self.shown, self.imports = [], []
        # Where the item begins; how many parentheses and brackets are open; and for each open brace whether it is that of a trait or
        # of an impl of one.
        self.start, self.depth, self.of_traits = 0, 0, [False]

    def read(self):
        """All that the file shows."""
        while self.at < len(self.tokens):
            token = self.tokens[self.at]
            if token[:2] == ("Code", "fn") and self.tokens[self.at + 1].text != "(":
                self.function()
            elif token.text == "use" and token.kind in ("Code", "Head"):
                self.use()
            else:
                self.word(token)
        return with_imports(self.shown, self.imports)

    def close(self, words):
        """The item ends, and these words are shown of it."""
        self.shown[self.start :] = words
        self.start = len(self.shown)

    def function(self):
        """A function shows its head, if it may be called from outside."""
        before = without_attributes(self.shown[self.start :])
        end = end_of_head(self.tokens, self.at)
        is_public = self.of_traits[-1] or "pub" in before and "(" not in before
        self.close([*before, *texts_of(self.tokens[self.at : end])] if is_public else [])
        self.at = end_of_body(self.tokens, end)

    def use(self):
        """An import is shown if it hands on, and else where what is shown names it."""
        end = next(end for end in range(self.at, len(self.tokens)) if self.tokens[end][:2] == ("Code", ";"))
        words = texts_of(self.tokens[self.at + 1 : end])
        if "pub" in self.shown[self.start :]:
            self.close(["pub", "use", *words])
        else:
            self.imports += imported(words)
            self.close([])
        self.at = end + 1

    def word(self, token):
        """A word of an item of another kind: all of it is shown, but a module that isn't public."""
        before = without_attributes(self.shown[self.start :])
        self.shown.append(token.text)
        self.at += 1
        self.depth += DEPTHS.get(token.text, 0) if token.kind == "Code" else 0
        if token[:2] == ("Code", "{"):
            self.of_traits.append("trait" in before or "impl" in before and "for" in before)
        elif token[:2] == ("Code", "}"):
            self.of_traits.pop()
        if token.kind == "End" or token.kind == "Code" and token.text in ("{", "}", ";") and not self.depth:
            self.close([] if before[:1] == ["mod"] and token.text == ";" else self.shown[self.start :])


def shown_of_code(tokens):
    return ShownCode(tokens).read()


# ---- what proofs show


def parts_of(tokens):
    """The parts of a text, each from a line that stands as far left as the first one up to the next such line."""
    starts = [at for at, token in enumerate(tokens) if token.column == tokens[0].column]
    return [tokens[start:end] for start, end in zip(starts, [*starts[1:], len(tokens)])]


def kind_of(words):
    """What a part is: an import, a module, a block of further parts, what is shown whole or as its statement, what is hidden, or more of
    what stands above it."""
    is_public = "pub" in words[:2]
    first = words[words[0] == "pub"]
    if first == "use" and not is_public:
        return "import"
    if first in ("mutual", "module"):
        return "block"
    if first in DEFINED or first == "use":
        return "whole"
    if is_public:
        return "statement"
    return "hidden" if words[1:2] == [":"] or first == "mod" else "more"


def name_in(words):
    """The name that a part declares."""
    return next((word for word in words if word != "pub" and word not in DEFINED), "")


def place_of_block(part):
    """Where the further parts of a block begin."""
    return 1 if part[0].text == "mutual" else texts_of(part).index("where") + 1


def shown_in(tokens, imports):
    """The words that a text of proofs shows; what it imports is added to the imports."""
    shown, kinds, last, was_shown = [], {}, "hidden", False
    for part in parts_of(tokens) if tokens else []:
        words = texts_of(part)
        kind = kind_of(words)
        if kind == "import":
            imports += imported(words[1:])
        elif kind == "block":
            within = shown_in(part[place_of_block(part) :], imports)
            shown += [*words[: place_of_block(part)], *within] if within else []
        elif kind == "more":
            # A last line of what goes over several, a case, or what the cases unfold.
            was_shown = was_shown if words[0] in CLOSING else kinds.get(words[0], last) == "whole"
            shown += words if was_shown else []
        else:
            last, was_shown = kind, kind != "hidden"
            kinds[name_in(words)] = kind
            shown += words if was_shown else []
    return shown


def shown_of_proofs(tokens):
    """What a text of proofs shows."""
    imports = []
    shown = shown_in(tokens, imports)
    return with_imports(shown, imports)


# ---- what a crate is proved over


def sum_of(words):
    """A checksum of words."""
    return hashlib.sha256("\n".join(words).encode()).hexdigest()[:16]


class Sources:
    """The crates below a folder, by its crates.txt."""

    def __init__(self, root):
        self.crates = root / "crates"
        lines = (line.partition("#")[0].partition(":") for line in (root / "crates.txt").read_text().splitlines())
        used = {head.split()[0]: tail.split() for head, _, tail in lines if head.strip()}
        # For each crate the crates that it uses.
        self.uses = {crate: [name for name in names if name in used] for crate, names in used.items()}

    @functools.cache
    def below(self, crate):
        """All crates below a crate."""
        return frozenset(self.uses[crate]).union(*(self.below(name) for name in self.uses[crate]))

    @functools.cached_property
    def tokens(self):
        """The tokens of each file of each crate."""
        return tokens_of(sorted(path for crate in self.uses for part in PARTS for path in self.paths(crate, part)))

    @functools.cache
    def paths(self, crate, part):
        """The files of a part of a crate."""
        return [path for path in sorted((self.crates / crate / part).rglob("*")) if path.suffix in (".rt", ".antt")]

    def files(self, crate, part):
        """The files of a part of a crate with their tokens."""
        return [(path, self.tokens[path]) for path in self.paths(crate, part)]

    @functools.cache
    def own(self, crate, part):
        """The checksum of a part of a crate, as its own proofs see it."""
        return sum_of(word for path, tokens in self.files(crate, part) for word in (str(path.relative_to(self.crates)), *texts_of(tokens)))

    def is_public(self, path):
        """Whether crates above can name a file of proofs."""
        return path.parent.name == "proofs" and re.search(rf"^pub mod {path.stem}$", (path.parent / "Lib.antt").read_text(), re.M)

    @functools.cache
    def shown(self, crate):
        """The checksum of what a crate shows to those above it."""
        found = [(path, shown_of_code(tokens)) for path, tokens in self.files(crate, "src")]
        found += [(path, texts_of(tokens)) for path, tokens in self.files(crate, "specs")]
        found += [(path, shown_of_proofs(tokens)) for path, tokens in self.files(crate, "proofs") if self.is_public(path)]
        return sum_of(word for path, words in found if words for word in (str(path.relative_to(self.crates)), *words))

    @functools.cache
    def under(self, crate):
        """All that a crate is proved over, with a checksum of each: its own parts, and what the crates below show."""
        return {**{part: self.own(crate, part) for part in PARTS}, **{name: self.shown(name) for name in sorted(self.below(crate))}}
