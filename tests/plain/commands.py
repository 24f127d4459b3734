"""The commands: what is written to standard output and to standard error, and the status."""

from . import canonical
from .files import read_file
from .limits import USUAL
from .numbering import Alike, numbered
from .refusal import Refused, RefusedFile, RefusedSchema
from .schema import read_schema
from .survey import survey_alone, survey_file
from .syntax import header_lines, keyword_lines, read_alone
from .tokens import canonical_param


def answered(*lines):
    """Lines on standard output, and status 0."""
    return "".join(line + "\n" for line in lines), "", 0


def refused(line):
    """A line on standard error, and status 1."""
    return "", f"{line}\n", 1


def of_files(command):
    """A command over a schema and files: what is refused first is its answer."""

    def run(schema_text, *arguments):
        try:
            return command(read_schema(schema_text), *arguments)
        except (RefusedSchema, RefusedFile, Alike) as refusal:
            return refused(refusal)

    return run


def param(text):
    """The canonical spelling of the one scalar in a text."""
    try:
        return answered(canonical_param(text))
    except Refused as refusal:
        return refused(refusal)


def syntax(file, limits=USUAL, header=False, count=False):
    """How many instances a file has that is well formed by itself, and which schema it names; and, where these are asked for, what
    its header says, and how often each keyword stands."""
    try:
        alone = read_alone(file, limits)
    except RefusedFile as refusal:
        return refused(refusal)
    return well_formed(alone, header, count)


def well_formed(alone, header=False, count=False):
    """What is told of a file that is well formed by itself."""
    lines = [f"well formed, instances {len(alone.names)}, schema {alone.schema}"]
    lines += header_lines(alone.header) if header else []
    lines += keyword_lines(alone.keywords) if count else []
    return answered(*lines)


def syntax_all(file, most=None, fails=False):
    """The same; or a line for each refusal, and their count. Where a read fails, it does so behind these bytes, and isn't counted."""
    refusals, behind, alone = survey_alone(file, most, fails)
    return listed(refusals, behind) if refusals else well_formed(alone)


def syntax_told(file):
    """All that is told of a file by itself."""
    return syntax(file, header=True, count=True)


@of_files
def schema(found):
    """The entities of a schema with their attributes."""
    return answered(*found.listing())


def accepted(found, meaning):
    """How many instances a file has, and how long its canonical file is."""
    return answered(
        f"accepted, instances {len(meaning.instances)}, canonical bytes {len(canonical.file(found, meaning))}"
    )


@of_files
def check(found, file, limits=USUAL):
    """The answer for a file that is accepted."""
    return accepted(found, read_file(found, file, limits))


@of_files
def check_names(found, file):
    """The answer for a file that is accepted and has a numbered file."""
    meaning = read_file(found, file)
    numbered(found, meaning)
    return accepted(found, meaning)


@of_files
def check_all(found, file, most=None, fails=False):
    """The same; or a line for each refusal, and their count. Where a read fails, it does so behind these bytes, and isn't counted."""
    refusals, behind, meaning = survey_file(found, file, most, fails)
    return listed(refusals, behind) if refusals else accepted(found, meaning)


def listed(refusals, behind):
    """A line for each refusal, and their count."""
    count = sum(isinstance(refusal, RefusedFile) for refusal in refusals)
    output, error, status = refused("\n".join([*map(str, refusals), f"refusals {count}{behind}"]))
    return output, error, status if count == len(refusals) else 3


@of_files
def canon(found, file):
    """The canonical file."""
    return canonical.file(found, read_file(found, file)), "", 0


@of_files
def canon_names(found, file, limits=USUAL):
    """The numbered file."""
    return numbered(found, read_file(found, file, limits), limits), "", 0


@of_files
def show(found, file, name):
    """The canonical statement of an instance."""
    meaning = read_file(found, file)
    if name not in meaning.instances:
        return refused(f"no #{name}")
    return answered(canonical.instance(found, name, meaning.instances[name][1]))


def both_read(found, first, second):
    """What both files mean; or the refusal of the one that is refused first."""
    meanings = []
    for which, file in (("first", first), ("second", second)):
        try:
            meanings.append(read_file(found, file))
        except RefusedFile as refusal:
            return None, refused(f"{which}: {refusal}")
    return meanings, None


def compared(same):
    """Whether two files are the same."""
    return answered("same") if same else ("different\n", "", 1)


@of_files
def same(found, first, second):
    """Whether two files mean the same: by their meanings, and not by their texts."""
    meanings, refusal = both_read(found, first, second)
    return refusal or compared(meanings[0] == meanings[1])


@of_files
def same_names(found, first, second):
    """Whether two files mean the same but for names: by what they mean, and else by their numbered files. Where one has none, they
    don't; where neither has one for the same reason, that is the answer."""
    meanings, refusal = both_read(found, first, second)
    if refusal:
        return refusal
    if meanings[0] == meanings[1]:
        return compared(True)
    texts, reasons = [], []
    for meaning in meanings:
        try:
            texts.append(numbered(found, meaning))
        except (RefusedFile, Alike) as reason:
            reasons.append(reason)
    if len(reasons) == 2 and type(reasons[0]) is type(reasons[1]):
        return refused(f"first: {reasons[0]}")
    return compared(len(texts) == 2 and texts[0] == texts[1])
