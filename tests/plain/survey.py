"""All refusals of a file: the reading goes on behind an instance that is refused, and behind a statement that is broken.

A broken statement of a data section is passed over up to a signpost: where by bytes alone an instance or the end of the section begins, or
a file begins or ends. Behind one of these two nothing is read.
"""

import re

from .files import Reading
from .grammar import Instance, Parser
from .limits import USUAL
from .records import is_served
from .refusal import ReadFault, Refused, RefusedFile
from .syntax import Alone
from .tokens import SEPARATORS, Front, Token, separators, token

# The refusals of bytes, tokens and the grammar behind which the reading goes on.
GONE_ON_BEHIND = {*range(1, 12), 20, 21, 26}
OPENERS = b";)\n\r"
SIGNPOST = re.compile(rb"(?P<landmark>#[0-9]+[\x00-\x20\x7f]*=|ENDSEC[\x00-\x20\x7f]*;)|ISO-10303-21|END-ISO-10303-21")
NO_MORE = ", no more were looked for"


def is_opened(data, at):
    """A `;`, a `)` or a byte that ends a line stands in front of this byte, blanks apart."""
    while at > 0:
        at -= 1
        if data[at] in OPENERS:
            return True
        if data[at] not in SEPARATORS:
            return False
    return False


def first_signpost(data, start, end):
    """The first signpost whose bytes all stand between these two places."""
    for found in SIGNPOST.finditer(data, start, end):
        if is_opened(data, found.start()):
            return found
    return None


def behind_separators(data, at):
    """Where the first byte stands behind blanks and whole remarks."""
    while at < len(data):
        if data[at] in SEPARATORS:
            at += 1
        elif data.startswith(b"/*", at) and (end := data.find(b"*/", at + 2)) >= 0:
            at = end + 2
        else:
            return at
    return at


class Tokens(Front):
    """The tokens of a file from a byte on. `first` is where the last one begins, and `texts` are the strings of the statement, each
    from behind its first apostrophe to its last one."""

    def __init__(self, data, at, limits):
        super().__init__(data, limits)
        self.at = self.first = at
        self.texts = []
        self.is_open = False
        self.last = None

    def __iter__(self):
        return self

    def __next__(self):
        if self.last and self.last.kind == ";":
            self.open, self.texts = 0, []
        self.last = None
        separators(self)
        if self.next() is None:
            raise StopIteration
        self.first, self.is_open = self.at, True
        kind, value, waits = token(self)
        self.is_open = False
        if kind == "text":
            self.texts.append((self.first + 1, self.at - 1))
        self.last = Token(kind, value, waits and self.next() is None)
        return self.last

    def is_in_text(self):
        """A string is open."""
        return self.is_open and self.data.startswith(b"'", self.first)

    def is_refused_by_the_end(self, number):
        """What comes behind the bytes might make right what is refused so: they end within a token or a statement."""
        return number in (2, 3, 24) or (number == 8 and self.next() is None)

    def refused_at(self, number):
        """Where that stands which is refused: a byte, the first byte of a token, the last one of a string; or the end of the file."""
        if number in (2, 3):
            return len(self.data)
        if not self.is_open and self.last:
            return self.at - 1 if self.last.kind == "text" else self.first
        if number in (8, 26):
            return self.first
        if number in (5, 9, 10):
            # What the last digit that was taken makes wrong is refused with it.
            return self.at - 1
        return self.at


class Survey(Reading):
    """The reading of one file whose refused instances are left out, and whose broken statements are passed over. `refusals` are listed up
    to so many. Where a read fails, it does so behind all the bytes that there are."""

    def __init__(self, schema, most, fails=False, limits=USUAL):
        super().__init__(schema, limits)
        self.most = most
        self.fails = fails
        self.refusals = []
        # The names of the instances that were left out, and of those that were passed over.
        self.left_out = set()
        self.passed_over = set()
        self.data = b""
        # How many bytes are read; and of each statement that was passed over where it begins, and where the reading went on.
        self.at = 0
        self.stretches = []
        self.is_in_data = self.is_named = False

    def read(self, data):
        """What is said behind the count of the refusals: nothing where all of the file was read."""
        self.data = data
        front = Tokens(data, 0, self.limits)
        parser = Parser(front)
        statements = parser.statements()
        while True:
            begins = behind_separators(data, self.at)
            statement = None
            try:
                statement = next(statements, None)
                if statement is None:
                    return self.unread(begins) if self.fails else self.references()
                self.statement(statement)
                self.at = front.at
                continue
            except RefusedFile as of_instance:
                refused = of_instance
                signpost = self.signpost_in_texts(front.texts, front.at)
                if signpost is None:
                    self.refusals.append(refused)
                    self.left_out.add(statement.name)
                    self.at = front.at
                    if len(self.refusals) == self.most:
                        return NO_MORE
                    continue
            except Refused as broken:
                refused = RefusedFile(broken, f"at statement {parser.number}")
                if self.fails and front.is_refused_by_the_end(broken.number):
                    return self.unread(begins)
                if not self.is_passed_over(broken.number, begins):
                    self.refusals.append(refused)
                    return f", read {begins} bytes"
                signpost = self.signpost_behind(front, broken.number)
            self.refusals.append(refused)
            if len(self.refusals) == self.most:
                return NO_MORE
            if signpost is None and self.fails:
                return self.unread(begins)
            if signpost is None or not signpost["landmark"]:
                return f", read {begins} bytes"
            if isinstance(statement, Instance):
                self.passed_over.add(statement.name)
            self.at = signpost.start()
            self.stretches.append([begins, self.at])
            front = Tokens(data, self.at, self.limits)
            number, parser = parser.number + 1, Parser(front)
            parser.number = number
            statements = parser.statements_in_data(self.is_named)

    def unread(self, begins):
        """A read fails within the statement that begins there."""
        self.refusals.append(ReadFault())
        return f", read {begins} bytes"

    def line(self, line):
        """Behind DATA a data section is open, and behind the next ENDSEC none."""
        super().line(line)
        if line.text == "DATA;":
            self.is_in_data, self.is_named = True, False
        elif line.text == "ENDSEC;":
            self.is_in_data = False

    def named_section(self, section):
        """A data section with a name is open."""
        super().named_section(section)
        self.is_in_data = self.is_named = True

    def instance(self, statement):
        """An instance whose name one has that was left out is refused too."""
        if statement.name in self.left_out:
            raise RefusedFile(Refused(40), f"in #{statement.name}")
        super().instance(statement)

    def is_passed_over(self, number, begins):
        """A statement is passed over that is refused so, stands in a data section and doesn't begin with ENDSEC."""
        return number in GONE_ON_BEHIND and self.is_in_data and not self.data.startswith(b"ENDSEC", begins)

    def signpost_in_texts(self, texts, end):
        """The first signpost in a string of the statement, in front of this place."""
        for start, behind in texts:
            found = first_signpost(self.data, start, min(behind, end))
            if found:
                return found
        return None

    def signpost_behind(self, front, number):
        """The signpost by which the reading goes on behind a statement that is broken: in a string of it, or in the remark that never
        ends; else the first one from what is refused on."""
        end = front.refused_at(number)
        texts = [*front.texts, (front.first + 1, end)] if front.is_in_text() else front.texts
        inside = self.signpost_in_texts(texts, end)
        if inside:
            return inside
        return first_signpost(self.data, front.at if number == 3 else end, len(self.data))

    def references(self):
        """Lists the references that no instance serves."""
        for holder, need in self.needs:
            number = self.refused_need(need)
            if number:
                self.refusals.append(RefusedFile(Refused(number), f"in #{holder}"))
            if len(self.refusals) == self.most:
                return NO_MORE
        return ""

    def refused_need(self, need):
        """The number with which a reference is refused, if it is. Nothing is said of one to an instance that was refused; nor, where bytes
        were passed over, that there is none of its name."""
        if need.target in self.left_out | self.passed_over:
            return None
        if need.target not in self.meaning.instances:
            return None if self.stretches else 56
        if not is_served(need, self.meaning.instances[need.target][1].entities):
            return 57
        return None


class SurveyAlone(Survey):
    """The same of a file by itself: an instance is refused for its name alone, and a reference where no instance has its name."""

    def __init__(self, most, fails=False, limits=USUAL):
        super().__init__(None, most, fails, limits)
        self.alone = Alone()

    def within(self, text):
        """Canonical lines may be of any length."""

    def header_record(self, part):
        """FILE_SCHEMA begins with the name of the schema."""
        self.alone.header_record(part)

    def named_section(self, section):
        """A data section with a name is open, which names the schema."""
        self.alone.section(section)
        self.is_in_data = self.is_named = True

    def instance(self, statement):
        """An instance, whatever its record says."""
        self.alone.instance(statement)

    def references(self):
        """Lists the references to names that no instance has, where no bytes were passed over."""
        for holder, target in self.alone.references:
            if target not in self.alone.names and not self.stretches:
                self.refusals.append(RefusedFile(Refused(56), f"in #{holder}"))
            if len(self.refusals) == self.most:
                return NO_MORE
        return ""


def survey_file(schema, data, most, fails=False):
    """The refusals of a file under a schema, what is said behind their count, and its meaning without what is refused. Where a read fails,
    it does so behind these bytes."""
    survey = Survey(schema, most, fails)
    behind = survey.read(data)
    return survey.refusals, behind, survey.meaning


def survey_alone(data, most, fails=False):
    """The refusals of a file by itself, what is said behind their count, and what it says of itself without what is refused."""
    survey = SurveyAlone(most, fails)
    behind = survey.read(data)
    return survey.refusals, behind, survey.alone
