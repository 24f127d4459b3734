#!/usr/bin/env python3
"""Runs the commands on texts that end early, and over reads and writes that fail, end or are short, each in turn.

What was read so far decides the answer, and nothing is written before a file is accepted. The environment variable P21
names the program.
"""

import errno

from cases import CONVERTED, CONVERTED_CANONICAL, DEMO, FILES, HEAD, write_all
from rigged import READ_FAULT, Answer, Rigged, Tally

CANONICAL = Answer(0, CONVERTED_CANONICAL.encode(), b"")
CANON = ["canon", "demo.exp", "converted"]
ERRORS = [errno.EIO, errno.EINTR, errno.EAGAIN]
# Bytes of a read: few enough for many reads, and no divisor of the texts' lengths.
FEW = 7


def end_of(text):
    """The refusal of a file for ending where this text ends: inside a string, a remark, or neither."""
    inside = None
    statement = 1
    at = 0
    while at < len(text):
        if inside == "'":
            inside = None if text[at] == "'" else inside
        elif inside == "*/":
            inside = None if text.startswith("*/", at) else inside
            at += inside is None
        elif text[at] == "'":
            inside = "'"
        elif text.startswith("/*", at):
            inside = "*/"
            at += 1
        elif text[at] == ";":
            statement += 1
        at += 1
    fault = {None: "24 EndsEarly", "'": "2 OpenString", "*/": "3 OpenComment"}[inside]
    return Answer(1, b"", f"refused {fault} at statement {statement}\n".encode())


def cut_off(rigged, tally):
    """Files and a schema that end behind each of their bytes."""
    for name in ("converted", "sections", "sizes", "select", "late"):
        text = FILES[name]
        whole = rigged.answer(["canon", "demo.exp", name])
        end = text.rindex(";")
        for length in range(len(text) + 1):
            rigged.write("cut", text[:length])
            wanted = end_of(text[:length]) if length <= end else whole
            tally.check(f"{name} cut to {length} bytes", rigged.answer(["canon", "demo.exp", "cut"]), wanted)
    tally.part("files cut off behind each byte")
    whole = rigged.answer(["schema", "demo.exp"])
    end = DEMO.rindex(";")
    for length in range(len(DEMO) + 1):
        rigged.write("cut", DEMO[:length])
        wanted = Answer(1, b"", b"schema refused S2 Syntax\n") if length <= end else whole
        tally.check(f"schema cut to {length} bytes", rigged.answer(["schema", "cut"]), wanted)
    tally.part("a schema cut off behind each byte")


def cut_in_pieces(rigged, tally):
    """Reads that are cut at a byte of each text, and reads and writes of a few bytes each."""
    for at in range(1, max(len(CONVERTED), len(DEMO))):
        tally.check(f"reads cut at byte {at}", rigged.failing(CANON, READ_CUT=at)[0], CANONICAL)
    for most in (1, 2, 3, FEW, 64, 4096):
        tally.check(f"reads of {most} bytes", rigged.failing(CANON, READ_MOST=most)[0], CANONICAL)
        both = rigged.failing(CANON, READ_MOST=most, WRITE_MOST=most)[0]
        tally.check(f"reads and writes of {most} bytes", both, CANONICAL)
    tally.part("texts in two pieces and in small ones")


# Commands with what they read: each text in its order.
READING = [
    (["param", "string1"], ["string1"]),
    (["schema", "demo.exp"], ["demo.exp"]),
    (["check", "demo.exp", "converted"], ["demo.exp", "converted"]),
    (CANON, ["demo.exp", "converted"]),
    (["show", "demo.exp", "converted", "--name", "10"], ["demo.exp", "converted"]),
    (["same", "demo.exp", "converted", "canonical"], ["demo.exp", "converted", "canonical"]),
    (["same", "demo.exp", "canonical", "converted"], ["demo.exp", "canonical", "converted"]),
    (["diff", "demo.exp", "converted", "canonical"], ["demo.exp", "converted", "canonical"]),
    (["diff", "--names", "demo.exp", "converted", "canonical"], ["demo.exp", "converted", "canonical"]),
]


def without_notes(answer):
    """An answer without the lines behind it that say why a file can't be read or what it is."""
    return answer._replace(error=answer.error.partition(b"note: ")[0])


def failing_reads(rigged, tally):
    """Reads of few bytes, of which each fails in turn."""
    for arguments, _ in READING:
        plain, counts = rigged.failing(arguments, READ_MOST=FEW)
        for at in range(1, counts.reads + 1):
            for error in ERRORS:
                found = rigged.failing(arguments, READ_MOST=FEW, READ_FAILS=at, ERROR=error)[0]
                # The system's reason is no matter of this test.
                tally.check(f"{' '.join(arguments)}, read {at} fails with {error}", without_notes(found), READ_FAULT)
        behind = rigged.failing(arguments, READ_MOST=FEW, READ_FAILS=counts.reads + 1)[0]
        tally.check(f"{' '.join(arguments)}, a read behind the last", behind, plain)
    tally.part("each read fails")


# Files that are checked by one run, and the line that is told of each: to standard output, or to standard error.
SEVERAL = [
    ("point", "accepted, instances 1, canonical bytes 171", ""),
    ("twice", "", "refused 40 DuplicateName in #1"),
    ("converted", f"accepted, instances {CONVERTED_CANONICAL.count(chr(10) + '#')}, canonical bytes {len(CONVERTED_CANONICAL)}", ""),
]


def several(rigged, failing=None):
    """The answer of a check of several files, where one of them can't be read."""
    told = [(rigged.path(name), output, error) for name, output, error in SEVERAL]
    if failing is not None:
        told[failing] = (told[failing][0], "", "read fault")
    output = "".join(f"{name}: {line}\n" for name, line, _ in told if line)
    error = "".join(f"{name}: {line}\n" for name, _, line in told if line)
    return Answer(1 if failing is None else 3, output.encode(), error.encode())


def failing_reads_of_several(rigged, tally):
    """Each read of a check of several files fails: of the schema nothing is told but that, and of the other files what always is."""
    arguments = ["check", "demo.exp", *(name for name, _, _ in SEVERAL)]
    whole, counts = rigged.failing(arguments, READ_MOST=FEW)
    tally.check("several files", whole, several(rigged))
    of_schema = rigged.failing(["schema", "demo.exp"], READ_MOST=FEW)[1].reads
    at = of_schema
    for index, (name, _, _) in enumerate(SEVERAL):
        at += rigged.failing(["check", "demo.exp", name], READ_MOST=FEW)[1].reads - of_schema
        found = rigged.failing(arguments, READ_MOST=FEW, READ_FAILS=at)[0]
        told = b"".join(line for line in found.error.splitlines(True) if b": note: " not in line)
        tally.check(f"several files, the last read of {name} fails", found._replace(error=told), several(rigged, index))
    tally.check("several files, all reads", at, counts.reads)
    found = rigged.failing(arguments, READ_MOST=FEW, READ_FAILS=of_schema)[0]
    tally.check("several files, the last read of the schema fails", without_notes(found), READ_FAULT)
    tally.part("reads of several files fail")


def failing_writes_of_several(rigged, tally):
    """A write of a check of several files fails: the run ends there, and what was told before stands."""
    arguments = ["check", "demo.exp", "point", "converted"]
    answer = rigged.answer(arguments).output
    first = answer.index(b"\n") + 1
    for taken in range(len(answer)):
        name = rigged.path("point" if taken < first else "converted").encode()
        wanted = Answer(3, answer[:taken], name + b": write fault\n")
        found = rigged.failing(arguments, WRITE_MOST=1, WRITE_FAILS=taken + 1)[0]
        tally.check(f"several files, {taken} bytes are taken", found, wanted)
    tally.part("writers of what is told of several files that fail")


def ending_reads(rigged, tally):
    """Reads of few bytes, of which each answers that the text ends there: the answer is that of the text cut off."""
    for arguments, texts in READING:
        before = 0
        for name in texts:
            text = (rigged.folder / name).read_bytes()
            cut = ["cut" if word == name else word for word in arguments]
            for place in range(0, len(text) + 1, FEW):
                rigged.write("cut", text[:place])
                wanted = rigged.answer(cut)
                at = before + place // FEW + 1
                found = rigged.failing(arguments, READ_MOST=FEW, READ_FAILS=at, EMPTY=1)[0]
                tally.check(f"{' '.join(arguments)}, read {at} answers 0", found, wanted)
            before += -(-len(text) // FEW) + 1
    tally.part("each read ends the text")


WRITING = [
    CANON,
    ["check", "demo.exp", "point"],
    ["show", "demo.exp", "point", "--name", "2"],
    ["same", "demo.exp", "bags", "bags.same"],
    ["same", "demo.exp", "bags", "bags.other"],
    ["diff", "demo.exp", "bags", "bags.other"],
    ["diff", "--names", "demo.exp", "bags", "bags.other"],
    ["param", "scalar1"],
    ["schema", "demo.exp"],
]
WORDS = [["faults"], ["--help"], ["check", "--help"], ["--version"]]
FAILURES = [{"ERROR": errno.EIO}, {"ERROR": errno.ENOSPC}, {"EMPTY": 1}]
INTERRUPTED = {"ERROR": errno.EINTR}


def failing_writes(rigged, tally):
    """Writers that take each number of bytes and then fail, or take none; the bytes taken are the first of the answer."""
    for arguments in WRITING:
        answer = rigged.answer(arguments).output
        for taken in range(len(answer)):
            wanted = Answer(3, answer[:taken], b"write fault\n")
            for failure in (*FAILURES, INTERRUPTED):
                found = rigged.failing(arguments, WRITE_MOST=1, WRITE_FAILS=taken + 1, **failure)[0]
                tally.check(f"{' '.join(arguments)}, {taken} bytes are taken, then {failure}", found, wanted)
    tally.part("writers that fail behind each byte")
    for arguments in WORDS:
        plain = rigged.answer(arguments)
        for taken in range(0, len(plain.output), len(plain.output) // 10):
            wanted = Answer(3, plain.output[:taken], b"write fault\n")
            for failure in FAILURES:
                found = rigged.failing(arguments, WRITE_MOST=1, WRITE_FAILS=taken + 1, **failure)[0]
                tally.check(f"{' '.join(arguments)}, {taken} bytes are taken, then {failure}", found, wanted)
            # What is no answer of a command is written by the toolchain's `println!`, which tries again.
            found = rigged.failing(arguments, WRITE_MOST=1, WRITE_FAILS=taken + 1, **INTERRUPTED)[0]
            tally.check(f"{' '.join(arguments)}, an interruption behind {taken} bytes", found, plain)
    tally.part("writers of help and of the list of refusals that fail")
    for taken in range(1, len(CONVERTED_CANONICAL)):
        wanted = Answer(3, CANONICAL.output[:taken], b"write fault\n")
        found = rigged.failing(CANON, WRITE_MOST=taken, WRITE_FAILS=2)[0]
        tally.check(f"a write takes {taken} bytes, and the next fails", found, wanted)
    tally.part("writers that fail behind one write of each size")


# Commands that write to standard error alone.
COMPLAINING = [
    ["param", "scalar21"],
    ["schema", "point"],
    ["check", "demo.exp", "twice"],
    ["check", "demo.exp", "nowhere"],
    ["show", "demo.exp", "point", "--name", "3"],
    ["same", "demo.exp", "twice", "point"],
    ["same", "demo.exp", "point", "twice"],
    ["diff", "--names", "demo.exp", "point", "twice"],
    ["show", "demo.exp", "point", "--name", "+2"],
]
# What is wrong with a command line is said in a text; where it can't be written, the fault has its own line.
MISTAKEN = [["frob"], ["check", "demo.exp"]]


def long_lines():
    """Files with canonical lines that are longer than what is kept back before it is written: two in the header, those of the
    sections, those of the instances, and all."""
    long = "a" * 70_000
    header = HEAD.replace("((''),", "(('{0}'),", 1).replace("'DEMO'", "'DEMO {1}'")
    sections = "".join(f"DATA('{{2}}{name}',('DEMO'));\n#{number}=POINT('{{3}}',1.,1.);\nENDSEC;\n" for number, name in enumerate("ab", 1))
    for place in range(5):
        yield f"{header}{sections}END-ISO-10303-21;\n".format(*(long if place in (at, 4) else "" for at in range(4)))


def failing_long_lines(rigged, tally):
    """Each write fails, where lines are written by themselves."""
    for place, text in enumerate(long_lines()):
        rigged.write("lines", text)
        words = ["canon", "demo.exp", "lines"]
        whole, counts = rigged.failing(words)
        tally.check(f"long lines {place}", whole, Answer(0, text.encode(), b""))
        for at in range(1, counts.writes + 1):
            found, _ = rigged.failing(words, WRITE_FAILS=at)
            tally.check(f"long lines {place}, write {at}", found._replace(output=text.encode().startswith(found.output)), Answer(3, True, b"write fault\n"))
        tally.check(f"long lines {place}, short writes", rigged.failing(words, WRITE_MOST=1000)[0], whole)
    tally.part("each write of long lines fails")


def failing_complaints(rigged, tally):
    """The line of a refusal can't be written: status 3, and nothing on the other stream."""
    for arguments in COMPLAINING + MISTAKEN:
        line = without_notes(rigged.answer(arguments)).error
        behind = b"write fault\n" if arguments in MISTAKEN else b""
        for taken in range(len(line)):
            for failure in ({}, {"EMPTY": 1}):
                found = rigged.failing(arguments, WRITE_MOST=1, WRITE_FAILS=taken + 1, **failure)[0]
                wanted = Answer(3, b"", line[:taken] + behind)
                tally.check(f"{' '.join(arguments)}, {taken} bytes of the line", found, wanted)
    tally.part("lines of refusals that can't be written")


def main():
    tally = Tally()
    with Rigged() as rigged:
        write_all(rigged)
        cut_off(rigged, tally)
        cut_in_pieces(rigged, tally)
        failing_reads(rigged, tally)
        failing_reads_of_several(rigged, tally)
        ending_reads(rigged, tally)
        failing_writes(rigged, tally)
        failing_writes_of_several(rigged, tally)
        failing_long_lines(rigged, tally)
        failing_complaints(rigged, tally)
    tally.end()


if __name__ == "__main__":
    main()
