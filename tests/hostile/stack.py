#!/usr/bin/env python3
"""Measures how much stack the program needs, on the deepest texts that are read, and fails where it is more than a part
of what a process usually has.

A run under a limit that is too small for its stack ends by SIGSEGV: no program can ask for more, or catch that safely. So
the need is searched by halving between a limit that is too small and one that is enough. The environment variable P21
names the program.
"""

import resource
import signal
import subprocess

from cases import DEMO, HEAD, file_of
from exchange import BACK
from rigged import Rigged, Tally

KB = 1024
# What systems give a process, and the part of it that the program may need, with the arguments and the environment.
USUAL = 8192
MOST = USUAL // 16
# Lists and typed parameters one in another at most.
DEEPEST = 64


def nested(depth, front, inner, back):
    return front * depth + inner + back * depth


def schema_of(body):
    return f"SCHEMA demo;\n{body}END_SCHEMA;\n"


# Aggregates one in another: 32 in a type, and 30 more around it in an attribute.
SETS = schema_of(
    "TYPE t = " + "SET OF " * 32 + "REAL; END_TYPE;\nENTITY a; x : " + "SET OF " * 30 + "t; END_ENTITY;\n"
)
BAGS = SETS.replace("SET", "BAG")
SELECTS = schema_of(
    "TYPE t0 = REAL; END_TYPE;\n"
    + "".join(f"TYPE t{k} = SELECT (t{k - 1}); END_TYPE;\n" for k in range(1, 2000))
    + "ENTITY a; x : t1999; END_ENTITY;\n"
)
RENAMED = schema_of(
    "TYPE t0 = REAL; END_TYPE;\n"
    + "".join(f"TYPE t{k} = t{k - 1}; END_TYPE;\n" for k in range(1, 2000))
    + "ENTITY a; x : t1999; END_ENTITY;\n"
)
SUPERTYPES = schema_of(
    "ENTITY a0; END_ENTITY;\n"
    + "".join(f"ENTITY a{k} SUBTYPE OF (a{k - 1}); END_ENTITY;\n" for k in range(1, 500))
    + "ENTITY a SUBTYPE OF (a499); END_ENTITY;\n"
)
TYPED = schema_of(
    "TYPE t0 = REAL; END_TYPE;\n"
    + "".join(f"TYPE t{k} = LIST OF s{k}; END_TYPE;\nTYPE s{k} = SELECT (t{k - 1}); END_TYPE;\n" for k in range(1, 31))
    + "ENTITY a; x : t30; END_ENTITY;\n"
)


def typed(depth):
    """A value of lists and typed parameters one in another."""
    text = "T0(1.)"
    for level in range(1, depth + 1):
        text = f"({text})" if level == depth else f"T{level}(({text}))"
    return text


def values(text):
    return file_of(f"#1=A({text});\n")


def sets_of(depth):
    """A value of this depth of which each level has two elements, so that all are sorted and compared."""
    text = "(1.,2.)"
    for _ in range(depth - 1):
        text = f"({text},())"
    return text


# Each run by its name: a schema, its command, and the files that it reads.
RUNS = {
    "help": (None, ["--help"], {}),
    "a point": (DEMO, ["check", "S", "file"], {"file": file_of("#1=POINT($,1.,1.);\n")}),
    "lists that no type has": (
        DEMO,
        ["check", "S", "file"],
        {"file": file_of(f"#1=POINT($,{nested(DEEPEST, '(', '', ')')},1.);\n")},
    ),
    "typed parameters that no type has": (
        DEMO,
        ["check", "S", "file"],
        {"file": file_of(f"#1=POINT($,{nested(DEEPEST, 'TALLY(', '1', ')')},1.);\n")},
    ),
    "lists of a header": (
        DEMO,
        ["canon", "S", "file"],
        {"file": HEAD.replace("ENDSEC", f"A({nested(DEEPEST, '(', '', ')')});\nENDSEC") + f"DATA;\n{BACK}"},
    ),
    "sets": (SETS, ["canon", "S", "file"], {"file": values(sets_of(62))}),
    "bags": (BAGS, ["canon", "S", "file"], {"file": values(sets_of(62))}),
    "sets compared": (SETS, ["same", "S", "file", "second"], {"file": values(sets_of(62)), "second": values(sets_of(62))}),
    "sets shown": (SETS, ["show", "S", "file", "--name", "1"], {"file": values(sets_of(62))}),
    "lists and typed parameters": (TYPED, ["canon", "S", "file"], {"file": values(typed(30))}),
    "a schema of sets": (SETS, ["schema", "S"], {}),
    "a schema of selects": (SELECTS, ["schema", "S"], {}),
    "a file of selects": (SELECTS, ["check", "S", "file"], {"file": values("T0(1.)")}),
    "a schema of renamed types": (RENAMED, ["schema", "S"], {}),
    "a file of renamed types": (RENAMED, ["check", "S", "file"], {"file": values("1.")}),
    "a schema of supertypes": (SUPERTYPES, ["schema", "S"], {}),
    "a file of supertypes": (SUPERTYPES, ["check", "S", "file"], {"file": values("")}),
}


def run_within(rigged, arguments, kilobytes):
    """A run with so much stack, and no environment that would take some of it."""

    def limited():
        resource.setrlimit(resource.RLIMIT_STACK, (kilobytes * KB, kilobytes * KB))

    words = [rigged.program, *(rigged.path(word) for word in arguments)]
    run = subprocess.run(words, env={}, capture_output=True, preexec_fn=limited, check=False)
    return run.returncode, run.stdout, run.stderr


def need_of(rigged, tally, name, arguments):
    """The smallest limit in kilobytes, to four, under which a run answers as it does under the usual one."""
    full = run_within(rigged, arguments, USUAL)
    tally.check(f"{name}: status", full[0] in (0, 1), True)
    small, enough = 0, USUAL
    while enough - small > 4:
        limit = (small + enough) // 2 // 4 * 4
        found = run_within(rigged, arguments, limit)
        if found == full:
            enough = limit
        else:
            small = limit
            tally.check(f"{name}: {limit} KB", found[0] in (-signal.SIGSEGV, -signal.SIGKILL), True)
    return enough, full


def main():
    tally = Tally()
    with Rigged() as rigged:
        for name, (schema, arguments, files) in RUNS.items():
            for file, text in {"S": schema, **files}.items():
                if text is not None:
                    rigged.write(file, text)
            need, full = need_of(rigged, tally, name, arguments)
            line = (full[1] or full[2]).decode().splitlines()[0]
            tally.check(f"{name}: {need} KB", need <= MOST, True)
            print(f"{name}: {need} KB, {line[:70]}", flush=True)
    tally.part(f"stack, at most {MOST} KB of {USUAL}")
    tally.end()


if __name__ == "__main__":
    main()
