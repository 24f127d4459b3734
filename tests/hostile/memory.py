#!/usr/bin/env python3
"""Runs the commands with less and less memory, by a limit on what the process may map.

Each run answers as with memory enough, or ends with status 3 and `out of memory`. Where the limit leaves too little for the
loader the program isn't started; where the stack can't grow under it, the system ends the program by SIGSEGV, with no byte
written. Both are counted. The environment variable P21 names the program.
"""

import collections
import resource
import signal
import subprocess

from cases import file_of, write_all
from rigged import OUT_OF_MEMORY, Answer, Rigged, Tally

KB = 1024
PLENTY = 2**21
# No limit below this lets a program be started.
LEAST = 2_400
STEPS = 150

RISING = file_of("".join(f"#{k}=POINT($,1.,{k}.);\n" for k in range(1, 20_001)))
FALLING = file_of(
    "".join(
        f"#{2 * k + 1}=CLOUD((#{2 * k}),((2.,1.),()),(TALLY(1)));\n#{2 * k}=POINT('\\X2\\00E9\\X0\\',1.,1.);\n"
        for k in range(5_000, 0, -1)
    )
)
ONE_VALUE = file_of(f"#1=CLOUD((),(({','.join(['1.5'] * 50_000)})),(TALLY(1)));\n")

RUNS = [
    ["check", "demo.exp", "rising"],
    ["canon", "demo.exp", "rising"],
    ["show", "demo.exp", "rising", "--name", "7"],
    ["same", "demo.exp", "rising", "rising"],
    ["canon", "demo.exp", "falling"],
    ["same", "demo.exp", "falling", "falling"],
    ["canon", "demo.exp", "one"],
    ["schema", "ladder.exp"],
]


def run_within(rigged, arguments, kilobytes):
    """A run that may map so much."""

    def limited():
        resource.setrlimit(resource.RLIMIT_AS, (kilobytes * KB, kilobytes * KB))

    words = [rigged.program, *(rigged.path(word) for word in arguments)]
    run = subprocess.run(words, capture_output=True, preexec_fn=limited, check=False)
    return Answer(run.returncode, run.stdout, run.stderr)


def enough_for(rigged, arguments, full):
    """The least number of kilobytes, to four, with which a run answers as with plenty."""
    small, enough = LEAST, PLENTY
    while enough - small > 4:
        middle = (small + enough) // 2
        if run_within(rigged, arguments, middle) == full:
            enough = middle
        else:
            small = middle
    return enough


def kind(found, full):
    """What became of a run, in a word."""
    if found == full:
        return "answered"
    if found == OUT_OF_MEMORY:
        return "out of memory"
    if found.status == 127 and not found.output:
        return "not started"
    if found.status in (-signal.SIGSEGV, -signal.SIGKILL) and not found.output:
        return "ended by the system"
    return "wrong"


def main():
    tally = Tally()
    with Rigged() as rigged:
        write_all(rigged)
        for name, text in (("rising", RISING), ("falling", FALLING), ("one", ONE_VALUE)):
            rigged.write(name, text)
        for arguments in RUNS:
            full = run_within(rigged, arguments, PLENTY)
            enough = enough_for(rigged, arguments, full)
            step = max(4, (enough - LEAST) // STEPS)
            counts = collections.Counter()
            for kilobytes in [*range(LEAST, enough, step), *range(enough - 200, enough + 100, 4)]:
                found = run_within(rigged, arguments, kilobytes)
                counts[kind(found, full)] += 1
                tally.check(f"{arguments} within {kilobytes} KB: {found}", kind(found, full) != "wrong", True)
            named = ", ".join(f"{count} {word}" for word, count in sorted(counts.items()))
            tally.part(" ".join(arguments), f"; enough with {enough} KB; {named}")
    tally.end()


if __name__ == "__main__":
    main()
