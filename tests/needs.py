"""What a test wants of the machine: where it isn't there, the test ends as skipped, with the status that tests/all.sh counts so."""

import os
import shutil
import sys

SKIPPED = 77


def skipped(why):
    """Ends the test as one that can't run here."""
    print(f"skipped: {why}")
    sys.exit(SKIPPED)


def compiler():
    """The C compiler."""
    found = os.environ.get("CC", "cc")
    if not shutil.which(found):
        skipped(f"there is no C compiler, {found}")
    return found


def wanted(*programs):
    """Ends the test where one of these programs isn't there."""
    for name in programs:
        if not shutil.which(name):
            skipped(f"there is no {name}")
