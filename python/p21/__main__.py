"""The program and its tools: ``python3 -m p21 check S FILE``, ``python3 -m p21 where S FILE``."""

import os
import subprocess
import sys
from typing import NoReturn

from p21 import _tools
from p21._library import NOT_RUN, NOT_THERE


def main() -> NoReturn:
    """Runs the program in place of this process, or the tool of which the first word is the name."""
    words = sys.argv[1:]
    try:
        known = _tools.program()
        command = [*_tools.tool(words[0]), *words[1:]] if words and words[0] in _tools.TOOLS else [known, *words]
        os.environ["P21"] = known
        if os.name == "nt":
            # There a process doesn't become another, and whoever waits would not wait for it.
            sys.exit(subprocess.call(command))
        os.execv(command[0], command)
    except OSError as error:
        print(error, file=sys.stderr)
        sys.exit(NOT_THERE if isinstance(error, FileNotFoundError) else NOT_RUN)


if __name__ == "__main__":
    main()
