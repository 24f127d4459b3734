"""The functions of a program, by `nm` and `objdump`."""

import bisect
import re
import subprocess

from rigged import needs


class Symbols:
    """The functions of a program, by the places of their calls: those that the compiler left in it."""

    SHOWN = 4

    def __init__(self, program):
        needs.wanted("nm", "objdump")
        listed = subprocess.run(["nm", "-n", program], capture_output=True, text=True, check=True).stdout
        self.functions = [(int(place, 16), name) for place, name in re.findall(r"^(\w+) [tT] (.*)$", listed, re.M)]
        code = subprocess.run(["objdump", "-d", "--no-show-raw-insn", program], capture_output=True, text=True, check=True)
        lines = re.findall(r"^ *(\w+):\t(\w+)", code.stdout, re.M)
        self.returns = {int(after, 16) for (_, what), (after, _) in zip(lines, lines[1:]) if what == "call"}

    def calls(self, places):
        """The innermost functions whose calls return to these places, each once where it stands more than once in a row.

        Those of the allocator are left out. Some that stand further out may be left over from earlier calls.
        """
        names = []
        for place in places:
            if place in self.returns:
                name = self.functions[bisect.bisect_right(self.functions, (place, "~")) - 1][1]
                if names[-1:] != [name] and not name.startswith("rattle_"):
                    names.append(name)
        return names[: self.SHOWN]
