#!/usr/bin/env python3
"""The program, its tools and its library for Windows and for Linux on AArch64, as making/build-for makes them, under Wine and under
QEMU's user mode. What each answers is what the program for Linux on x86-64 answers, byte for byte.

    tests/platforms.py [PART..]     x86_64-windows, aarch64-linux and tools-as-on-windows; all without any, side by side. With `build`
                                    what is missing or old of the two systems is made, and nothing tried

program.sh, every_refusal.py, two_ways.py, fuzz.py and hostile/large.py are run over each program; then names, pipes, streams in
bytes, each allocation of some commands refused, less and less memory, the deepest texts on less stack, and the C programs of
bindings over each library. The tools are run as on Windows, as far as a Python for Linux can (platforms/as_windows.py): some
command lines with the program for Windows, and all of their tests with that for Linux.

P21 names another program for Linux than ./p21. It wants `rt`, which makes what is compiled where it is missing or old, and Debian's
packages wine64, qemu-user, gcc-mingw-w64-x86-64, gcc-aarch64-linux-gnu and libc6-dev-arm64-cross. Where one of them isn't here, the status is 77.
"""

# No Python for Windows is a package of Debian, so the tools are tried by a Python for Linux that has of `os` and
# `signal` only what is documented for Windows, and lacks the modules that aren't there
# (`tests/platforms/as_windows.py`): some command lines over the program for Windows under Wine, and all of the tools'
# tests over that for Linux. What differs in how Windows shares and removes open files isn't tried by that.
#
# A run that says nothing under Wine is made again by the test, and counted. With many other processes on four
# processors, two or three of some 3,500 starts under Wine 8 ended with status 1 and no word, which no answer of `p21`
# is, and one hung; a program of three lines hung once in 812 starts, and always answered. So the hang is Wine's, and of
# the answer without a word it is believed and not shown. Three such runs in a row are a failure.

import concurrent.futures
import contextlib
import hashlib
import ntpath
import os
import pathlib
import re
import resource
import shutil
import subprocess
import sys
import tempfile
import types
from unittest import mock

import needs

ROOT = pathlib.Path(__file__).resolve().parent.parent
TESTS = ROOT / "tests"
OUT = ROOT / "platforms" / "out"
sys.path[:0] = [str(ROOT / "tools"), str(ROOT / "making"), str(TESTS / "hostile")]
import p21_manifest  # noqa: E402
import p21_sarif  # noqa: E402
import p21_system  # noqa: E402
import stack as deepest  # noqa: E402
from cases import DEMO, file_of, write_all  # noqa: E402
from release import systems  # noqa: E402
from rigged import OUT_OF_MEMORY, Rigged, Tally  # noqa: E402

WINDOWS, ARM, TOOLS_ALONE, BUILD = "x86_64-windows", "aarch64-linux", "tools-as-on-windows", "build"
VERSION = b"p21 0.1.0 (canonical form 1)\n"
FUZZED, TWO_WAYS = 2000, 300
# The rows of program.sh that are otherwise: Wine makes text of a word that is none, and draws a terminal by itself.
OTHERWISE = {
    ARM: ["the version"],
    WINDOWS: [
        "the version",
        "an argument that is no text",
        *(f"progress of {what}" for what in ("a check", "a canonical file", "a comparison", "130,000,000 bytes")),
    ],
}
# This one closes and fills streams, so it starts the program by itself; under Wine it has several attempts.
BY_ITSELF = "program.sh"
# Each allocation of these is refused.
REFUSED = [
    ["param", "list"],
    ["schema", "demo.exp"],
    ["check", "demo.exp", "point"],
    ["canon", "demo.exp", "bags"],
    ["show", "demo.exp", "point", "--name", "2"],
    ["same", "demo.exp", "bags", "bags.same"],
    ["check", "--all", "demo.exp", "several"],
    ["check", "demo.exp", "nowhere"],
    ["--version"],
    ["frob"],
]
MISTAKEN = [["frob"]]
# A command of fewer allocations has each of them refused, and so has a mistaken one, of which is counted what is done without.
FEW = 200
STACK = 8 << 20
# As much as Wine gives a program at least.
LESS_STACK = STACK // 8
# What is tried with less and less memory, and the memory, in bytes: with the least the program can say its version, and with the
# most it has enough.
LETTERS = 16_000_000
LIMITS = range(64 << 20, 256 << 20, 12 << 20)
# What a tool prints is the same where it runs as on Windows.
PRODUCT = "examples/product.exp"
TOOLS = [
    ["p21-where", PRODUCT, "examples/refused/Count.step"],
    ["p21-where", "--all", "--format", "json", PRODUCT, "examples/refused/WrongKind.step", "examples/refused/Dangling.step"],
    ["p21-where", "--all", "--format", "sarif", PRODUCT, "{here}/ünïcode name.step"],
    ["p21-where", "--schemas", "{here}/shelf", "examples/refused/Missing.step"],
    ["p21-where", PRODUCT, "{here}/none.step"],
    ["p21-diff", PRODUCT, "examples/product.step", "examples/product-changed.step"],
    ["p21-diff", "--names", "--stat", PRODUCT, "examples/product.step", "examples/product-changed.step"],
    ["p21-diff", "--format", "html", PRODUCT, "examples/product.step", "examples/product-changed.step"],
    ["p21-diff", "--names", PRODUCT, "examples/product.step", "{here}/renamed.step"],
    ["p21-diff", "--names", "--pairing", "{here}/pairs", PRODUCT, "examples/product.step", "{here}/renamed.step"],
    ["p21-table", PRODUCT, "examples"],
    ["p21-table", "--names", "--format", "jsonl", PRODUCT, "examples"],
    ["p21-table", "--schemas", "{here}/shelf", "--format", "tsv", "examples/product.step", "{here}/ünïcode name.step"],
    ["p21-adapt", PRODUCT],
    ["p21-adapt", "{here}/none.exp"],
]
# These are given the refused file by a pipe.
BY_A_PIPE = [["p21-where", PRODUCT, "-"], ["p21-table", PRODUCT, "-"], ["p21-where", "--all", "--format", "json", PRODUCT, "-"]]


# Where nobody reads what these print, they end with this status and say nothing.
UNREAD = [
    ["p21-where", "--all", "--format", "json", PRODUCT, "examples/refused/WrongKind.step"],
    ["p21-diff", PRODUCT, "examples/product.step", "examples/product-changed.step"],
    ["p21-table", PRODUCT, "examples"],
    ["p21-adapt", PRODUCT],
]
TROUBLE = {"p21-where": 3, "p21-diff": 2, "p21-table": 2, "p21-adapt": 3}

# What tries the tools on Linux tries them as on Windows too, with the program for Linux; and the rows that are otherwise there, of
# programs that a signal ends and of devices.
TOOLS_TESTS = ("adapt", "diff", "inputs", "manifest", "names", "shelf", "table", "where")
TOOLS_OTHERWISE = [
    "a signal: its row",
    "a signal, *",
    "a refusal, and a signal, *",
    "a program that ends by a signal*",
    "killed once, without --retry",
    "killed each time",
    "a process that is ended *",
    "a run that is ended",
    "no answer",
    "no answer, *a signal, *",
    "no answers",
    "the header has no answer",
    "of the schema",
    "/dev/zero*",
]
# How files are named on Windows, and the same in a reference and in a manifest of BagIt.
REFERENCES = {
    r"C:\parts\a b.step": "file:///C:/parts/a%20b.step",
    r"\\server\share\ü.step": "file://server/share/%C3%BC.step",
    r"parts\a%.step": "parts/a%25.step",
}
OF_BAGIT = {r"parts\a.step": b"parts/a.step", r"parts\a%.step": b"parts/a%25.step"}

# Of Wine: what would be fetched from the network, what starts devices, and what would wait for somebody where that fails.
LEFT_OUT = "mscoree,mshtml,winedevice.exe,winedbg.exe="
# Under Wine some run in a thousand writes nothing and has status 1, or hangs, at least on a machine that has much to do. No answer of
# p21 is like that, and it isn't known to be Wine that ends it. Such a run is made again, so often, and counted.
NO_ANSWER = (1, b"", b"")
ATTEMPTS = 3
LONGEST = 300
AGAIN = """#!/bin/sh
here=$(mktemp -d) || exit 100
trap 'rm -rf "$here"' EXIT
for attempt in 1 2 3; do
    timeout 300 '{program}' "$@" > "$here/output" 2> "$here/error" < /dev/null
    status=$?
    case $status in 1 | 124) ;; *) break ;; esac
    if [ -s "$here/output" ] || [ -s "$here/error" ]; then break; fi
    echo "again $attempt" >> '{again}'
done
cat "$here/output"
cat "$here/error" >&2
exit "$status"
"""


class Wine:
    """Wine with a folder of its own. Its services are kept running until the end by a command line that waits: they are started with
    a run otherwise, and what they say, were they to fail, would stand in its answer."""

    def __init__(self, folder):
        self.command = shutil.which("wine64") or "/usr/lib/wine/wine64"
        # The services are found by a path in the folder for temporary files, where a tool may have another one.
        self.environment = {
            "WINEPREFIX": str(folder / "wine"),
            "WINEDEBUG": "-all",
            "WINEDLLOVERRIDES": LEFT_OUT,
            "HOME": str(folder),
            "TMPDIR": tempfile.gettempdir(),
        }
        # The first run fills the folder, and says so.
        subprocess.run([*self.front(), "cmd", "/c", "exit"], stdin=subprocess.DEVNULL, capture_output=True, check=True)
        quiet = {"stdout": subprocess.DEVNULL, "stderr": subprocess.DEVNULL}
        self.waiting = subprocess.Popen([*self.front(), "cmd"], stdin=subprocess.PIPE, **quiet)
        self.again = folder / "again"

    def front(self):
        """The words in front of a program."""
        return ["env", *(f"{name}={value}" for name, value in self.environment.items()), self.command]

    def within(self, size):
        """How a program is started that may have so many bytes of its own, as under the limit of a job: a limit of Linux, since Wine
        8 takes note of those of jobs and holds to none."""
        return {"preexec_fn": lambda: resource.setrlimit(resource.RLIMIT_DATA, (size, size))}

    def shallow(self, made):
        """The program with less stack, and how it is started: it is linked so."""
        return made.started("shallow/p21", made.linked("shallow", f"-Wl,--stack,{LESS_STACK}")), {}

    def surely(self, program):
        """A file that starts a program as its own does, and anew where a run under Wine says nothing. The program is given no
        standard input, and its streams are handed on at its end."""
        path = program.parent / "surely" / program.name
        path.parent.mkdir()
        path.write_text(AGAIN.format(program=program, again=self.again))
        path.chmod(0o755)
        return path

    def started_again(self):
        """How often that was so, as words for a line."""
        count = self.again.read_text().count("again") if self.again.exists() else 0
        self.again.unlink(missing_ok=True)
        return f"; {count} runs under Wine said nothing and were made again" if count else ""

    def end(self):
        """Ends what runs in the folder."""
        self.waiting.stdin.close()
        self.waiting.wait()
        server = shutil.which("wineserver") or "/usr/lib/wine/wineserver"
        subprocess.run([server, "-k"], env={**os.environ, **self.environment}, check=False)


class Qemu:
    """QEMU's user mode."""

    def __init__(self, _):
        self.environment = {}

    def front(self):
        """The words in front of a program, which finds the libraries of Debian's packages."""
        return ["qemu-aarch64", "-L", "/usr/aarch64-linux-gnu"]

    def within(self, size):
        """How a program is started that has so many addresses."""
        return {"env": {**os.environ, "QEMU_RESERVED_VA": str(size)}}

    def shallow(self, made):
        """The program with less stack, and how it is started: QEMU gives it so much."""
        return made.program, {"env": {**os.environ, "QEMU_STACK_SIZE": str(LESS_STACK)}}

    def surely(self, program):
        """QEMU runs each program."""
        return program

    def started_again(self):
        """Nothing has to be made again."""
        return ""

    def end(self):
        """Nothing is left running."""


RUNNERS = {WINDOWS: Wine, ARM: Qemu}


class Made:
    """What is made for a system: the program and one that fails by itself, each with a file that starts it as one does on Linux."""

    def __init__(self, name, folder):
        self.system = systems.SYSTEMS[name]
        self.name = name
        self.folder = folder
        self.runner = RUNNERS[name](folder)
        self.program = self.started("p21", OUT / name / self.system.program)
        self.failing = self.started("failing/p21", self.linked_failing())
        self.surely = {path: self.runner.surely(path) for path in (self.program, self.failing)}

    def started(self, name, program):
        """A file that starts a program."""
        path = self.folder / name
        path.parent.mkdir(exist_ok=True)
        words = " ".join(f"'{word}'" for word in (*self.runner.front(), program))
        path.write_text(f'#!/bin/sh\nexec {words} "$@"\n')
        path.chmod(0o755)
        return path

    def linked_failing(self):
        """The program over a host that fails as it is told."""
        wrapped = ["rattle_alloc", "rattle_realloc", *(("p21_read", "p21_write") if self.name == WINDOWS else ("read", "write"))]
        return self.linked("linked", TESTS / "platforms" / "failing_host.c", *(f"-Wl,--wrap={name}" for name in wrapped))

    def linked(self, folder, *further):
        """The program, linked with further words."""
        output = self.folder / folder / self.system.program
        output.parent.mkdir(exist_ok=True)
        subprocess.run([*systems.linking_program(self.system, "a test's"), *further, "-o", output], check=True)
        return output

    def compiled(self, name, *words, compiler=None):
        """A C program of a test."""
        output = self.folder / (f"{name}.exe" if self.name == WINDOWS else name)
        subprocess.run([compiler or self.system.compiler, "-std=c11", "-O1", "-Wall", "-Wextra", "-Werror", "-o", output, *words], check=True)
        return [*self.runner.front(), output]


def answer(words, **more):
    """The status of a program, and what it writes to both streams. A run that says nothing, as happens under Wine, is made again."""
    for _ in range(ATTEMPTS):
        try:
            done = subprocess.run(words, stdout=subprocess.PIPE, stderr=subprocess.PIPE, check=False, timeout=LONGEST, **more)
        except subprocess.TimeoutExpired:
            continue
        if (done.returncode, done.stdout, done.stderr) != NO_ANSWER:
            break
    else:
        return NO_ANSWER
    return done.returncode, done.stdout, done.stderr


# --- What is linked ---


def files(made, tally):
    """The same bytes each time; no other file is wanted; the stack is as on Linux; and the library has the calls of the header."""
    folder = OUT / made.name
    names = [made.system.program, made.system.library, *(["p21.lib"] if made.name == WINDOWS else [])]
    sums = [{name: hashlib.sha256((folder / name).read_bytes()).hexdigest() for name in names} for _ in built(made.name)]
    tally.check("the same bytes again", sums[0], sums[1])
    dump = made.system.compiler.replace("gcc", "objdump")
    said = {name: subprocess.run([dump, "-p", folder / name], check=True, capture_output=True, text=True).stdout for name in names[:2]}
    declared = set(re.findall(r"^[a-z0-9_]+ (p21_[a-z_]+)\(", (ROOT / "include" / "p21.h").read_text(), re.M))
    if made.name == WINDOWS:
        for name in names[:2]:
            tally.check(f"{name} wants no other file", set(re.findall(r"DLL Name: (\S+)", said[name])), {"KERNEL32.dll", "msvcrt.dll"})
        stack = re.search(r"SizeOfStackReserve\s+([0-9a-f]+)", said["p21.exe"])
        tally.check("the stack", int(stack[1], 16), STACK)
        exported = set(re.findall(r" (p21_\w+)$", said["p21.dll"].partition("[Ordinal/Name Pointer] Table")[2], re.M))
    else:
        tally.check("p21 wants no other file", "NEEDED" in said["p21"], False)
        tally.check("libp21.so wants the C library alone", re.findall(r"NEEDED +(\S+)", said["libp21.so"]), ["libc.so.6"])
        tally.check("of version 2.17", set(re.findall(r"GLIBC_(\S+)", said["libp21.so"])), {"2.17"})
        listed = [made.system.compiler.replace("gcc", "nm"), "-D", "--defined-only", folder / "libp21.so"]
        named = subprocess.run(listed, check=True, capture_output=True, text=True).stdout
        exported = set(re.findall(r" T (\w+)", named))
    tally.check("the calls of the library", exported, declared)
    tally.part(f"{made.name}, what is linked")


def built(name):
    """Builds all for a system twice; the second time it is linked alone."""
    for _ in range(2):
        subprocess.run([ROOT / "making" / "build-for", "--library", name], check=True, stdout=subprocess.DEVNULL)
        yield


def versions(made, tally):
    """The version names the system, and says how the program came of its sources; where it can't be written that is a fault."""
    status, output, error = answer([made.program, "--version"])
    first, second = output.split(b"\n", 1)
    tally.check("the version", (status, first + b"\n", error), (0, VERSION, b""))
    tally.check("the system", bool(re.fullmatch(rf"{made.name}: .*proved.*, another backend\n".encode(), second)), True)
    tally.check("the system, by a short word", answer([made.program, "-V"])[1], output)
    tally.check("no system with an answer", answer([made.program, "param", "examples/param.txt"], cwd=ROOT)[1].count(b"\n"), 1)
    tally.part(f"{made.name}, the version")


# --- Scripts that try a program ---


def scripts(made, tally):
    """What tries the program for Linux tries this one."""
    own = {**os.environ, "P21": str(made.program), "P21_OTHERWISE": "".join(f"|{name}|" for name in OTHERWISE[made.name])}
    surely = {**own, "P21": str(made.surely[made.program])}
    failing = {**own, "P21": str(made.surely[made.failing]), "P21_FAILS_ITSELF": "1"}
    runs = {
        "program.sh": (own, []),
        "every_refusal.py": (surely, []),
        "fuzz.py": (surely, ["--cases", str(FUZZED), "--seed", "1"]),
        "two_ways.py": (failing, ["--cases", str(TWO_WAYS)]),
        "hostile/large.py": (failing, []),
    }
    for script, (environment, words) in runs.items():
        for attempt in range(ATTEMPTS if script == BY_ITSELF and made.name == WINDOWS else 1):
            done = subprocess.run([TESTS / script, *words], stdout=subprocess.PIPE, stderr=subprocess.STDOUT, check=False, env=environment, text=True)
            if done.returncode == 0:
                break
        tally.check(f"{script}: {done.stdout[-2000:] if done.returncode else ''}", done.returncode, 0)
        last = done.stdout.rstrip().rpartition("\n")[2][:100]
        again = f"; made again {attempt} times" if attempt else ""
        tally.part(f"{made.name}, {script}", f": {last}{made.runner.started_again()}{again}")


# --- Names, streams and pipes ---


def alike(made, tally, name, words, **more):
    """A run answers as that of the program for Linux does."""
    tally.check(name, answer([made.program, *words], **more), answer([os.environ["P21"], *words], **more))


def names(made, tally, here):
    """Names with spaces, of other letters, and longer than Windows takes by itself; and such as aren't there."""
    deep = here / ("d" * 120) / ("e" * 120) / ("f" * 60)
    deep.mkdir(parents=True)
    files_named = [here / "with some spaces.step", here / "ünïcode – 模型.step", deep / "long.step", here / ("g" * 200 + ".step")]
    for path in files_named:
        path.write_text(file_of("#2 = POINT($, 1.0, 10.E-1);\n"))
        for name in (str(path), os.path.relpath(path, here)):
            alike(made, tally, name[-40:], ["canon", "demo.exp", name], cwd=here)
        alike(made, tally, f"{path.name[-40:]} that isn't there", ["check", "demo.exp", f"{path}.none"], cwd=here)
    for name in ("", " ", ".", "..", str(deep), "*.step", "?", "with some spaces.step/", "a" * 300, "none/none"):
        alike(made, tally, f"the name {name[:40]!r}", ["check", "demo.exp", name], cwd=here)
    tally.part(f"{made.name}, names")


def bytes_as_they_are(made, tally, here):
    """No byte of a stream is another: line ends of two bytes, the byte that ends a text of Windows, and bytes that are no text."""
    texts = {
        "two.bytes": file_of("#2 = POINT($, 1.0, 10.E-1);\n").replace("\n", "\r\n").encode(),
        "an.end": file_of("#2=POINT('\x1a',1.,1.);\n").encode(),
        "no.text": file_of("#2=POINT('a',1.,1.);\n").encode().replace(b"'a'", b"'\xff'"),
        "a.mark": b"\xef\xbb\xbf" + file_of("").encode(),
        "nothing": b"",
    }
    for name, text in texts.items():
        (here / name).write_bytes(text)
        alike(made, tally, name, ["canon", "demo.exp", name], cwd=here)
        alike(made, tally, f"{name} by a pipe", ["canon", "demo.exp", "/dev/stdin"], cwd=here, input=text)
    large = file_of("".join(f"#{name}=POINT($,1.,1.);\n" for name in range(1, 50_000))).encode()
    (here / "large").write_bytes(large)
    for command in ("check", "canon"):
        alike(made, tally, f"{command} of a large file", [command, "demo.exp", "large"], cwd=here)
        alike(made, tally, f"{command} of a large file by a pipe", [command, "demo.exp", "/dev/stdin"], cwd=here, input=large)
    found = []
    for program in (made.program, os.environ["P21"]):
        with open(here / "large", "rb") as file:
            found.append(answer([program, "check", "demo.exp", "/dev/stdin"], cwd=here, stdin=file))
    tally.check("a large file as standard input", found[0], found[1])
    tally.part(f"{made.name}, bytes")


def closed_pipes(made, tally, here):
    """A reader that goes away is a write fault, and nothing else is said."""
    (here / "many").write_text(file_of("".join(f"#{name}=POINT($,1.,1.);\n" for name in range(1, 50_000))))
    (here / "refused").write_text(file_of("".join(f"#{name}=POINT($,1.);\n" for name in range(1, 50_000))))
    for words in (["canon", "demo.exp", "many"], ["check", "--all", "demo.exp", "refused"]):
        found = []
        for program in (made.program, os.environ["P21"]):
            run = subprocess.Popen([program, *words], cwd=here, stdout=subprocess.PIPE, stderr=subprocess.PIPE)
            # The refusals are written to the second stream.
            read, other = (run.stdout, run.stderr) if words[0] == "canon" else (run.stderr, run.stdout)
            read.read(1)
            read.close()
            found.append((other.read(), run.wait()))
            other.close()
        tally.check(f"{words[0]} to a pipe that is closed", found[0], found[1])
    tally.part(f"{made.name}, closed pipes")


def of_windows(made, tally, here):
    """What Windows alone has: names of its own, a file that another program has open for writing, and a word that is no text."""
    accepted = (0, b"accepted, instances 1, canonical bytes 171\n", b"")
    path = here / "open elsewhere.step"
    path.write_text(file_of("#2 = POINT($, 1.0, 10.E-1);\n"))
    own = f"Z:{path}".replace("/", "\\")
    for name in (own, f"\\\\?\\{own}", own.replace("\\", "/")):
        tally.check(name, answer([made.program, "check", "demo.exp", name], cwd=here), accepted)
    tally.check("NUL", answer([made.program, "check", "demo.exp", "NUL"], cwd=here)[::2], (1, b"refused 24 EndsEarly at statement 1\n"))
    starting = made.compiled("starting", "-municode", TESTS / "platforms" / "starting.c")
    program = OUT / made.name / made.system.program
    words = f'"{program}" check demo.exp "{path.name}"'
    tally.check("a file that is open for writing", answer([*starting, "held", path, words], cwd=here), accepted)
    found = answer([*starting, "half", program], cwd=here)
    tally.check("a word that is no text", found, (2, b"", b"error: an argument is not UTF-8\n"))
    tally.check("a console", "cannot open ünïcode – 模型" in on_console([made.program, "param", "ünïcode – 模型"], here), True)
    tally.part(f"{made.name}, what Windows alone has")


def on_console(words, here):
    """What a console shows of a program."""
    terminal, end = os.openpty()
    run = subprocess.Popen(words, cwd=here, stdin=end, stdout=end, stderr=end, env={**os.environ, "TERM": "xterm"})
    os.close(end)
    said = b""
    # Linux answers with an error where the other end is closed.
    with contextlib.suppress(OSError):
        while part := os.read(terminal, 4096):
            said += part
    run.wait()
    os.close(terminal)
    return said.decode("utf-8", "replace")


def starters(made, tally, here):
    """A tool is started by the Python that stands beside it, and its words and status are handed on."""
    source = here / "python.c"
    source.write_text('#include <stdio.h>\nint main(int n, char **w) { for (int i = 1; i < n; i++) puts(w[i]); return n; }\n')
    folder = here / "bin"
    (here / "lib" / "p21").mkdir(parents=True)
    folder.mkdir()
    shutil.copy(made.compiled("python", source)[-1], folder / "python.exe")
    (folder / "p21-where.cmd").write_bytes((ROOT / "platforms" / "starter.cmd").read_bytes().replace(b"\n", b"\r\n"))
    words = [*made.runner.front(), "cmd", "/c", "bin\\p21-where.cmd", "a", "b c"]
    for place, wanted in (("lib/p21", r"..\lib\p21\p21-where"), ("bin", "p21-where")):
        (here / place / "p21-where").touch()
        status, output, _ = answer(words, cwd=here)
        tool, *rest = output.decode().splitlines()
        tally.check(f"a tool in {place}", (status, tool.endswith(f"\\bin\\{wanted}"), rest), (4, True, ["a", "b c"]))
    tally.part(f"{made.name}, what starts a tool")


# --- Memory ---


def refusals(made, tally, here):
    """Each allocation of some commands refused, of longer ones each third, and some with all behind them: want of memory is answered,
    and nothing else. Of a wrong command line alone some are done without, as often as by the program for Linux."""
    further = set()
    with Rigged(os.environ["P21"]) as linux, Rigged(str(made.surely[made.failing])) as own:
        for rigged in (linux, own):
            write_all(rigged)
            rigged.write("list", "(1,(2.50,'a'),.T.,#7)")
            rigged.write("several", file_of("#1=POINT($,1.,1.);\n#2=POINT($,1.);\n#3=CLOUD((#1,#2,#9),(),(TALLY(1)));\n"))
        for words in REFUSED:
            plain, counts = linux.failing(words)
            found, own_counts = fails_itself(own, words)
            tally.check(f"{words}, with memory", found, plain if words != ["--version"] else found)
            # The first word is longer or shorter, and is the same for each command.
            further.add(own_counts.allocations - counts.allocations)
            unseen = [0, 0]
            is_whole = own_counts.allocations < FEW or words in MISTAKEN
            for at in range(1, own_counts.allocations + 1, 1 if is_whole else 3):
                for on in (0, 1) if at % 10 == 1 else (0,):
                    found = fails_itself(own, words, REFUSE=at, REFUSE_ON=on)[0]
                    is_unseen = words in MISTAKEN and not on and found == plain
                    unseen[0] += is_unseen
                    tally.check(f"{words}, allocation {at}{' and on' if on else ''}", found, plain if is_unseen else OUT_OF_MEMORY)
            for at in range(1, counts.allocations + 1) if words in MISTAKEN else ():
                unseen[1] += linux.failing(words, REFUSE=at)[0] == plain
            tally.check(f"{words}, done without", unseen[0], unseen[1])
    tally.check("as many allocations as on Linux, but for the first word", len(further), 1)
    tally.part(f"{made.name}, allocations refused", made.runner.started_again())


def limits(made, tally, here):
    """Less and less memory of the system: a run answers as with enough, or says that there is none."""
    (here / "letters.step").write_text(file_of(f"#2=POINT('{'a' * LETTERS}',1.,1.);\n"))
    least = answer([made.program, "--version"], **made.runner.within(LIMITS[0]))
    tally.check("the version with the least memory", least, answer([made.program, "--version"]))
    for words in (["check", "demo.exp", "letters.step"], ["canon", "demo.exp", "letters.step"]):
        full = answer([os.environ["P21"], *words], cwd=here)
        found = [answer([made.program, *words], cwd=here, **made.runner.within(size)) for size in LIMITS]
        for size, it in zip(LIMITS, found):
            tally.check(f"{words} within {size >> 20} MB", it, full, tuple(OUT_OF_MEMORY))
        tally.check(f"{words} with the least and with the most", (found[0], found[-1]), (tuple(OUT_OF_MEMORY), full))
    tally.part(f"{made.name}, memory that the system refuses")


def stack(made, tally, here):
    """The deepest texts, with an eighth of the stack that there is."""
    program, more = made.runner.shallow(made)
    folder = here / "deep"
    folder.mkdir()
    for name, (schema, words, given) in deepest.RUNS.items():
        for file, text in {"S": schema or "", **given}.items():
            (folder / file).write_text(text)
        tally.check(name, answer([program, *words], cwd=folder, **more), answer([os.environ["P21"], *words], cwd=folder))
    tally.part(f"{made.name}, {LESS_STACK >> 10} KB of stack")


def fails_itself(rigged, words, **failures):
    """A run of a program that has in it what makes it fail."""
    os.environ["P21_FAILS_ITSELF"] = "1"
    try:
        found, counts = rigged.failing(words, **failures)
    finally:
        del os.environ["P21_FAILS_ITSELF"]
    return found, counts


# --- The library ---


def library(made, tally, here):
    """The C programs of bindings over the library."""
    folder, bindings = OUT / made.name, TESTS / "bindings"
    over = [f"-I{ROOT / 'include'}", folder / ("p21.lib" if made.name == WINDOWS else "libp21.so")]
    shutil.copy(folder / made.system.library, made.folder / ("p21.dll" if made.name == WINDOWS else "libp21.so.0"))
    paths = {} if made.name == WINDOWS else {"QEMU_SET_ENV": f"LD_LIBRARY_PATH={made.folder}"}
    environment = {**os.environ, **paths}
    threads = "x86_64-w64-mingw32-gcc-posix" if made.name == WINDOWS else made.system.compiler
    examples = ROOT / "examples"
    runs = {
        "calls": ([*over], made.system.compiler, [examples], b"version 0.1.0"),
        "layout": ([*over], made.system.compiler, [examples, "0.1.0"], b"all stands where the header has it"),
        "threads": ([*over, "-pthread", "-static-libgcc"], threads, [examples], b"each thread finds what it must"),
    }
    if made.name == WINDOWS:
        runs["threads"][0].append("-static")
    for name, (words, compiler, given, wanted) in runs.items():
        program = made.compiled(name, bindings / f"{name}.c", *words, compiler=compiler)
        status, output, error = answer([*program, *given], env=environment, cwd=made.folder)
        tally.check(f"{name}.c: {output.decode()[-500:]}{error.decode()[-500:]}", (status, wanted in output.splitlines()), (0, True))
    tally.part(f"{made.name}, the library")


# --- The tools ---


def tools(made, tally, here):
    """The tools as on Windows, with the program for Windows: what they print is what they print on Linux."""
    shelf = here / "shelf"
    shelf.mkdir()
    shutil.copy(ROOT / PRODUCT, shelf / "listing.exp")
    broken = (ROOT / "examples" / "refused" / "Count.step").read_bytes()
    (here / "ünïcode name.step").write_bytes(broken)
    canonical = answer([os.environ["P21"], "canon", PRODUCT, "examples/product.step"], cwd=ROOT)[1]
    (here / "renamed.step").write_bytes(re.sub(rb"#(\d+)", lambda it: b"#%d" % (int(it[1]) + 1000), canonical))
    copies = here / "copies"
    copies.mkdir()
    as_windows = {**os.environ, "P21": str(made.program), "PYTHONDONTWRITEBYTECODE": "1", "TMPDIR": str(copies)}
    again = 0
    for tool, *rest in [*TOOLS, *BY_A_PIPE]:
        given = [word.format(here=here) for word in rest]
        more = {"cwd": ROOT, "input": broken if "-" in given else b""}
        wanted = answer([ROOT / "tools" / tool, *given], **more)
        for attempt in range(ATTEMPTS):
            found = answer([sys.executable, TESTS / "platforms" / "as_windows.py", tool, *given], env=as_windows, **more)
            # Of the runs of the program one may be ended by Wine.
            if timeless(found) == timeless(wanted):
                break
        again += attempt
        tally.check(f"{tool} {rest}", timeless(found), timeless(wanted))
    for tool, *rest in UNREAD:
        reading, writing = os.pipe()
        os.close(reading)
        words = [sys.executable, TESTS / "platforms" / "as_windows.py", tool, *(word.format(here=here) for word in rest)]
        with open(writing, "wb") as unread:
            done = subprocess.run(words, cwd=ROOT, env={**as_windows, "P21": os.environ["P21"]}, stdout=unread, stderr=subprocess.PIPE, check=False)
        tally.check(f"{tool} where nobody reads", (done.returncode, done.stderr), (TROUBLE[tool], b""))
    tally.check("no copy is left", [path.name for path in copies.iterdir()], [])
    tally.part(f"{made.name}, the tools", f": {again} command lines made again")


def timeless(found):
    """An answer without the seconds that stand last in the lines of a table with tabs."""
    return tuple(re.sub(rb"\t[0-9]+\.[0-9]+(?=\r?$)", b"", part, flags=re.M) if isinstance(part, bytes) else part for part in found)


def paths(made, tally):
    """How a tool writes the paths of Windows, where other systems read them too."""
    there = types.SimpleNamespace(path=ntpath, fsencode=os.fsencode)
    blank = p21_manifest.Entry("", 0, "0" * 64, None, None, 1, None, None, None, "")
    with mock.patch.object(p21_system, "IS_WINDOWS", True), mock.patch.object(p21_sarif, "os", there):
        for path, wanted in REFERENCES.items():
            tally.check(f"a reference to {path}", p21_sarif.uri_of(path), wanted)
        for path, wanted in OF_BAGIT.items():
            tally.check(f"BagIt of {path}", p21_manifest.bagit_line(blank._replace(path=path)), b"0" * 64 + b"  " + wanted + b"\n")
    tally.part(f"{made.name}, paths of Windows")


def tools_tests(tally):
    """The tests of the tools, as on Windows."""
    run_by = f"{sys.executable} {TESTS / 'platforms' / 'as_windows.py'}"
    environment = {**os.environ, "P21_TOOLS_RUN_BY": run_by, "P21_TOOLS_OTHERWISE": "|".join(TOOLS_OTHERWISE)}
    for name in TOOLS_TESTS:
        done = subprocess.run([TESTS / f"tools_{name}.py"], stdout=subprocess.PIPE, stderr=subprocess.STDOUT, check=False, env=environment, text=True)
        tally.check(f"tools_{name}.py: {done.stdout[-2000:] if done.returncode else ''}", done.returncode, 0)
        tally.part(f"{TOOLS_ALONE}, tools_{name}.py", f": {done.stdout.rstrip().rpartition(chr(10))[2][:100]}")


ON_EACH = (files, versions, scripts, names, bytes_as_they_are, closed_pipes, refusals, limits, stack, library)
PARTS = {WINDOWS: (*ON_EACH, of_windows, starters, tools, paths), ARM: ON_EACH}


def tried_for(name, tally):
    """All parts for a system, in a folder of their own."""
    with tempfile.TemporaryDirectory(prefix="platforms-") as folder:
        made = Made(name, pathlib.Path(folder))
        here = made.folder / "here"
        here.mkdir()
        (here / "demo.exp").write_text(DEMO)
        with contextlib.ExitStack() as stack:
            stack.callback(made.runner.end)
            for part in PARTS[name]:
                part(made, tally, *([here] if part.__code__.co_argcount == 3 else []))


def tried(name):
    """How many runs there are of what was asked for, and how many are wrong."""
    tally = Tally()
    if name in PARTS:
        tried_for(name, tally)
    else:
        tools_tests(tally)
    return tally.all_runs, tally.all_wrong


def main():
    """Tries what was asked for, each in a process of its own."""
    asked = sys.argv[1:] or [*PARTS, TOOLS_ALONE]
    for name in asked:
        if name not in (*PARTS, TOOLS_ALONE, BUILD):
            sys.exit(f"platforms.py: there is no part {name}")
    needs.wanted("rt", "qemu-aarch64")
    built_for = [name for name in PARTS if name in asked or BUILD in asked]
    for name in built_for:
        if why := systems.missing(systems.SYSTEMS[name]):
            needs.skipped(why)
    if not (shutil.which("wine64") or os.path.exists("/usr/lib/wine/wine64")):
        needs.skipped("there is no wine64")
    os.environ["P21"] = str(pathlib.Path(os.environ.get("P21", ROOT / "crates" / "p21" / "out" / "p21")).resolve())
    if built_for:
        subprocess.run([ROOT / "making" / "build-for", "--library", *built_for], check=True, stdout=subprocess.DEVNULL)
    if BUILD in asked:
        print(f"made for {' and '.join(built_for)}")
        return
    tally = Tally()
    with concurrent.futures.ProcessPoolExecutor(len(asked)) as processes:
        for runs, wrong in processes.map(tried, asked):
            tally.all_runs += runs
            tally.all_wrong += wrong
    tally.end()


if __name__ == "__main__":
    main()
