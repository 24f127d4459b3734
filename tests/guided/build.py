#!/usr/bin/env python3
"""Builds the two drivers of guided fuzzing, with the program inside and its branches counted: OUT/files and OUT/schemas.

    tests/guided/build.py OUT

The program is the module that `rt try` makes for LLVM (benchmarks/unproved.py catches it), with the checks that `rt try` puts
in. clang compiles it with counters for libFuzzer, whose runtime comes from Debian's libclang-rt-14-dev or a later one. This
takes some minutes.
"""

import glob
import pathlib
import re
import subprocess
import sys
import tempfile

HERE = pathlib.Path(__file__).resolve().parent
ROOT = HERE.parent.parent
sys.path.insert(0, str(ROOT / "benchmarks"))

import unproved  # noqa: E402

RENAMED = ("main", "open", "read", "write", "close", "isatty", "signal")
COVERAGE = "-fsanitize-coverage=inline-8bit-counters,pc-table,trace-cmp"
RUNTIMES = "/usr/lib/llvm-*/lib/clang/*/lib/*/libclang_rt.fuzzer*x86_64.a"


def runtime():
    """libFuzzer, the latest one that is installed."""
    found = [path for path in glob.glob(RUNTIMES) + glob.glob(RUNTIMES.replace("fuzzer*", "fuzzer")) if re.search(r"fuzzer-?x86_64|fuzzer\.a", path)]
    if not found:
        sys.exit("there is no libFuzzer here: it is part of Debian's libclang-rt-14-dev")
    return sorted(found, key=lambda path: [int(it) for it in re.findall(r"\d+", path)])[-1]


def renamed(module, work):
    """The module as a text in which the calls of the system have other names."""
    text, result = f"{work}/text.ll", f"{work}/renamed.ll"
    subprocess.run([unproved.CLANG, "-S", "-emit-llvm", "-O0", "-Xclang", "-disable-llvm-passes", module, "-o", text], check=True, stderr=subprocess.DEVNULL)
    pattern = re.compile(rf"@({'|'.join(RENAMED)})(?=\()")
    with open(text) as lines, open(result, "w") as out:
        out.writelines(pattern.sub(r"@p21_\1", line) for line in lines)
    return result


def main():
    if len(sys.argv) != 2:
        sys.exit("usage: tests/guided/build.py OUT")
    out = pathlib.Path(sys.argv[1])
    out.mkdir(parents=True, exist_ok=True)
    fuzzer = runtime()
    with tempfile.TemporaryDirectory(prefix="guided-") as work:
        module = renamed(unproved.module_of(str(ROOT / "crates" / "p21"), work), work)
        program = f"{work}/program.o"
        subprocess.run([unproved.CLANG, "-O1", COVERAGE, "-c", module, "-o", program], check=True, stderr=subprocess.DEVNULL)
        text = (HERE / "schema.exp").read_text().replace("\\", "\\\\").replace('"', '\\"').replace("\n", "\\n")
        pathlib.Path(f"{work}/text.c").write_text(f'const char SCHEMA_TEXT[] = "{text}";\n')
        for driver in ("files", "schemas"):
            objects = [f"{work}/{driver}.o", f"{work}/text.o"]
            for source, made in zip((HERE / f"{driver}.c", f"{work}/text.c"), objects):
                subprocess.run(["cc", "-O2", "-c", source, "-o", made], check=True)
            words = ["c++", *objects, program, fuzzer, f"{unproved.KIT}/c/liblibc_c.a"]
            words += ["-Wl,--wrap=malloc,--wrap=realloc", "-lm", "-lpthread", "-o", out / driver]
            subprocess.run(words, check=True)
    print(f"built: {out}/files, {out}/schemas")


if __name__ == "__main__":
    main()
