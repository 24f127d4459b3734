"""The systems beside Linux on x86-64 for which making/build-for makes the program and the library: how a module of LLVM becomes
theirs, and how what is compiled of it is linked."""

# The toolchain's own target for AArch64 isn't taken. `rattle build --target aarch64-unknown-linux-gnu` compiles what is
# proved for that target, but every crate has to be checked for it again, and its folder of start files and libraries
# for linking isn't part of the toolchain that is here. Where it is, it makes the better program.
#
# Processors are the first of their kind: x86-64 without extensions on Windows, and generic AArch64 without outlined
# atomics, so no program asks what the processor can do.
#
# The program for AArch64 is linked statically, since Debian's start files ask for version 2.34 of the C library; so it
# runs on any Linux there. Its library is linked with the C library of the system, of which it wants four functions of
# 2.17. The licenses of what Debian's packages link in go with a release.

import pathlib
import re
import shutil
import subprocess
from typing import List, NamedTuple, Optional, Tuple

from release.backend import ROOT, Target, Word

PLATFORMS = ROOT / "platforms"
OUT = PLATFORMS / "out"
FLAGS = ("-std=c11", "-Wall", "-Wextra", "-Werror", "-O2", "-s", f"-ffile-prefix-map={ROOT}=.")


class System(NamedTuple):
    """How the program and the library are made for a system: the target, the compiler that links them and the packages that it
    takes, the libraries of these packages that are linked in, the files of C of the program, the words for it and for the library, what both are called,
    and what wheels call the system."""

    target: Target
    compiler: str
    packages: Tuple[str, ...]
    linked: Tuple[str, ...]
    host: Tuple[str, ...]
    program_words: Tuple[str, ...]
    library_words: Tuple[str, ...]
    program: str
    library: str
    wheels: Tuple[str, ...]

    @property
    def is_windows(self) -> bool:
        """Is this a system of Windows?"""
        return self.program.endswith(".exe")


def for_windows(line: str) -> str:
    """A line of a module for Windows. What answers two words is called as elsewhere on x86-64; and what the C library of Windows
    has under the same names takes other arguments."""
    line = re.sub(r"^(declare|.* call) (\{ i64, i64 \} @rattle_(?:re)?alloc\()", r"\1 x86_64_sysvcc \2", line)
    return re.sub(r"@(open|read|write|close|isatty)\(", r"@p21_\1(", line)


SYSTEMS = {
    "x86_64-windows": System(
        target=Target(
            name="x86_64-windows",
            triple="x86_64-w64-windows-gnu",
            layout="e-m:w-p270:32:32-p271:32:32-p272:64:64-i64:64-i128:128-f80:128-n8:16:32:64-S128",
            lost=("frame-pointer", "probe-stack", "stack-probe-size"),
            gained='"target-cpu"="x86-64"',
            changed=for_windows,
        ),
        compiler="x86_64-w64-mingw32-gcc",
        packages=("gcc-mingw-w64-x86-64",),
        linked=("libmingw32.a", "libgcc.a"),
        host=("windows.c", "memory.c"),
        program_words=("-municode", "-static", "-Wl,--stack,8388608", "-Wl,--no-insert-timestamp"),
        library_words=("-shared", "-static", "-Wl,--no-insert-timestamp", "p21.def"),
        program="p21.exe",
        library="p21.dll",
        wheels=("win_amd64",),
    ),
    "aarch64-linux": System(
        target=Target(
            name="aarch64-linux",
            triple="aarch64-unknown-linux-gnu",
            layout="e-m:e-p270:32:32-p271:32:32-p272:64:64-i8:8:32-i16:16:32-i64:64-i128:128-n32:64-S128-Fn32",
            words=("-fPIC", "-mno-outline-atomics"),
            gained='"target-cpu"="generic"',
        ),
        compiler="aarch64-linux-gnu-gcc",
        packages=("gcc-aarch64-linux-gnu", "libc6-dev-arm64-cross"),
        linked=("libc.a", "libgcc.a"),
        host=("posix.c", "memory.c"),
        program_words=("-static", "-Wl,--build-id=none"),
        library_words=(
            "-shared",
            "-fPIC",
            "-Wl,-soname,libp21.so.0",
            "-Wl,--version-script=p21.map",
            "-Wl,-z,defs,-z,relro,-z,now",
            "-Wl,--build-id=sha1",
        ),
        program="p21",
        library="libp21.so",
        wheels=("manylinux_2_17_aarch64", "manylinux2014_aarch64"),
    ),
}


def missing(system: System) -> Optional[str]:
    """What links for a system and isn't here, with the packages that have it, or None."""
    if shutil.which(system.compiler):
        asked = {name: [system.compiler, f"-print-file-name={name}"] for name in system.linked}
        found = {name: subprocess.run(words, check=True, stdout=subprocess.PIPE, text=True).stdout.strip() for name, words in asked.items()}
        # Of a library that it doesn't find the compiler says the bare name.
        lacking = [name for name, path in found.items() if path == name]
    else:
        lacking = [system.compiler]
    return f"there is no {lacking[0]} of Debian's {' and '.join(system.packages)}" if lacking else None


def object_file(crate: str, system: System) -> pathlib.Path:
    """Where what is compiled of a crate for a system stands."""
    return OUT / system.target.name / f"{crate}.o"


def linking_program(system: System, line: str) -> List[Word]:
    """The words that link the program with its host, which says a line behind the version."""
    host = [PLATFORMS / name for name in system.host]
    return [system.compiler, *FLAGS, f'-DSYSTEM="{line}"', *host, object_file("p21", system), *system.program_words]


def linking_library(system: System) -> List[Word]:
    """The words that link the library, in a folder where files say by which names the calls are seen."""
    return [system.compiler, *FLAGS, PLATFORMS / "memory.c", object_file("p21_c", system), *system.library_words]
