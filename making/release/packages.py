"""The packages of a release, from its files below a prefix: a tarball, an archive for Windows, a package of Debian and a wheel.

Each is the same byte for byte for the same files: times are those that are given, owners are root, and the files stand in the
order in which they are given.
"""

# The package of Debian depends on Python, because its tools are written in it. It isn't stripped: the program is what the
# linker made.

import base64
import csv
import email.message
import email.policy
import gzip
import hashlib
import io
import os
import pathlib
import re
import subprocess
import tarfile
import tempfile
import time
import zipfile
from typing import Any, Dict, Iterable, Mapping, NamedTuple, Sequence, Tuple

ABOUT = "says whether two STEP files (ISO 10303-21) hold the same model"
MAINTAINER = "The authors of p21 <p21@localhost>"
# The version of the C library that wheels and Debian's package name.
C_LIBRARY = "2.17"
COPYRIGHT = """\
Format: https://www.debian.org/doc/packaging-manuals/copyright-format/1.0/
Upstream-Name: p21

Files: *
Copyright: the authors of p21
License: Apache-2.0
 The text of the license stands in /usr/share/common-licenses/Apache-2.0. The libraries that are linked into the
 program have licenses of their own, MIT or Apache-2.0: /usr/share/doc/p21/licenses has their texts.
"""
# The system keeps a list of shared libraries.
TRIGGERS = "activate-noawait ldconfig\n"
# Python keeps what it compiles of the tools beside them.
BEFORE_REMOVAL = """\
#!/bin/sh
set -e
rm -rf /usr/lib/p21/__pycache__
"""


# The library in the Python package, on Linux and on Windows.
LIBRARIES = ("libp21.so", "p21.dll")
# What isn't there on Windows begins so.
OF_POSIX = ("bin/p21", "share/man/", "share/bash-completion/", "share/zsh/", "share/fish/")


class Entry(NamedTuple):
    """A file of a package. A link has the path that it leads to in place of bytes."""

    content: bytes
    is_program: bool = False
    leads_to: str = ""


# The files of a package by their names.
Entries = Mapping[str, Entry]


def zipped(content: bytes) -> bytes:
    """The bytes, compressed by gzip without a time."""
    return gzip.compress(content, 9, mtime=0)


def tar(path: pathlib.Path, top: str, entries: Entries, when: int) -> None:
    """A tar archive below one folder."""
    plain = io.BytesIO()
    with tarfile.open(fileobj=plain, mode="w", format=tarfile.USTAR_FORMAT) as archive:
        for name, entry in entries.items():
            info = tarfile.TarInfo(f"{top}/{name}")
            info.mtime, info.mode, info.uname, info.gname = when, 0o755 if entry.is_program else 0o644, "root", "root"
            if entry.leads_to:
                info.type, info.linkname, info.mode = tarfile.SYMTYPE, entry.leads_to, 0o777
            info.size = len(entry.content)
            archive.addfile(info, io.BytesIO(entry.content))
    path.write_bytes(zipped(plain.getvalue()))


def debian_entries(entries: Entries) -> Dict[str, Entry]:
    """The files as Debian has them: completions of zsh where its zsh looks, manual pages packed, and the license told."""
    found = {}
    for name, entry in entries.items():
        name = name.replace("share/zsh/site-functions/", "share/zsh/vendor-completions/")
        if name.startswith("share/man/"):
            name, entry = f"{name}.gz", entry._replace(content=zipped(entry.content))
        if name != "share/doc/p21/LICENSE":
            found[f"usr/{name}"] = entry
    found["usr/share/doc/p21/copyright"] = Entry(COPYRIGHT.encode())
    return dict(sorted(found.items()))


def deb(path: pathlib.Path, version: str, entries: Entries, when: int) -> None:
    """A package of Debian."""
    size = sum(-(-len(entry.content) // 1024) for entry in entries.values())
    control = f"""\
Package: p21
Version: {version}
Architecture: amd64
Maintainer: {MAINTAINER}
Installed-Size: {size}
Depends: libc6 (>= {C_LIBRARY}), python3 (>= 3.8)
Section: utils
Priority: optional
Description: {ABOUT}
 p21 reads a STEP file in clear text against its EXPRESS schema, checks every
 instance, and gives the canonical file: one text for each meaning. p21-where,
 p21-diff and p21-table show where a file is refused, what differs in two, and
 what holds of many. The library for C and C++ is in it too.
"""
    sums = "".join(f"{hashlib.md5(entry.content).hexdigest()}  {name}\n" for name, entry in entries.items() if not entry.leads_to)
    about = {
        "DEBIAN/control": Entry(control.encode()),
        "DEBIAN/md5sums": Entry(sums.encode()),
        "DEBIAN/prerm": Entry(BEFORE_REMOVAL.encode(), True),
    }
    if "usr/lib/libp21.so" in entries:
        about["DEBIAN/triggers"] = Entry(TRIGGERS.encode())
    with tempfile.TemporaryDirectory() as place:
        folder = pathlib.Path(place) / "package"
        for name, entry in {**entries, **about}.items():
            file = folder / name
            file.parent.mkdir(parents=True, exist_ok=True)
            if entry.leads_to:
                file.symlink_to(entry.leads_to)
            else:
                file.write_bytes(entry.content)
                file.chmod(0o755 if entry.is_program else 0o644)
        for directory in [folder, *(it for it in folder.rglob("*") if it.is_dir())]:
            directory.chmod(0o755)
        # dpkg-deb takes this time for what is newer.
        times = {**os.environ, "SOURCE_DATE_EPOCH": str(when)}
        words = ["dpkg-deb", "--root-owner-group", "-Zgzip", "-z9", "--build", str(folder), str(path)]
        subprocess.run(words, env=times, stdout=subprocess.DEVNULL, check=True)


def for_windows(entries: Entries, starter: str) -> Dict[str, Entry]:
    """The files as Windows has them: each tool is started by a file of its name beside the program, and no manual or completion is
    there, since no program shows them."""
    found = {}
    cmd = Entry(starter.replace("\n", "\r\n").encode(), True)
    for name, entry in entries.items():
        folder, _, base = name.rpartition("/")
        if folder == "lib/p21" and entry.is_program:
            found[f"bin/{base}.cmd"] = cmd
        if not entry.leads_to and not name.startswith(OF_POSIX):
            found[name] = entry
    return dict(sorted(found.items()))


def development_entries(root: pathlib.Path, version: str, library: Mapping[str, Entry]) -> Dict[str, Entry]:
    """What a program is compiled over: the library's files with the headers, and what pkg-config and CMake ask for."""
    found = {f"include/{path.name}": Entry(path.read_bytes()) for path in (root / "include").iterdir()}
    for name, folder in {"p21.pc": "pkgconfig", "p21Config.cmake": "cmake/p21", "p21ConfigVersion.cmake": "cmake/p21"}.items():
        text = (root / "making" / "library" / name).read_text().replace("@VERSION@", version)
        found[f"lib/{folder}/{name}"] = Entry(text.encode())
    return {**found, **library}


def of_python(version: str) -> str:
    """The version of a release, or of a trial, as Python has it. Only wheels have it so: pip takes an archive for a package too,
    where all behind its name is a version, as 0.1.0+trial-x86_64-linux is."""
    return version.replace("-", "+")


def wheel_entries(
    version: str, settings: Mapping[str, Any], root: pathlib.Path, entries: Entries, library: pathlib.Path, platforms: Sequence[str]
) -> Dict[str, Entry]:
    """The files of a wheel: the Python package of a repository with the library in it; the program and the tools as scripts,
    and what the tools share as modules; and what goes to `share`."""
    dist, data = f"p21-{version}.dist-info", f"p21-{version}.data"
    package, project = root / "python/p21", settings["project"]
    patterns = ["*.py", *settings["tool"]["setuptools"]["package-data"]["p21"]]
    files = sorted(path for pattern in patterns for path in package.glob(pattern))
    found = {f"p21/{path.relative_to(package)}": Entry(path.read_bytes()) for path in files}
    named = LIBRARIES[library.suffix == ".dll"]
    found.pop(f"p21/{LIBRARIES[0]}", None)
    found[f"p21/{named}"] = Entry(library.read_bytes(), True)
    for name, entry in entries.items():
        folder, _, base = name.rpartition("/")
        if folder == "bin" and not entry.leads_to:
            found[f"{data}/scripts/{base}"] = entry
        elif folder == "lib/p21" and entry.is_program:
            # pip puts its own Python in place of this word.
            script = re.sub(rb"\A#!.*python3\n", b"#!python\n", entry.content)
            found[f"{data}/scripts/{base}"] = entry._replace(content=script)
        elif folder == "lib/p21":
            found[base] = entry
        elif name.startswith("share/"):
            found[f"{data}/data/{name}"] = entry
    about = {
        "Metadata-Version": "2.1",
        "Name": project["name"],
        "Version": version,
        "Summary": project["description"],
        "License": project["license"]["text"],
        "Requires-Python": project["requires-python"],
        "Description-Content-Type": "text/markdown",
    }
    wheel = [("Wheel-Version", "1.0"), ("Generator", "making/make-release"), ("Root-Is-Purelib", "false")]
    wheel += [("Tag", f"py3-none-{platform}") for platform in platforms]
    readme = (root / "python/README.md").read_text()
    found[f"{dist}/LICENSE"] = Entry((root / "LICENSE").read_bytes())
    found[f"{dist}/METADATA"] = Entry(message(about.items(), readme))
    found[f"{dist}/WHEEL"] = Entry(message(wheel))
    return {**found, f"{dist}/RECORD": Entry(listing(found, f"{dist}/RECORD"))}


def message(fields: Iterable[Tuple[str, str]], text: str = "") -> bytes:
    """Fields as the files of a wheel have them."""
    found = email.message.EmailMessage(policy=email.policy.EmailPolicy(utf8=True, max_line_length=None))
    for name, value in fields:
        found[name] = value
    return f"{found}\n{text}".replace("\n\n\n", "\n\n", 1).encode()


def listing(entries: Entries, own: str) -> bytes:
    """The list of a wheel: each file with its checksum and size, and the list itself with neither."""
    text = io.StringIO()
    rows = csv.writer(text, lineterminator="\n")
    for name, entry in entries.items():
        digest = base64.urlsafe_b64encode(hashlib.sha256(entry.content).digest()).rstrip(b"=").decode()
        rows.writerow([name, f"sha256={digest}", len(entry.content)])
    rows.writerow([own, "", ""])
    return text.getvalue().encode()


def archive(path: pathlib.Path, entries: Entries, when: int) -> None:
    """A zip archive, as a wheel is one too."""
    with zipfile.ZipFile(path, "w") as packed:
        for name, entry in entries.items():
            info = zipfile.ZipInfo(name, time.gmtime(when)[:6])
            info.compress_type, info.create_system = zipfile.ZIP_DEFLATED, 3
            info.external_attr = (0o100755 if entry.is_program else 0o100644) << 16
            packed.writestr(info, entry.content, compresslevel=9)
