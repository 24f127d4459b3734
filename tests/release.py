#!/usr/bin/env python3
"""Makes a release, and tries it as a new user would: by the lines of README, where nothing of p21 is.

    tests/release.py [ROOT]     ROOT has a Debian 11; without one debootstrap makes it, from the network

In a clone of what stands in this tree, records are written as a build would leave them, and turned in one thing each: a
release is made only where every crate is proved of these very sources. Then a trial is made of what is built in this tree,
proved or not, and each of its packages is installed and tried, here and in a root of Debian 11 without a network.

It wants `rt`, which links, and what ./p21 and making/build-library build. What can't be tried for want of something is named
in the last line, and the status is then 77.
"""

import hashlib
import os
import pathlib
import re
import shutil
import subprocess
import sys
import tempfile
import textwrap
import time

import texts

ROOT = pathlib.Path(__file__).resolve().parent.parent
BUILT = ("crates/p21/out/p21", "crates/p21/out/p21.o", "crates/p21_c/out/libp21_c.a")
# What is compiled for other systems, with a note of what it was made of.
OTHERS = ("aarch64-linux", "x86_64-windows")
FOR_OTHERS = [f"platforms/out/{system}/{name}" for system in OTHERS for name in ("p21.o", "p21.made-of", "p21_c.o", "p21_c.made-of")]
# What is compiled for the page, which else a release compiles again.
FOR_PAGE = ["web/out/program.o", "web/out/program.made-of"]
# Of the files of a release the tarball and the wheel of this system.
TARBALL, WHEEL = "*-x86_64-linux.tar.gz", "*manylinux*_x86_64.whl"
# What wheels call the other systems, and the files in their packages that are other than here.
TAGS = {"aarch64-linux": "manylinux2014_aarch64", "x86_64-windows": "win_amd64"}
OWN = {
    "aarch64-linux": {"bin/p21", "bin/p21-where", "lib/libp21.so", "lib/libp21.so.0", "lib/pkgconfig/p21.pc", "include/p21.h"},
    "x86_64-windows": {"bin/p21.exe", "bin/p21-where.cmd", "bin/p21.dll", "lib/p21.lib", "lib/p21/p21-where", "include/p21.h"},
}
# The first bytes of a program for each.
BEGINS = {"aarch64-linux": b"\x7fELF", "x86_64-windows": b"MZ"}
SYSTEM = {"PATH": "/usr/sbin:/usr/bin:/sbin:/bin", "HOME": "/tmp", "LC_ALL": "C.UTF-8", "PIP_NO_INDEX": "1"}
# What is wanted before anything is built, with what is said where it isn't here.
LINKS = {
    "x86_64-w64-mingw32-gcc": "there is no x86_64-w64-mingw32-gcc of Debian's gcc-mingw-w64-x86-64",
    "aarch64-linux-gnu-gcc": "there is no aarch64-linux-gnu-gcc of Debian's gcc-aarch64-linux-gnu and libc6-dev-arm64-cross",
    "dpkg-deb": "there is no dpkg-deb",
}
# The program and the library want no newer C library.
NEWEST = (2, 17)
# Says how many words it is given, and whether the processor has what the start of a program asks for.
STARTED = """
struct features { unsigned said[4], usable[4]; };
const struct features *__x86_get_cpuid_feature_leaf(unsigned index);
unsigned long rattle_arg_count(void);
int printf(const char *form, ...);
int main(void) {
    unsigned one = __x86_get_cpuid_feature_leaf(0)->usable[2] & 0x982201, two = __x86_get_cpuid_feature_leaf(2)->usable[2] & 1;
    printf("%lu words, %x %x\\n", rattle_arg_count(), one, two);
    return 0;
}
"""


class Parts:
    """What was tried, what was wrong, and what could not be tried."""

    def __init__(self):
        self.count = self.wrong = 0
        self.left_out = []

    def judge(self, name, wanted, found):
        """One part: what is found is what is wanted."""
        self.count += 1
        if wanted == found:
            print(f"{name}: as it must be", flush=True)
        else:
            self.wrong += 1
            print(f"{name}:\n  wanted {wanted}\n  found  {found}", flush=True)

    def leave_out(self, name, why):
        """Names what can't be tried here."""
        print(f"{name}: left out: {why}", flush=True)
        self.left_out.append(f"{name}, since {why}")

    def end(self):
        """The status, and the last line."""
        without = f"; left out: {'; '.join(self.left_out)}" if self.left_out else ""
        print(f"{self.count} parts, {self.wrong} wrong{without}")
        return 1 if self.wrong else 77 if self.left_out else 0


def run(*words, **more):
    """The status of a command, and what it writes to both streams."""
    done = subprocess.run(words, stdout=subprocess.PIPE, stderr=subprocess.STDOUT, text=True, check=False, **more)
    return done.returncode, done.stdout.rstrip("\n")


def must(*words, **more):
    """What a command writes that has to end well."""
    status, output = run(*words, **more)
    if status != 0:
        sys.exit(f"tests/release.py: {' '.join(map(str, words))}: {output}")
    return output


def make_release(tree, *words, **environment):
    """Makes a release of a tree."""
    return run(tree / "making/make-release", *words, env={**os.environ, **environment})


def path_without(folder, *names):
    """A path to the programs that are here, but for those of these names."""
    folder.mkdir()
    for place in map(pathlib.Path, os.environ["PATH"].split(":")):
        for program in place.iterdir() if place.is_dir() else ():
            if program.name not in names and not os.path.lexists(folder / program.name):
                (folder / program.name).symlink_to(program)
    return str(folder)


def sum_of(path):
    """The checksum of a file."""
    return hashlib.sha256(path.read_bytes()).hexdigest()


# --- What goes in ---


def clone(folder):
    """A repository of one commit with what stands in this tree, and with what is built in it."""
    files = must("git", "ls-files", "-co", "--exclude-standard", cwd=ROOT).splitlines()
    for name in filter(lambda name: os.path.lexists(ROOT / name), files):
        (folder / name).parent.mkdir(parents=True, exist_ok=True)
        shutil.copy2(ROOT / name, folder / name, follow_symlinks=False)
    git = ("git", "-c", "user.name=p21", "-c", "user.email=p21@localhost", "-c", "init.defaultBranch=main")
    must(*git, "init", "-q", cwd=folder)
    must(*git, "add", "-A", cwd=folder)
    must(*git, "commit", "-q", "-m", "What stands here", cwd=folder)
    for name in filter(lambda name: (ROOT / name).is_file(), (*BUILT, *FOR_OTHERS, *FOR_PAGE)):
        (folder / name).parent.mkdir(parents=True, exist_ok=True)
        shutil.copy2(ROOT / name, folder / name)


def true_record(tree, crate):
    """The record of a build of a crate, as if the gate had proved it."""
    script = f'root={tree}; . "$root/making/building.sh"; sum_of_sources "$root" {crate}; needed_crates {crate}'
    sources, *needed = must("sh", "-c", script).splitlines()
    files = [pathlib.Path(name) for name in BUILT if f"/{crate}/" in name]
    return [
        f"toolchain {must('rt', 'version')}",
        f"sources {sources}",
        *(f"proved {name}" for name in needed),
        f"gate {len(needed)} passed, 0 failed",
        *(f"file {sum_of(tree / name)}  {name.name}" for name in files),
    ]


def gate_of(record):
    """The line of a record that says how the gate ended."""
    return next(line for line in record if line.startswith("gate "))


def records(parts, folder):
    """A release is made where the records say that all is proved, and not where anything is turned."""
    tree, release = folder / "clone", folder / "proved"
    tree.mkdir()
    clone(tree)
    crates = ["p21", "p21_c"] if (ROOT / BUILT[2]).is_file() else ["p21"]
    # So that no library is built where none is there.
    (tree / BUILT[2]).parent.mkdir(exist_ok=True)
    (tree / BUILT[2]).touch()
    whole = {crate: true_record(tree, crate) for crate in crates}

    def write(crate, lines):
        (tree / "crates" / crate / "out/record").write_text("\n".join(lines) + "\n")

    def refused(name, because, **environment):
        status, output = make_release(tree, folder / "refused", **{"P21_KEEP": "1", **environment})
        parts.judge(f"no release: {name}", (1, True, False), (status, because in output, (folder / "refused").exists()))

    for crate in crates:
        (tree / "crates" / crate / "out/record").unlink(missing_ok=True)
    refused("no record", "there is no crates/p21/out/record")
    for name, because in LINKS.items():
        refused(f"no {name}", because, PATH=path_without(folder / f"without-{name}", name))
    for crate in crates:
        write(crate, whole[crate])
    turned = [
        ("a crate that isn't proved", "proved p21_stream\n", "", "nothing of p21_stream was proved"),
        ("a gate that failed", "passed, 0 failed", "passed, 1 failed", "passed, 1 failed`"),
        ("checks in place of the gate", gate_of(whole["p21"]), "checks over kept work", "checks over kept work, and not by the gate"),
        ("other sources", "sources ", "sources 0", "the sources below p21 aren't those that were proved"),
        ("another program", f"{sum_of(tree / BUILT[0])}  p21", f"{'0' * 64}  p21", "crates/p21/out/p21 isn't the one that was built"),
        ("another toolchain", "toolchain ", "toolchain another ", "p21 was built by another "),
    ]
    for name, old, new, because in turned:
        text = "\n".join(whole["p21"])
        assert text.count(old) == 1, old
        write("p21", text.replace(old, new).splitlines())
        refused(name, because)
    write("p21", whole["p21"])
    program = (tree / BUILT[0]).read_bytes()
    (tree / BUILT[0]).write_bytes(program + b"\n")
    write("p21", true_record(tree, "p21"))
    refused("a program of other object code", "crates/p21/out/p21 isn't linked of crates/p21/out/p21.o")
    (tree / BUILT[0]).write_bytes(program)
    write("p21", whole["p21"])
    (tree / "LICENSE").write_text("another one\n")
    refused("a file that isn't committed", "changes that are not committed")
    must("git", "checkout", "-q", "LICENSE", cwd=tree)
    if len(crates) < 2:
        parts.leave_out("a whole release", f"there is no {BUILT[2]}: making/build-library builds it")
        return
    missing = [name for name in FOR_OTHERS if not (ROOT / name).is_file()]
    if missing:
        parts.leave_out("a whole release", f"there is no {missing[0]}: making/build-for --library makes it")
        return
    status, output = make_release(tree, release, P21_KEEP="1")
    parts.judge("a release of what is proved", 0, status)
    if status != 0:
        print(output)
        return
    made_from = next(release.glob("*-made-from.txt")).read_text()
    listed = re.findall(r"^    (p21\w*)$", made_from, re.M)
    proved = [line.removeprefix("proved ") for crate in crates for line in whole[crate] if line.startswith("proved ")]
    parts.judge("the list of what is proved", proved, listed)
    parts.judge("its commit", True, must("git", "rev-parse", "HEAD", cwd=tree) in made_from)


# --- How its program starts ---


def start(parts, folder):
    """A program that is linked with the start of a release is given the same words, and is told the same of the processor, as
    with the toolchain's own start: here by the C library, which is new enough for both."""
    kit = pathlib.Path(shutil.which("rt")).resolve().parent.parent
    (folder / "started.c").write_text(STARTED)
    for source in (folder / "started.c", ROOT / "making/release/start.c"):
        must(kit / "toolchain/bin/clang", "-O2", "-fPIE", "-ffreestanding", "-c", source, "-o", folder / f"{source.stem}.o")
    said = []
    for name, further in (("as-the-toolchain", []), ("as-a-release", [folder / "start.o"])):
        objects = [folder / "started.o", kit / "c/libos_c.a", kit / "c/liblibc_c.a", *further]
        how = ["--target", "x86_64-unknown-linux-gnu", "--toolchain", kit / "toolchain", "-o", folder / name]
        must(kit / "bin/rattle-link", *how, *objects)
        said.append(run(folder / name, "one", "two"))
    if "GLIBC_" in said[0][1]:
        parts.leave_out("the start against the toolchain's", "the C library here is too old for that")
    else:
        parts.judge("the start", said[0], said[1])
    parts.judge("the words that a started program has", "3 words", said[1][1].partition(",")[0])


# --- The files of a release ---


def files(parts, release, again, folder):
    """The files of a release, made twice: their bytes, their checksums and what their programs want of the C library."""
    names = sorted(path.name for path in release.iterdir())
    parts.judge("made twice: the names", names, sorted(path.name for path in again.iterdir()))
    parts.judge("made twice: the bytes", [sum_of(release / name) for name in names], [sum_of(again / name) for name in names])
    parts.judge("the checksums", 0, run("sha256sum", "--quiet", "-c", "SHA256SUMS", cwd=release)[0])
    listed = [line.split("  ")[1] for line in (release / "SHA256SUMS").read_text().splitlines()]
    parts.judge("what has a checksum", [name for name in names if name != "SHA256SUMS"], listed)
    found = {}
    for package, pattern in (("tar.gz", TARBALL), ("whl", WHEEL)):
        for path in release.glob(pattern):
            shutil.unpack_archive(path, folder / package, "zip" if package == "whl" else "gztar")
            found |= {f"{package}: {it.relative_to(folder)}": it for it in (folder / package).rglob("*") if is_elf(it)}
    if shutil.which("dpkg-deb"):
        must("dpkg-deb", "-x", next(release.glob("*.deb")), folder / "deb")
        found |= {f"deb: {it.relative_to(folder)}": it for it in (folder / "deb").rglob("*") if is_elf(it)}
    for name, path in found.items():
        versions = re.findall(r"\bGLIBC_([\d.]+)", must("objdump", "-T", path))
        newest = max(tuple(map(int, version.split("."))) for version in versions)
        parts.judge(f"{name}: the C library", True, newest <= NEWEST)
        parts.judge(f"{name}: other libraries", ["libc.so.6"], re.findall(r"NEEDED +(\S+)", must("objdump", "-p", path)))
    for package in ("tar.gz", "whl", "deb"):
        if (folder / package).is_dir():
            there = {path.name for path in (folder / package).rglob("share/doc/p21/*.md")}
            parts.judge(f"{package}: the pages for users", set(), pages_for_users() - there)
    program = next(path for path in found.values() if path.name == "p21")
    added = {name for name, _ in functions(program) - functions(ROOT / BUILT[0])}
    gone = functions(ROOT / BUILT[0]) - functions(program)
    of_start = {"__libc_start_main", "call_constructors", "__x86_get_cpuid_feature_leaf", "ecx_of_leaf"}
    parts.judge("the functions of the program", (set(), set()), (added - of_start, gone))


def pages_for_users():
    """The pages that README names for users, and itself."""
    listed = (ROOT / "README.md").read_text().partition("\nFor users:\n")[2].partition("\nFor auditors:\n")[0]
    return {"README.md", *re.findall(r"^- `(?:docs/)?(\w+\.md)`", listed, re.M)}


def others(parts, release, folder):
    """The packages for other systems: each has what is wanted there and nothing of this system's, and pip takes the wheel of a system
    there alone."""
    for system, tag in TAGS.items():
        packed = next((path for path in release.iterdir() if re.search(rf"-{system}\.(zip|tar\.gz)$", path.name)), None)
        if packed is None:
            parts.leave_out(f"the packages for {system}", f"there is no platforms/out/{system}/p21_c.o: making/build-for --library makes it")
            continue
        shutil.unpack_archive(packed, folder / system)
        top = next((folder / system).iterdir())
        names = {str(path.relative_to(top)) for path in top.rglob("*") if not path.is_dir()}
        parts.judge(f"{packed.name}: its name", packed.name.removesuffix(".zip").removesuffix(".tar.gz"), top.name)
        parts.judge(f"{packed.name}: what it has", OWN[system], OWN[system] & names)
        program = top / min(OWN[system] & {"bin/p21", "bin/p21.exe"})
        parts.judge(f"{packed.name}: the program", BEGINS[system], program.read_bytes()[: len(BEGINS[system])])
        here_alone = [path for path in top.rglob("*") if is_elf(path) and (system != "aarch64-linux" or path.read_bytes()[18:20] != b"\xb7\x00")]
        parts.judge(f"{packed.name}: programs of this system", [], here_alone)
        shown = {name for name in names if name.startswith(("share/man/", "share/zsh/"))}
        parts.judge(f"{packed.name}: manuals", system != "x86_64-windows", bool(shown))
        licensed = [name for name in names if name.startswith("share/doc/p21/licenses/") and name.endswith("-copyright")]
        parts.judge(f"{packed.name}: licenses of what is linked in", 2, len(licensed))
        target = folder / f"{system}-wheel"
        words = ["-m", "pip", "install", "--quiet", "--no-index", "--find-links", release, "--only-binary=:all:", "--platform", tag]
        status, output = run(sys.executable, *words, "--target", target, "p21")
        if status != 0:
            parts.judge(f"the wheel for {system}", "installed", output)
            continue
        library = target / "p21" / ("p21.dll" if tag == "win_amd64" else "libp21.so")
        parts.judge(f"the wheel for {system}: the library", (True, BEGINS[system]), (library.is_file(), library.read_bytes()[: len(BEGINS[system])]))
        parts.judge(f"the wheel for {system}: the program", True, (target / "bin" / program.name).is_file())


def is_elf(path):
    """Is it a program or a shared library?"""
    return path.is_file() and not path.is_symlink() and path.read_bytes()[:4] == b"\x7fELF"


def functions(program):
    """The functions of a program by their names, with their sizes."""
    return {(name, size) for size, name in re.findall(r"^\w+ (\w+) [tT] (.*)$", must("nm", "-S", program), re.M)}


# --- Installing, by the lines of README ---


def readme():
    """The lines of README that install each package, and the commands of its first steps with what they print."""
    text = (ROOT / "README.md").read_text().partition("## What `same` and `canon` promise")[0]
    ways = [textwrap.dedent(block) for block in re.findall(r"^  ```sh\n(.*?)^  ```$", text, re.M | re.S)]
    with tempfile.NamedTemporaryFile("w", suffix=".md") as page:
        page.write(text)
        page.flush()
        steps = [command for block in texts.blocks_of(pathlib.Path(page.name)) for command in block]
    python = re.search(r"^In Python,.*\n\n((?:    .*\n)+)", (ROOT / "README.md").read_text(), re.M)
    return dict(zip(("tar.gz", "deb", "whl"), ways, strict=True)), steps, textwrap.dedent(python[1])


def here(folder, script):
    """What a shell of this system prints, in a folder."""
    return run("bash", "-c", script, cwd=folder, env=SYSTEM)


def below(root):
    """How a shell in a root is run, without a network."""
    enter = 'mount -t proc proc "$1/proc" && cd "$1" && exec chroot "$1" bash -c "cd $2 && $3"'

    def in_root(folder, script):
        inside = "/" + str(folder.relative_to(root))
        (folder / "script.sh").write_text(script)
        words = ["unshare", "--net", "--mount", "sh", "-c", enter, "sh", root, inside, "exec bash script.sh"]
        return run(*words, env=SYSTEM)

    return in_root


def tried(parts, where, shell, release, folder, package):
    """Installs a package by README's lines in a folder where the release is, and takes the first steps."""
    ways, steps, python = readme()
    folder.mkdir(parents=True)
    for path in release.iterdir():
        shutil.copy(path, folder)
    named = next(release.glob("*-made-from.txt")).name.removeprefix("p21-").removesuffix("-made-from.txt")
    script = f"mark() {{ printf '{texts.MARK}'; }}\nset -e\n{ways[package].replace('0.1.0', named)}\nset +e\nmark\n"
    script += "command -v p21 p21-where\nmark\n" + "".join(f"{command}\nmark\n" for command, _ in steps)
    script += f"python3 - << 'END'\n{python}END\nmark\n" if package == "whl" else ""
    begun = time.monotonic()
    _, output = shell(folder, script)
    seconds = time.monotonic() - begun
    made, *answers = output.split(texts.MARK)
    if len(answers) < 2 or not answers[0]:
        parts.judge(f"{where}, {package}: installed", "no fault", made)
        return
    path, *answers = answers
    home = {"tar.gz": "/bin/p21", "deb": "/usr/bin/p21", "whl": "/bin/p21"}[package]
    parts.judge(f"{where}, {package}: in the path, {seconds:.0f} s for all", True, path.splitlines()[0].endswith(home))
    for (command, wanted), found in zip(steps, answers):
        parts.judge(f"{where}, {package}: {command}", "\n".join(wanted), "\n".join(wanted) if texts.is_shown(wanted, found) else found)
    if package == "whl":
        wanted = ["128", "True", "Block ['PRODUCT_DEFINITION']"]
        parts.judge(f"{where}, {package}: the lines in Python", wanted, answers[len(steps)].strip().splitlines())


def removed(parts, shell, root):
    """The package of Debian is taken away, and leaves nothing."""
    folder = root / "tmp/removed"
    folder.mkdir()
    listed = "dpkg -L p21 | while read -r path; do [ ! -f $path ] || echo $path; done"
    _, output = shell(folder, f"count=$({listed} | wc -l)\ndpkg --purge p21 > /dev/null\necho $((count > 40)) $(find / -xdev -name '*p21*' -path '/usr/*')")
    parts.judge("Debian 11, deb: taken away", "1", output)


def debian(parts, folder, given):
    """A root of Debian 11, or None where there is none to be had."""
    if os.geteuid() != 0:
        parts.leave_out("Debian 11", "this user isn't root")
        return None
    root = folder / "root"
    if given:
        must("cp", "-a", "--reflink=auto", given, root)
        return root
    if not shutil.which("debootstrap"):
        parts.leave_out("Debian 11", "there is no debootstrap")
        return None
    status, output = run("debootstrap", "--variant=minbase", "--include=python3,python3-venv", "bullseye", root)
    if status != 0:
        parts.leave_out("Debian 11", f"debootstrap says {output.splitlines()[-1]}")
        return None
    return root


def program_in_c(parts, release, folder):
    """The first program in C of docs/LIBRARY.md is compiled over the library in the tarball, by the lines of that page."""
    if not all(map(shutil.which, ("cc", "pkg-config"))):
        parts.leave_out("a program in C over the tarball", "there is no cc, or no pkg-config")
        return
    page = (ROOT / "docs/LIBRARY.md").read_text().partition("\n### C\n")[2]
    folder.mkdir()
    (folder / "program.c").write_text(re.search(r"^```c\n(.*?)^```", page, re.M | re.S)[1])
    lines = textwrap.dedent(re.search(r"(?:^    .*\n)+", page[page.index("    export PKG_CONFIG_PATH") :], re.M)[0])
    must("tar", "xzf", next(release.glob(TARBALL)), "-C", folder)
    prefix = next(folder.glob("p21-*"))
    (folder / "examples").symlink_to(ROOT / "examples")
    output = here(folder, lines.replace("PREFIX", str(prefix)))
    parts.judge("a program in C over the tarball", (0, "accepted, instances 128"), output)


def packages_here(parts, release, folder):
    """The packages that need no root, on this system."""
    tried(parts, "here", here, release, folder / "here-tar", "tar.gz")
    if list(release.glob(WHEEL)):
        program_in_c(parts, release, folder / "here-c")
    if not list(release.glob(WHEEL)):
        return
    if run("/usr/bin/python3", "-c", "import ensurepip", env=SYSTEM)[0] != 0:
        parts.leave_out("the wheel here", "the Python of this system has no venv")
    else:
        tried(parts, "here", here, release, folder / "here-whl", "whl")


def main():
    parts = Parts()
    os.environ.pop("P21", None)
    given = pathlib.Path(sys.argv[1]).resolve() if len(sys.argv) > 1 else None
    missing = [name for name in BUILT[:2] if not (ROOT / name).is_file()]
    why = "rt is not in PATH" if not shutil.which("rt") else f"there is no {missing[0]}: ./p21 builds it" if missing else None
    if why:
        parts.leave_out("a release", why)
        return parts.end()
    with tempfile.TemporaryDirectory(prefix="p21-release-") as name:
        folder = pathlib.Path(name)
        start(parts, folder)
        records(parts, folder)
        release = folder / "release"
        for target in (release, folder / "again"):
            status, output = make_release(ROOT, "--trial", target)
            if status != 0:
                sys.exit(output)
        files(parts, release, folder / "again", folder / "unpacked")
        others(parts, release, folder / "others")
        packages_here(parts, release, folder)
        root = debian(parts, folder, given)
        if root:
            shell = below(root)
            for package, pattern in (("tar.gz", TARBALL), ("whl", WHEEL), ("deb", "*.deb")):
                if list(release.glob(pattern)):
                    tried(parts, "Debian 11", shell, release, root / "tmp" / package, package)
            removed(parts, shell, root)
    return parts.end()


if __name__ == "__main__":
    sys.exit(main())
