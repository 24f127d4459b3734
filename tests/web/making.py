"""What the tests of the page share: the page and its module, made of these sources, and modules whose memory is limited."""

import os
import pathlib
import shutil
import subprocess

ROOT = pathlib.Path(__file__).resolve().parent.parent.parent
MODULE = ROOT / "web" / "out" / "p21.wasm"
NODE_FLAG = "--experimental-wasm-memory64"
WIDE_MEMORY = "WebAssembly.validate(Uint8Array.of(0, 0x61, 0x73, 0x6d, 1, 0, 0, 0, 5, 3, 1, 4, 1))"
MEMORY_SECTION = 5


def make_page(path, module=None):
    """Makes the page, of another module where one is named, and answers what is said of it."""
    words = [ROOT / "making" / "build-page", *(["--module", module] if module else []), path]
    return subprocess.run(words, check=True, capture_output=True, text=True).stdout


def node():
    """The command line of a Node that runs the module; none where there is no such Node here."""
    if shutil.which("node"):
        for flags in ([], [NODE_FLAG]):
            words = ["node", "--no-warnings", *flags]
            done = subprocess.run([*words, "-p", WIDE_MEMORY], capture_output=True, text=True, check=False)
            if done.stdout.strip() == "true":
                return words
    return None


def number_at(data, at):
    """A number in the module's own coding, seven bits a byte, and the place behind it."""
    value = shift = 0
    while True:
        value |= (data[at] & 0x7F) << shift
        shift += 7
        at += 1
        if data[at - 1] < 0x80:
            return value, at


def coded(value):
    """A number in that coding."""
    found = bytearray()
    while value >= 0x80:
        found.append(value & 0x7F | 0x80)
        value >>= 7
    return bytes([*found, value])


def limited(module, pages):
    """The module with a memory that grows by so many pages of 64 KiB at most."""
    at = 8
    while True:
        kind = module[at]
        size, start = number_at(module, at + 1)
        if kind == MEMORY_SECTION:
            break
        at = start + size
    assert module[start : start + 2] == b"\x01\x04", "one memory of 64 bits, without a limit"
    least, _ = number_at(module, start + 2)
    section = b"\x01\x05" + coded(least) + coded(least + pages)
    return module[:at] + bytes([MEMORY_SECTION]) + coded(len(section)) + section + module[start + size :]


def environment(path):
    """The environment with another program as P21."""
    return {**os.environ, "P21": str(path)}
