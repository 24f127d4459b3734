#!/usr/bin/env python3
"""Holds docs/CANONICAL.md against the program: each of its examples, and the hashes of the canonical files of these and of
the folder examples, which stay as they are for as long as the form has this version; and the same of numbered files. P21 names another
program than ./p21.
"""

import hashlib
import json
import os
import pathlib
import re
import subprocess

from tooling import ROOT, Tests

VERSION = "1"
PAGE = ROOT / "docs" / "CANONICAL.md"

# The hash of the canonical file of each example of the page, by its number.
OF_THE_PAGE = {
    1: "0d3e5618df4006e44568bf9b3a095670544a6d1f45aee30312f9434645f654aa",
    2: "2212af253ff8f0b926d486d5b703435babd6f63924592d6a7d156c18fc5e29bf",
    3: "92d2095b0b578365fb1d56f8bdda35d4b485cac9a8b9ea89099a3cf4e039d1ed",
    4: "c9a442f25ec092cfb12d6ea748f3f0601fca6bb8f02b0d563582569f0892ad53",
    5: "8380cc0235ee70f30232a3db85f0f8594d0ebc68244c0b24d644aa30965d69db",
    6: "4045d75bbca9e39350d7f33bf06dc72354a5d54b10ae54ad6a8d5a8dbc7845d0",
    7: "7df4ffaea6cc1550bee560b8a9038fb01d085a67b9114722809fd0226d260784",
    8: "2197556d8959b32729c4f1fe23596afc5292fefc884098a94d855fd442e8ab48",
    9: "c322124e50ed28188ffe05aa6000d99f0be0c121c218422d8693371fc180a17b",
    10: "aeaab018c8b5343f046c547bb694c46f0212a88cc61255484d640ceb0afb458d",
    11: "057b71c77dacd3b8ca9d1ee3b069904b6fbf88f31055670f11c573273820a2ee",
    12: "c0f5cb90c78268869eea5e56ac0bb5ff95975981be173437f78b1b20703c58a8",
}

# The schema of each accepted file of the folder examples, and the hashes of its canonical file and of its numbered file.
OF_THE_FOLDER = {
    "product.step": (
        "product.exp",
        "5d11fa2abae65fa2bff1265d357ae88c5adf85242cd77e53a1c8b9877eff411c",
        "9948ddeb53455f793f604fc453517978f0722d7a8fc5629b3f7566d7b2c2eddf",
    ),
    "product-other.step": (
        "product.exp",
        "5d11fa2abae65fa2bff1265d357ae88c5adf85242cd77e53a1c8b9877eff411c",
        "9948ddeb53455f793f604fc453517978f0722d7a8fc5629b3f7566d7b2c2eddf",
    ),
    "product-changed.step": (
        "product.exp",
        "2c7249104ea26fc6fa7c66495f8df8c2bf8f9ed06ab1ca0553e38d142f7e1c20",
        "c82c10a433e216b73931f02ed5ac2cb09effbdf18604e6ad3ebb091c0afab783",
    ),
}

# The hash of the numbered file of each numbered example of the page, by its title; none where it has none.
OF_THE_NUMBERED = {
    "A chain": "dd0af835a6425f03f7c074c3c38d55a0c779fda18aa0679d6580ef705b09de3a",
    "A list and a set": "1fff9e6fcd9a9442ecb964ea0c64ac972736ccdd5cefc38fcdd76e4935c221cc",
    "Copies": "c81fb0f6b47f6bdfd16232f2a2549cfd8e7417a2ae1f355742ead1324e65b997",
    "A circle of equals": None,
}


def blocks_of(text):
    """The blocks of a page that are set in by four blanks, each without them."""
    blocks = re.findall(r"(?:^    .*\n)+", text, re.M)
    return [re.sub(r"^    ", "", block, flags=re.M) for block in blocks]


def examples():
    """The schema of the page's examples, and of each its title, its source and its canonical file."""
    front, *sections = re.split(r"^### ", PAGE.read_text(encoding="utf-8").split("\n## What is hashed")[0], flags=re.M)
    schema = blocks_of(front)[-1]
    pairs = [(section.splitlines()[0], *blocks_of(section)) for section in sections]
    frame = pairs[0][2]

    def whole(text):
        return text if text.startswith("ISO-10303-21;") else frame.replace("DATA;\n", f"DATA;\n{text}")

    return schema, [(title, whole(source), whole(canonical)) for title, source, canonical in pairs]


def numbered_examples():
    """The schema of the page's examples of numbered files, and of each its title, its source, and its numbered file or its refusal."""
    page = PAGE.read_text(encoding="utf-8")
    of_numbers = page.split("\n## The numbered file\n")[1].split("\n### The numbers\n")[1]
    front, *sections = re.split(r"^### ", of_numbers, flags=re.M)
    frame = examples()[1][0][2].replace("'FORM'", "'NET'")

    def whole(text):
        return text if text.startswith("refused ") else frame.replace("DATA;\n", f"DATA;\n{text}")

    shown = [(section.splitlines()[0], *blocks_of(section)) for section in sections]
    return blocks_of(front)[-1], [(title, whole(source), whole(answer)) for title, source, answer in shown]


def of_the_numbered(tests):
    """Each source has the numbered file that the page shows, which is its own and has the hash of the table, or the refusal."""
    schema, shown = numbered_examples()
    schema = tests.make("net.exp", schema)
    for title, source, answer in shown:
        wanted = ("", answer, 1) if answer.startswith("refused ") else (answer, "", 0)
        path = tests.make("numbered.step", source)
        tests.judge(f"{title}, source", wanted, canonical_of(tests, schema, path, "--names"))
        if wanted[2] == 0:
            path = tests.make("numbered.step", answer)
            tests.judge(f"{title}, numbered file", wanted, canonical_of(tests, schema, path, "--names"))
            tests.judge(f"{title}, its canonical file", wanted, canonical_of(tests, schema, path))
        found = hashlib.sha256(answer.encode("ascii")).hexdigest() if wanted[2] == 0 else None
        tests.judge(f"{title}, hash", OF_THE_NUMBERED[title], found)
    tests.judge("the titles of numbered files", list(OF_THE_NUMBERED), [title for title, _, _ in shown])


def of_the_page(tests):
    """Each source has the canonical file that the page shows, which is its own and has the hash of the table."""
    schema, shown = examples()
    schema = tests.make("form.exp", schema)
    numbers = []
    for title, source, canonical in shown:
        number = int(title.split(".")[0])
        numbers.append(number)
        for what, text in (("source", source), ("canonical file", canonical)):
            path = tests.make(f"{number}.step", text)
            tests.judge(f"{title}, {what}", (canonical, "", 0), canonical_of(tests, schema, path))
        tests.judge(f"{title}, hash", OF_THE_PAGE.get(number), hashlib.sha256(canonical.encode("ascii")).hexdigest())
    tests.judge("the numbers of the examples", list(range(1, 13)), numbers)
    bytes_said = int(re.search(r"The canonical file has (\d+) bytes", PAGE.read_text(encoding="utf-8"))[1])
    tests.judge("the bytes of the first example", len(shown[0][2]), bytes_said)


def canonical_of(tests, schema, path, *flags):
    """What the program prints as the canonical file, or as the numbered one."""
    done = subprocess.run([tests.program, "canon", *flags, schema, path], capture_output=True, check=False)
    return done.stdout.decode(), done.stderr.decode(), done.returncode


def of_the_folder(tests):
    """Each accepted file of the folder has the hashes of the table, and no file is missing there."""
    names = {path.name for path in pathlib.Path("examples").glob("*.step")}
    tests.judge("the files of the folder", set(OF_THE_FOLDER), names)
    for name, (schema, *hashes) in OF_THE_FOLDER.items():
        for wanted, flags in zip(hashes, ([], ["--names"])):
            output, _, status = canonical_of(tests, f"examples/{schema}", f"examples/{name}", *flags)
            tests.judge(f"{name}, hash {flags}", (wanted, 0), (hashlib.sha256(output.encode("ascii")).hexdigest(), status))


def version(tests):
    """The page names the version of the hashes, and so do the program and the tables."""
    found = set(re.findall(r"[Vv]ersion (\d+) of the canonical form", PAGE.read_text(encoding="utf-8")))
    tests.judge("the version of the form", {VERSION}, found)
    words = ["tools/p21-table", "--format", "json", "examples/product.exp", "examples/product.step"]
    row = subprocess.run(words, capture_output=True, check=True, env=dict(os.environ, P21=tests.program)).stdout
    tests.judge("the version that tables name", VERSION, str(json.loads(row)["form"]))
    line = subprocess.run([tests.program, "--version"], capture_output=True, check=True, text=True).stdout
    tests.judge("the version that the program names", [VERSION], re.findall(r"^p21 \S+ \(canonical form (\d+)\)$", line, re.M))


def main():
    tests = Tests("p21")
    of_the_page(tests)
    of_the_numbered(tests)
    of_the_folder(tests)
    version(tests)
    tests.end()


if __name__ == "__main__":
    main()
