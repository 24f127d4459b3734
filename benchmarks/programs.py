"""The programs that the benchmarks run: those of one layer, which are built first, and p21 itself."""

import os
import pathlib
import subprocess

HERE = pathlib.Path(__file__).resolve().parent
ROOT = HERE.parent
OUT = HERE / "out"
CHECKED = ["p21_mapping", "p21_mapping_values", "p21_express", "p21_schema", "p21_grammar", "p21_tokens", "p21_values"]
# The programs of one layer, each over the crates that it names.
OVER = {
    "values": ["p21_values"],
    "lexing": ["p21_tokens", "p21_values"],
    "parsing": ["p21_grammar", "p21_tokens", "p21_values"],
    "checking": CHECKED,
    "printing": ["p21_canon", *CHECKED],
    "sessions": ["p21_stream", "p21_express", "p21_schema", "p21_values"],
    "schemas": ["p21_express_syntax"],
    "tables": ["p21_express", "p21_schema"],
    "lookups": ["p21_express", "p21_schema", "p21_express_graph"],
}


def built(name):
    """The program of one layer, which `build.sh` builds."""
    subprocess.run([HERE / "build.sh", name, *OVER[name]], check=True)
    return str(OUT / name)


def plain(name):
    """The plain Rust program beside that of a layer, which `built` leaves there."""
    return str(OUT / f"{name}_plain")


def p21():
    """The program that P21 names, or that of this repository, which is built where it is missing or old."""
    named = os.environ.get("P21")
    if not named:
        subprocess.run([ROOT / "p21", "--version"], check=True, stdout=subprocess.DEVNULL)
    return named or str(ROOT / "crates/p21/out/p21")
