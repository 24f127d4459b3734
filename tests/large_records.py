#!/usr/bin/env python3
"""Lexes and parses files with one very large record each, and drops it: a list of 64 MB of instance names, one of 16
million values, 16 million empty lists, and lists 64 deep with 250,000 values at each level. Each run has to count the ten
statements of its file; its peak memory is printed. A test of the gate has 60 seconds, so this stands beside it. It builds
the program of benchmarks/parsing first; TMPDIR takes files of 64 MB.
"""

import os
import pathlib
import subprocess
import sys
import tempfile

sys.path.insert(0, str(pathlib.Path(__file__).resolve().parent.parent / "benchmarks"))

from exchange import file_of  # noqa: E402
from measure import peak_memory  # noqa: E402
from programs import built  # noqa: E402

PROGRAM = built("parsing")
STATEMENTS = "10"
MANY = 16_000_000

RECORDS = {
    "64 MB of names": "(" + ",".join(f"#{1_000_000 + name % 8_000_000}" for name in range(64_000_000 // 9)) + ")",
    "16 million values": "(" + "$," * (MANY - 1) + "$)",
    "16 million lists": "(" + "()," * (MANY - 1) + "())",
    "64 deep": "".join("(" + "$," * 250_000 for _ in range(63)) + "($)" + ")" * 63,
}

failed = False
with tempfile.TemporaryDirectory() as folder:
    path = os.path.join(folder, "file")
    for name, record in RECORDS.items():
        with open(path, "w") as file:
            file.write(file_of("DEMO", f"#1=A({record});\n"))
        size = os.path.getsize(path)
        run = subprocess.run([PROGRAM, path], stdout=subprocess.PIPE, text=True)
        ratio = peak_memory([PROGRAM, path]) / size
        right = run.returncode == 0 and run.stdout.strip() == STATEMENTS
        print(f"{name}: {'as it must be' if right else run}, {ratio:.1f} bytes of memory for one of the text")
        failed = failed or not right
sys.exit(failed)
