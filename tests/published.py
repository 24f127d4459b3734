#!/usr/bin/env python3
"""Makes published listings fit, and checks real files by them.

The listings, AP203 edition 2 and IFC2X3, and a building come from Debian's source package assimp, and further files from gmsh
and opencascade. They are fetched by apt-get with a sources list of its own, into a folder that is gone at the end; P21_SOURCES
names another one, which is kept and used again. Where they can't be had, the status is 77: skipped. What is tested is which
edits are made, that both copies are read, the answer about each file, and for twenty files that are broken as careless exporters
break them (careless.py) that one run finds all faults at their places. P21 names another program than ./p21.
"""

import os
import pathlib
import re
import shutil
import subprocess
import tempfile

import careless
import needs
from tooling import Tests

PACKAGES = ("assimp", "gmsh", "opencascade")
SOURCES = "deb-src http://deb.debian.org/debian bookworm main\n"
AP203, IFC = "schema_ap203e2_mim_lf.exp", "schema_ifc2x3.exp"
ENDINGS = ("*.step", "*.stp", "*.ifc", f"*/{AP203}", f"*/{IFC}")

# What p21-adapt says of each listing.
EDITS = {
    AP203: [
        "line 1122: the same files: TYPE ir_usage_item = action_items;"
        " -> TYPE ir_usage_item = SELECT ( action_directive, certification_item, ..",
        "line 10030: the same files: ONEOF of REPRESENTATION_ITEM names mapped_item twice -> once",
        "line 11022: more files: LIST [1:segments] -> LIST [1:?]",
        "line 11023: more files: LIST [1:segments] -> LIST [1:?]",
        "4 edits: more files",
        "read",
    ],
    IFC: ["0 edits: the same files", "read"],
}

# The files are of schemas that were no part of these packages; most of their declarations are those of AP203 edition 2, so
# they are tried by that one. A file that names what it doesn't have is refused with 41.
ALIASES = f"""CONFIGURATION_CONTROL_3D_DESIGN_ED2_MIM_LF = {AP203}
CONFIG_CONTROL_DESIGN = {AP203}
AUTOMOTIVE_DESIGN = {AP203}
AUTOMOTIVE_DESIGN_CC1 = {AP203}
AUTOMOTIVE_DESIGN_CC2 = {AP203}
"""

# The answer about each file, by its name within the package.
ANSWERS = {
    "assimp-5.2.5/test/models/IFC/AC14-FZK-Haus.ifc": "accepted, instances 82226",
    "gmsh-gmsh_4_8_4/benchmarks/statreport/917_fusee.stp": "refused 57 WrongTarget in #50",
    "gmsh-gmsh_4_8_4/benchmarks/statreport/918_pump_carter_sup_21_03_2006.stp": "refused 41 UnknownEntity in #3797",
    "gmsh-gmsh_4_8_4/benchmarks/statreport/Angled.step": "accepted, instances 2302",
    "gmsh-gmsh_4_8_4/benchmarks/statreport/Block.stp": "refused 41 UnknownEntity in #9",
    "gmsh-gmsh_4_8_4/benchmarks/statreport/Kurbelwelle.stp": "refused 41 UnknownEntity in #9",
    "gmsh-gmsh_4_8_4/benchmarks/statreport/Zylkopf.stp": "refused 41 UnknownEntity in #9",
    "gmsh-gmsh_4_8_4/benchmarks/statreport/linkrods.step": "accepted, instances 18623",
    "gmsh-gmsh_4_8_4/benchmarks/step/1385_Laufrad_1000.stp": "refused 41 UnknownEntity in #4",
    "gmsh-gmsh_4_8_4/benchmarks/step/Block.stp": "refused 41 UnknownEntity in #9",
    "gmsh-gmsh_4_8_4/benchmarks/step/SampleCrankshaft4A.stp": "refused 41 UnknownEntity in #4",
    "gmsh-gmsh_4_8_4/benchmarks/step/Solid_56.step": "refused 41 UnknownEntity in #7375",
    "gmsh-gmsh_4_8_4/benchmarks/step/U_Joint_2.stp": "refused 4 BadDirective at statement 4",
    "gmsh-gmsh_4_8_4/benchmarks/step/cube_filet.stp": "refused 41 UnknownEntity in #756",
    "gmsh-gmsh_4_8_4/benchmarks/step/mesh_T106_V3.step": "refused 54 SelectType in #313",
    "gmsh-gmsh_4_8_4/benchmarks/step/part.step": "refused 41 UnknownEntity in #4",
    "gmsh-gmsh_4_8_4/benchmarks/step/periodic_u_cst.step": "accepted, instances 609",
    "gmsh-gmsh_4_8_4/benchmarks/step/sewfaces.step": "refused 57 WrongTarget in #369",
    "gmsh-gmsh_4_8_4/benchmarks/step/wing_fuselage.step": "refused 41 UnknownEntity in #4",
    "gmsh-gmsh_4_8_4/benchmarks/step/wrenchnut.stp": "refused 46 Missing in #11",
    "gmsh-gmsh_4_8_4/demos/api/as1-tu-203.stp": "refused 41 UnknownEntity in #13",
    "gmsh-gmsh_4_8_4/demos/api/step_boundary_colors.stp": "refused 41 UnknownEntity in #7",
    "gmsh-gmsh_4_8_4/demos/boolean/as1-tu-203.stp": "refused 41 UnknownEntity in #13",
    "gmsh-gmsh_4_8_4/demos/boolean/component8.step": "refused 57 WrongTarget in #50",
    "gmsh-gmsh_4_8_4/tutorial/t20_data.step": "refused 57 WrongTarget in #50",
    "occt-V7_6_3/data/step/linkrods.step": "accepted, instances 18623",
    "occt-V7_6_3/data/step/screw.step": "accepted, instances 1239",
}


def fetched(folder):
    """Fetches the packages into a folder; says whether that could be done."""
    for name in ("lists/partial", "archives"):
        (folder / "apt" / name).mkdir(parents=True, exist_ok=True)
    (folder / "apt" / "sources.list").write_text(SOURCES)
    options = [
        f"Dir::Etc::sourcelist={folder}/apt/sources.list",
        "Dir::Etc::sourceparts=/dev/null",
        f"Dir::State::lists={folder}/apt/lists",
        f"Dir::Cache={folder}/apt",
    ]
    apt = ["apt-get", "-qq", *(word for option in options for word in ("-o", option))]
    for command in (["update"], ["source", "--download-only", *PACKAGES]):
        if not shutil.which("apt-get") or subprocess.run([*apt, *command], cwd=folder, check=False).returncode != 0:
            return False
    return True


def unpacked(folder):
    """Unpacks the listings and STEP files of each package, and answers the archives."""
    archives = sorted(folder.glob("*.orig.tar.*"))
    for archive in archives:
        command = ["tar", "-x", "-f", archive, "-C", folder, "--wildcards", *ENDINGS]
        subprocess.run(command, stderr=subprocess.DEVNULL, check=False)
    return archives


def shelf(tests, folder):
    """A shelf with both listings, each made fit."""
    made = tests.here / "shelf"
    made.mkdir()
    (made / "aliases").write_text(ALIASES)
    tests.tool = "p21-adapt"
    for name, lines in EDITS.items():
        (found,) = folder.glob(f"*/scripts/StepImporter/{name}")
        output, error, status = tests.run([str(found), "-o", str(made / name)])
        tests.judge(name, ("", lines, 0), (output, error.splitlines(), status))
    return made


def answers(tests, folder, made):
    """The answer about each file."""
    tests.tool = "p21-table"
    files = sorted(str(path) for ending in ("*.step", "*.stp", "*.ifc") for path in folder.rglob(ending))
    listed = tests.make("list", "".join(f"{file}\n" for file in files))
    output, error, _ = tests.run(["--format", "tsv", "--schemas", str(made), "--files-from", listed])
    rows = [line.split("\t") for line in output.splitlines()[1:]]
    found = {str(pathlib.Path(row[0]).relative_to(folder)): row[1] + (f", instances {row[2]}" if row[2] else "") for row in rows}
    for name in sorted(set(ANSWERS) | set(found)):
        tests.judge(name, ANSWERS.get(name), found.get(name))
    print(error, end="")


def broken(tests, folder, made):
    """The faults of each broken file, in one run."""
    tests.tool = "p21-where"
    paths = {path.name: path for path in sorted(folder.rglob("*")) if path.suffix in (".step", ".ifc")}
    files = {name: paths[name].read_bytes() for name in (careless.ANGLED, careless.PERIODIC, careless.SCREW, careless.RODS, careless.HOUSE)}
    count = 0
    for habit in careless.EXPORTERS:
        text, faults = careless.exported(habit, files)
        path = tests.make("broken.step", text)
        output, _, status = tests.run(["--all", "--format", "lines", "--schemas", str(made), path])
        lines = output.splitlines()
        places = [re.match(r".*?:(\d+):(\d+): (\d+) ", line) for line in lines]
        found = [tuple(map(int, place.groups())) for place in places if place]
        tests.judge(habit, (sorted(faults), 1, len(faults)), (sorted(found), status, len(lines)))
        count += len(faults)
    print(f"{len(careless.EXPORTERS)} broken files with {count} faults")


def main():
    tests = Tests("p21-adapt")
    kept = os.environ.get("P21_SOURCES")
    with tempfile.TemporaryDirectory() as made:
        folder = pathlib.Path(kept or made).resolve()
        if not unpacked(folder) and not (fetched(folder) and unpacked(folder)):
            needs.skipped(f"{' '.join(PACKAGES)} can't be fetched from {SOURCES.split()[1]}")
        made = shelf(tests, folder)
        answers(tests, folder, made)
        broken(tests, folder, made)
    tests.end()


if __name__ == "__main__":
    main()
