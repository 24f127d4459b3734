#!/bin/sh
# Runs all tests that stand beside the gate, side by side, and says of each whether it passed and what it took: tests/parts.py
# says how.
#
#   tests/all.sh [-j N] [--logs FOLDER] [PART..]     PART is the path of a script below tests, as hostile/devices.sh; all without one
#
# The environment variable P21 names the program; without it, it is the one that ./p21 builds where it is missing or old.
# Ten parts want `rt`: bindings.sh builds the library for C, C++ and Python where it is missing or old, release.py links a program,
# page.py and page_module.py build the page where it is missing or old, platforms.py the program and the library for other systems,
# hostile/calls.py builds a program of the libraries without a proof, fail_alloc.sh and want_of_memory.sh try tests, and
# wrong_bodies.sh and records.py read the crates. What else the parts want, and how long they take, is said at
# the end of tests/README.md.

root=$(cd "$(dirname -- "$(readlink -f -- "$0")")/.." && pwd) || exit
case " $* " in
    *' -h '* | *' --help '*) ;;
    *)
        "${P21:-$root/p21}" --version > /dev/null || exit
        P21=$(readlink -f -- "${P21:-$root/crates/p21/out/p21}")
        export P21
        ;;
esac
exec python3 "$root/tests/parts.py" "$@"
