#!/bin/sh
# Measures how time and memory grow with the input, and holds them against bounds: tests/growing/measure.py says which, and which
# inputs are over them today. It needs a C compiler, and takes fifteen minutes on a machine that does nothing else.

exec python3 "$(dirname -- "$(readlink -f -- "$0")")/growing/measure.py" "$@"
