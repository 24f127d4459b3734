#!/bin/sh
# Tries wrong bodies, those that the gate tries and those that stand beside it, and keeps a record of what was refused:
# tests/wrong_bodies/trials.py says how.

PYTHONDONTWRITEBYTECODE=1 exec python3 "$(dirname -- "$(readlink -f -- "$0")")/wrong_bodies/trials.py" "$@"
