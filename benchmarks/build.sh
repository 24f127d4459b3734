#!/bin/sh
# Builds a benchmark's programs into benchmarks/out/: NAME, from benchmarks/NAME/main.rattle over the crates that follow,
# and NAME_plain, from benchmarks/NAME/plain.rs, where there is one.
#
# The gate takes no Rattle source outside the crates of crates.txt, and the benchmarks are none of its business. So their
# sources are named .rattle, and are built in a temporary repository that holds a copy of the crates.
# Usage: build.sh NAME CRATE..  Needs rt and rustc.
set -e

benchmarks=$(dirname -- "$(readlink -f -- "$0")")
root=$(dirname -- "$benchmarks")
out=$benchmarks/out
name=$1
shift
program=bench_$name

mkdir -p "$out"
if [ -f "$benchmarks/$name/plain.rs" ]; then
    rustc --edition 2021 -C opt-level=3 -o "$out/${name}_plain" "$benchmarks/$name/plain.rs"
fi

# The crates are proved where they stand, so that what is kept there serves the next time.
for crate in "$@"; do
    (cd "$root/crates/$crate" && rt lib >&2)
done
copy=$(mktemp -d)
trap 'rm -rf "$copy"' EXIT
for crate in $(sed -n 's/^\([a-z0-9_]*\):.*/\1/p' "$root/crates.txt"); do
    mkdir -p "$copy/crates/$crate/out"
    for part in src specs proofs out/rlib; do
        if [ -d "$root/crates/$crate/$part" ]; then
            cp -a "$root/crates/$crate/$part" "$copy/crates/$crate/$part"
        fi
    done
done
mkdir -p "$copy/crates/$program/src"
cp "$benchmarks/$name/main.rattle" "$copy/crates/$program/src/main.rt"
{ cat "$root/crates.txt"; echo "$program: $* anyhow"; } > "$copy/crates.txt"
cp "$root/HANDLES" "$copy"
# Without arguments the program only says what it needs; what counts is that it is built.
(cd "$copy/crates/$program" && rt run < /dev/null > "$copy/log" 2>&1) || true
if ! mv "$copy/crates/$program/out/$program" "$out/$name"; then
    cat "$copy/log" >&2
    exit 1
fi
